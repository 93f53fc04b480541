/* Calls of the library that no case makes: short buffers, null, empty words, refused memory, threads.
 * tests/library.sh builds it with sanitizers, and with malloc, realloc and free wrapped. */
#include <malloc.h>
#include <pthread.h>
#include <stdio.h>
#include <stdlib.h>
#include <string.h>
#include <unifdef.h>

static int right, wrong;
static __thread long allowed = -1;

/* How many bytes are allocated, and the most that were. */
static __thread long live, most_live;

static int refused(void) {
    if (allowed > 0) allowed--;
    return allowed == 0;
}

/* Whether the allocations that were allowed sufficed. From now on, all are allowed. */
static int sufficed(void) {
    int all = allowed != 0;
    allowed = -1;
    return all;
}

static void *counted(void *block) {
    live += (long)malloc_usable_size(block);
    if (live > most_live) most_live = live;
    return block;
}

void *__real_malloc(size_t size);
void *__wrap_malloc(size_t size) { return refused() ? NULL : counted(__real_malloc(size)); }
void *__real_realloc(void *old, size_t size);
void *__wrap_realloc(void *old, size_t size) {
    if (refused()) return NULL;
    live -= (long)malloc_usable_size(old);
    return counted(__real_realloc(old, size));
}
void __real_free(void *block);
void __wrap_free(void *block) {
    live -= (long)malloc_usable_size(block);
    __real_free(block);
}

static void check(const char *what, int holds) {
    right += holds;
    wrong += !holds;
    if (!holds) printf("library: %s\n", what);
}

static const char TEXT[] = "#ifdef A\nx\n#else\ny\n#endif\n";
static const char MEMORY[] = "unifdef: Out of memory\n";
static const char WORDS[] = "unifdef: Cannot take arguments\n";
static const char FAULT[] = "unifdef: stdin: 3: Inappropriate #endif\n";

/* Whether an answer has this status, output and message, in buffers that are long enough. */
static int gives(const char *words, size_t words_len, const char *text, size_t text_len, int status,
                 const char *output, const char *message) {
    char out[200], told[200];
    struct unifdef_sizes sizes;
    int got = unifdef_text(words, words_len, text, text_len, out, sizeof out, told, sizeof told, &sizes);
    return got == status && sizes.output == strlen(output) && sizes.message == strlen(message) &&
           memcmp(out, output, sizes.output) == 0 && memcmp(told, message, sizes.message) == 0;
}

static void words(void) {
    size_t len = sizeof TEXT - 1;
    check("each word ends in a zero byte", gives("-DA\0-UB", 8, TEXT, len, 1, "x\n", ""));
    check("the last word may lack it", gives("-UB\0-UA", 7, TEXT, len, 1, "y\n", ""));
    check("no word", gives(NULL, 0, TEXT, len, 0, TEXT, ""));
    check("an empty word is a file's name", gives("-DA\0", 5, "#else\n", 6, 2, "",
                                                  "unifdef: : 1: Inappropriate #else\n"));
    check("two empty words", gives("\0", 2, "x", 1, 2, "", "unifdef: Too many files\n"));
    check("no text", gives("-DA", 3, NULL, 0, 0, "", ""));
    check("not UTF-8", gives("-DA\0-UB\xff", 9, TEXT, len, 2, "", WORDS));
    check("UTF-8", gives("\xc3\xa9.c\0-D", 8, "#else\n", 6, 2, "", "unifdef: Too many files\n"));
    char out[3];
    struct unifdef_sizes sizes;
    check("a zero byte in the text", unifdef_text("-DA", 3, "a\0b", 3, out, 3, NULL, 0, &sizes) == 0 &&
                                         sizes.output == 3 && memcmp(out, "a\0b", 3) == 0);
}

static void short_buffers(void) {
    char out[4], told[40];
    struct unifdef_sizes sizes;
    for (size_t len = 0; len <= 4; len++) {
        memset(out, '?', sizeof out);
        int status = unifdef_text("-DA", 3, "abc\nx\n#endif\n", 13, len == 0 ? NULL : out, len, NULL, 0, &sizes);
        check("too small: the status", status == UNIFDEF_TOO_SMALL);
        check("too small: the lengths", sizes.output == 6 && sizes.message == strlen(FAULT));
        check("too small: what fits", memcmp(out, "abc\n", len) == 0);
        check("too small: the rest", len == 4 || out[len] == '?');
    }
    memset(told, '?', sizeof told);
    char exact[6];
    int status = unifdef_text("-DA", 3, "abc\nx\n#endif\n", 13, exact, 6, told, strlen(FAULT), &sizes);
    check("just enough", status == 2 && memcmp(exact, "abc\nx\n", 6) == 0 &&
                             memcmp(told, FAULT, strlen(FAULT)) == 0);
    status = unifdef_text("-DA", 3, "abc\nx\n#endif\n", 13, exact, 6, told, 9, &sizes);
    check("a short message alone", status == UNIFDEF_TOO_SMALL && sizes.message == strlen(FAULT));
    status = unifdef_text("-DA", 3, "", 0, NULL, 0, NULL, 0, &sizes);
    check("no buffers and nothing to write", status == 0 && sizes.output == 0 && sizes.message == 0);
}

/* Each allocation of a call fails in turn. What was allocated before is freed: the sanitizer tells. */
static void memory(void) {
    long k = 0;
    int all;
    do {
        char out[200], told[200];
        struct unifdef_sizes sizes;
        allowed = ++k;
        int status = unifdef_text("-DA\0-UB=1\0", 4, TEXT, sizeof TEXT - 1, out, sizeof out, told,
                                  sizeof told, &sizes);
        all = sufficed();
        if (all)
            check("memory: all of it", status == 1 && sizes.output == 2);
        else
            check("memory: reported", status == 2 && sizes.output == 0 &&
                                          sizes.message == strlen(MEMORY) &&
                                          memcmp(told, MEMORY, sizes.message) == 0);
    } while (!all);
    check("memory: was allocated", k > 2);
}

static int decides(const char *words, size_t words_len, const char *expression) {
    return unifdef_condition(words, words_len, expression, strlen(expression));
}

/* The conditions are those of the worked rows of unifdef(1) and of C11, 6.10.1. */
static void conditions(void) {
    check("true", decides("-DA=201112L", 11, " A >= 199901L") == UNIFDEF_TRUE);
    check("false", decides("-UA", 3, "A && B") == UNIFDEF_FALSE);
    check("unknown", decides("-DB", 3, "A && B") == UNIFDEF_UNKNOWN);
    check("strict", decides("-K\0-UA", 6, "A && B") == UNIFDEF_UNKNOWN);
    check("a constant", decides("-DA", 3, "0") == UNIFDEF_UNKNOWN);
    check("a constant by -k", decides("-kDA", 4, "0") == UNIFDEF_FALSE);
    check("not understood", decides("-DA", 3, "A ? 1 : 2") == UNIFDEF_UNKNOWN);
    check("no words", unifdef_condition(NULL, 0, NULL, 0) == UNIFDEF_UNKNOWN);
    check("no such option", decides("-q", 2, "1") == UNIFDEF_BAD_WORDS);
    check("condition: not UTF-8", decides("-D\xff", 3, "1") == UNIFDEF_BAD_WORDS);
    allowed = 1;
    check("condition: no memory", decides("-DA", 3, "A") == UNIFDEF_NO_MEMORY);
    allowed = -1;
    static char lengthy[UNIFDEF_LINE_BYTES + 1];
    memset(lengthy, ' ', UNIFDEF_LINE_BYTES + 1);
    lengthy[0] = 'A';
    check("the longest", unifdef_condition("-DA", 3, lengthy, UNIFDEF_LINE_BYTES) == UNIFDEF_TRUE);
    check("too long", unifdef_condition("-DA", 3, lengthy, UNIFDEF_LINE_BYTES + 1) == UNIFDEF_TOO_LONG);
    size_t size = 7;
    check("names: too long", unifdef_names(lengthy, UNIFDEF_LINE_BYTES + 1, NULL, 0, &size) ==
                                     UNIFDEF_TOO_LONG && size == 7);
}

static void names(void) {
    char block[16];
    size_t size;
    const char *text = " F(X) + defined(Y) > F";
    memset(block, '?', sizeof block);
    check("names", unifdef_names(text, strlen(text), block, sizeof block, &size) == 0 && size == 6 &&
                       memcmp(block, "F\0Y\0F", 6) == 0 && block[6] == '?');
    memset(block, '?', sizeof block);
    check("names: too small", unifdef_names(text, strlen(text), block, 5, &size) == UNIFDEF_TOO_SMALL &&
                                  size == 6 && memcmp(block, "F\0Y\0F?", 6) == 0);
    check("names: no buffer", unifdef_names("A", 1, NULL, 0, &size) == UNIFDEF_TOO_SMALL && size == 2);
    check("names: none", unifdef_names("A ? 1", 5, NULL, 0, &size) == 0 && size == 0);
    check("names: null", unifdef_names(NULL, 0, NULL, 0, &size) == 0 && size == 0);
    allowed = 1;
    size = 7;
    check("names: no memory", unifdef_names("A", 1, block, 16, &size) == UNIFDEF_NO_MEMORY && size == 7);
    allowed = -1;
}

/* The lines are those of the worked rows of unifdef(3). */
static void prunes(void) {
    char out[32];
    size_t size;
    const char *text = "#if A || X\n#endif\n", *left = "#if X\n#endif\n";
    memset(out, '?', sizeof out);
    check("prune", unifdef_prune("-UA", 3, text, strlen(text), out, sizeof out, &size) == 1 &&
                       size == strlen(left) && memcmp(out, left, size) == 0 && out[size] == '?');
    check("prune: nothing", unifdef_prune("-UB", 3, text, strlen(text), out, sizeof out, &size) == 0 &&
                                size == strlen(text) && memcmp(out, text, size) == 0);
    memset(out, '?', sizeof out);
    check("prune: too small", unifdef_prune("-UA", 3, text, strlen(text), out, 5, &size) ==
                                      UNIFDEF_TOO_SMALL &&
                                  size == strlen(left) && memcmp(out, "#if X?", 6) == 0);
    check("prune: null", unifdef_prune(NULL, 0, NULL, 0, NULL, 0, &size) == 0 && size == 0);
    size = 7;
    out[0] = '?';
    check("prune: bad words", unifdef_prune("-q", 2, text, strlen(text), out, sizeof out, &size) ==
                                      UNIFDEF_BAD_WORDS && size == 7 && out[0] == '?');
    check("prune: not UTF-8", unifdef_prune("-D\xff", 3, text, strlen(text), out, sizeof out, &size) ==
                                      UNIFDEF_BAD_WORDS && size == 7 && out[0] == '?');
    for (int all = 0, k = 1; !all; k++) {
        allowed = k;
        int pruned = unifdef_prune("-UA", 3, text, strlen(text), out, sizeof out, &size);
        all = sufficed();
        if (all)
            check("prune: all of the memory", pruned == 1 && size == strlen(left));
        else
            check("prune: no memory", pruned == UNIFDEF_NO_MEMORY && size == 7 && out[0] == '?');
    }
}

/* Feeds a text in chunks of a length, and takes the output into a short buffer. Returns the status. */
static int streamed(struct unifdef_stream *stream, const char *text, size_t len, size_t most, char *output,
                    size_t *output_len) {
    char message[80];
    size_t size, pending, taken;
    *output_len = 0;
    for (size_t at = 0; at < len; at += most) {
        int fed = unifdef_feed(stream, text + at, len - at < most ? len - at : most);
        if (fed != 0 && fed != UNIFDEF_TROUBLE) return fed;
    }
    int status = unifdef_finish(stream, message, sizeof message, &size);
    while ((taken = unifdef_take(stream, output + *output_len, 3, &pending)) != 0) *output_len += taken;
    return status;
}

static void streams(void) {
    struct unifdef_stream stream = UNIFDEF_STREAM_INIT;
    char output[200], told[80];
    size_t len, size = 7, pending = 7;
    check("closed: feed", unifdef_feed(&stream, "x", 1) == UNIFDEF_CLOSED);
    check("closed: take", unifdef_take(&stream, output, 9, &pending) == 0 && pending == 0);
    check("closed: finish", unifdef_finish(&stream, told, 9, &size) == UNIFDEF_CLOSED && size == 7);
    unifdef_close(&stream);
    check("closed: close", stream.state == NULL);
    check("open: bad words", unifdef_open(&stream, "-q", 2) == UNIFDEF_BAD_WORDS && stream.state == NULL);
    check("open: not UTF-8", unifdef_open(&stream, "-D\xff", 3) == UNIFDEF_BAD_WORDS);
    for (size_t most = 1; most <= sizeof TEXT; most++) {
        check("open", unifdef_open(&stream, "-DA", 3) == 0 && stream.state != NULL);
        int status = streamed(&stream, TEXT, sizeof TEXT - 1, most, output, &len);
        check("a stream", status == 1 && len == 2 && memcmp(output, "x\n", 2) == 0);
        check("ended: finish again", unifdef_finish(&stream, told, 9, &size) == 1 && size == 0);
        check("ended: feed", unifdef_feed(&stream, "x", 1) == UNIFDEF_CLOSED);
    }
    check("open again", unifdef_open(&stream, NULL, 0) == 0);
    check("feed: null", unifdef_feed(&stream, NULL, 0) == 0);
    check("feed: a line that goes on", unifdef_feed(&stream, "abc", 3) == 0);
    check("take: not yet", unifdef_take(&stream, output, 9, &pending) == 0 && pending == 0);
    check("feed: its end", unifdef_feed(&stream, "d\n", 2) == 0);
    check("take: null", unifdef_take(&stream, NULL, 0, &pending) == 0 && pending == 5);
    check("take: too small", unifdef_take(&stream, output, 2, &pending) == 2 && pending == 3 &&
                                 memcmp(output, "ab", 2) == 0);
    memset(output, '?', sizeof output);
    check("take: the rest", unifdef_take(&stream, output, 9, &pending) == 3 && pending == 0 &&
                                memcmp(output, "cd\n?", 4) == 0);
    check("finish: null", unifdef_finish(&stream, NULL, 0, &size) == 0 && size == 0);
    unifdef_close(&stream);
    check("a fault: open", unifdef_open(&stream, "-DA", 3) == 0);
    check("a fault", unifdef_feed(&stream, "abc\nx\n#endif\ny\n", 15) == UNIFDEF_TROUBLE);
    check("a fault: feed again", unifdef_feed(&stream, "z\n", 2) == UNIFDEF_TROUBLE);
    memset(told, '?', sizeof told);
    check("a fault: too small", unifdef_finish(&stream, told, 9, &size) == UNIFDEF_TOO_SMALL &&
                                    size == strlen(FAULT) && memcmp(told, "unifdef: ?", 10) == 0);
    check("a fault: the message", unifdef_finish(&stream, told, sizeof told, &size) == UNIFDEF_TROUBLE &&
                                      size == strlen(FAULT) && memcmp(told, FAULT, size) == 0);
    check("a fault: the output", unifdef_take(&stream, output, 9, &pending) == 6 &&
                                     memcmp(output, "abc\nx\n", 6) == 0);
    unifdef_close(&stream);
}

/* Each allocation for a stream is refused in turn. What was allocated before is freed. */
static void stream_memory(void) {
    long k = 0;
    int all;
    do {
        struct unifdef_stream stream = UNIFDEF_STREAM_INIT;
        char output[200], told[80];
        size_t len, size;
        allowed = ++k;
        int opened = unifdef_open(&stream, "-DA\0-UB=1\0", 4);
        int status = opened == 0 ? streamed(&stream, TEXT, sizeof TEXT - 1, 7, output, &len) : 0;
        all = sufficed();
        if (all)
            check("stream memory: all of it", status == 1 && len == 2);
        else if (opened != 0)
            check("stream memory: open", opened == UNIFDEF_NO_MEMORY && stream.state == NULL);
        else if (status == UNIFDEF_NO_MEMORY)
            check("stream memory: feed", unifdef_finish(&stream, told, sizeof told, &size) == 2 &&
                                             size == strlen(MEMORY) && memcmp(told, MEMORY, size) == 0);
        else
            check("stream memory: finish", status == 2);
        unifdef_close(&stream);
    } while (!all);
    check("stream memory: was allocated", k > 3);
}

/* A stream's memory doesn't grow with its text, if the output is taken. It has two buffers of 64 KiB:
   for a line that a chunk cuts, and for a line as it is masked. */
static void stream_growth(void) {
    struct unifdef_stream stream = UNIFDEF_STREAM_INIT;
    static char line[4096], output[8192];
    size_t pending;
    long before = live;
    memset(line, 'x', sizeof line);
    line[sizeof line - 1] = '\n';
    most_live = live;
    check("growth: open", unifdef_open(&stream, "-DA", 3) == 0);
    for (int i = 0; i < 20000; i++) {
        if (unifdef_feed(&stream, line, sizeof line) != 0) check("growth: feed", 0);
        size_t taken = unifdef_take(&stream, output, sizeof output, &pending);
        if (taken != sizeof line || pending != 0) check("growth: take", 0);
    }
    check("growth: memory stays small", most_live - before < 150000);
    unifdef_close(&stream);
    check("growth: all of it is freed", live == before);
}

static void *feeder(void *stream) {
    return unifdef_feed(stream, TEXT, sizeof TEXT - 1) == 0 ? stream : NULL;
}

/* A stream is opened by one thread, fed by another, and ended by the first. */
static void stream_moves(void) {
    struct unifdef_stream stream = UNIFDEF_STREAM_INIT;
    pthread_t other;
    void *held;
    char output[9];
    size_t size, pending;
    check("moves: open", unifdef_open(&stream, "-DA", 3) == 0);
    if (pthread_create(&other, NULL, feeder, &stream) != 0) exit(1);
    pthread_join(other, &held);
    check("moves: feed", held != NULL);
    check("moves: finish", unifdef_finish(&stream, NULL, 0, &size) == 1);
    check("moves: take", unifdef_take(&stream, output, 9, &pending) == 2 && memcmp(output, "x\n", 2) == 0);
    unifdef_close(&stream);
}

static void *many(void *number) {
    char words[8], out[64];
    struct unifdef_sizes sizes;
    long wrong = 0;
    int odd = *(int *)number % 2;
    memcpy(words, odd ? "-DA" : "-UA", 3);
    for (int i = 0; i < 500; i++) {
        int status = unifdef_text(words, 3, TEXT, sizeof TEXT - 1, out, sizeof out, NULL, 0, &sizes);
        wrong += status != 1 || sizes.output != 2 || memcmp(out, odd ? "x\n" : "y\n", 2) != 0;
    }
    return wrong == 0 ? number : NULL;
}

static void threads(void) {
    pthread_t all[16];
    int numbers[16];
    for (int i = 0; i < 16; i++) {
        numbers[i] = i;
        if (pthread_create(&all[i], NULL, many, &numbers[i]) != 0) exit(1);
    }
    for (int i = 0; i < 16; i++) {
        void *held;
        pthread_join(all[i], &held);
        check("a thread", held != NULL);
    }
}

static void version(void) {
    char text[30];
    int number = unifdef_version();
    int len = snprintf(text, sizeof text, "%d.%d", number / 10000, number % 10000 / 100);
    const char *rest = UNIFDEF_VERSION_STRING + len;
    check("the version as a number", number == UNIFDEF_VERSION);
    check("the version as text", strncmp(text, UNIFDEF_VERSION_STRING, len) == 0);
    check("the version before a release", *rest == '\0' || strcmp(rest, "-dev") == 0);
}

int main(void) {
    version();
    words();
    short_buffers();
    memory();
    conditions();
    names();
    prunes();
    streams();
    stream_memory();
    stream_growth();
    stream_moves();
    threads();
    printf("library, C: %d passed, %d failed\n", right, wrong);
    return wrong != 0;
}
