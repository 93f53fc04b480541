/* filter.c - unifdef(1) over standard input, by the library: ./filter -DA -UB < in.c > out.c
 *
 * cc filter.c $(pkg-config --cflags --libs unifdef)
 *
 * It reads CHUNK bytes at a time, so its memory doesn't grow with the text. If reading fails, the
 * output is for the lines before, and the status is 2. */
#include <stdio.h>
#include <stdlib.h>
#include <string.h>
#include <unifdef.h>

#ifndef CHUNK
#define CHUNK 65536
#endif

/* Returns the arguments of main, each with its zero byte, and their length. Free them with free. */
static char *words_of(int argc, char **argv, size_t *len) {
    *len = 0;
    for (int i = 1; i < argc; i++) *len += strlen(argv[i]) + 1;
    char *words = malloc(*len + 1), *end = words;
    for (int i = 1; words != NULL && i < argc; i++) {
        strcpy(end, argv[i]);
        end += strlen(argv[i]) + 1;
    }
    return words;
}

/* Writes the output that can be taken. Returns whether it was written. */
static int write_output(struct unifdef_stream *stream) {
    static char output[CHUNK];
    size_t taken, pending;
    while ((taken = unifdef_take(stream, output, sizeof output, &pending)) != 0)
        if (fwrite(output, 1, taken, stdout) != taken) return 0;
    return 1;
}

/* Feeds standard input to a stream, up to its end or the first fault. Returns what has failed, or
 * NULL, also for a fault of the text: unifdef_finish says which fault it is. */
static const char *feed_input(struct unifdef_stream *stream) {
    static char chunk[CHUNK];
    size_t got;
    int fed = 0;
    while (fed == 0 && (got = fread(chunk, 1, sizeof chunk, stdin)) != 0) {
        fed = unifdef_feed(stream, chunk, got);
        if (!write_output(stream)) return "Write error";
    }
    return ferror(stdin) ? "Read error" : NULL;
}

int main(int argc, char **argv) {
    struct unifdef_stream stream = UNIFDEF_STREAM_INIT;
    struct unifdef_sizes sizes = {0, 0};
    const char *failed = NULL;
    size_t words_len;
    int status = UNIFDEF_TROUBLE;
    char *words = words_of(argc, argv, &words_len), *message = malloc(words_len + 80);

    if (words == NULL || message == NULL) {
        failed = "Out of memory";
    } else if (unifdef_open(&stream, words, words_len) != 0) { /* unifdef_text has the message. */
        status = unifdef_text(words, words_len, NULL, 0, NULL, 0, message, words_len + 80, &sizes);
    } else {
        failed = feed_input(&stream);
        if (failed == NULL) { /* Else the text has no end. */
            status = unifdef_finish(&stream, message, words_len + 80, &sizes.message);
            failed = write_output(&stream) ? NULL : "Write error";
        }
        unifdef_close(&stream);
    }
    if (fflush(stdout) != 0 && failed == NULL) failed = "Write error";
    if (failed != NULL)
        fprintf(stderr, "filter: %s\n", failed);
    else
        fwrite(message, 1, sizes.message, stderr);
    free(words), free(message);
    return failed == NULL ? status : UNIFDEF_TROUBLE;
}
