/*
 * unifdef.h - removes preprocessor conditionals from C source, in memory
 *
 * unifdef_text does what the program unifdef(1) does, in memory instead of files. A stream does it
 * for a text that comes in chunks. unifdef_prune edits the conditions that are left. Two more calls
 * are for programs that look at directives themselves. It is proved that each call writes and
 * returns what the definitions of unifdef(1) say. The manual page unifdef(3) has examples.
 *
 * Only a stream keeps anything between calls, and no call frees or keeps what it is passed. So any
 * number of threads may call at once, each with its own buffers and streams. Don't call from a
 * signal handler, or in the forked child of a process with threads: malloc isn't allowed there.
 *
 * A calling thread needs a stack of 1 MiB, for conditions with thousands of operators or
 * parentheses. With less, such a condition ends the process. unifdef_prune needs 4 MiB if a
 * condition has more than 8,192 bytes.
 *
 * A pointer may be null if its length is 0. Memory that a call writes to may not overlap anything
 * else that it is passed.
 */
#ifndef UNIFDEF_H
#define UNIFDEF_H

#include <stddef.h>

#ifdef __cplusplus
extern "C" {
#endif

/* The version of this header, as text and as a number: major * 10000 + minor * 100. */
#define UNIFDEF_VERSION_STRING "1.0"
#define UNIFDEF_VERSION 10000

/*
 * Returns the version of the library that the program runs with, as a number like UNIFDEF_VERSION.
 * It is less than UNIFDEF_VERSION if the library is older than the header.
 */
int unifdef_version(void);

/* The status if something is wrong. The message says what it is. */
#define UNIFDEF_TROUBLE 2

/* The status if the output or the message is longer than its buffer. */
#define UNIFDEF_TOO_SMALL 3

/* The lengths of an answer in bytes, whether or not it fits. */
struct unifdef_sizes {
    size_t output;
    size_t message;
};

/*
 * Runs unifdef(1) over a text.
 *
 * words has the arguments of the program, without its name. A zero byte ends each word; the last
 * one may lack it. "-DA\0-UB" is two words. A word may be empty. A word that names a file is only
 * the name in messages: nothing is opened. Without one, messages say stdin.
 *
 * The program's output goes to output, and its standard error to message, both without a zero byte
 * at the end. Their lengths are written to sizes, which may not be null.
 *
 * Returns the exit status of the program:
 *
 *   0 or 1               the output is a copy of the text, or differs; vice versa with -x1
 *   UNIFDEF_TROUBLE      the arguments or the text have a fault, a word isn't UTF-8, or memory was
 *                        refused; message says which, and output has the text before the fault
 *   UNIFDEF_TOO_SMALL    output_len or message_len is too small. The bytes that fit are written,
 *                        and sizes has the lengths that suffice for these arguments and this text
 *
 * The output is rarely longer than the text: only -n, -s and -S add bytes. A message has at most
 * 80 bytes more than the longest word.
 *
 * Memory is allocated for the words, the output and the message, and freed before the call returns.
 */
int unifdef_text(const char *words, size_t words_len,
                 const char *text, size_t text_len,
                 char *output, size_t output_len,
                 char *message, size_t message_len,
                 struct unifdef_sizes *sizes);

/*
 * A stream: unifdef(1) over a text that comes in chunks. Its memory doesn't grow with the text if
 * you take all output after each chunk.
 *
 *     struct unifdef_stream stream = UNIFDEF_STREAM_INIT;
 *     int status = unifdef_open(&stream, words, words_len);
 *     for each chunk, while status is 0:
 *         status = unifdef_feed(&stream, chunk, chunk_len);
 *         while ((taken = unifdef_take(&stream, output, sizeof output, &pending)) > 0) ..
 *     status = unifdef_finish(&stream, message, sizeof message, &size);
 *     while ((taken = unifdef_take(&stream, output, sizeof output, &pending)) > 0) ..
 *     unifdef_close(&stream);
 *
 * A stream is closed if state is null, which it must be before the first call. Only the calls below
 * may change it. A copy of the struct may replace it, if the original isn't used again. One thread
 * at a time may use a stream, and it may go from one to another.
 */
struct unifdef_stream {
    void *state;
};

/* In C++, {0} gives a warning: 0 isn't a null pointer there. */
#ifdef __cplusplus
#define UNIFDEF_STREAM_INIT {}
#else
#define UNIFDEF_STREAM_INIT {0}
#endif

/* The error if a stream is closed, or is fed after its text has ended. */
#define UNIFDEF_CLOSED (-4)

/*
 * Opens a stream. If it is open, closes it first.
 *
 * words are as for unifdef_text. Returns 0, or UNIFDEF_BAD_WORDS or UNIFDEF_NO_MEMORY; the stream
 * is then closed. For the message, call unifdef_text with the same words and no text.
 */
int unifdef_open(struct unifdef_stream *stream, const char *words, size_t words_len);

/*
 * Processes the next chunk of the text. A chunk may end anywhere, even within a line. You can then
 * take the output for all lines that end in the chunk. A line that it only begins is kept, at most
 * UNIFDEF_LINE_BYTES bytes.
 *
 * Returns 0, or one of these:
 *
 *   UNIFDEF_TROUBLE      the text has a fault. The output for the text before it can be taken, and
 *                        unifdef_finish says which fault it is
 *   UNIFDEF_NO_MEMORY    memory for the output was refused. Only part of the output can be taken
 *   UNIFDEF_CLOSED       the stream is closed, or the text has ended
 *
 * After the first two, each later chunk up to unifdef_finish has the same result, and no more
 * output comes.
 */
int unifdef_feed(struct unifdef_stream *stream, const char *text, size_t text_len);

/*
 * Writes as much of the next output as fits to output, without a zero byte at the end, and the
 * number of bytes left to pending, which may not be null. The next call continues from there.
 *
 * Returns how many bytes were written: 0 if none were left, or if the stream is closed.
 */
size_t unifdef_take(struct unifdef_stream *stream, char *output, size_t output_len,
                    size_t *pending);

/*
 * Ends the text. You can then take the rest of the output: for the last line, if it has no newline.
 * The message goes to message, and its length to size, which may not be null.
 *
 * Returns what unifdef_text returns for all chunks together, or UNIFDEF_CLOSED. UNIFDEF_TOO_SMALL
 * is only about the message: the bytes that fit are written, and a second call with a longer buffer
 * succeeds. Each further call returns the same status and message. If memory for the message is
 * refused, a call returns the status and message for that, and the next one may return the others.
 */
int unifdef_finish(struct unifdef_stream *stream, char *message, size_t message_len,
                   size_t *size);

/* Closes a stream and frees its memory. Does nothing if it is closed. */
void unifdef_close(struct unifdef_stream *stream);

/*
 * Removes from the conditions of a text the operands that words decide. With -UA, "#if A || X"
 * becomes "#if X". Lines only get shorter, and a compiler selects the same ones if the words are
 * true of the text.
 *
 * words are as for unifdef_text; only -D, -U, -iD, -iU, -k and -K matter. text may be the output of
 * unifdef_text for the same words, if that has no fault. It is read as C. The rest goes to output,
 * and its length to size, which may not be null. It is never longer than the text. unifdef(3) says
 * which conditions stay.
 *
 * Returns 1 if a line was edited and 0 if none was, or UNIFDEF_TOO_SMALL if output_len is less
 * than size; then the bytes that fit are written. An error is negative, and nothing is written.
 */
int unifdef_prune(const char *words, size_t words_len,
                  const char *text, size_t text_len,
                  char *output, size_t output_len, size_t *size);

/* What unifdef_condition returns. */
#define UNIFDEF_FALSE 0
#define UNIFDEF_TRUE 1
#define UNIFDEF_UNKNOWN 2

/* What is returned for an error: by unifdef_prune, unifdef_condition, unifdef_names, unifdef_open,
 * unifdef_feed and unifdef_finish. */
#define UNIFDEF_BAD_WORDS (-1) /* the words have a fault, or one of them isn't UTF-8 */
#define UNIFDEF_NO_MEMORY (-2) /* memory was refused */
#define UNIFDEF_TOO_LONG (-3)  /* the expression is longer than UNIFDEF_LINE_BYTES */

/* The most bytes of a line, and so of an expression. */
#define UNIFDEF_LINE_BYTES 65536

/*
 * Decides the expression of an #if or #elif.
 *
 * words are as for unifdef_text; only -D, -U, -iD, -iU, -k and -K matter. expression is the text
 * after the keyword, on one line, with a space in place of each comment.
 *
 * Returns UNIFDEF_TRUE or UNIFDEF_FALSE if the words decide the expression, and UNIFDEF_UNKNOWN if
 * they don't, or if it can't be understood. An error is negative.
 */
int unifdef_condition(const char *words, size_t words_len,
                      const char *expression, size_t expression_len);

/*
 * Lists the names in the expression of an #if or #elif.
 *
 * The names go to names in order, with a zero byte after each. A name that occurs twice is listed
 * twice. An expression that can't be understood has none. The number of bytes of all names is
 * written to size, which may not be null.
 *
 * Returns 0, or UNIFDEF_TOO_SMALL if names_len is less than that; then the bytes that fit are
 * written. An error is negative, and nothing is written.
 */
int unifdef_names(const char *expression, size_t expression_len,
                  char *names, size_t names_len, size_t *size);

#ifdef __cplusplus
}
#endif

#endif
