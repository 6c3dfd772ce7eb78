/* Writes, lists and damages frames for interop/check, by the static library.
 *
 * frames list     prints the frames of a stream, one line each: number, length and bytes of the message
 * frames write    writes a stream of frames from such lines
 * frames damage   writes a stream of frames again, with one wrong bit in the message or CRC of every third frame
 */
#include <stdio.h>
#include <stdlib.h>
#include <string.h>
#include "tarnoklej.h"

/* The bytes of a frame besides its message, of the longest frame, of the longest stream and of the longest line. */
enum { AROUND = TARNOKLEJ_FRAME_HEAD + TARNOKLEJ_FRAME_TAIL, LONGEST = AROUND + TARNOKLEJ_MOST_FRAMED };
enum { MOST_STREAM = 1 << 20, MOST_LINE = 4096 };

static uint8_t stream[MOST_STREAM];
static size_t size;

/* Stops with a line on what went wrong. */
static void stop(const char *what)
{
    fprintf(stderr, "frames: %s\n", what);
    exit(1);
}

/* Reads the stream from standard input. */
static void read_stream(void)
{
    size = fread(stream, 1, sizeof stream, stdin);
    if (size == sizeof stream)
        stop("the stream is too long");
}

/* Calls a function for each frame of the stream, which has ended, so that an unfinished frame is none. */
static void for_each_frame(void (*work)(size_t index, uint8_t *frame, size_t length))
{
    size_t from = 0, index = 0;
    for (;;) {
        tarnoklej_frame found = tarnoklej_find_frame(stream, size, from);
        if (found.refusal == TARNOKLEJ_NOFRAME)
            return;
        from = found.at + 1;
        if (found.refusal == TARNOKLEJ_NEED)
            continue;
        work(index++, stream + found.at, found.length);
        from = found.at + AROUND + found.length;
    }
}

/* Prints number, length and bytes of a message that has a number. */
static void print_frame(size_t index, uint8_t *frame, size_t length)
{
    (void)index;
    const uint8_t *message = frame + TARNOKLEJ_FRAME_HEAD;
    if (length < 2)
        return;
    printf("%d %zu ", message[0] << 4 | message[1] >> 4, length);
    for (size_t i = 0; i < length; i++)
        printf("%02x", message[i]);
    printf("\n");
}

/* Writes a frame, every third one with a wrong bit behind its head, each time another one. */
static void write_damaged(size_t index, uint8_t *frame, size_t length)
{
    uint8_t copy[LONGEST];
    memcpy(copy, frame, AROUND + length);
    size_t bit = 8 * TARNOKLEJ_FRAME_HEAD + index * 37 % (8 * (length + TARNOKLEJ_FRAME_TAIL));
    if (index % 3 == 1)
        copy[bit / 8] ^= (uint8_t)(0x80 >> bit % 8);
    fwrite(copy, 1, AROUND + length, stdout);
}

/* Writes the frame of a message that is given in hexadecimal. */
static void write_hexadecimal(const char *digits)
{
    uint8_t message[TARNOKLEJ_MOST_FRAMED], frame[LONGEST];
    size_t length = 0;
    unsigned byte;
    for (; length < sizeof message && sscanf(digits + 2 * length, "%2x", &byte) == 1; length++)
        message[length] = (uint8_t)byte;
    tarnoklej_written written = tarnoklej_write_frame(message, length, frame, sizeof frame);
    if (written.refusal != TARNOKLEJ_DONE || 2 * length != strlen(digits))
        stop("a message is too long");
    fwrite(frame, 1, written.length, stdout);
}

/* Writes the frames of the messages in the lines of standard input. */
static void write_lines(void)
{
    char line[MOST_LINE], digits[MOST_LINE];
    while (fgets(line, sizeof line, stdin) != NULL) {
        if (sscanf(line, "%*d %*d %s", digits) != 1)
            stop("a line is no number, length and bytes");
        write_hexadecimal(digits);
    }
}

int main(int count, char **words)
{
    const char *word = count == 2 ? words[1] : "";
    if (strcmp(word, "write") == 0) {
        write_lines();
        return 0;
    }
    read_stream();
    if (strcmp(word, "list") == 0)
        for_each_frame(print_frame);
    else if (strcmp(word, "damage") == 0)
        for_each_frame(write_damaged);
    else
        stop("usage: frames list | write | damage");
    return 0;
}
