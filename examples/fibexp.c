/*
 * The command-line tool in C, over fibexp_reply: what it prints and its statuses 0 to 2 are in docs/TOOL.md. Its status
 * is 3 where standard input can't be read or the reply can't be written. `script` is a verb of the program fibexp alone,
 * as the reply to it says.
 *
 *     sh tools/make.sh archive
 *     cc -std=c99 -Wall -Wextra -Werror -Iinclude examples/fibexp.c target/staticlib/libcapi.a -o target/fibexp-c
 *     target/fibexp-c build 359 179 76 hybrid | target/fibexp-c power 4
 */
#include <errno.h>
#include <stdio.h>
#include <string.h>

#include "fibexp.h"

enum {
    MOST_ARGUMENTS = 4095,                   /* bytes of all words */
    MOST_INPUT = FIBEXP_MOST_TAPE_BYTES + 4, /* a word more than a tape has */
    NOT_DONE = 3
};

/* Puts the words behind each other, a zero byte after each. Answers 0 where they don't fit. */
static int gather(int count, char **words, uint8_t *arguments, size_t *length)
{
    *length = 0;
    for (int i = 0; i < count; i++) {
        size_t bytes = strlen(words[i]) + 1;
        if (bytes > MOST_ARGUMENTS - *length)
            return 0;
        memcpy(arguments + *length, words[i], bytes);
        *length += bytes;
    }
    return 1;
}

static int not_done(const char *stream)
{
    fprintf(stderr, "fibexp: %s: %s\n", stream, strerror(errno));
    return NOT_DONE;
}

int main(int argc, char **argv)
{
    static uint8_t arguments[MOST_ARGUMENTS];
    size_t length;
    /* argv[0] is the tool's name, if there is one at all */
    if (!gather(argc > 0 ? argc - 1 : 0, argv + 1, arguments, &length)) {
        fprintf(stderr, "fibexp: a command line of more than %d bytes\n", (int)MOST_ARGUMENTS);
        return FIBEXP_NOT_UNDERSTOOD;
    }

    static uint8_t input[MOST_INPUT];
    size_t bytes = 0;
    if (fibexp_reads(arguments, length)) {
        bytes = fread(input, 1, sizeof input, stdin);
        if (ferror(stdin))
            return not_done("standard input");
    }

    static uint8_t text[FIBEXP_TEXT_BYTES];
    size_t written;
    uint32_t status = fibexp_reply(arguments, length, input, bytes, text, sizeof text, &written);

    FILE *stream = status == FIBEXP_ANSWERED ? stdout : stderr;
    if (fwrite(text, 1, written, stream) != written || fflush(stream) != 0)
        return not_done(stream == stdout ? "standard output" : "standard error");
    return (int)status;
}
