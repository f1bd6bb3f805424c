/*
 * Writes the hybrid program for p = 359, r = 179 and k = 76, the source's worked example, and loads the base 4, whose
 * order modulo 359 is 179. Does a single step, previews the run to the end and does it, so that register 1 holds 4^76
 * modulo 359, then runs back to the base, and prints the program's listing.
 *
 *     sh tools/make.sh archive
 *     cc -std=c99 -Wall -Wextra -Werror -Iinclude examples/power.c target/staticlib/libcapi.a -o target/power
 *     target/power
 */
#include <stdio.h>

#include "fibexp.h"

static int refused(const char *call, uint32_t number)
{
    fprintf(stderr, "%s: refused %u\n", call, (unsigned)number);
    return 1;
}

/* The position comes last in a record. */
static void print_record(const uint32_t record[5])
{
    printf("position %u: %u %u %u %u\n", (unsigned)record[4], (unsigned)record[0], (unsigned)record[1],
           (unsigned)record[2], (unsigned)record[3]);
}

/* The counts are of the mul, div and swp steps on the way. */
static void print_preview(uint32_t to, const uint32_t registers[4], const uint32_t counts[3])
{
    printf("preview of position %u: %u %u %u %u, after %u mul, %u div and %u swp\n", (unsigned)to,
           (unsigned)registers[0], (unsigned)registers[1], (unsigned)registers[2], (unsigned)registers[3],
           (unsigned)counts[0], (unsigned)counts[1], (unsigned)counts[2]);
}

/* A listing is made from bytes, the least significant of a word first. */
static void to_bytes(const uint32_t *words, size_t count, uint8_t *bytes)
{
    for (size_t i = 0; i < 4 * count; i++)
        bytes[i] = (uint8_t)(words[i / 4] >> (8 * (i % 4)));
}

int main(void)
{
    uint32_t tape[FIBEXP_MOST_WORDS];
    uint32_t words;
    uint32_t number = fibexp_build(359, 179, 76, FIBEXP_HYBRID, tape, FIBEXP_MOST_WORDS, &words);
    if (number != FIBEXP_OK)
        return refused("build", number);

    uint32_t record[5];
    number = fibexp_load(tape, words, 4, record);
    if (number != FIBEXP_OK)
        return refused("load", number);
    print_record(record);

    number = fibexp_step(tape, words, record, 0);
    if (number != FIBEXP_OK)
        return refused("step", number);
    print_record(record);

    uint32_t steps = tape[words - 1] & 0xFFFFFFF; /* the end word holds the step count */
    uint32_t registers[4];
    uint32_t counts[3];
    number = fibexp_preview(tape, words, record, steps, registers, counts);
    if (number != FIBEXP_OK)
        return refused("preview", number);
    print_preview(steps, registers, counts);

    number = fibexp_run(tape, words, record, steps);
    if (number != FIBEXP_OK)
        return refused("run", number);
    print_record(record);

    number = fibexp_run(tape, words, record, 0);
    if (number != FIBEXP_OK)
        return refused("run back", number);
    print_record(record);

    static uint8_t bytes[FIBEXP_MOST_TAPE_BYTES];
    static uint8_t lines[FIBEXP_MOST_LISTING];
    uint32_t written;
    to_bytes(tape, words, bytes);
    number = fibexp_listing(bytes, 4 * (size_t)words, lines, sizeof lines, &written);
    if (number != FIBEXP_OK)
        return refused("listing", number);
    fwrite(lines, 1, written, stdout);
    return 0;
}
