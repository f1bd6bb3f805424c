/*
 * The C interface: writing and running tapes of targeted Fibonacci exponentiation. Link it with
 * target/staticlib/libcapi.a, which `sh tools/make.sh archive` writes; the archive is for x86-64 Linux, and the C library is
 * all that it needs.
 *
 * Each service but fibexp_hofstadter and fibexp_height, which refuse nothing, answers the number of the first refusal
 * that applies, or FIBEXP_OK. It writes through its pointers on FIBEXP_OK only; fibexp_listing alone writes the line of
 * a refused tape too. Refusals are listed in the order in which they are tested. fibexp_reply and fibexp_reads are the
 * command-line tool over these services.
 *
 * The caller keeps to what a C declaration cannot say. No pointer is null, not even that of a row of 0 elements, and
 * each is aligned for what it points to. A row is a pointer and a count of elements, and has that many. What a function
 * writes overlaps nothing else that it is given, and no other thread touches any of it during the call.
 */
#ifndef FIBEXP_H
#define FIBEXP_H

#include <stddef.h>
#include <stdint.h>

#ifdef __cplusplus
extern "C" {
#endif

/* The version, as the verb `version` of the tool prints it. */
#define FIBEXP_VERSION "3.0.0"

/* The refusals. */
enum fibexp_refusal {
    FIBEXP_OK = 0,
    FIBEXP_MODULUS = 1,   /* p isn't a prime from 3 to 268435455 */
    FIBEXP_ORDER = 2,     /* r is below 2, or (except in fibexp_inverse) doesn't divide p - 1 */
    FIBEXP_EXPONENT = 3,  /* k isn't from 1 to r - 1, or shares a factor above 1 with r */
    FIBEXP_VARIANT = 4,   /* build: not 1 to 3; check: above 3; raise: also a tape made by hand */
    FIBEXP_ROOM = 5,      /* the row is shorter than the result */
    FIBEXP_LENGTH = 6,    /* a tape outside 5 to 512 words */
    FIBEXP_WORD = 7,      /* a word, its place or the end's count breaks the layout */
    FIBEXP_MISMATCH = 8,  /* a named program's steps aren't those built for its p, r, k and variant */
    FIBEXP_REGISTER = 9,  /* a register or base is 0 or at least p */
    FIBEXP_POSITION = 10, /* a position above the step count; a step past either end; a cut's first above its last */
    FIBEXP_BASE = 11,     /* named program, and r isn't the base's order modulo p: base^r isn't 1, or a smaller positive
                             power is */
    FIBEXP_RANGE = 12,    /* an exponent outside -2^62 to 2^62, or a sum of places above 64 bits */
    FIBEXP_INDEX = 13,    /* an index above 93, or a list that isn't a Zeckendorf form of places 1 to 92 */
    FIBEXP_COUNT = 14     /* a row of more than 64 bases */
};

/* The variants of named programs; FIBEXP_FREE is that of a tape made by hand, which fibexp_build doesn't write. */
enum fibexp_variant {
    FIBEXP_FREE = 0,
    FIBEXP_BASIC = 1,
    FIBEXP_DUAL = 2,
    FIBEXP_HYBRID = 3
};

/* Sizes that are always enough; of bases, the most that fibexp_raise takes. */
enum fibexp_most {
    FIBEXP_MOST_BASES = 64,        /* bases of a row */
    FIBEXP_MOST_PLACES = 46,       /* places of a 64-bit number */
    FIBEXP_MOST_WORDS = 512,       /* words of a tape */
    FIBEXP_MOST_TAPE_BYTES = 2048, /* bytes of a tape */
    FIBEXP_MOST_LISTING = 6137     /* bytes of a listing */
};

/* The Fibonacci number of an index. Writes *value. Refusal: INDEX. */
uint32_t fibexp_fibonacci(uint32_t index, uint64_t *value);

/*
 * Number to list: the places of the Zeckendorf form of n, highest first. Writes *count and that many bytes; those past
 * them stay. Refusal: ROOM.
 */
uint32_t fibexp_places(uint64_t n, uint8_t *places, size_t room, uint32_t *count);

/* List to number. Writes *n. Refusals: INDEX, RANGE. */
uint32_t fibexp_number(const uint8_t *places, size_t count, uint64_t *n);

/* Hofstadter's G(n), for every n. */
uint64_t fibexp_hofstadter(uint64_t n);

/* The least positive number h with r < phi^h, for every r. */
uint32_t fibexp_height(uint32_t r);

/* The inverse of k modulo r. Writes *inverse. Refusals: ORDER, EXPONENT. */
uint32_t fibexp_inverse(uint32_t k, uint32_t r, uint32_t *inverse);

/*
 * The tape of the named program for p, r, k and the variant. Writes *count and that many words; those past them stay.
 * Refusals: MODULUS, ORDER, EXPONENT, VARIANT, ROOM.
 */
uint32_t fibexp_build(uint32_t p, uint32_t r, uint32_t k, uint32_t variant, uint32_t *words, size_t room,
                      uint32_t *count);

/*
 * Accepts a tape, and writes nothing. Refusals: LENGTH, WORD, VARIANT, MODULUS and, for named programs, ORDER,
 * EXPONENT, MISMATCH.
 */
uint32_t fibexp_check(const uint32_t *tape, size_t words);

/*
 * A register record is five numbers: the four registers, and in record[4] the position at which they stand. The caller
 * may set record[4], to 0 or to the step count, which is words - 5, before any run; so the same program runs forward a
 * second time.
 */

/*
 * Writes the record (1, base, 1, 1) at position 0. A named program takes a base of order r alone: r is the least
 * positive exponent that gives 1 modulo p. So it never takes 1. What whole runs of named programs for p and r make of
 * such a base has order r again. A tape made by hand takes every base from 1 to p - 1. Refusals: those of fibexp_check,
 * REGISTER, BASE.
 */
uint32_t fibexp_load(const uint32_t *tape, size_t words, uint32_t base, uint32_t record[5]);

/*
 * Runs the tape from the record's position to another, backward where `to` is the smaller, and writes the record as it
 * stands there: record[4] is then `to`. Refusals: those of fibexp_check, REGISTER, POSITION, which is given where
 * record[4] or `to` is above the step count.
 */
uint32_t fibexp_run(const uint32_t *tape, size_t words, uint32_t record[5], uint32_t to);

/*
 * One step, as fibexp_run does to the neighbouring position: forward where `backward` is 0, else backward. Writes the
 * record as it stands there. Refusals: those of fibexp_check, REGISTER, POSITION, which is given where record[4] is
 * above the step count and for a step past either end.
 */
uint32_t fibexp_step(const uint32_t *tape, size_t words, uint32_t record[5], uint32_t backward);

/*
 * What fibexp_run of a copy of the record would come to; the record itself stays. Writes the registers as they stand at
 * position `to`, and in `counts` how many steps on the way are mul, div and swp, in this order. An undone mul counts as
 * a div, an undone div as a mul. Where `to` is record[4], it writes the record's registers and three zeros. Refusals:
 * those of fibexp_run.
 */
uint32_t fibexp_preview(const uint32_t *tape, size_t words, const uint32_t record[5], uint32_t to,
                        uint32_t registers[4], uint32_t counts[3]);

/*
 * Many bases in one pass through a named program, in place: each base is replaced by what fibexp_load of it and
 * fibexp_run, forward from end to end, would leave in register 1, which is base^k modulo p. If any base is bad, the
 * whole row stays. A row of 0 bases is answered too. Refusals: those of fibexp_check; VARIANT for a tape made by hand;
 * COUNT; then, base by base from the first on, REGISTER, BASE.
 */
uint32_t fibexp_raise(const uint32_t *tape, size_t words, uint32_t *bases, size_t count);

/*
 * Each register's whole exponent at a position, from (0, 1, 0, 0) at position 0. Writes the four exponents.
 * Refusals: those of fibexp_check, POSITION, RANGE.
 */
uint32_t fibexp_trace(const uint32_t *tape, size_t words, uint32_t position, int64_t exponents[4]);

/*
 * The exponent of each start value in each register at a position. Start value j is what register j holds at position
 * 0, and at the given one each register holds the product of the start values to its row's exponents, modulo p. Writes
 * the sixteen exponents row by row: table[4 * i + j] is that of start value j in register i. Refusals: those of
 * fibexp_check, POSITION, RANGE.
 */
uint32_t fibexp_table(const uint32_t *tape, size_t words, uint32_t position, int64_t table[16]);

/*
 * Where in the tape the words of the steps numbered first + 1 to last stand: *count words from tape[*start] on. Writes
 * *start and *count. Refusals: those of fibexp_check, POSITION.
 */
uint32_t fibexp_cut(const uint32_t *tape, size_t words, uint32_t first, uint32_t last, uint32_t *start,
                    uint32_t *count);

/*
 * The listing of a tape that is given as bytes, least significant byte of a word first. Writes *written and that many
 * bytes; those past them stay. The listing of a refused tape is the line "refused N": it is written too, and N is
 * answered. Refusals: ROOM before all others, where the listing or that line doesn't fit, and then nothing is written;
 * LENGTH, also for bytes that aren't whole words; those of fibexp_check.
 */
uint32_t fibexp_listing(const uint8_t *bytes, size_t count, uint8_t *lines, size_t room, uint32_t *written);

/* No text of a reply has more bytes. */
#define FIBEXP_TEXT_BYTES 8192

/* The statuses of a reply. The text of an answer is for standard output, any other for standard error. */
enum fibexp_status {
    FIBEXP_ANSWERED = 0,
    FIBEXP_REFUSED = 1,       /* by a service */
    FIBEXP_NOT_UNDERSTOOD = 2 /* no verb, a wrong count of parameters, or one that isn't read */
};

/*
 * The tool's reply to a command line and standard input, as docs/TOOL.md has it: answers its status. The arguments are
 * the words after the tool's name, with a zero byte after each; `count` is of all these bytes. Writes the text from
 * text[0] on and *written, the count of its bytes; those past them stay. Where the row is shorter than the text, what
 * doesn't fit is left out, and *written is the row's length; FIBEXP_TEXT_BYTES are always enough. `script` is a verb of
 * the program fibexp alone, and not understood here.
 */
uint32_t fibexp_reply(const uint8_t *arguments, size_t count, const uint8_t *input, size_t bytes, uint8_t *text,
                      size_t room, size_t *written);

/*
 * 1 where the tool reads a tape from standard input for these arguments, else 0. It reads no more than
 * FIBEXP_MOST_TAPE_BYTES + 4 bytes: those are already too many for a tape.
 */
uint32_t fibexp_reads(const uint8_t *arguments, size_t count);

#ifdef __cplusplus
}
#endif

#endif
