/* The numbers of each call (document 01, "Numbers at the hut"; document 02, T-01 for 9, T-03 for the preview, T-04 for 16 and 17,
 * T-07 for 18, T-08 for 19 to 21), and which were met. */
#include "boundary.h"
#include <stdarg.h>
#include <stdio.h>
#include <stdlib.h>

tally of_version = {"version", 1u, {0}};
tally of_read = {"read", 1u | 1u << 1 | 1u << 2 | 1u << 3, {0}};
tally of_write = {"write", 1u | 1u << 2 | 1u << 3 | 1u << 14, {0}};
tally of_event = {"event", 1u | 0xfu << 5 | 0xfu << 10 | 7u << 15, {0}}; /* 5 to 8, 10 to 13 and 15 to 17 */
tally of_draw = {"draw", 1u | 7u << 14, {0}};                            /* 14 to 16 */
tally of_preview = {"preview", 1u | 0xfu << 5 | 0xffu << 10, {0}};       /* 5 to 8 and 10 to 17 */
tally of_run = {"run", 1u | 1u << 2 | 1u << 4 | 1u << 14 | 1u << 15, {0}};
tally of_agree = {"agree", 1u | 1u << 2 | 1u << 4 | 1u << 18, {0}};
tally of_board = {"board distance", 1u | 7u << 19, {0}}; /* 19 to 21 */

void fail(const char *format, ...) {
    va_list rest;
    va_start(rest, format);
    fputs("boundary: FAILED: ", stdout);
    vprintf(format, rest);
    puts("");
    va_end(rest);
    exit(1);
}

void answered(tally *call, unsigned number) {
    if (number >= NUMBERS || !(call->may >> number & 1))
        fail("%s: number %u, which is none of its numbers", call->name, number);
    call->met[number]++;
}

void all_met(const tally *call, unsigned numbers) {
    for (unsigned number = 0; number < NUMBERS; number++)
        if (call->may >> number & ~numbers >> number & 1)
            fail("%s: number %u was never met", call->name, number);
}

void print_tally(const tally *call) {
    unsigned long other = 0;
    unsigned numbers = 0;
    for (unsigned number = 0; number < NUMBERS; number++) {
        numbers |= (call->met[number] != 0) << number;
        other += number == 0 || number == WILZHORAM_NUMBER_OUT_OF_RANGE ? 0 : call->met[number];
    }
    printf("; %s %lu taken, %lu refused", call->name, call->met[0], other);
    if (call->may >> WILZHORAM_NUMBER_OUT_OF_RANGE & 1)
        printf(", %lu refused 15", call->met[WILZHORAM_NUMBER_OUT_OF_RANGE]);
    all_met(call, numbers);
}
