/* Shared by the tests of the C boundary: the ranges of a plant, seeded inputs, and the numbers answered. */
#ifndef BOUNDARY_H
#define BOUNDARY_H

#include "same.h"

enum {
    BOOK_MOST = WILZHORAM_BOOK_LENGTH(WILZHORAM_MOST_CROSSINGS),
    SHEET_MOST = WILZHORAM_SHEET_LENGTH(WILZHORAM_MOST_EVENTS),
    PANEL_MOST = WILZHORAM_PANEL_LENGTH(WILZHORAM_MOST_CROSSINGS),
    NUMBERS = WILZHORAM_NUMBER_BAD_GRADIENT + 1,
};

/* range.c: document 01, "Site book" and "What the plant holds"; document 02, T-01 and T-06. */
unsigned settings_number(const wilzhoram_site *site); /* 0, 2 or 3 */
bool in_range(const wilzhoram_plant *plant);

/* inputs.c: the same on every machine. */
uint32_t below(uint32_t limit);
void random_bytes(void *at, size_t length);
size_t random_book(uint8_t *book, unsigned n);
wilzhoram_plant random_fresh(unsigned n);
wilzhoram_event_bytes random_event(unsigned n);
uint8_t who_may(uint8_t code);
uint8_t random_sender(uint8_t code);
size_t random_sheet(uint8_t *sheet, unsigned events, unsigned n);
void change(wilzhoram_plant *plant); /* one to three bytes, padding included */

/* tally.c: a bit for each number that a call may answer, and how often it did. */
typedef struct {
    const char *name;
    unsigned may;
    unsigned long met[NUMBERS];
} tally;

extern tally of_version, of_read, of_write, of_event, of_draw, of_preview, of_run, of_agree, of_board;

_Noreturn void fail(const char *format, ...);
void answered(tally *call, unsigned number); /* fails on a number that the call may not answer */
void all_met(const tally *call, unsigned numbers);
void print_tally(const tally *call);

#endif
