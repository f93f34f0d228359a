/* The header's names by what the calls show: each byte of a panel with its values and bits, lamps and phases, lengths and
 * limits, the version. A row names the bytes that are not 0; it is worked out by hand from document 01, amended by request T-09
 * of document 02. (Codes are shown by fields.c; names that the machine has too are held to its numbers by constants.sh.) */
#include "boundary.h"
#include <stdio.h>
#include <string.h>

enum {
    ROW = WILZHORAM_PANEL_LENGTH(1),
    LIT_ALL = WILZHORAM_LIT_ROAD + WILZHORAM_LIT_BOOM_LAMPS + WILZHORAM_LIT_TRAIN_SIGNAL + WILZHORAM_LIT_DISTANT,
    DEAD = 0,
    WHOLE = 1,
};

static wilzhoram_plant plant;
static unsigned rows, lengths;

/* The fresh plant of one crossing, by its book; no time for motorists. */
static void begin(uint8_t kind, uint8_t tracks, uint8_t mask, uint16_t pre, uint16_t gap) {
    const wilzhoram_site site = {1, {{kind, tracks, mask, pre, gap, 0}}};
    uint8_t book[WILZHORAM_BOOK_LENGTH(1)];
    unsigned number = wilzhoram_write(site, book, sizeof book);
    wilzhoram_reading reading = wilzhoram_read(book, sizeof book);
    if (number != WILZHORAM_NUMBER_TAKEN || reading.number != WILZHORAM_NUMBER_TAKEN)
        fail("shown: kind %u: number %u written, %u read", kind, number, reading.number);
    plant = reading.plant;
}

static void play(unsigned code, unsigned place, unsigned value) {
    wilzhoram_event_bytes event = {(uint8_t)code, 0, (uint8_t)place, (uint8_t)value};
    wilzhoram_answer answer = wilzhoram_event(plant, who_may(event.code), event);
    if (answer.number != WILZHORAM_NUMBER_TAKEN)
        fail("shown: code %u, place %u, value %u: number %u", code, place, value, answer.number);
    plant = answer.plant;
}

static void ticks(unsigned count) {
    while (count-- > 0)
        play(WILZHORAM_CODE_TICK, 0, 0);
}

static void report_booms(unsigned booms, unsigned report) {
    for (unsigned b = 0; b < booms; b++)
        play(WILZHORAM_CODE_BOOM_REPORT, b, report);
}

/* The row, and the phase that the plant holds. */
static void shows(const char *when, const uint8_t *wanted) {
    uint8_t row[ROW];
    unsigned number = wilzhoram_draw(plant, WILZHORAM_SENDER_DETECTION, row, ROW);
    rows++;
    for (size_t i = 0; i < ROW; i++)
        if (number != WILZHORAM_NUMBER_TAKEN || row[i] != wanted[i])
            fail("shown: %s: number %u, byte %zu is %u, %u by name", when, number, i, row[i], wanted[i]);
    if (plant.crossings[0].phase != wanted[WILZHORAM_PANEL_PHASE])
        fail("shown: %s: the plant is in phase %u", when, plant.crossings[0].phase);
}

/* The same while a lamp is dead. */
static void shows_dead(const char *name, unsigned lamp, const uint8_t *wanted) {
    play(WILZHORAM_CODE_LAMP_REPORT, lamp, DEAD);
    shows(name, wanted);
    play(WILZHORAM_CODE_LAMP_REPORT, lamp, WHOLE);
}

#define AT(name) [WILZHORAM_PANEL_##name]
#define SHOWS(when, ...) shows(when, (const uint8_t[ROW]){__VA_ARGS__})
#define SHOWS_DEAD(lamp, ...) shows_dead(#lamp " dead", lamp, (const uint8_t[ROW]){__VA_ARGS__})

/* Two full booms, one track, F 2: in normal position, in each lamp's turn, at beats 0 and 1. */
static void normal_position(void) {
    begin(WILZHORAM_KIND_TWO_FULL, 1, 0, 2, 0);
    SHOWS("fresh", AT(ROAD) = WILZHORAM_ROAD_WHITE, AT(LIT) = LIT_ALL - WILZHORAM_LIT_BOOM_LAMPS,
          AT(TRAIN_SIGNAL) = WILZHORAM_TRAIN_SIGNAL_STOP, AT(DISTANT) = WILZHORAM_DISTANT_VIOLET,
          AT(STATUS) = WILZHORAM_STATUS_NORMAL, AT(PHASE) = WILZHORAM_PHASE_OPEN);
    SHOWS_DEAD(WILZHORAM_LAMP_ROAD_WHITE, AT(ROAD) = WILZHORAM_ROAD_DARK,
               AT(LIT) = WILZHORAM_LIT_TRAIN_SIGNAL + WILZHORAM_LIT_DISTANT, AT(TRAIN_SIGNAL) = WILZHORAM_TRAIN_SIGNAL_STOP,
               AT(DISTANT) = WILZHORAM_DISTANT_VIOLET, AT(STATUS) = WILZHORAM_STATUS_NORMAL);
    SHOWS_DEAD(WILZHORAM_LAMP_TRAIN_SIGNAL_RED, AT(ROAD) = WILZHORAM_ROAD_WHITE,
               AT(LIT) = WILZHORAM_LIT_ROAD + WILZHORAM_LIT_DISTANT, AT(TRAIN_SIGNAL) = WILZHORAM_TRAIN_SIGNAL_DARK,
               AT(DISTANT) = WILZHORAM_DISTANT_VIOLET, AT(STATUS) = WILZHORAM_STATUS_NORMAL);
    ticks(1);
    SHOWS("beat 1", AT(ROAD) = WILZHORAM_ROAD_WHITE, AT(TRAIN_SIGNAL) = WILZHORAM_TRAIN_SIGNAL_STOP,
          AT(DISTANT) = WILZHORAM_DISTANT_VIOLET, AT(STATUS) = WILZHORAM_STATUS_NORMAL);
    SHOWS_DEAD(WILZHORAM_LAMP_FLASHER, AT(ROAD) = WILZHORAM_ROAD_WHITE, AT(LIT) = LIT_ALL - WILZHORAM_LIT_BOOM_LAMPS,
               AT(TRAIN_SIGNAL) = WILZHORAM_TRAIN_SIGNAL_STOP, AT(DISTANT) = WILZHORAM_DISTANT_VIOLET,
               AT(STATUS) = WILZHORAM_STATUS_NORMAL);
}

/* The same crossing: a train from the strike-in to its passage, at beats 0 and 2. */
static void closure(void) {
    begin(WILZHORAM_KIND_TWO_FULL, 1, 0, 2, 0);
    play(WILZHORAM_CODE_STRIKE_IN, 0, 0);
    SHOWS("warning", AT(ROAD) = WILZHORAM_ROAD_RED, AT(LIT) = LIT_ALL, AT(BELL) = 1, AT(BOOM_LAMPS) = 1,
          AT(TRAIN_SIGNAL) = WILZHORAM_TRAIN_SIGNAL_STOP, AT(DISTANT) = WILZHORAM_DISTANT_VIOLET,
          AT(PHASE) = WILZHORAM_PHASE_WARNING, AT(CALLING) = 1);
    ticks(2);
    SHOWS_DEAD(WILZHORAM_LAMP_ROAD_RED, AT(ROAD) = WILZHORAM_ROAD_DARK, AT(LIT) = LIT_ALL - WILZHORAM_LIT_ROAD, AT(BELL) = 1,
               AT(BOOM_LAMPS) = 1, AT(RIGHT_DOWN) = 1, AT(TRAIN_SIGNAL) = WILZHORAM_TRAIN_SIGNAL_STOP,
               AT(DISTANT) = WILZHORAM_DISTANT_VIOLET, AT(PHASE) = WILZHORAM_PHASE_ALL_DOWN, AT(CALLING) = 1);
    report_booms(2, WILZHORAM_BOOM_DOWN);
    SHOWS("secured", AT(ROAD) = WILZHORAM_ROAD_RED, AT(LIT) = LIT_ALL, AT(BOOM_LAMPS) = 1, AT(RIGHT_DOWN) = 1,
          AT(TRAIN_SIGNAL) = WILZHORAM_TRAIN_SIGNAL_PASSABLE, AT(DISTANT) = WILZHORAM_DISTANT_WHITE,
          AT(STATUS) = WILZHORAM_STATUS_SECURED, AT(PHASE) = WILZHORAM_PHASE_ALL_DOWN, AT(CALLING) = 1);
    SHOWS_DEAD(WILZHORAM_LAMP_TRAIN_SIGNAL_WHITE, AT(ROAD) = WILZHORAM_ROAD_RED,
               AT(LIT) = LIT_ALL - WILZHORAM_LIT_TRAIN_SIGNAL, AT(BOOM_LAMPS) = 1, AT(RIGHT_DOWN) = 1,
               AT(TRAIN_SIGNAL) = WILZHORAM_TRAIN_SIGNAL_DARK,
               AT(DISTANT) = WILZHORAM_DISTANT_VIOLET, AT(STATUS) = WILZHORAM_STATUS_SECURED,
               AT(PHASE) = WILZHORAM_PHASE_ALL_DOWN, AT(CALLING) = 1);
    play(WILZHORAM_CODE_PASSAGE, 0, 0);
    SHOWS("raising", AT(ROAD) = WILZHORAM_ROAD_RED, AT(LIT) = LIT_ALL, AT(BOOM_LAMPS) = 1,
          AT(TRAIN_SIGNAL) = WILZHORAM_TRAIN_SIGNAL_STOP, AT(DISTANT) = WILZHORAM_DISTANT_VIOLET,
          AT(PHASE) = WILZHORAM_PHASE_RAISING);
}

/* Four full booms, four tracks, all but 0 dependent, F 1, G 1: a train that waits, holds, right booms before left, a main signal
 * released, and more trains than one byte counts. */
static void four_full(void) {
    begin(WILZHORAM_KIND_FOUR_FULL, 4, 14, 1, 1);
    play(WILZHORAM_CODE_STRIKE_IN, 2, 0);
    play(WILZHORAM_CODE_KIOSK_HOLD, 0, 1);
    SHOWS("kiosk hold", AT(ROAD) = WILZHORAM_ROAD_RED, AT(LIT) = LIT_ALL, AT(BELL) = 1, AT(BOOM_LAMPS) = 1,
          AT(TRAIN_SIGNAL) = WILZHORAM_TRAIN_SIGNAL_STOP, AT(DISTANT) = WILZHORAM_DISTANT_VIOLET,
          AT(PHASE) = WILZHORAM_PHASE_WARNING, AT(HOLDS) = WILZHORAM_HOLD_KIOSK, AT(WAITING) = 1);
    play(WILZHORAM_CODE_OPERATOR_HOLD, 0, 1);
    ticks(1);
    SHOWS("right booms", AT(ROAD) = WILZHORAM_ROAD_RED, AT(BELL) = 1, AT(BOOM_LAMPS) = 1, AT(RIGHT_DOWN) = 1,
          AT(TRAIN_SIGNAL) = WILZHORAM_TRAIN_SIGNAL_STOP, AT(DISTANT) = WILZHORAM_DISTANT_VIOLET,
          AT(PHASE) = WILZHORAM_PHASE_RIGHT_DOWN, AT(HOLDS) = WILZHORAM_HOLD_KIOSK + WILZHORAM_HOLD_OPERATOR, AT(WAITING) = 1);
    play(WILZHORAM_CODE_KIOSK_HOLD, 0, 0);
    ticks(1);
    report_booms(4, WILZHORAM_BOOM_DOWN);
    play(WILZHORAM_CODE_ROUTE, 2, 1);
    SHOWS("released", AT(ROAD) = WILZHORAM_ROAD_RED, AT(LIT) = LIT_ALL, AT(BOOM_LAMPS) = 1, AT(RIGHT_DOWN) = 1,
          AT(LEFT_DOWN) = 1, AT(TRAIN_SIGNAL) = WILZHORAM_TRAIN_SIGNAL_PASSABLE, AT(DISTANT) = WILZHORAM_DISTANT_WHITE,
          AT(RELEASED) = 1 << 2, AT(STATUS) = WILZHORAM_STATUS_SECURED, AT(PHASE) = WILZHORAM_PHASE_ALL_DOWN,
          AT(HOLDS) = WILZHORAM_HOLD_OPERATOR, AT(CALLING) = 1);
    memcpy(plant.crossings[0].calling, (const uint8_t[4]){255, 3, 1, 0}, 4);
    memcpy(plant.crossings[0].waiting, (const uint8_t[4]){0, 252, 254, 10}, 4);
    SHOWS("259 calling, 516 waiting", AT(ROAD) = WILZHORAM_ROAD_RED, AT(LIT) = LIT_ALL, AT(BOOM_LAMPS) = 1, AT(RIGHT_DOWN) = 1,
          AT(LEFT_DOWN) = 1, AT(TRAIN_SIGNAL) = WILZHORAM_TRAIN_SIGNAL_PASSABLE, AT(DISTANT) = WILZHORAM_DISTANT_WHITE,
          AT(RELEASED) = 1 << 2, AT(STATUS) = WILZHORAM_STATUS_SECURED, AT(PHASE) = WILZHORAM_PHASE_ALL_DOWN,
          AT(HOLDS) = WILZHORAM_HOLD_OPERATOR, AT(CALLING) = 3, [WILZHORAM_PANEL_CALLING + 1] = 1, AT(WAITING) = 4,
          [WILZHORAM_PANEL_WAITING + 1] = 2);
}

/* Half booms that are never reported, F 1: 900 ticks out of normal, and one more. */
static void overdue(void) {
    begin(WILZHORAM_KIND_HALF, 1, 0, 1, 0);
    play(WILZHORAM_CODE_STRIKE_IN, 0, 0);
    ticks(900);
    SHOWS("900 ticks", AT(ROAD) = WILZHORAM_ROAD_RED, AT(LIT) = LIT_ALL, AT(BELL) = 1, AT(BOOM_LAMPS) = 1, AT(RIGHT_DOWN) = 1,
          AT(TRAIN_SIGNAL) = WILZHORAM_TRAIN_SIGNAL_STOP, AT(DISTANT) = WILZHORAM_DISTANT_VIOLET,
          AT(PHASE) = WILZHORAM_PHASE_ALL_DOWN, AT(CALLING) = 1);
    ticks(1);
    SHOWS("901 ticks", AT(ROAD) = WILZHORAM_ROAD_RED, AT(BELL) = 1, AT(BOOM_LAMPS) = 1, AT(RIGHT_DOWN) = 1,
          AT(TRAIN_SIGNAL) = WILZHORAM_TRAIN_SIGNAL_STOP, AT(DISTANT) = WILZHORAM_DISTANT_VIOLET,
          AT(STATUS) = WILZHORAM_STATUS_OVERDUE, AT(PHASE) = WILZHORAM_PHASE_ALL_DOWN, AT(CALLING) = 1);
}

#define SHOWS_BOOM_DEAD(lamp) \
    SHOWS_DEAD(lamp, AT(ROAD) = WILZHORAM_ROAD_RED, AT(LIT) = LIT_ALL, AT(BELL) = 1, AT(BOOM_LAMPS) = 1, AT(RIGHT_DOWN) = 1, \
               AT(TRAIN_SIGNAL) = WILZHORAM_TRAIN_SIGNAL_AMBER, AT(DISTANT) = WILZHORAM_DISTANT_AMBER, \
               AT(PHASE) = WILZHORAM_PHASE_ALL_DOWN, AT(CALLING) = 1)

/* T-09: half booms under the 1959 sheet, F 15: open; closed at beat 0, the lamp of either boom dead. */
static void old_half(void) {
    begin(WILZHORAM_KIND_OLD_HALF, 1, 0, 15, 0);
    SHOWS("fresh", AT(ROAD) = WILZHORAM_ROAD_DARK, AT(LIT) = WILZHORAM_LIT_TRAIN_SIGNAL + WILZHORAM_LIT_DISTANT,
          AT(TRAIN_SIGNAL) = WILZHORAM_TRAIN_SIGNAL_AMBER, AT(DISTANT) = WILZHORAM_DISTANT_AMBER,
          AT(STATUS) = WILZHORAM_STATUS_NORMAL);
    SHOWS_DEAD(WILZHORAM_LAMP_TRAIN_SIGNAL_RED, AT(ROAD) = WILZHORAM_ROAD_DARK,
               AT(TRAIN_SIGNAL) = WILZHORAM_TRAIN_SIGNAL_DARK, AT(DISTANT) = WILZHORAM_DISTANT_DARK,
               AT(STATUS) = WILZHORAM_STATUS_NORMAL);
    play(WILZHORAM_CODE_STRIKE_IN, 0, 0);
    ticks(16);
    report_booms(2, WILZHORAM_BOOM_MOVING);
    SHOWS("half booms moving", AT(ROAD) = WILZHORAM_ROAD_RED, AT(LIT) = LIT_ALL, AT(BELL) = 1, AT(BOOM_LAMPS) = 1,
          AT(RIGHT_DOWN) = 1, AT(TRAIN_SIGNAL) = WILZHORAM_TRAIN_SIGNAL_PASSABLE, AT(DISTANT) = WILZHORAM_DISTANT_WHITE,
          AT(STATUS) = WILZHORAM_STATUS_SECURED, AT(PHASE) = WILZHORAM_PHASE_ALL_DOWN, AT(CALLING) = 1);
    SHOWS_BOOM_DEAD(WILZHORAM_LAMP_BOOM_0);
    SHOWS_BOOM_DEAD(WILZHORAM_LAMP_BOOM_1);
    if (WILZHORAM_LAMP_BOOM_1 != WILZHORAM_LAMP_BOOM_0 + 1)
        fail("shown: the lamps of booms are not in the order of the booms");
}

static void expect(const char *what, size_t length, unsigned number, unsigned wanted) {
    lengths++;
    if (number != wanted)
        fail("shown: %s, %zu: number %u, %u expected", what, length, number, wanted);
}

/* A book and a panel of each count of crossings, one byte fewer, and one crossing too many. */
static void plant_lengths(void) {
    static uint8_t book[BOOK_MOST + 9], panel[PANEL_MOST];
    for (unsigned n = 1; n <= WILZHORAM_MOST_CROSSINGS; n++) {
        size_t length = WILZHORAM_BOOK_LENGTH(n), size = WILZHORAM_PANEL_LENGTH(n);
        random_book(book, n);
        wilzhoram_reading reading = wilzhoram_read(book, length);
        expect("book", length, reading.number, WILZHORAM_NUMBER_TAKEN);
        expect("book", length - 1, wilzhoram_read(book, length - 1).number, WILZHORAM_NUMBER_BAD_BOOK_LENGTH);
        expect("panel", size, wilzhoram_draw(reading.plant, 0, panel, size), WILZHORAM_NUMBER_TAKEN);
        expect("panel", size - 1, wilzhoram_draw(reading.plant, 0, panel, size - 1), WILZHORAM_NUMBER_BAD_OUTPUT_LENGTH);
    }
    book[0]++;
    expect("crossings", book[0], wilzhoram_read(book, sizeof book).number, WILZHORAM_NUMBER_BAD_COUNT);
}

/* Sheets of m ticks, run and compared with themselves. */
static void sheet_lengths(void) {
    enum { LONG = WILZHORAM_MOST_EVENTS + 1, SHIFT = WILZHORAM_MOST_SHIFT_EVENTS };
    static const unsigned counts[] = {0, 1, SHIFT, SHIFT + 1, WILZHORAM_MOST_EVENTS, LONG};
    static uint8_t sheet[WILZHORAM_SHEET_LENGTH(LONG)], panel[PANEL_MOST];
    const wilzhoram_plant fresh = random_fresh(WILZHORAM_MOST_CROSSINGS);
    for (size_t i = 0; i < sizeof counts / sizeof counts[0]; i++) {
        unsigned m = counts[i], run = m == LONG ? WILZHORAM_NUMBER_BAD_COUNT : WILZHORAM_NUMBER_TAKEN;
        unsigned agree = run == WILZHORAM_NUMBER_TAKEN && m > SHIFT ? WILZHORAM_NUMBER_SHIFT_TOO_LONG : run;
        size_t length = WILZHORAM_SHEET_LENGTH(m);
        sheet[0] = (uint8_t)m;
        sheet[1] = (uint8_t)(m >> 8);
        expect("sheet", length, wilzhoram_run(fresh, sheet, length, panel, sizeof panel).number, run);
        expect("shift", length, wilzhoram_agree(sheet, length, sheet, length).number, agree);
    }
}

int main(void) {
    const unsigned version = wilzhoram_version();
    if (version != WILZHORAM_VERSION)
        fail("the header's version is %u, the library's %u", (unsigned)WILZHORAM_VERSION, version);
    normal_position();
    closure();
    four_full();
    overdue();
    old_half();
    plant_lengths();
    sheet_lengths();
    printf("boundary: version %u.%u.%u; %u rows of the panel and %u lengths as the header names them\n", version / 10000,
           version / 100 % 100, version % 100, rows, lengths);
    return 0;
}
