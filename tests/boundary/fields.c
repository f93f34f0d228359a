/* Every field of a crossing, by an event that moves it: the header's fields and codes are the library's, also where two have
 * the same range. The plant after each event is worked out by hand from document 01, amended by requests T-01, T-06 and T-09 of
 * document 02. */
#include "boundary.h"
#include <stdio.h>
#include <string.h>

/* Crossing 0: half booms under the 1959 sheet, a plain track, F 15. Crossing 1, the one that is played most: four full booms,
 * four tracks, 1 and 3 of them dependent, F 3, G 2, M 258. */
static const uint8_t book[] = {
    2, WILZHORAM_KIND_OLD_HALF, 1, 0, WILZHORAM_KIND_FOUR_FULL, 4, 10, 15, 0, 0, 0, 0, 0, 3, 0, 2, 0, 2, 1,
};

static wilzhoram_plant plant, wanted;
static wilzhoram_crossing *const held = &plant.crossings[1], *const want = &wanted.crossings[1];
static unsigned events;

static void begin(void) {
    wilzhoram_reading reading = wilzhoram_read(book, sizeof book);
    wanted.site.n = 2;
    wanted.site.entries[0] = (wilzhoram_entry){WILZHORAM_KIND_OLD_HALF, 1, 0, 15, 0, 0};
    wanted.site.entries[1] = (wilzhoram_entry){WILZHORAM_KIND_FOUR_FULL, 4, 10, 3, 2, 258};
    memset(wanted.crossings[0].lamps, 1, 7);
    memset(want->lamps, 1, 5);
    if (reading.number != 0 || !same_plant(&reading.plant, &wanted))
        fail("fields: number %u or another plant from the book", reading.number);
    plant = reading.plant;
}

/* A taken event at a crossing: the plant after it is the one wanted. */
static void play_at(unsigned crossing, unsigned code, unsigned place, unsigned value, uint32_t written) {
    wilzhoram_event_bytes event = {(uint8_t)code, (uint8_t)crossing, (uint8_t)place, (uint8_t)value};
    wilzhoram_answer answer = wilzhoram_event(plant, who_may(event.code), event);
    events++;
    if (answer.number != 0 || answer.written != written || !same_plant(&answer.plant, &wanted))
        fail("fields: event %u, code %u, place %u, value %u: number %u, written off %u, or another plant", events, code,
             place, value, answer.number, (unsigned)answer.written);
    plant = answer.plant;
}

/* The same at crossing 1; a tick is of the plant. */
static void play(unsigned code, unsigned place, unsigned value, uint32_t written) {
    play_at(code != WILZHORAM_CODE_TICK, code, place, value, written);
}

/* Reports and approaches: no reason, and no tick that counts. */
static void reports(void) {
    for (int value = WILZHORAM_BOOM_LOST; value >= WILZHORAM_BOOM_UP; value--)
        for (unsigned b = 0; b < 4; b++) {
            want->booms[b] = (uint8_t)value;
            play(WILZHORAM_CODE_BOOM_REPORT, b, (unsigned)value, 0);
        }
    for (int value = 0; value <= 1; value++)
        for (unsigned l = WILZHORAM_LAMP_ROAD_WHITE; l <= WILZHORAM_LAMP_FLASHER; l++) {
            want->lamps[l] = (uint8_t)value;
            play(WILZHORAM_CODE_LAMP_REPORT, l, (unsigned)value, 0);
        }
    for (int value = 1; value >= 0; value--)
        for (unsigned t = 0; t < 4; t++) {
            want->occupied[t] = (uint8_t)value;
            play(WILZHORAM_CODE_APPROACH, t, (unsigned)value, 0);
        }
}

/* One train waits, one calls; holds; the route; at the end no reason, phase 0. */
static void traffic(void) {
    want->waiting[3] = 1;
    play(WILZHORAM_CODE_STRIKE_IN, 3, 0, 0);
    want->calling[0] = 1;
    want->phase = WILZHORAM_PHASE_WARNING;
    want->timer = 3;
    play(WILZHORAM_CODE_STRIKE_IN, 0, 0, 0);
    wanted.beat = 1;
    want->timer = 2;
    want->out = 1;
    play(WILZHORAM_CODE_TICK, 0, 0, 0);
    want->kiosk = 1;
    play(WILZHORAM_CODE_KIOSK_HOLD, 0, 1, 0);
    want->operator_hold = 1;
    play(WILZHORAM_CODE_OPERATOR_HOLD, 0, 1, 0);
    want->kiosk = 0;
    play(WILZHORAM_CODE_KIOSK_HOLD, 0, 0, 0);
    want->calling[0] = 0;
    play(WILZHORAM_CODE_PASSAGE, 0, 0, 0);
    want->operator_hold = 0;
    want->phase = WILZHORAM_PHASE_OPEN;
    want->timer = want->out = 0;
    play(WILZHORAM_CODE_OPERATOR_HOLD, 0, 0, 0);
    want->route[1] = 1;
    play(WILZHORAM_CODE_ROUTE, 1, 1, 0);
    want->route[1] = 0;
    play(WILZHORAM_CODE_ROUTE, 1, 0, 0);
    want->countdown = 270;
    play(WILZHORAM_CODE_TIME_RELEASE, 0, 0, 0);
}

/* T-01: each track full, calling where it is plain, otherwise waiting, and a strike-in there; a passage; and a release that
 * the next tick completes. */
static void swept(void) {
    want->phase = WILZHORAM_PHASE_WARNING;
    want->timer = 3;
    want->countdown = 0;
    for (unsigned t = 0; t < 4; t++) {
        (t % 2 == 0 ? held->calling : held->waiting)[t] = 255;
        (t % 2 == 0 ? want->calling : want->waiting)[t] = 255;
        want->unsure[t] = 1;
        play(WILZHORAM_CODE_STRIKE_IN, t, 0, 1);
    }
    want->calling[0] = 254;
    play(WILZHORAM_CODE_PASSAGE, 0, 0, 0);
    want->countdown = 270;
    play(WILZHORAM_CODE_TIME_RELEASE, 0, 0, 0);
    held->countdown = 1;
    wanted.beat = 2;
    want->countdown = want->timer = 0;
    want->phase = WILZHORAM_PHASE_OPEN;
    memset(want->calling, 0, 4);
    memset(want->waiting, 0, 4);
    memset(want->unsure, 0, 4);
    play(WILZHORAM_CODE_TICK, 0, 0, 254 + 3 * 255);
}

/* T-06: raising that ends, the booms being up, leaves M ticks to motorists, and a tick one fewer. */
static void motorists(void) {
    held->phase = WILZHORAM_PHASE_RAISING;
    want->left = 258;
    play(WILZHORAM_CODE_APPROACH, 0, 0, 0);
    wanted.beat = 3;
    want->left = 257;
    play(WILZHORAM_CODE_TICK, 0, 0, 0);
}

/* T-09: the lamps of two booms; and a tick that finds crossing 0 out of normal for 1,079 ticks, in phase 3 with booms that are
 * reported down, writes off its train. */
static void old_sheet(void) {
    wilzhoram_crossing *old = &plant.crossings[0], *wants = &wanted.crossings[0];
    for (int value = 0; value <= 1; value++)
        for (unsigned l = WILZHORAM_LAMP_BOOM_0; l <= WILZHORAM_LAMP_BOOM_1; l++) {
            wants->lamps[l] = (uint8_t)value;
            play_at(0, WILZHORAM_CODE_LAMP_REPORT, l, (unsigned)value, 0);
        }
    old->booms[0] = old->booms[1] = wants->booms[0] = wants->booms[1] = WILZHORAM_BOOM_DOWN;
    old->phase = WILZHORAM_PHASE_ALL_DOWN;
    old->calling[0] = 1;
    old->out = 1079;
    wanted.beat = 0;
    want->left = 256;
    wants->phase = WILZHORAM_PHASE_RAISING;
    wants->out = 1080;
    play(WILZHORAM_CODE_TICK, 0, 0, 1);
}

int main(void) {
    begin();
    reports();
    traffic();
    swept();
    motorists();
    old_sheet();
    printf("boundary: %u events, each in the fields that the header has for it\n", events);
    return 0;
}
