/* A crossing that a desk holds closed. */
#ifndef CLOSED_H
#define CLOSED_H

#include "hut.h"

/* One crossing, two full booms on a plain track, F 2, M 0: operator hold on by a sender that may give it; by detection F ticks and
 * both booms reported down. */
static wilzhoram_answer closed_by(uint8_t sender) {
    static const uint8_t book[] = {1, WILZHORAM_KIND_TWO_FULL, 1, 0, 2, 0, 0, 0, 0, 0};
    static const wilzhoram_event_bytes hold_on = {WILZHORAM_CODE_OPERATOR_HOLD, 0, 0, 1};
    static const wilzhoram_event_bytes closing[] = {
        {WILZHORAM_CODE_TICK, 0, 0, 0},
        {WILZHORAM_CODE_TICK, 0, 0, 0},
        {WILZHORAM_CODE_BOOM_REPORT, 0, 0, WILZHORAM_BOOM_DOWN},
        {WILZHORAM_CODE_BOOM_REPORT, 0, 1, WILZHORAM_BOOM_DOWN},
    };
    wilzhoram_reading site = wilzhoram_read(book, sizeof book);
    wilzhoram_answer answer = {.number = site.number, .plant = site.plant};
    if (answer.number == 0)
        answer = wilzhoram_event(answer.plant, sender, hold_on);
    for (size_t i = 0; answer.number == 0 && i < sizeof closing / sizeof closing[0]; i++)
        answer = wilzhoram_event(answer.plant, WILZHORAM_SENDER_DETECTION, closing[i]);
    return answer;
}

#endif
