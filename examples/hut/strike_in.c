/* Reads a site book, lets a train strike in on track 0 of crossing 0, and prints the panel before and after. */
#include "hut.h"

int main(void) {
    /* Two crossings: two full booms on one track; four full booms on two tracks, track 1 of them dependent, M 90 (T-06). */
    static const uint8_t book[] = {
        2, WILZHORAM_KIND_TWO_FULL, 1, 0, WILZHORAM_KIND_FOUR_FULL, 2, 2, 2, 0, 0, 0, 0, 0, 30, 0, 18, 0, 90, 0,
    };
    const wilzhoram_event_bytes strike_in = {WILZHORAM_CODE_STRIKE_IN, 0, 0, 0};
    wilzhoram_reading site = wilzhoram_read(book, sizeof book);
    if (refused(site.number) || show(site.plant, WILZHORAM_SENDER_DETECTION))
        return 1;
    wilzhoram_answer answer = wilzhoram_event(site.plant, WILZHORAM_SENDER_DETECTION, strike_in);
    printf("strike-in: number %u, written off %u\n", answer.number, (unsigned)answer.written);
    return show(answer.plant, WILZHORAM_SENDER_DETECTION);
}
