/* Is it the same plant? A padding byte makes no other one, though memcmp says so; a refused event gives back the plant it was
 * given; a strike-in gives another, and the passage of that train in the warning the first again. */
#include "same.h"
#include <stdio.h>

static const char *word(bool same) {
    return same ? "the same" : "another";
}

/* Plays an event and says whether the plant after it is the first. */
static wilzhoram_plant play(const char *words, wilzhoram_plant plant, uint8_t code, const wilzhoram_plant *first) {
    const wilzhoram_event_bytes event = {code, 0, 0, 0};
    wilzhoram_answer answer = wilzhoram_event(plant, WILZHORAM_SENDER_DETECTION, event);
    printf("%s, number %u: %s plant\n", words, answer.number, word(same_plant(&answer.plant, first)));
    return answer.plant;
}

int main(void) {
    /* One crossing, lights only on a plain track, F 2. */
    static const uint8_t book[] = {1, WILZHORAM_KIND_LIGHTS, 1, 0, 2, 0, 0, 0, 0, 0};
    wilzhoram_reading site = wilzhoram_read(book, sizeof book);
    wilzhoram_plant first = site.plant, plant;
    memcpy(&plant, &first, sizeof plant);
    uint8_t *between = (uint8_t *)&plant + offsetof(wilzhoram_plant, site.entries) + offsetof(wilzhoram_entry, mask) + 1;
    *between ^= 1; /* between mask and F no field has a byte */
    printf("a padding byte changed: %s plant; by memcmp %s\n", word(same_plant(&plant, &first)),
           word(memcmp(&plant, &first, sizeof plant) == 0));
    plant = play("a passage without a train", plant, WILZHORAM_CODE_PASSAGE, &first);
    plant = play("a strike-in", plant, WILZHORAM_CODE_STRIKE_IN, &first);
    play("its passage", plant, WILZHORAM_CODE_PASSAGE, &first);
    return site.number;
}
