/* Two plants compared field by field. Padding is no part of a plant and is not kept: memcmp may call one plant two. */
#ifndef SAME_H
#define SAME_H

#include "wilzhoram.h"
#include <string.h>

static inline bool same_entry(const wilzhoram_entry *a, const wilzhoram_entry *b) {
    return a->kind == b->kind && a->tracks == b->tracks && a->mask == b->mask && a->pre == b->pre && a->gap == b->gap
        && a->pause == b->pause;
}

/* An array of bytes has no padding. */
static inline bool same_crossing(const wilzhoram_crossing *a, const wilzhoram_crossing *b) {
    return memcmp(a->calling, b->calling, sizeof a->calling) == 0 && memcmp(a->waiting, b->waiting, sizeof a->waiting) == 0
        && memcmp(a->route, b->route, sizeof a->route) == 0 && memcmp(a->occupied, b->occupied, sizeof a->occupied) == 0
        && memcmp(a->unsure, b->unsure, sizeof a->unsure) == 0 && memcmp(a->booms, b->booms, sizeof a->booms) == 0
        && memcmp(a->lamps, b->lamps, sizeof a->lamps) == 0 && a->kiosk == b->kiosk
        && a->operator_hold == b->operator_hold && a->countdown == b->countdown && a->phase == b->phase
        && a->timer == b->timer && a->left == b->left && a->out == b->out;
}

static inline bool same_plant(const wilzhoram_plant *a, const wilzhoram_plant *b) {
    bool same = a->site.n == b->site.n && a->beat == b->beat;
    for (int i = 0; same && i < WILZHORAM_MOST_CROSSINGS; i++)
        same = same_entry(&a->site.entries[i], &b->site.entries[i]) && same_crossing(&a->crossings[i], &b->crossings[i]);
    return same;
}

#endif
