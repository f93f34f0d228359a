/* The ranges of settings and plant, from document 01 and requests T-01, T-02, T-06 and T-09 of document 02 alone. */
#include "boundary.h"

static bool entry_in(const wilzhoram_entry *e) {
    bool pre = e->kind == WILZHORAM_KIND_OLD_HALF ? e->pre == 15 : 1 <= e->pre && e->pre <= 180;
    bool gap = e->kind == WILZHORAM_KIND_FOUR_FULL ? 1 <= e->gap && e->gap <= 90 : e->gap == 0;
    return 1 <= e->kind && e->kind <= 6 && 1 <= e->tracks && e->tracks <= 4 && e->mask >> e->tracks == 0 && pre && gap
        && e->pause <= 540;
}

unsigned settings_number(const wilzhoram_site *site) {
    static const wilzhoram_entry zero;
    if (site->n < 1 || site->n > 8)
        return WILZHORAM_NUMBER_BAD_COUNT;
    for (int i = 0; i < 8; i++)
        if (!(i < site->n ? entry_in(&site->entries[i]) : same_entry(&site->entries[i], &zero)))
            return WILZHORAM_NUMBER_BAD_SETTING;
    return WILZHORAM_NUMBER_TAKEN;
}

static bool track_in(const wilzhoram_entry *e, const wilzhoram_crossing *c, int t) {
    int most = t < e->tracks ? 255 : 0, flag = t < e->tracks ? 1 : 0, dependent = e->mask >> t & 1;
    return c->calling[t] + c->waiting[t] <= most && (dependent || c->waiting[t] == 0) && c->route[t] <= dependent
        && c->occupied[t] <= flag && c->unsure[t] <= flag;
}

static bool lights_only(const wilzhoram_entry *e) {
    return e->kind == WILZHORAM_KIND_LIGHTS || e->kind == WILZHORAM_KIND_OLD_LIGHTS;
}

static bool phase_in(const wilzhoram_entry *e, unsigned phase, unsigned timer) {
    switch (phase) {
    case WILZHORAM_PHASE_WARNING: return 1 <= timer && timer <= e->pre;
    case WILZHORAM_PHASE_RIGHT_DOWN: return e->kind == WILZHORAM_KIND_FOUR_FULL && 1 <= timer && timer <= e->gap;
    case WILZHORAM_PHASE_RAISING: return !lights_only(e) && timer == 0;
    default: return (phase == WILZHORAM_PHASE_OPEN || phase == WILZHORAM_PHASE_ALL_DOWN) && timer == 0;
    }
}

static bool crossing_in(const wilzhoram_entry *e, const wilzhoram_crossing *c) {
    int booms = lights_only(e) ? 0 : e->kind == WILZHORAM_KIND_FOUR_FULL ? 4 : 2;
    int lamps = e->kind == WILZHORAM_KIND_OLD_HALF ? 7 : 5;
    bool in = c->kiosk <= 1 && c->operator_hold <= 1 && c->countdown <= 270 && c->out <= 1080
        && phase_in(e, c->phase, c->timer) && c->left <= (c->phase == WILZHORAM_PHASE_OPEN ? e->pause : 0);
    for (int i = 0; i < 4; i++)
        in = in && track_in(e, c, i) && c->booms[i] <= (i < booms ? WILZHORAM_BOOM_LOST : 0);
    for (int i = 0; i < 7; i++)
        in = in && c->lamps[i] <= (i < lamps ? 1 : 0);
    return in;
}

bool in_range(const wilzhoram_plant *plant) {
    static const wilzhoram_crossing zero;
    bool in = settings_number(&plant->site) == 0 && plant->beat <= 3;
    for (int i = 0; in && i < 8; i++)
        in = i < plant->site.n ? crossing_in(&plant->site.entries[i], &plant->crossings[i])
                               : same_crossing(&plant->crossings[i], &zero);
    return in;
}
