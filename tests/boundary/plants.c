/* Plants of any bytes, handed to every call that takes a plant or its settings. Half are random bytes throughout; half come
 * from a book by random events, with one to three bytes changed, so that plants in range are met as well. And plants with
 * every value of each unsure flag, and with ticks left about their limit. Each answer is compared with what document 01,
 * amended by T-01, T-04 and T-06, gives; which number of 5 to 8, 10 to 13 and 17 an event in range gets is left to
 * ci/compare. */
#include "boundary.h"
#include <stdio.h>
#include <string.h>

enum { PLANTS = 100000, LIFE = 200, EDGE = 32, LENT = 160, EVENTS = 12, EVENTS_OWN = 32 };

/* What a call gave, with the edges before and after the lent bytes. */
typedef struct {
    unsigned number, taken, refused;
    uint32_t written;
    wilzhoram_plant plant;
    uint8_t lent[EDGE + LENT + EDGE];
} outcome;

/* The inputs beside the plant, and the lent bytes before every call. */
static wilzhoram_event_bytes event;
static uint8_t sender;
static uint8_t sheet[WILZHORAM_SHEET_LENGTH(EVENTS)], before[EDGE + LENT + EDGE];
static size_t sheet_length, lent_length;

static size_t padding[sizeof(wilzhoram_plant)], paddings; /* the plant's bytes that no field has */

static void call_event(const wilzhoram_plant *plant, outcome *out) {
    wilzhoram_answer answer = wilzhoram_event(*plant, sender, event);
    out->number = answer.number;
    out->written = answer.written;
    out->plant = answer.plant;
}

static void call_draw(const wilzhoram_plant *plant, outcome *out) {
    out->number = wilzhoram_draw(*plant, sender, out->lent + EDGE, lent_length);
}

static void call_preview(const wilzhoram_plant *plant, outcome *out) {
    wilzhoram_preview_result preview = wilzhoram_preview(*plant, sender, event, out->lent + EDGE, lent_length);
    out->number = preview.number;
    out->written = preview.written;
}

static size_t sheet_size(void) {
    return sheet[0] + 256 * (size_t)sheet[1];
}

static void call_run(const wilzhoram_plant *plant, outcome *out) {
    wilzhoram_run_result run = wilzhoram_run(*plant, sheet, sheet_length, out->lent + EDGE, lent_length);
    if (run.number == 0 && (size_t)run.taken + run.refused != sheet_size())
        fail("run: %u taken and %u refused of %zu events", run.taken, run.refused, sheet_size());
    out->number = run.number;
    out->taken = run.taken;
    out->refused = run.refused;
    out->written = run.written;
    out->plant = run.plant;
}

static void call_write(const wilzhoram_plant *plant, outcome *out) {
    out->number = wilzhoram_write(plant->site, out->lent + EDGE, lent_length);
}

/* T-04: the plant, then the sender. EVENTS_OWN: any number but 14 to 16. */
static unsigned event_number(const wilzhoram_plant *plant) {
    if (!in_range(plant))
        return WILZHORAM_NUMBER_OUT_OF_RANGE;
    return sender > WILZHORAM_SENDER_CENTRE ? WILZHORAM_NUMBER_UNKNOWN_SENDER : EVENTS_OWN;
}

static unsigned frame_number(const wilzhoram_plant *plant) {
    return lent_length == WILZHORAM_PANEL_LENGTH(plant->site.n) ? 0 : WILZHORAM_NUMBER_BAD_OUTPUT_LENGTH;
}

static unsigned draw_number(const wilzhoram_plant *plant) {
    unsigned number = event_number(plant);
    return number != EVENTS_OWN ? number : frame_number(plant);
}

/* T-03: the numbers of a drawing, then the event's. */
static unsigned preview_number(const wilzhoram_plant *plant) {
    unsigned number = draw_number(plant);
    return number != 0 ? number : EVENTS_OWN;
}

static unsigned run_number(const wilzhoram_plant *plant) {
    if (!in_range(plant))
        return WILZHORAM_NUMBER_OUT_OF_RANGE;
    if (sheet_length < 2)
        return WILZHORAM_NUMBER_BAD_SHEET_LENGTH;
    if (sheet_size() > WILZHORAM_MOST_EVENTS)
        return WILZHORAM_NUMBER_BAD_COUNT;
    bool whole = sheet_length == WILZHORAM_SHEET_LENGTH(sheet_size());
    return whole ? frame_number(plant) : WILZHORAM_NUMBER_BAD_SHEET_LENGTH;
}

static unsigned write_number(const wilzhoram_plant *plant) {
    unsigned number = settings_number(&plant->site);
    if (number != 0)
        return number;
    return lent_length == WILZHORAM_BOOK_LENGTH(plant->site.n) ? 0 : WILZHORAM_NUMBER_BAD_OUTPUT_LENGTH;
}

typedef struct {
    tally *numbers;
    void (*call)(const wilzhoram_plant *, outcome *);
    unsigned (*wanted)(const wilzhoram_plant *);
} trial;

static const trial event_trial = {&of_event, call_event, event_number}, draw_trial = {&of_draw, call_draw, draw_number},
                   preview_trial = {&of_preview, call_preview, preview_number}, run_trial = {&of_run, call_run, run_number},
                   write_trial = {&of_write, call_write, write_number};

_Noreturn static void wrong(const trial *t, const wilzhoram_plant *plant, unsigned number, const char *what) {
    const uint8_t *bytes = (const uint8_t *)plant;
    size_t site = offsetof(wilzhoram_plant, crossings), crossing = sizeof plant->crossings[0];
    printf("boundary: the bytes of the plant, by site and crossing:");
    for (size_t i = 0; i < sizeof *plant; i++)
        printf("%s%02x", i == 0 || (i >= site && (i - site) % crossing == 0) ? "\n" : " ", bytes[i]);
    printf("\n");
    fail("%s: number %u, %s", t->numbers->name, number, what);
}

static void check_number(const trial *t, const wilzhoram_plant *plant, unsigned number, unsigned wanted) {
    char words[32];
    if (wanted == EVENTS_OWN && WILZHORAM_NUMBER_BAD_OUTPUT_LENGTH <= number && number <= WILZHORAM_NUMBER_UNKNOWN_SENDER)
        wrong(t, plant, number, "but plant, sender and frame are right");
    if (wanted == EVENTS_OWN || number == wanted)
        return;
    snprintf(words, sizeof words, "%u expected", wanted);
    wrong(t, plant, number, words);
}

static bool same_outcome(const outcome *a, const outcome *b) {
    return a->number == b->number && a->taken == b->taken && a->refused == b->refused && a->written == b->written
        && same_plant(&a->plant, &b->plant) && memcmp(a->lent, b->lent, sizeof a->lent) == 0;
}

/* Where a call gives no plant the one given stands. */
static void make(const trial *t, const wilzhoram_plant *plant, outcome *out) {
    *out = (outcome){.plant = *plant};
    memcpy(out->lent, before, sizeof before);
    t->call(plant, out);
}

/* One call: its number; refused, all as it was; taken, a plant in range and edges as they were; and the same answer
 * with every padding byte turned over. */
static void try_call(const trial *t, const wilzhoram_plant *plant, wilzhoram_plant *after) {
    static outcome out, twin;
    wilzhoram_plant other = *plant;
    make(t, plant, &out);
    answered(t->numbers, out.number);
    check_number(t, plant, out.number, t->wanted(plant));
    size_t open = out.number == 0 ? lent_length : 0;
    if (memcmp(out.lent, before, EDGE) != 0 || memcmp(out.lent + EDGE + open, before + EDGE + open, LENT + EDGE - open) != 0)
        wrong(t, plant, out.number, "a byte changed that must not");
    if (out.number != 0 && (out.taken != 0 || out.refused != 0 || out.written != 0 || !same_plant(&out.plant, plant)))
        wrong(t, plant, out.number, "another plant or counts");
    if (in_range(plant) && !in_range(&out.plant))
        wrong(t, plant, out.number, "a plant out of range came of one in range");
    for (size_t i = 0; i < paddings; i++)
        ((uint8_t *)&other)[padding[i]] ^= 0xff;
    make(t, &other, &twin);
    if (!same_outcome(&out, &twin))
        wrong(t, plant, out.number, "padding counts");
    *after = out.plant;
}

/* The other inputs for a plant: three of four lengths are right. */
static void choose_inputs(const wilzhoram_plant *plant, size_t right) {
    unsigned n = 1 + below(8), used = plant->site.n >= 1 && plant->site.n <= 8 ? plant->site.n : n;
    event = random_event(used);
    sender = random_sender(event.code);
    sheet_length = random_sheet(sheet, below(EVENTS + 1), used);
    if (below(4) == 0)
        sheet_length = below(sizeof sheet + 1);
    if (below(8) == 0)
        random_bytes(sheet, 2);
    lent_length = right <= LENT && below(4) != 0 ? right : below(LENT + 1);
}

static void try_all(const wilzhoram_plant *plant) {
    wilzhoram_plant after;
    choose_inputs(plant, WILZHORAM_PANEL_LENGTH(plant->site.n));
    try_call(&event_trial, plant, &after);
    try_call(&draw_trial, plant, &after);
    try_call(&preview_trial, plant, &after);
    try_call(&run_trial, plant, &after);
    choose_inputs(plant, WILZHORAM_BOOK_LENGTH(plant->site.n));
    try_call(&write_trial, plant, &after);
}

/* The bytes whose change leaves the plant the same: no others, as same.c shows. */
static void find_padding(void) {
    static const wilzhoram_plant zero;
    for (size_t i = 0; i < sizeof zero; i++) {
        wilzhoram_plant plant = zero;
        ((uint8_t *)&plant)[i] = 1;
        if (same_plant(&plant, &zero))
            padding[paddings++] = i;
    }
}

/* T-01: every value of the unsure flag of each track in each record, in fresh plants of every size. In range: 0, and 1 on a
 * track that a crossing has. */
static unsigned try_unsure(void) {
    unsigned tried = 0;
    for (unsigned n = 1; n <= 8; n++) {
        wilzhoram_plant fresh = random_fresh(n);
        for (unsigned at = 0; at < 8 * 4 * 256; at++, tried++) {
            unsigned i = at / 1024, t = at / 256 % 4, value = at % 256;
            bool there = i < n && t < fresh.site.entries[i].tracks;
            wilzhoram_plant plant = fresh;
            plant.crossings[i].unsure[t] = (uint8_t)value;
            if (in_range(&plant) != (value <= (there ? 1u : 0u)))
                fail("range.c: value %u of the unsure flag of track %u in record %u of %u", value, t, i, n);
            try_all(&plant);
        }
    }
    return tried;
}

/* T-06: ticks left about M of each record, open and all ordered down, in fresh plants of every size. In range: up to M at an
 * open crossing, otherwise 0. */
static unsigned try_left(void) {
    unsigned tried = 0;
    for (unsigned n = 1; n <= 8; n++) {
        wilzhoram_plant fresh = random_fresh(n);
        for (unsigned at = 0; at < 8 * 2 * 5; at++, tried++) {
            unsigned i = at / 10, pause = fresh.site.entries[i].pause;
            unsigned values[5] = {0, 1, pause, pause + 1, 256 + pause}, value = values[at / 2 % 5];
            bool open = at % 2 == 0;
            wilzhoram_plant plant = fresh;
            plant.crossings[i].phase = open ? WILZHORAM_PHASE_OPEN : WILZHORAM_PHASE_ALL_DOWN;
            plant.crossings[i].left = (uint16_t)value;
            if (in_range(&plant) != (i < n ? value <= (open ? pause : 0) : open && value == 0))
                fail("range.c: %u ticks left in record %u of %u, %s, M %u", value, i, n, open ? "open" : "all down", pause);
            try_all(&plant);
        }
    }
    return tried;
}

int main(void) {
    wilzhoram_plant live = {0}, changed;
    unsigned long kept = 0;
    find_padding();
    random_bytes(before, sizeof before);
    for (unsigned i = 0; i < PLANTS; i++) {
        random_bytes(&changed, sizeof changed);
        try_all(&changed);
        if (i % LIFE == 0)
            live = random_fresh(1 + below(8));
        choose_inputs(&live, WILZHORAM_PANEL_LENGTH(live.site.n));
        try_call(&run_trial, &live, &live);
        changed = live;
        change(&changed);
        try_all(&changed);
        if (in_range(&changed)) {
            kept++;
            live = changed;
        }
    }
    unsigned flags = try_unsure(), lefts = try_left();
    printf("boundary: %u plants of random bytes, %u with bytes changed (%lu in range)", PLANTS, PLANTS, kept);
    printf(", %u with a value in an unsure flag, %u with ticks left", flags, lefts);
    print_tally(&of_event);
    print_tally(&of_draw);
    print_tally(&of_preview);
    print_tally(&of_run);
    print_tally(&of_write);
    printf("\n");
    return 0;
}
