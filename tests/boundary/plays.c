/* The plays: loops over inputs made before, in which nothing is called but the engine. */
#include "plays.h"
#include <string.h>

enum { PLANTS = 320, BOOKS = 200, SHEETS = 8, SHIFTS = 12 };

static wilzhoram_plant plants[PLANTS];
static uint8_t books[BOOKS][BOOK_MOST], sheets[SHEETS][SHEET_MOST], lent[PANEL_MOST];
static uint8_t shifts[SHIFTS][SHEET_MOST];
static size_t book_lengths[BOOKS], sheet_lengths[SHEETS], shift_lengths[SHIFTS];
unsigned met;

typedef struct {
    uint32_t (*version)(void);
    wilzhoram_reading (*read)(const uint8_t *, size_t);
    uint8_t (*write)(wilzhoram_site, uint8_t *, size_t);
    wilzhoram_answer (*event)(wilzhoram_plant, uint8_t, wilzhoram_event_bytes);
    uint8_t (*draw)(wilzhoram_plant, uint8_t, uint8_t *, size_t);
    wilzhoram_preview_result (*preview)(wilzhoram_plant, uint8_t, wilzhoram_event_bytes, uint8_t *, size_t);
    wilzhoram_run_result (*run)(wilzhoram_plant, const uint8_t *, size_t, uint8_t *, size_t);
    wilzhoram_agreement (*agree)(const uint8_t *, size_t, const uint8_t *, size_t);
    wilzhoram_distance (*board_distance)(uint16_t, uint16_t, int16_t);
} engine;

static uint32_t idle_version(void) {
    return WILZHORAM_VERSION;
}

static wilzhoram_reading idle_read(const uint8_t *book, size_t length) {
    wilzhoram_reading reading;
    reading.number = book == NULL && length == 0;
    return reading;
}

static uint8_t idle_write(wilzhoram_site site, uint8_t *book, size_t length) {
    return site.n == 0 && book == NULL && length == 0;
}

static wilzhoram_answer idle_event(wilzhoram_plant plant, uint8_t sender, wilzhoram_event_bytes event) {
    wilzhoram_answer answer;
    answer.number = plant.beat == event.code && sender == 0;
    return answer;
}

static uint8_t idle_draw(wilzhoram_plant plant, uint8_t sender, uint8_t *panel, size_t length) {
    return plant.beat == sender && panel == NULL && length == 0;
}

static wilzhoram_preview_result idle_preview(wilzhoram_plant plant, uint8_t sender, wilzhoram_event_bytes event,
                                             uint8_t *panel, size_t length) {
    wilzhoram_preview_result preview = {plant.beat == event.code && sender == 0 && panel == NULL && length == 0, 0};
    return preview;
}

static wilzhoram_run_result idle_run(wilzhoram_plant plant, const uint8_t *sheet, size_t length, uint8_t *panel, size_t size) {
    wilzhoram_run_result run;
    run.number = plant.beat == 0 && sheet == panel && length == size;
    return run;
}

static wilzhoram_agreement idle_agree(const uint8_t *hut, size_t hut_length, const uint8_t *cabin, size_t cabin_length) {
    wilzhoram_agreement agreement = {hut == cabin && hut_length == cabin_length, false, 0};
    return agreement;
}

static wilzhoram_distance idle_board_distance(uint16_t speed, uint16_t retardation, int16_t gradient) {
    wilzhoram_distance distance = {speed == retardation && gradient == 0, 0};
    return distance;
}

static const engine idle_engine = {idle_version, idle_read, idle_write, idle_event,         idle_draw,
                                   idle_preview, idle_run,  idle_agree, idle_board_distance};
static const engine real_engine = {wilzhoram_version, wilzhoram_read, wilzhoram_write, wilzhoram_event,         wilzhoram_draw,
                                   wilzhoram_preview, wilzhoram_run,  wilzhoram_agree, wilzhoram_board_distance};
static const engine *volatile now; /* volatile: the compiler makes one code for both */

void use_engine(bool real) {
    now = real ? &real_engine : &idle_engine;
}

/* Number 0 for the header's own. */
static void play_version(void) {
    met |= 1u << (now->version() != WILZHORAM_VERSION);
}

static void play_read(void) {
    for (int i = 0; i < BOOKS; i++)
        met |= 1u << (now->read(books[i], book_lengths[i]).number & 31);
}

static void play_write(void) {
    for (int i = 0; i < PLANTS; i++)
        for (size_t length = 0; length <= BOOK_MOST; length++)
            met |= 1u << (now->write(plants[i].site, lent, length) & 31);
}

/* Codes, crossings, places and values of the table, and one beyond each. */
enum { EVENTS = 11 * 9 * 6 * 4 };
#define EVENT(at) \
    ((wilzhoram_event_bytes){(uint8_t)((at) % 11), (uint8_t)((at) / 11 % 9), (uint8_t)((at) / 99 % 6), (uint8_t)((at) / 594)})

/* The four senders (T-04), and one beyond them. */
enum { SENDERS = WILZHORAM_SENDER_CENTRE + 2 };

static void play_event(void) {
    for (int i = 0; i < PLANTS; i++)
        for (unsigned at = 0; at < EVENTS; at++)
            for (uint8_t sender = 0; sender < SENDERS; sender++)
                met |= 1u << (now->event(plants[i], sender, EVENT(at)).number & 31);
}

static void play_draw(void) {
    for (int i = 0; i < PLANTS; i++)
        for (size_t length = 0; length <= PANEL_MOST; length++)
            for (uint8_t sender = 0; sender < SENDERS; sender++)
                met |= 1u << (now->draw(plants[i], sender, lent, length) & 31);
}

/* Each event with a right frame, and every frame with an event. */
static void preview_for(const wilzhoram_plant *plant, uint8_t sender) {
    for (unsigned at = 0; at < EVENTS; at++)
        met |= 1u << (now->preview(*plant, sender, EVENT(at), lent, WILZHORAM_PANEL_LENGTH(plant->site.n % 9)).number & 31);
    for (size_t length = 0; length <= PANEL_MOST; length++)
        met |= 1u << (now->preview(*plant, sender, EVENT(length), lent, length).number & 31);
}

static void play_preview(void) {
    for (int i = 0; i < PLANTS; i++)
        for (uint8_t sender = 0; sender < SENDERS; sender++)
            preview_for(&plants[i], sender);
}

static void play_run(void) {
    for (int i = 0; i < PLANTS; i++)
        for (int k = 0; k < SHEETS; k++)
            for (size_t length = 0; length <= PANEL_MOST; length += WILZHORAM_PANEL_LENGTH(1))
                met |= 1u << (now->run(plants[i], sheets[k], sheet_lengths[k], lent, length).number & 31);
}

/* Each sheet against each. */
static void play_agree(void) {
    for (int i = 0; i < SHIFTS; i++)
        for (int k = 0; k < SHIFTS; k++)
            met |= 1u << (now->agree(shifts[i], shift_lengths[i], shifts[k], shift_lengths[k]).number & 31);
}

/* About each bound (T-08), and far outside. */
static void play_board_distance(void) {
    static const uint16_t speeds[] = {0, 1, 60, 120, 121, 65535}, retardations[] = {0, 499, 500, 1500, 1501, 65535};
    static const int16_t gradients[] = {INT16_MIN, -31, -30, 0, 30, 31, INT16_MAX};
    for (unsigned i = 0; i < 6 * 6 * 7; i++)
        met |= 1u << (now->board_distance(speeds[i / 42], retardations[i / 7 % 6], gradients[i % 7]).number & 31);
}

#define UP(size) (((size) + 7) / 8 * 8)
#define PLANT UP(sizeof(wilzhoram_plant))

const measured calls[CALLS] = {
    {&of_version, play_version, 0, WILZHORAM_STACK_VERSION},
    {&of_read, play_read, UP(sizeof(wilzhoram_reading)), WILZHORAM_STACK_READ},
    {&of_write, play_write, UP(sizeof(wilzhoram_site)), WILZHORAM_STACK_WRITE},
    {&of_event, play_event, UP(sizeof(wilzhoram_answer)) + PLANT, WILZHORAM_STACK_EVENT},
    {&of_draw, play_draw, PLANT, WILZHORAM_STACK_DRAW},
    {&of_preview, play_preview, PLANT, WILZHORAM_STACK_PREVIEW},
    {&of_run, play_run, UP(sizeof(wilzhoram_run_result)) + PLANT, WILZHORAM_STACK_RUN},
    {&of_agree, play_agree, 0, WILZHORAM_STACK_AGREE},
    {&of_board, play_board_distance, 0, WILZHORAM_STACK_BOARD_DISTANCE},
};

/* n from 1 to 8 in turn, each plant after a random sheet; some are then spoilt, some have a full track, some an unsure one
 * whose release the next tick completes. */
static void make_plants(void) {
    static uint8_t sheet[SHEET_MOST];
    for (int i = 0; i < PLANTS; i++) {
        unsigned n = 1 + (unsigned)i % 8;
        wilzhoram_plant fresh = random_fresh(n);
        size_t length = random_sheet(sheet, below(600), n);
        plants[i] = wilzhoram_run(fresh, sheet, length, lent, WILZHORAM_PANEL_LENGTH(n)).plant;
        switch (i / 8 % 8) {
        case 0: change(&plants[i]); break;
        case 1: plants[i].site.n = 0; break;
        case 2: plants[i].site.entries[n - 1].gap = 91; break;
        case 3:
            plants[i].crossings[0].calling[0] = 255;
            plants[i].crossings[0].waiting[0] = 0;
            break;
        case 4:
            plants[i].crossings[n - 1].unsure[0] = 1;
            plants[i].crossings[n - 1].countdown = 1;
        }
    }
}

/* Books and sheets: whole, torn, over-long, and books with a byte changed. */
static void make_files(void) {
    static const unsigned events[SHEETS] = {0, 1, 2, 50, 300, 4096, 4096, 4096};
    for (int i = 0; i < BOOKS; i++) {
        book_lengths[i] = random_book(books[i], 1 + (unsigned)i % 8);
        if (i / 8 % 3 == 1)
            books[i][below((uint32_t)book_lengths[i])] = (uint8_t)below(256);
        else if (i / 8 % 3 == 2)
            book_lengths[i] = below(BOOK_MOST + 1);
    }
    for (int i = 0; i < SHEETS; i++)
        sheet_lengths[i] = random_sheet(sheets[i], events[i], 8);
    sheet_lengths[2]--;
    sheets[SHEETS - 1][0] = 1; /* size 4,097 */
}

/* Sheets of a shift (T-07): of any size about 256, one twice, one of ticks alone, torn and over-long. */
static void make_shifts(void) {
    static const unsigned events[SHIFTS] = {0, 1, 40, 255, 256, 256, 256, 256, 257, 4096, 30, 4096};
    for (int i = 0; i < SHIFTS; i++)
        shift_lengths[i] = random_sheet(shifts[i], events[i], 8);
    memcpy(shifts[5], shifts[4], shift_lengths[4]);
    memset(shifts[6] + 2, 0, 4 * 256);
    memset(shifts[7] + 2, 1, 4 * 256);
    shift_lengths[10]--;
    shifts[11][0] = 1; /* size 4,097 */
}

void make_inputs(void) {
    make_plants();
    make_files();
    make_shifts();
}
