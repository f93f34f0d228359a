/* Wilzhoram, the level-crossing engine: its eight calls for C. Link libwilzhoram.a (ci/build wilzhoram), x86-64.
 * docs/INTERFACE.md has the tables of bytes and numbers, docs/notes a page for each request (T-01 and so on).
 *
 * Every call ends on every input and answers with a number: 0 taken, otherwise why it was refused.
 * A refused call gives back the plant it was given and zero counts, and leaves every lent byte as it was.
 * Every field of a plant, settings or event may hold any value: a plant with one outside its range is number 15, settings to
 * write 2 or 3, an event 5 to 8. So may a sender, 16 (T-04), and a speed, a retardation and a gradient, 19 to 21 (T-08).
 * Padding bytes are no part of a plant: they count nowhere and are not kept. So compare two plants field by field, as
 * same_plant of examples/hut/same.h does, and never by memcmp.
 * A null pointer with length 0 is an empty slice and gets its number. A sheet and a panel must not overlap; two sheets may.
 * Every call is reentrant, keeps no state and allocates nothing. */
#ifndef WILZHORAM_H
#define WILZHORAM_H

#include <stdbool.h>
#include <stddef.h>
#include <stdint.h>

#ifdef __cplusplus
extern "C" {
#endif

/* The version, 10,000 a + 100 b + c: a is 1, the machine of document 01; b counts the requests of document 02 that are built,
 * c what else has changed for a caller since. wilzhoram_version() gives the library's. The linker knows it by a name that
 * holds the version: a program that calls it, once and anywhere, does not link with a library of another version. */
#define WILZHORAM_VERSION 10900
#define wilzhoram_version wilzhoram_version_10900

/* Site book --------------------------------------------------------------------------------------------------------------- */

#define WILZHORAM_MOST_CROSSINGS 8
#define WILZHORAM_BOOK_LENGTH(n) (1 + 9 * (size_t)(n)) /* bytes of a book of n crossings */

/* Kinds. */
#define WILZHORAM_KIND_LIGHTS     1 /* lights only */
#define WILZHORAM_KIND_HALF       2 /* half booms */
#define WILZHORAM_KIND_TWO_FULL   3 /* two full booms */
#define WILZHORAM_KIND_FOUR_FULL  4 /* four full booms */
#define WILZHORAM_KIND_OLD_LIGHTS 5 /* lights only under the 1959 sheet (T-09) */
#define WILZHORAM_KIND_OLD_HALF   6 /* half booms under the 1959 sheet (T-09) */

/* The settings of one crossing. */
typedef struct {
    uint8_t kind;   /* WILZHORAM_KIND_.. */
    uint8_t tracks; /* 1 to 4 */
    uint8_t mask;   /* bit t set where track t depends on a route */
    uint16_t pre;   /* F, pre-ringing in ticks, 1 to 180; 15 for kind 6 */
    uint16_t gap;   /* G, right booms to left in ticks, 1 to 90 for kind 4, otherwise 0 */
    uint16_t pause; /* M, time for motorists between closures in ticks, 0 to 540 (T-06) */
} wilzhoram_entry;

/* The settings of a plant: n crossings, 1 to 8; the entries past n all zero. */
typedef struct {
    uint8_t n;
    wilzhoram_entry entries[WILZHORAM_MOST_CROSSINGS];
} wilzhoram_site;

/* Events ------------------------------------------------------------------------------------------------------------------ */

/* An event: any four bytes. */
typedef struct {
    uint8_t code, crossing, place, value;
} wilzhoram_event_bytes;

/* Codes, each with what place and value hold, 0 where nothing is said. */
#define WILZHORAM_CODE_TICK          0 /* a third of a second, of the whole plant: crossing 0 */
#define WILZHORAM_CODE_STRIKE_IN     1 /* place: track */
#define WILZHORAM_CODE_PASSAGE       2 /* place: track */
#define WILZHORAM_CODE_KIOSK_HOLD    3 /* value: 0 off, 1 on */
#define WILZHORAM_CODE_OPERATOR_HOLD 4 /* value: 0 off, 1 on */
#define WILZHORAM_CODE_ROUTE         5 /* place: track; value: 0 cancelled, 1 set */
#define WILZHORAM_CODE_APPROACH      6 /* place: track; value: 0 free, 1 occupied */
#define WILZHORAM_CODE_TIME_RELEASE  7
#define WILZHORAM_CODE_BOOM_REPORT   8 /* place: boom, 0 and 1 right of the road, 2 and 3 left; value: WILZHORAM_BOOM_.. */
#define WILZHORAM_CODE_LAMP_REPORT   9 /* place: WILZHORAM_LAMP_..; value: 0 dead, 1 whole */

/* Boom reports. A lost position is neither up nor moving nor down (T-02). */
#define WILZHORAM_BOOM_UP     0
#define WILZHORAM_BOOM_MOVING 1
#define WILZHORAM_BOOM_DOWN   2
#define WILZHORAM_BOOM_LOST   3

/* Lamps. */
#define WILZHORAM_LAMP_ROAD_WHITE         0
#define WILZHORAM_LAMP_ROAD_RED           1
#define WILZHORAM_LAMP_TRAIN_SIGNAL_RED   2 /* amber at kind 6 */
#define WILZHORAM_LAMP_TRAIN_SIGNAL_WHITE 3
#define WILZHORAM_LAMP_FLASHER            4
#define WILZHORAM_LAMP_BOOM_0             5 /* kind 6 alone, as the next (T-09) */
#define WILZHORAM_LAMP_BOOM_1             6

/* Senders (T-04): who gives an event or looks at the panel. An event without the right is number 17, and a byte that a sender
 * does not see is drawn as 0. A sheet has no sender: a run has every right, and its panel every byte. */
#define WILZHORAM_SENDER_DETECTION 0
#define WILZHORAM_SENDER_KIOSK     1
#define WILZHORAM_SENDER_OPERATOR  2 /* local operator */
#define WILZHORAM_SENDER_CENTRE    3 /* remote centre */

/* A sheet of m events, and how many one may have; two sheets are compared up to the second limit (T-07). */
#define WILZHORAM_SHEET_LENGTH(m)   (2 + 4 * (size_t)(m)) /* bytes */
#define WILZHORAM_MOST_EVENTS       4096
#define WILZHORAM_MOST_SHIFT_EVENTS 256

/* Panel ------------------------------------------------------------------------------------------------------------------- */

/* Bytes of n crossings; those of crossing i begin at WILZHORAM_PANEL_LENGTH(i). */
#define WILZHORAM_PANEL_LENGTH(n) (16 * (size_t)(n))

/* The bytes of a crossing. */
#define WILZHORAM_PANEL_ROAD          0 /* WILZHORAM_ROAD_.. */
#define WILZHORAM_PANEL_LIT           1 /* bits WILZHORAM_LIT_.. */
#define WILZHORAM_PANEL_BELL          2 /* 1 sounds */
#define WILZHORAM_PANEL_BOOM_LAMPS    3 /* 1 on */
#define WILZHORAM_PANEL_RIGHT_DOWN    4 /* 1 right booms ordered down */
#define WILZHORAM_PANEL_LEFT_DOWN     5 /* 1 left booms ordered down */
#define WILZHORAM_PANEL_TRAIN_SIGNAL  6 /* WILZHORAM_TRAIN_SIGNAL_.. */
#define WILZHORAM_PANEL_DISTANT       7 /* WILZHORAM_DISTANT_.. */
#define WILZHORAM_PANEL_RELEASED      8 /* main signals released: bit t for track t */
#define WILZHORAM_PANEL_STATUS        9 /* bits WILZHORAM_STATUS_.. */
#define WILZHORAM_PANEL_PHASE        10 /* WILZHORAM_PHASE_.. */
#define WILZHORAM_PANEL_HOLDS        11 /* bits WILZHORAM_HOLD_.. */
#define WILZHORAM_PANEL_CALLING      12 /* trains, two bytes, low byte first */
#define WILZHORAM_PANEL_WAITING      14 /* trains, two bytes, low byte first */

/* Road. */
#define WILZHORAM_ROAD_DARK  0
#define WILZHORAM_ROAD_WHITE 1
#define WILZHORAM_ROAD_RED   2

/* Bits: lit in this beat. */
#define WILZHORAM_LIT_ROAD         1
#define WILZHORAM_LIT_BOOM_LAMPS   2
#define WILZHORAM_LIT_TRAIN_SIGNAL 4
#define WILZHORAM_LIT_DISTANT      8

/* Train signal. */
#define WILZHORAM_TRAIN_SIGNAL_DARK     0
#define WILZHORAM_TRAIN_SIGNAL_STOP     1
#define WILZHORAM_TRAIN_SIGNAL_PASSABLE 2 /* white at kinds 5 and 6 (T-09) */
#define WILZHORAM_TRAIN_SIGNAL_AMBER    3 /* kind 6 */

/* Distant; at kinds 5 and 6 as the train signal (T-09). */
#define WILZHORAM_DISTANT_DARK   0
#define WILZHORAM_DISTANT_VIOLET 1
#define WILZHORAM_DISTANT_WHITE  2
#define WILZHORAM_DISTANT_AMBER  3

/* Bits: status. */
#define WILZHORAM_STATUS_NORMAL  1 /* normal position */
#define WILZHORAM_STATUS_SECURED 2
#define WILZHORAM_STATUS_OVERDUE 4 /* out of normal more than 900 ticks */

/* Phases. */
#define WILZHORAM_PHASE_OPEN       0
#define WILZHORAM_PHASE_WARNING    1
#define WILZHORAM_PHASE_RIGHT_DOWN 2 /* right booms ordered down, kind 4 alone */
#define WILZHORAM_PHASE_ALL_DOWN   3 /* all ordered down */
#define WILZHORAM_PHASE_RAISING    4

/* Bits: holds. */
#define WILZHORAM_HOLD_KIOSK    1
#define WILZHORAM_HOLD_OPERATOR 2

/* Numbers ----------------------------------------------------------------------------------------------------------------- */

#define WILZHORAM_NUMBER_TAKEN              0
#define WILZHORAM_NUMBER_BAD_BOOK_LENGTH    1 /* a book that is empty or not of WILZHORAM_BOOK_LENGTH(n) */
#define WILZHORAM_NUMBER_BAD_COUNT          2 /* n not 1 to 8, or more than 4,096 events */
#define WILZHORAM_NUMBER_BAD_SETTING        3 /* a setting outside its range */
#define WILZHORAM_NUMBER_BAD_SHEET_LENGTH   4 /* a sheet under 2 bytes or not of WILZHORAM_SHEET_LENGTH(m) */
#define WILZHORAM_NUMBER_UNKNOWN_CODE       5
#define WILZHORAM_NUMBER_UNKNOWN_CROSSING   6
#define WILZHORAM_NUMBER_UNKNOWN_PLACE      7
#define WILZHORAM_NUMBER_UNKNOWN_VALUE      8
#define WILZHORAM_NUMBER_TRACK_FULL         9 /* no call gives it: a strike-in at 255 trains is taken (T-01) */
#define WILZHORAM_NUMBER_NO_TRAIN          10 /* passage with no train */
#define WILZHORAM_NUMBER_TRAIN_CALLING     11 /* operator hold off with a train calling */
#define WILZHORAM_NUMBER_NOT_CLEAR         12 /* time release with a hold on, a route set or an approach occupied */
#define WILZHORAM_NUMBER_NOT_DEPENDENT     13 /* route on a track that depends on none */
#define WILZHORAM_NUMBER_BAD_OUTPUT_LENGTH 14 /* a lent output of another length */
#define WILZHORAM_NUMBER_OUT_OF_RANGE      15 /* a plant with a field outside its range */
#define WILZHORAM_NUMBER_UNKNOWN_SENDER    16 /* T-04 */
#define WILZHORAM_NUMBER_NO_RIGHT          17 /* the sender may not send this event (T-04) */
#define WILZHORAM_NUMBER_SHIFT_TOO_LONG    18 /* more than 256 events to compare (T-07) */
#define WILZHORAM_NUMBER_BAD_SPEED         19 /* not 1 to 120 km/h (T-08) */
#define WILZHORAM_NUMBER_BAD_RETARDATION   20 /* not 500 to 1,500 mm/s2 (T-08) */
#define WILZHORAM_NUMBER_BAD_GRADIENT      21 /* not -30 to 30 per mille (T-08) */

/* Plant ------------------------------------------------------------------------------------------------------------------- */

/* What the plant holds for one crossing. A flag is 0 or 1. */
typedef struct {
    uint8_t calling[4], waiting[4]; /* trains, by track */
    uint8_t route[4], occupied[4];  /* flags, by track */
    uint8_t unsure[4];              /* flags, by track: struck in at 255 trains, no time release completed since (T-01) */
    uint8_t booms[4];               /* last reports, WILZHORAM_BOOM_.. */
    uint8_t lamps[7];               /* flags, 1 whole, by WILZHORAM_LAMP_.. */
    uint8_t kiosk, operator_hold;   /* flags */
    uint16_t countdown;             /* of the time release, 0 to 270 */
    uint8_t phase;                  /* WILZHORAM_PHASE_.. */
    uint16_t timer;                 /* 1 to F in phase 1, 1 to G in phase 2, otherwise 0 */
    uint16_t left;                  /* ticks left to motorists, 0 to M in phase 0, otherwise 0 (T-06) */
    uint16_t out;                   /* ticks out of normal, 0 to 1,080 (T-09) */
} wilzhoram_crossing;

/* The plant: it goes in and comes back by value. */
typedef struct {
    wilzhoram_site site;
    uint8_t beat; /* 0 to 3 */
    wilzhoram_crossing crossings[WILZHORAM_MOST_CROSSINGS];
} wilzhoram_plant;

/* Calls ------------------------------------------------------------------------------------------------------------------- */

/* What reading a book gives. */
typedef struct {
    uint8_t number;
    wilzhoram_plant plant;
} wilzhoram_reading;

/* What an event gives. */
typedef struct {
    uint8_t number;
    uint32_t written; /* trains written off: by releases that this tick completed, or 1 by a strike-in at 255 (T-01) */
    wilzhoram_plant plant;
} wilzhoram_answer;

/* What a preview gives: what the event would answer (T-03). No plant comes back. */
typedef struct {
    uint8_t number;
    uint32_t written;
} wilzhoram_preview_result;

/* What a sheet run gives. */
typedef struct {
    uint8_t number;
    wilzhoram_plant plant;
    uint16_t taken, refused; /* events */
    uint32_t written;        /* trains written off, summed over the events */
} wilzhoram_run_result;

/* What two sheets of one shift give (T-07). */
typedef struct {
    uint8_t number;
    bool agreed;
    uint16_t stretch; /* not agreed: the first stretch that fails, from 0; otherwise 0 */
} wilzhoram_agreement;

/* What a board distance gives (T-08). */
typedef struct {
    uint8_t number;
    uint16_t distance; /* metres, a multiple of 10, 10 to 2,810; refused: 0 */
} wilzhoram_distance;

/* The version of the library: WILZHORAM_VERSION. */
uint32_t wilzhoram_version(void);

/* Reads a site book: its fresh plant, or number 1, 2 or 3 and the fresh plant of an all-zero site. */
wilzhoram_reading wilzhoram_read(const uint8_t *book, size_t length);

/* Writes settings as a site book of WILZHORAM_BOOK_LENGTH(n): 0, or number 2, 3 or 14. */
uint8_t wilzhoram_write(wilzhoram_site site, uint8_t *book, size_t length);

/* Applies one event of a sender: the plant after it, or number 5 to 8, 10 to 13 or 15 to 17. */
wilzhoram_answer wilzhoram_event(wilzhoram_plant plant, uint8_t sender, wilzhoram_event_bytes event);

/* Draws the panel of WILZHORAM_PANEL_LENGTH(n) as a sender sees it: 0, or number 14 to 16. */
uint8_t wilzhoram_draw(wilzhoram_plant plant, uint8_t sender, uint8_t *panel, size_t length);

/* Looks before an event of a sender (T-03): its number and written-off count, and in the panel what a drawing after it would
 * give that sender; the plant is not moved on. 15, 16, 14, then the event's own numbers. */
wilzhoram_preview_result wilzhoram_preview(wilzhoram_plant plant, uint8_t sender, wilzhoram_event_bytes event, uint8_t *panel,
                                           size_t length);

/* Applies each event of a sheet in turn and draws the panel after the last: 0, or number 2, 4, 14 or 15. */
wilzhoram_run_result wilzhoram_run(wilzhoram_plant plant, const uint8_t *sheet, size_t sheet_length, uint8_t *panel,
                                   size_t panel_length);

/* Compares the hut's sheet of a shift with the cabin's, stretch by stretch between ticks (T-07): agreed or not, or number 2 or
 * 4, the hut's before the cabin's, or 18. A refusal is not agreed. */
wilzhoram_agreement wilzhoram_agree(const uint8_t *hut, size_t hut_length, const uint8_t *cabin, size_t cabin_length);

/* The distance of an arrow board from the crossing, up to a full 10 m, by the formula of source document 000, section 3.4.3
 * (T-08): speed in km/h, retardation in mm/s2, gradient in per mille, a fall towards the crossing negative. 0, or number 19, 20
 * or 21, in that order. */
wilzhoram_distance wilzhoram_board_distance(uint16_t speed, uint16_t retardation, int16_t gradient);

/* The stack that a call needs, in bytes: the room for its result and arguments by value, and all that it uses below them.
 * Measured by ci/boundary on a thread with a painted stack, over every number and event code, and rounded up. The C
 * library's memory functions, all that a call calls, are bound when the program starts (-z now, or linked statically). */
#define WILZHORAM_STACK_VERSION        64
#define WILZHORAM_STACK_READ           1408
#define WILZHORAM_STACK_WRITE          320
#define WILZHORAM_STACK_EVENT          5248
#define WILZHORAM_STACK_DRAW           1344
#define WILZHORAM_STACK_PREVIEW        4352
#define WILZHORAM_STACK_RUN            3520
#define WILZHORAM_STACK_AGREE          3328
#define WILZHORAM_STACK_BOARD_DISTANCE 64

#ifdef __cplusplus
}
#endif

#endif
