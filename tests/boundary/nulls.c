/* A null pointer with length 0 for every pointer of every call: an empty slice, with its number. */
#include "boundary.h"
#include <stdio.h>
#include <string.h>

static unsigned calls;

static void expect(const char *call, unsigned number, unsigned wanted) {
    calls++;
    if (number != wanted)
        fail("%s: number %u, %u expected", call, number, wanted);
}

static void expect_run(const wilzhoram_plant *plant, const uint8_t *sheet, size_t length, size_t panel, unsigned wanted) {
    static uint8_t lent[PANEL_MOST], before[PANEL_MOST];
    wilzhoram_run_result run = wilzhoram_run(*plant, sheet, length, panel == 0 ? NULL : lent, panel);
    expect("run", run.number, wanted);
    if (!same_plant(&run.plant, plant) || run.taken != 0 || run.refused != 0 || run.written != 0)
        fail("run: number %u with another plant or counts", run.number);
    if (memcmp(lent, before, sizeof lent) != 0)
        fail("run: number %u with a lent byte changed", run.number);
}

/* T-03, T-04: a tick, an unknown code, a passage with no train: the plant comes first, then the sender, then the frame,
 * whatever the event. */
static void previews(const wilzhoram_plant *plant, const wilzhoram_plant *spoilt) {
    static const wilzhoram_event_bytes events[] = {
        {WILZHORAM_CODE_TICK, 0, 0, 0},
        {10, 0, 0, 0},
        {WILZHORAM_CODE_PASSAGE, 0, 0, 0},
    };
    for (size_t i = 0; i < sizeof events / sizeof events[0]; i++) {
        wilzhoram_preview_result framed = wilzhoram_preview(*plant, 0, events[i], NULL, 0);
        wilzhoram_preview_result unknown = wilzhoram_preview(*plant, 4, events[i], NULL, 0);
        wilzhoram_preview_result refused = wilzhoram_preview(*spoilt, 4, events[i], NULL, 0);
        expect("preview", framed.number, WILZHORAM_NUMBER_BAD_OUTPUT_LENGTH);
        expect("preview", unknown.number, WILZHORAM_NUMBER_UNKNOWN_SENDER);
        expect("preview", refused.number, WILZHORAM_NUMBER_OUT_OF_RANGE);
        if (framed.written != 0 || unknown.written != 0 || refused.written != 0)
            fail("preview: refused with a count");
    }
}

static void runs(const wilzhoram_plant *plant, const wilzhoram_plant *spoilt) {
    static const uint8_t whole[2], torn[2] = {1, 0}, long_sheet[2] = {1, 16}; /* sizes 0, 1 and 4,097 */
    size_t panel = WILZHORAM_PANEL_LENGTH(plant->site.n);
    expect_run(plant, NULL, 0, 0, WILZHORAM_NUMBER_BAD_SHEET_LENGTH);
    expect_run(plant, NULL, 0, panel, WILZHORAM_NUMBER_BAD_SHEET_LENGTH);
    expect_run(plant, whole, 2, 0, WILZHORAM_NUMBER_BAD_OUTPUT_LENGTH);
    expect_run(plant, torn, 2, 0, WILZHORAM_NUMBER_BAD_SHEET_LENGTH);
    expect_run(plant, long_sheet, 2, 0, WILZHORAM_NUMBER_BAD_COUNT);
    expect_run(spoilt, NULL, 0, 0, WILZHORAM_NUMBER_OUT_OF_RANGE);
    expect_run(spoilt, NULL, 0, panel, WILZHORAM_NUMBER_OUT_OF_RANGE);
    expect_run(spoilt, whole, 2, 0, WILZHORAM_NUMBER_OUT_OF_RANGE);
}

/* T-07: the hut's number comes first; with a length of 0 each is torn, 4. */
static void expect_agree(const uint8_t *hut, size_t hut_length, const uint8_t *cabin, size_t cabin_length, unsigned wanted) {
    wilzhoram_agreement agreement = wilzhoram_agree(hut, hut_length, cabin, cabin_length);
    expect("agree", agreement.number, wanted);
    if (agreement.agreed || agreement.stretch != 0)
        fail("agree: refused, and agreed or with a stretch");
}

static void agreements(void) {
    static const uint8_t whole[2], long_sheet[2] = {1, 16};
    expect_agree(NULL, 0, NULL, 0, WILZHORAM_NUMBER_BAD_SHEET_LENGTH);
    expect_agree(whole, 2, NULL, 0, WILZHORAM_NUMBER_BAD_SHEET_LENGTH);
    expect_agree(NULL, 0, whole, 2, WILZHORAM_NUMBER_BAD_SHEET_LENGTH);
    expect_agree(NULL, 0, long_sheet, 2, WILZHORAM_NUMBER_BAD_SHEET_LENGTH);
    expect_agree(long_sheet, 2, NULL, 0, WILZHORAM_NUMBER_BAD_COUNT);
}

int main(void) {
    static const wilzhoram_plant zero;
    wilzhoram_plant plant = random_fresh(3), spoilt = plant;
    wilzhoram_site wrong = plant.site;
    wilzhoram_reading reading = wilzhoram_read(NULL, 0);
    spoilt.beat = 4;
    wrong.entries[2].tracks = 5;
    expect("read", reading.number, WILZHORAM_NUMBER_BAD_BOOK_LENGTH);
    if (!same_plant(&reading.plant, &zero))
        fail("read: number 1 with another plant than that of an all-zero site");
    expect("write", wilzhoram_write(plant.site, NULL, 0), WILZHORAM_NUMBER_BAD_OUTPUT_LENGTH);
    expect("write", wilzhoram_write(zero.site, NULL, 0), WILZHORAM_NUMBER_BAD_COUNT);
    expect("write", wilzhoram_write(wrong, NULL, 0), WILZHORAM_NUMBER_BAD_SETTING);
    expect("draw", wilzhoram_draw(plant, 3, NULL, 0), WILZHORAM_NUMBER_BAD_OUTPUT_LENGTH);
    expect("draw", wilzhoram_draw(plant, 4, NULL, 0), WILZHORAM_NUMBER_UNKNOWN_SENDER);
    expect("draw", wilzhoram_draw(spoilt, 4, NULL, 0), WILZHORAM_NUMBER_OUT_OF_RANGE);
    previews(&plant, &spoilt);
    runs(&plant, &spoilt);
    agreements();
    printf("boundary: %u calls with a null pointer of length 0, each with its number\n", calls);
    return 0;
}
