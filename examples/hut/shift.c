/* Hut against cabin (document 02, T-07): sheets of one shift, compared. Each letter is an event: . tick, S strike-in, P passage,
 * s strike-in at another crossing, ? unknown code, x code 0 with a value that is not 0, which is no tick. */
#include "wilzhoram.h"
#include <stdio.h>
#include <string.h>

enum { MOST = WILZHORAM_MOST_SHIFT_EVENTS + 1 };

static const struct {
    char letter;
    wilzhoram_event_bytes event;
} letters[] = {
    {'.', {WILZHORAM_CODE_TICK, 0, 0, 0}},
    {'S', {WILZHORAM_CODE_STRIKE_IN, 0, 0, 0}},
    {'P', {WILZHORAM_CODE_PASSAGE, 0, 0, 0}},
    {'s', {WILZHORAM_CODE_STRIKE_IN, 1, 0, 0}},
    {'?', {200, 1, 2, 3}},
    {'x', {WILZHORAM_CODE_TICK, 0, 0, 1}},
};

static wilzhoram_event_bytes event_of(char letter) {
    size_t at = 0;
    while (letters[at].letter != letter)
        at++;
    return letters[at].event;
}

/* A sheet: the size, the codes, the triples. */
static size_t make(uint8_t *sheet, const char *shift) {
    size_t m = strlen(shift);
    uint8_t *triple = sheet + 2 + m;
    sheet[0] = (uint8_t)m;
    sheet[1] = (uint8_t)(m >> 8);
    for (size_t i = 0; i < m; i++, triple += 3) {
        wilzhoram_event_bytes event = event_of(shift[i]);
        sheet[2 + i] = event.code;
        triple[0] = event.crossing;
        triple[1] = event.place;
        triple[2] = event.value;
    }
    return WILZHORAM_SHEET_LENGTH(m);
}

static void tell(wilzhoram_agreement agreement) {
    if (agreement.number != 0)
        printf("refused %u\n", agreement.number);
    else if (agreement.agreed)
        printf("agreed\n");
    else
        printf("not agreed, stretch %u\n", agreement.stretch);
}

/* The last `torn` bytes of the hut's sheet are missing. */
static void compare(const char *words, const char *hut, const char *cabin, size_t torn) {
    static uint8_t ours[WILZHORAM_SHEET_LENGTH(MOST)], theirs[WILZHORAM_SHEET_LENGTH(MOST)];
    size_t length = make(ours, hut) - torn, other = make(theirs, cabin);
    printf("%s: ", words);
    tell(wilzhoram_agree(ours, length, theirs, other));
}

int main(void) {
    static char ticks[MOST + 1];
    memset(ticks, '.', MOST);
    compare("SP.s and PS.s, another order", "SP.s", "PS.s", 0);
    compare("SP.s and S.Ps, a passage after the tick", "SP.s", "S.Ps", 0);
    compare("S.SSP and S.SPP, not as often", "S.SSP", "S.SPP", 0);
    compare("S.P.s and S.s.P, two stretches fail", "S.P.s", "S.s.P", 0);
    compare("S.. and S., an empty stretch more", "S..", "S.", 0);
    compare("S. and Sx, no tick", "S.", "Sx", 0);
    compare("x?S. and S?x., no known code", "x?S.", "S?x.", 0);
    compare("two empty sheets", "", "", 0);
    compare("256 ticks twice", ticks + 1, ticks + 1, 0);
    compare("257 ticks twice", ticks, ticks, 0);
    compare("a torn sheet and 257 ticks", "S", ticks, 1);
    return 0;
}
