/* What the examples share: a refusal said, and a panel printed, a row for each crossing. */
#ifndef HUT_H
#define HUT_H

#include "wilzhoram.h"
#include <stdio.h>

/* Says a refusal; true where there is one. */
static int refused(uint8_t number) {
    if (number != 0)
        printf("refused %u\n", number);
    return number != 0;
}

static void print_panel(const uint8_t *panel, size_t length) {
    for (size_t i = 0; WILZHORAM_PANEL_LENGTH(i) < length; i++) {
        printf("%zu:", i);
        for (size_t at = WILZHORAM_PANEL_LENGTH(i); at < WILZHORAM_PANEL_LENGTH(i + 1); at++)
            printf(" %02x", panel[at]);
        printf("\n");
    }
}

/* Draws the panel of a plant as a sender sees it (document 02, T-04) and prints it. */
static int show(wilzhoram_plant plant, uint8_t sender) {
    uint8_t panel[WILZHORAM_PANEL_LENGTH(WILZHORAM_MOST_CROSSINGS)];
    size_t length = WILZHORAM_PANEL_LENGTH(plant.site.n);
    if (refused(wilzhoram_draw(plant, sender, panel, length)))
        return 1;
    print_panel(panel, length);
    return 0;
}

#endif
