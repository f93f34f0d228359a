/* Board distance to the metre (document 02, T-08): the printed table of source document 000, section 3.4.3, for 870 mm/s2,
 * worked out by the formula; then inputs about the bounds. */
#include "wilzhoram.h"
#include <stdio.h>

static void tell(uint16_t speed, uint16_t retardation, int16_t gradient) {
    wilzhoram_distance board = wilzhoram_board_distance(speed, retardation, gradient);
    printf("%u km/h, %u mm/s2, %d per mille: ", speed, retardation, gradient);
    if (board.number != 0)
        printf("refused %u\n", board.number);
    else
        printf("%u m\n", board.distance);
}

int main(void) {
    static const uint16_t speeds[] = {45, 60, 75, 100, 120};
    printf("870 mm/s2   +15  +10   +5    0   -5  -10  -15\n");
    for (int row = 0; row < 5; row++) {
        printf("%4u km/h ", speeds[row]);
        for (int gradient = 15; gradient >= -15; gradient -= 5)
            printf(" %4u", wilzhoram_board_distance(speeds[row], 870, (int16_t)gradient).distance);
        printf("\n");
    }
    tell(9, 1250, 0);
    tell(1, 1500, 30);
    tell(120, 500, -30);
    tell(0, 499, 31);
    tell(60, 1501, 31);
    tell(60, 870, -31);
    return 0;
}
