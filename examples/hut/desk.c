/* A desk and its rights (document 02, T-04). The remote centre has closed a crossing and looks at its panel, of which it sees bytes
 * 0 and 6 to 11. It may not take the hold off: number 17, and it sees what it saw. The local operator may. */
#include "closed.h"

static const wilzhoram_event_bytes hold_off = {WILZHORAM_CODE_OPERATOR_HOLD, 0, 0, 0};

/* Gives operator hold off and prints what the centre then sees. */
static wilzhoram_plant press(const char *name, uint8_t sender, wilzhoram_plant plant) {
    wilzhoram_answer answer = wilzhoram_event(plant, sender, hold_off);
    printf("operator hold off by the %s: number %u\n", name, answer.number);
    show(answer.plant, WILZHORAM_SENDER_CENTRE);
    return answer.plant;
}

int main(void) {
    wilzhoram_answer answer = closed_by(WILZHORAM_SENDER_CENTRE);
    if (refused(answer.number))
        return 1;
    printf("closed by the remote centre; detection sees\n");
    show(answer.plant, WILZHORAM_SENDER_DETECTION);
    printf("the centre sees\n");
    show(answer.plant, WILZHORAM_SENDER_CENTRE);
    wilzhoram_plant plant = press("remote centre", WILZHORAM_SENDER_CENTRE, answer.plant);
    press("local operator", WILZHORAM_SENDER_OPERATOR, plant);
    return 0;
}
