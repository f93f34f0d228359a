/* Looks before pressing (document 02, T-03), at the local operator's desk (T-04). The operator holds a crossing closed; before a
 * key is pressed, its preview is shown. The time release is refused, so its preview leaves the desk's panel; operator hold off
 * would raise the booms, and that key is pressed. */
#include "closed.h"

static const wilzhoram_event_bytes time_release = {WILZHORAM_CODE_TIME_RELEASE, 0, 0, 0};
static const wilzhoram_event_bytes hold_off = {WILZHORAM_CODE_OPERATOR_HOLD, 0, 0, 0};
static const uint8_t desk = WILZHORAM_SENDER_OPERATOR;

/* What a key would give, over the panel as it stands; the plant is not moved on. */
static void look(const char *key, wilzhoram_plant plant, wilzhoram_event_bytes event) {
    uint8_t panel[WILZHORAM_PANEL_LENGTH(1)];
    wilzhoram_draw(plant, desk, panel, sizeof panel);
    wilzhoram_preview_result preview = wilzhoram_preview(plant, desk, event, panel, sizeof panel);
    printf("look: %s, number %u, written off %u\n", key, preview.number, (unsigned)preview.written);
    print_panel(panel, sizeof panel);
}

int main(void) {
    wilzhoram_answer answer = closed_by(desk);
    if (refused(answer.number))
        return 1;
    wilzhoram_plant plant = answer.plant;
    printf("closed by the operator\n");
    if (show(plant, desk))
        return 1;
    look("time release", plant, time_release);
    look("operator hold off", plant, hold_off);
    answer = wilzhoram_event(plant, desk, hold_off);
    printf("pressed: operator hold off, number %u, written off %u\n", answer.number, (unsigned)answer.written);
    return show(answer.plant, desk);
}
