/* Inputs from one seeded generator (xorshift). */
#include "boundary.h"

uint32_t below(uint32_t limit) {
    static uint64_t state = 550;
    state ^= state << 13;
    state ^= state >> 7;
    state ^= state << 17;
    return (uint32_t)(state >> 32) % limit;
}

void random_bytes(void *at, size_t length) {
    for (uint8_t *byte = at; length > 0; length--)
        *byte++ = (uint8_t)below(256);
}

/* A whole book; short times half of the time, so that later phases are reached; M 0 half of the time. */
size_t random_book(uint8_t *book, unsigned n) {
    uint8_t *first = book + 1, *second = book + 1 + 3 * n;
    book[0] = (uint8_t)n;
    for (unsigned i = 0; i < n; i++, first += 3, second += 6) {
        first[0] = (uint8_t)(1 + below(6));
        first[1] = (uint8_t)(1 + below(4));
        first[2] = (uint8_t)below(1u << first[1]);
        second[0] = first[0] == WILZHORAM_KIND_OLD_HALF ? 15 : (uint8_t)(1 + below(below(2) ? 3 : 180));
        second[2] = first[0] == WILZHORAM_KIND_FOUR_FULL ? (uint8_t)(1 + below(below(2) ? 3 : 90)) : 0;
        second[1] = second[3] = 0;
        uint32_t pause = below(2) ? 0 : below(below(2) ? 4 : 541);
        second[4] = (uint8_t)pause;
        second[5] = (uint8_t)(pause >> 8);
    }
    return WILZHORAM_BOOK_LENGTH(n);
}

wilzhoram_plant random_fresh(unsigned n) {
    uint8_t book[BOOK_MOST];
    size_t length = random_book(book, n);
    wilzhoram_reading reading = wilzhoram_read(book, length);
    if (reading.number != 0)
        fail("read: number %u on a whole book", reading.number);
    return reading.plant;
}

/* An event of the table, most of the time for this plant; in one of eight, one byte is any. */
wilzhoram_event_bytes random_event(unsigned n) {
    static const uint8_t places[10] = {1, 4, 4, 1, 1, 4, 4, 1, 4, 7};
    static const uint8_t values[10] = {1, 1, 1, 2, 2, 2, 2, 1, WILZHORAM_BOOM_LOST + 1, 2};
    unsigned code = below(4) == 0 ? 0 : below(10);
    uint8_t bytes[4] = {(uint8_t)code, (uint8_t)below(code == 0 ? 1 : n), (uint8_t)below(places[code]),
                        (uint8_t)below(values[code])};
    if (below(8) == 0)
        bytes[below(4)] = (uint8_t)below(256);
    return (wilzhoram_event_bytes){bytes[0], bytes[1], bytes[2], bytes[3]};
}

/* One that may send the code, whatever the value (document 02, T-04). */
uint8_t who_may(uint8_t code) {
    if (code == WILZHORAM_CODE_OPERATOR_HOLD || code == WILZHORAM_CODE_TIME_RELEASE)
        return WILZHORAM_SENDER_OPERATOR;
    return code == WILZHORAM_CODE_KIOSK_HOLD ? WILZHORAM_SENDER_KIOSK : WILZHORAM_SENDER_DETECTION;
}

/* Most of the time one that may send the code; in one of four any of the four senders, in one of sixteen any number. */
uint8_t random_sender(uint8_t code) {
    if (below(16) == 0)
        return (uint8_t)below(256);
    return below(4) == 0 ? (uint8_t)below(4) : who_may(code);
}

size_t random_sheet(uint8_t *sheet, unsigned events, unsigned n) {
    uint8_t *codes = sheet + 2, *triples = codes + events;
    sheet[0] = (uint8_t)events;
    sheet[1] = (uint8_t)(events >> 8);
    for (unsigned i = 0; i < events; i++, triples += 3) {
        wilzhoram_event_bytes event = random_event(n);
        codes[i] = event.code;
        triples[0] = event.crossing;
        triples[1] = event.place;
        triples[2] = event.value;
    }
    return WILZHORAM_SHEET_LENGTH(events);
}

void change(wilzhoram_plant *plant) {
    static const uint8_t likely[] = {0, 1, 2, 3, 4, 255};
    uint8_t *bytes = (uint8_t *)plant;
    for (uint32_t left = 1 + below(3); left > 0; left--)
        bytes[below(sizeof *plant)] = (uint8_t)(below(2) ? below(256) : likely[below(sizeof likely)]);
}
