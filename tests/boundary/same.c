/* same_plant (examples/hut/same.h), over every byte of plants: one that differs in a byte of a field is another plant, one that
 * differs in padding is not. Which bytes are the fields' shows in an all-zero plant; how many there must be, packed.c says. */
#include "boundary.h"
#include <stdio.h>
#include <string.h>

enum { PLANTS = 200, BYTES = sizeof(wilzhoram_plant) };

extern const size_t field_bytes;

static bool is_field[BYTES];

/* Byte i alone differs, in any of its bits. */
static bool differs_at(const wilzhoram_plant *plant, size_t i) {
    wilzhoram_plant other;
    memcpy(&other, plant, sizeof other);
    ((uint8_t *)&other)[i] ^= (uint8_t)(1 + below(255));
    return !same_plant(plant, &other) && !same_plant(&other, plant);
}

static void find_fields(void) {
    static const wilzhoram_plant zero;
    size_t fields = 0;
    for (size_t i = 0; i < BYTES; i++)
        if ((is_field[i] = differs_at(&zero, i)))
            fields++;
    if (fields != field_bytes)
        fail("same_plant: %zu bytes make a difference, but the fields have %zu", fields, field_bytes);
}

static void try_plant(const wilzhoram_plant *plant) {
    wilzhoram_plant other;
    for (size_t i = 0; i < BYTES; i++)
        if (differs_at(plant, i) != is_field[i])
            fail("same_plant: a difference in byte %zu is %s", i, is_field[i] ? "not found" : "found, and it is padding");
    memcpy(&other, plant, sizeof other);
    for (size_t i = 0; i < BYTES; i++)
        if (!is_field[i])
            ((uint8_t *)&other)[i] ^= 0xff;
    if (!same_plant(plant, &other))
        fail("same_plant: another plant by its padding alone");
}

int main(void) {
    wilzhoram_plant plant;
    find_fields();
    for (int i = 0; i < PLANTS; i++) {
        random_bytes(&plant, sizeof plant);
        try_plant(&plant);
    }
    printf("boundary: same_plant finds a difference in each of %zu bytes of fields, and none in %zu of padding\n", field_bytes,
           BYTES - field_bytes);
    return 0;
}
