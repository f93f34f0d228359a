/* The header with no padding: a plant is then as long as its fields. */
#include <stdbool.h>
#include <stddef.h>
#include <stdint.h>
#pragma pack(1)
#include "wilzhoram.h"

extern const size_t field_bytes;
const size_t field_bytes = sizeof(wilzhoram_plant);
