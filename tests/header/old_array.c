/* A caller with the array of two that a lookup filled before it told tier and slot. It must not compile. */
#include "chronicle_map.h"

uint32_t look(const uint8_t *block, const uint8_t *image, size_t length, const uint8_t *key)
{
    uint64_t place[2];

    return chronicle_map_lookup(block, 71, image, length, key, 2, place);
}
