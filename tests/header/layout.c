/* The out structs of the header are numbers in a row: the compiled functions fill arrays of uint64_t. */
#include "chronicle_map.h"

#define NUMBERS(name, count) _Static_assert(sizeof(struct name) == count * sizeof(uint64_t), #name)
#define STANDS(name, field, place) _Static_assert(offsetof(struct name, field) == place * sizeof(uint64_t), #name " " #field)

NUMBERS(chronicle_map_counts, 4);
STANDS(chronicle_map_counts, entries, 0);
STANDS(chronicle_map_counts, chunks, 1);
STANDS(chronicle_map_counts, tiers, 2);
STANDS(chronicle_map_counts, free, 3);

NUMBERS(chronicle_map_place, 4);
STANDS(chronicle_map_place, offset, 0);
STANDS(chronicle_map_place, length, 1);
STANDS(chronicle_map_place, tier, 2);
STANDS(chronicle_map_place, slot, 3);

NUMBERS(chronicle_map_row, 7);
STANDS(chronicle_map_row, segment, 0);
STANDS(chronicle_map_row, tier, 1);
STANDS(chronicle_map_row, slot, 2);
STANDS(chronicle_map_row, chunk, 3);
STANDS(chronicle_map_row, chunks, 4);
STANDS(chronicle_map_row, key_length, 5);
STANDS(chronicle_map_row, value_length, 6);
