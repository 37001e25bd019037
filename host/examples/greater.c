/* c > 5 over two blocks whose greatest values are 5 and 6: the example that docs/FORMAT.md works out.
 * cc -I host/include host/examples/greater.c target/staticlib/libspill.a -o greater */
#include "spill.h"
#include <stdio.h>

static uint8_t table[SPILL_TABLE_ROOM], pool[SPILL_TABLE_POOL_ROOM], asked[SPILL_STATISTICS_ROOM], sets[SPILL_GUARANTEES_ROOM];

int main(void) {
    const uint8_t schema[1] = {1}, predicate[16] = {0x74, [8] = 0x40, 8}, literals[8] = {[7] = 5};
    uint64_t answer = spill_rewrite(schema, 1, predicate, 16, literals, 8, 20, table, sizeof table, pool, sizeof pool,
                                    asked, sizeof asked, sets, sizeof sets);
    printf("rewriting answers %016llX\n", (unsigned long long)answer);
    /* Greatest, blanks and rows for each block: places 0, 16 and 24 of the cell pool, then 8, 16 and 24. */
    const uint8_t grid[48] = {0x40, 8, [8] = 0x40, 8, [15] = 16, 0x40, 8, [23] = 24,
                              0x40, 8, [31] = 8, 0x40, 8, [39] = 16, 0x40, 8, [47] = 24};
    const uint8_t cells[32] = {[7] = 5, [15] = 6, [31] = 100};
    uint8_t flags[2] = {0};
    uint64_t refusal = spill_prune(schema, 1, table, SPILL_TABLE_BYTES(answer), pool, SPILL_TABLE_POOL_BYTES(answer),
                                   asked, SPILL_STATISTICS_BYTES(answer), sets, SPILL_GUARANTEES_BYTES(answer),
                                   2, grid, sizeof grid, cells, sizeof cells, NULL, 0, flags, sizeof flags);
    printf("pruning answers %llu: %s, %s\n", (unsigned long long)refusal, flags[0] ? "keep" : "drop", flags[1] ? "keep" : "drop");
    return SPILL_REFUSAL(answer) != 0 || refusal != 0;
}
