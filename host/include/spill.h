/* The two C functions of libspill.a: block skipping over packed summaries. docs/FORMAT.md has the packed formats.
 *
 * Every length counts bytes. A pointer may be null where its length is 0. An output must not overlap an input or
 * another output. Nothing is kept between calls. A refused call writes nothing. */
#ifndef SPILL_H
#define SPILL_H

#include <stddef.h>
#include <stdint.h>

#ifdef __cplusplus
extern "C" {
#endif

/* What spill_rewrite must be lent, in bytes. */
#define SPILL_TABLE_ROOM 24576
#define SPILL_TABLE_POOL_ROOM 16512
#define SPILL_STATISTICS_ROOM 1544
#define SPILL_GUARANTEES_ROOM 1024

/* Limits of the calls. */
#define SPILL_MAX_CONTAINERS 4096
#define SPILL_MAX_LIST_LIMIT 256

/* Refusals. */
#define SPILL_BAD_SCHEMA 1
#define SPILL_BAD_LIMIT_OR_POOL 2
#define SPILL_NO_ROOM 3
#define SPILL_MALFORMED 4
#define SPILL_OVER_LIMIT 5
#define SPILL_MISFIT 6
#define SPILL_BAD_CONTAINERS 7
#define SPILL_BAD_TABLE 8
#define SPILL_BAD_GRID 9
#define SPILL_BAD_ANSWERS 10

/* The answer word of spill_rewrite, taken apart: the refusal or 0, and the bytes written to each output. */
#define SPILL_REFUSAL(answer) ((unsigned)((answer) >> 56))
#define SPILL_TABLE_BYTES(answer) ((size_t)((answer) >> 40 & 0xFFFF) * 8)
#define SPILL_TABLE_POOL_BYTES(answer) ((size_t)((answer) >> 24 & 0xFFFF))
#define SPILL_STATISTICS_BYTES(answer) ((size_t)((answer) >> 16 & 0xFF) * 8)
#define SPILL_GUARANTEES_BYTES(answer) ((size_t)((answer) >> 8 & 0xFF) * 8)

/* Rewrites a predicate over columns into a table over their statistics. Returns the answer word. */
uint64_t spill_rewrite(
    const uint8_t *schema, size_t schema_length,
    const uint8_t *predicate, size_t predicate_length,
    const uint8_t *pool, size_t pool_length,
    uint64_t list_limit,
    uint8_t *table, size_t table_length,
    uint8_t *table_pool, size_t table_pool_length,
    uint8_t *statistics, size_t statistics_length,
    uint8_t *guarantees, size_t guarantees_length);

/* Judges containers by a rewritten table. Returns 0 or the refusal; on 0 the first `containers` flags are 0 (drop) or
 * 1 (keep). */
uint64_t spill_prune(
    const uint8_t *schema, size_t schema_length,
    const uint8_t *table, size_t table_length,
    const uint8_t *table_pool, size_t table_pool_length,
    const uint8_t *statistics, size_t statistics_length,
    const uint8_t *guarantees, size_t guarantees_length,
    uint64_t containers,
    const uint8_t *grid, size_t grid_length,
    const uint8_t *cell_pool, size_t cell_pool_length,
    const uint8_t *answers, size_t answers_length,
    uint8_t *flags, size_t flags_length);

#ifdef __cplusplus
}
#endif

#endif
