/* A picture of the arenas: a line for each, then a cell for each chunk in rows of 64.
 *
 *     arena 0: base 0x00007f1234000000, 6 chunks, 2 free, owned, exclusive
 *          0 ~~GG..
 *       A..Z held, a..z held and not committed, # + the same by others, ~ to be purged, - free and committed, . free
 *
 * The Rust crate draws the same, byte for byte. A broken table is drawn as far as it goes: at most 32 arenas, of each
 * at most 1,024 chunks. */
#ifndef SIRQOBAL_PICTURE_H
#define SIRQOBAL_PICTURE_H

#include "sirqobal.h"

#include <inttypes.h>
#include <stdio.h>

#ifdef __cplusplus
extern "C" {
#endif

/* The letter, A to Z, of the program that holds the chunk at this address; anything else: not known. */
typedef char sirqobal_holder(void *context,
                             uint64_t address);

static inline bool sirqobal_picture_bit(const uint32_t *map,
                                        size_t chunk)
{
    return (map[chunk / 32] >> (chunk % 32) & 1) != 0;
}

static inline char sirqobal_picture_cell(const struct sirqobal_arena *arena,
                                         size_t chunk,
                                         sirqobal_holder *holder,
                                         void *context)
{
    bool committed = sirqobal_picture_bit(arena->committed, chunk);
    if (!sirqobal_picture_bit(arena->used, chunk)) {
        if (sirqobal_picture_bit(arena->pending, chunk))
            return '~';
        return committed ? '-' : '.';
    }
    /* Unsigned, so it wraps and does no harm where the table is broken. */
    char letter = holder == NULL ? '#' : holder(context, arena->base + chunk * SIRQOBAL_CHUNK);
    if (letter < 'A' || letter > 'Z')
        return committed ? '#' : '+';
    return committed ? letter : (char)(letter - 'A' + 'a');
}

/* One arena: `free` counts the chunks that are drawn. */
static inline void sirqobal_picture_arena(FILE *out,
                                          const struct sirqobal_arena *arena,
                                          size_t id,
                                          sirqobal_holder *holder,
                                          void *context)
{
    size_t drawn = arena->chunks < SIRQOBAL_MAX_CHUNKS ? arena->chunks : SIRQOBAL_MAX_CHUNKS;
    size_t unused = 0;
    for (size_t chunk = 0; chunk < drawn; chunk++)
        unused += !sirqobal_picture_bit(arena->used, chunk);
    fprintf(out, "arena %zu: base 0x%016" PRIx64 ", %zu chunks, %zu free, %s, %s\n", id, arena->base, arena->chunks,
            unused, arena->owned != 0 ? "owned" : "managed", arena->exclusive != 0 ? "exclusive" : "shared");
    for (size_t first = 0; first < drawn; first += 64) {
        char cells[65];
        size_t n = drawn - first < 64 ? drawn - first : 64;
        for (size_t i = 0; i < n; i++)
            cells[i] = sirqobal_picture_cell(arena, first + i, holder, context);
        cells[n] = '\0';
        fprintf(out, "%6zu %s\n", first, cells);
    }
}

/* `count` arenas; no more than there are records. No holder (NULL): every chunk that is held is drawn as not known. */
static inline void sirqobal_picture(FILE *out,
                                    const struct sirqobal_arena *records,
                                    size_t record_count,
                                    size_t count,
                                    sirqobal_holder *holder,
                                    void *context)
{
    if (count > record_count)
        count = record_count;
    if (count > SIRQOBAL_RECORDS)
        count = SIRQOBAL_RECORDS;
    if (count == 0) {
        fputs("arenas: none\n", out);
        return;
    }
    for (size_t id = 0; id < count; id++)
        sirqobal_picture_arena(out, &records[id], id, holder, context);
    fputs("  A..Z held, a..z held and not committed, # + the same by others, ~ to be purged, "
          "- free and committed, . free\n",
          out);
}

static inline void sirqobal_table_picture(FILE *out,
                                          const struct sirqobal_table *table,
                                          sirqobal_holder *holder,
                                          void *context)
{
    sirqobal_picture(out, table->records, SIRQOBAL_RECORDS, table->state.count, holder, context);
}

/* ---- a table saved to be looked at: the state's bytes, then the 32 records, as they lie in memory */

#define SIRQOBAL_SAVED (sizeof(struct sirqobal_state) + SIRQOBAL_RECORDS * sizeof(struct sirqobal_arena))

/* Whether all of it was written; look at fclose too. */
SIRQOBAL_USE
static inline bool sirqobal_table_save(FILE *out,
                                       const struct sirqobal_table *table)
{
    unsigned char state[sizeof(struct sirqobal_state)];
    sirqobal_state_bytes(&table->state, state);
    return fwrite(state, sizeof state, 1, out) == 1 &&
           fwrite(table->records, sizeof table->records, 1, out) == 1;
}

/* Reads the state and the records of a saved table: whether the file has so many bytes, and no more. */
SIRQOBAL_USE
static inline bool sirqobal_saved_read(FILE *in,
                                       struct sirqobal_state *state,
                                       struct sirqobal_arena *records)
{
    return fread(state, sizeof *state, 1, in) == 1 &&
           fread(records, sizeof *records, SIRQOBAL_RECORDS, in) == SIRQOBAL_RECORDS && fgetc(in) == EOF &&
           !ferror(in);
}

#ifdef __cplusplus
}
#endif

#endif
