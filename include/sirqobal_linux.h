/* Real memory under the layer, on Linux: a host that answers its questions with mmap, mprotect, madvise and munmap, and
 * a table with this host and the monotonic clock, so that a program claims, touches, releases and sweeps in a few
 * lines:
 *
 *     static struct sirqobal_memory memory;
 *     sirqobal_memory_init(&memory);
 *     struct sirqobal_reply arena = sirqobal_memory_reserve(&memory, 4 * SIRQOBAL_CHUNK, true);
 *     if (arena.number != SIRQOBAL_GRANTED)
 *         return puts(sirqobal_refusal_text(arena.number));
 *     struct sirqobal_reply run = sirqobal_memory_claim(&memory, (int32_t)arena.id, 2);
 *     if (run.number == SIRQOBAL_GRANTED)
 *         memset(sirqobal_at(run.address), 1, 2 * SIRQOBAL_CHUNK);
 *
 * One thread at a time, as for every table. */
#ifndef SIRQOBAL_LINUX_H
#define SIRQOBAL_LINUX_H

#include "sirqobal.h"

#include <errno.h>
#include <sys/mman.h>
#include <time.h>
#include <unistd.h>

#if !defined(MAP_ANONYMOUS) || !defined(MADV_DONTNEED) || !defined(CLOCK_MONOTONIC)
#error "sirqobal_linux.h: define _DEFAULT_SOURCE before the first include, or compile with -std=gnu11"
#endif

#ifdef __cplusplus
extern "C" {
#endif

/* A mapping for each arena, and one for a block that is given back. */
#define SIRQOBAL_LINUX_RANGES (SIRQOBAL_RECORDS + 1)

/* What the host has mapped. All zeros: nothing yet. */
struct sirqobal_linux {
    size_t count;
    struct {
        uint64_t base;
        uint64_t bytes;
    } ranges[SIRQOBAL_LINUX_RANGES];
    int error; /* errno of the last question that was answered no by the OS */
};

/* The memory at an address that the layer answered. */
SIRQOBAL_USE
static inline void *sirqobal_at(uint64_t address)
{
    return (void *)(uintptr_t)address;
}

/* The monotonic clock, in nanoseconds. */
SIRQOBAL_USE
static inline uint64_t sirqobal_linux_now(void)
{
    struct timespec time;
    if (clock_gettime(CLOCK_MONOTONIC, &time) != 0)
        return 0; /* Linux has this clock */
    return (uint64_t)time.tv_sec * 1000000000 + (uint64_t)time.tv_nsec;
}

SIRQOBAL_USE
static inline uint64_t sirqobal_linux_page(void)
{
    return (uint64_t)sysconf(_SC_PAGESIZE);
}

/* The mapping that has all of these bytes; os->count if none has. */
SIRQOBAL_USE
static inline size_t sirqobal_linux_find(const struct sirqobal_linux *os,
                                         uint64_t address,
                                         uint64_t bytes)
{
    size_t i = 0;
    for (; i < os->count; i++) {
        uint64_t offset = address - os->ranges[i].base;
        if (address >= os->ranges[i].base && offset <= os->ranges[i].bytes && bytes <= os->ranges[i].bytes - offset)
            break;
    }
    return i;
}

/* Whether the OS did it; else its errno is kept. */
static inline bool sirqobal_linux_did(struct sirqobal_linux *os,
                                      int status)
{
    if (status != 0)
        os->error = errno;
    return status == 0;
}

/* A reservation at a multiple of `align`: more is reserved, and its two ends go back. Nothing is set aside before it
 * is touched. */
static inline bool sirqobal_linux_reserve(struct sirqobal_linux *os,
                                          uint64_t bytes,
                                          uint64_t align,
                                          uint64_t *base)
{
    if (align == 0 || bytes > UINT64_MAX - align) {
        os->error = EINVAL;
        return false;
    }
    void *found = mmap(NULL, bytes + align, PROT_NONE, MAP_PRIVATE | MAP_ANONYMOUS | MAP_NORESERVE, -1, 0);
    if (found == MAP_FAILED)
        return sirqobal_linux_did(os, -1);
    uint64_t start = (uintptr_t)found;
    uint64_t head = (align - start % align) % align;
    if ((head != 0 && !sirqobal_linux_did(os, munmap(found, head))) ||
        !sirqobal_linux_did(os, munmap(sirqobal_at(start + head + bytes), align - head))) {
        munmap(found, bytes + align);
        return false;
    }
    *base = start + head;
    return true;
}

/* Memory: reserved, committed if that is asked, and noted. */
static inline bool sirqobal_linux_memory(struct sirqobal_linux *os,
                                         const struct sirqobal_reply *asked,
                                         uint64_t *base)
{
    if (os->count == SIRQOBAL_LINUX_RANGES) {
        os->error = ENOMEM;
        return false;
    }
    if (!sirqobal_linux_reserve(os, asked->bytes, asked->align, base))
        return false;
#ifdef MADV_HUGEPAGE
    if (asked->large)
        madvise(sirqobal_at(*base), asked->bytes, MADV_HUGEPAGE); /* as far as there are any */
#endif
    if (asked->commit && !sirqobal_linux_did(os, mprotect(sirqobal_at(*base), asked->bytes, PROT_READ | PROT_WRITE))) {
        munmap(sirqobal_at(*base), asked->bytes);
        return false;
    }
    os->ranges[os->count].base = *base;
    os->ranges[os->count].bytes = asked->bytes;
    os->count++;
    return true;
}

/* MADV_DONTNEED and not MADV_FREE: with the latter the OS may take the pages later, when somebody holds them again. */
static inline bool sirqobal_linux_purge(struct sirqobal_linux *os,
                                        const struct sirqobal_reply *asked)
{
    void *at = sirqobal_at(asked->address);
    return sirqobal_linux_did(os, madvise(at, asked->bytes, MADV_DONTNEED)) &&
           (!asked->decommit || sirqobal_linux_did(os, mprotect(at, asked->bytes, PROT_NONE)));
}

static inline bool sirqobal_linux_give_back(struct sirqobal_linux *os,
                                            const struct sirqobal_reply *asked,
                                            size_t i)
{
    if (os->ranges[i].base != asked->address || os->ranges[i].bytes != asked->bytes ||
        !sirqobal_linux_did(os, munmap(sirqobal_at(asked->address), asked->bytes)))
        return false;
    os->ranges[i] = os->ranges[--os->count];
    return true;
}

/* The host (a sirqobal_host, its context a struct sirqobal_linux). It touches only what it mapped itself: a purge in a
 * range that was managed or adopted is answered no, and the chunk stays as it is. */
static inline bool sirqobal_linux_answer(void *context,
                                         const struct sirqobal_reply *asked,
                                         uint64_t *base)
{
    struct sirqobal_linux *os = (struct sirqobal_linux *)context;
    if (asked->kind == SIRQOBAL_MEMORY)
        return sirqobal_linux_memory(os, asked, base);
    size_t i = sirqobal_linux_find(os, asked->address, asked->bytes);
    if (i == os->count)
        return false;
    switch (asked->kind) {
    case SIRQOBAL_COMMIT:
        return sirqobal_linux_did(os, mprotect(sirqobal_at(asked->address), asked->bytes, PROT_READ | PROT_WRITE));
    case SIRQOBAL_PURGE: return sirqobal_linux_purge(os, asked);
    case SIRQOBAL_GIVE_BACK: return sirqobal_linux_give_back(os, asked, i);
    default: return false;
    }
}

/* Whether a host has room for the mappings of another, too. */
SIRQOBAL_USE
static inline bool sirqobal_linux_has_room(const struct sirqobal_linux *os,
                                           const struct sirqobal_linux *second)
{
    return second->count <= SIRQOBAL_LINUX_RANGES - os->count;
}

/* All mappings of the second are the first's from now on; there is room for them. */
static inline void sirqobal_linux_take(struct sirqobal_linux *os,
                                       struct sirqobal_linux *second)
{
    memcpy(os->ranges + os->count, second->ranges, second->count * sizeof second->ranges[0]);
    os->count += second->count;
    second->count = 0;
}

/* Unmaps all that the host mapped; whether all of it could be. */
static inline bool sirqobal_linux_end(struct sirqobal_linux *os)
{
    while (os->count > 0 && sirqobal_linux_did(os, munmap(sirqobal_at(os->ranges[os->count - 1].base),
                                                          os->ranges[os->count - 1].bytes)))
        os->count--;
    return os->count == 0;
}

/* ---- a table over real memory */

struct sirqobal_memory {
    struct sirqobal_table table; /* table.settings are yours to set */
    struct sirqobal_linux os;
};

/* No arena; purges after 10 ms, which decommit; no default reserve. For memory that is to stay once it was committed:
 *
 *     memory.table.settings.delay = SIRQOBAL_NEVER; */
static inline void sirqobal_memory_init(struct sirqobal_memory *memory)
{
    sirqobal_table_init(&memory->table);
    memory->table.settings.page = sirqobal_linux_page();
    memset(&memory->os, 0, sizeof memory->os);
}

/* Reserves an arena; its number is `id`. An exclusive one serves only claims that name it. */
SIRQOBAL_USE
static inline struct sirqobal_reply sirqobal_memory_reserve(struct sirqobal_memory *memory,
                                                            uint64_t bytes,
                                                            bool exclusive)
{
    return sirqobal_table_settle(&memory->table,
                                 sirqobal_table_reserve(&memory->table, bytes, false, false, exclusive),
                                 sirqobal_linux_answer, &memory->os);
}

/* Claims n neighbouring chunks of an arena or of SIRQOBAL_ANY, committed: sirqobal_at(address) is theirs. */
SIRQOBAL_USE
static inline struct sirqobal_reply sirqobal_memory_claim(struct sirqobal_memory *memory,
                                                          int32_t id,
                                                          size_t n)
{
    return sirqobal_table_settle(&memory->table, sirqobal_table_claim(&memory->table, id, n), sirqobal_linux_answer,
                                 &memory->os);
}

/* Releases n chunks that the caller holds; a later sweep purges them. They are not touched from here on.
 * With a negative settings.delay (SIRQOBAL_NEVER) the release leaves nothing to a sweep: the chunks stay committed, and
 * whoever claims them next finds the bytes. What an earlier release left to a sweep is left to it still. */
SIRQOBAL_USE
static inline struct sirqobal_reply sirqobal_memory_release(struct sirqobal_memory *memory,
                                                            uint64_t address,
                                                            size_t n)
{
    return sirqobal_table_release(&memory->table, sirqobal_linux_now(), address, n, SIRQOBAL_TOLD_NOTHING, true);
}

/* Releases the n runs of a list (sirqobal_chunk_release_list) that the caller holds, each as sirqobal_memory_release
 * does: run i is counts[i] chunks from addresses[i] on, and answers[i] its number, 0 if it was released. A run that is
 * turned down does not stop the list: the call is granted, and the answers tell. More than SIRQOBAL_LIST runs: 19. */
SIRQOBAL_USE
static inline struct sirqobal_reply sirqobal_memory_release_list(struct sirqobal_memory *memory,
                                                                 const uint64_t *addresses,
                                                                 const uint32_t *counts,
                                                                 uint32_t *answers,
                                                                 size_t n)
{
    return sirqobal_table_release_list(&memory->table, sirqobal_linux_now(), addresses, counts, answers, n, true);
}

/* Purges what was released long enough ago, or all of it: `count` chunks.
 * With a negative settings.delay (SIRQOBAL_NEVER) none; forced, what was released while the delay was not negative. */
SIRQOBAL_USE
static inline struct sirqobal_reply sirqobal_memory_sweep(struct sirqobal_memory *memory,
                                                          bool force)
{
    return sirqobal_table_settle(&memory->table, sirqobal_table_sweep(&memory->table, sirqobal_linux_now(), force),
                                 sirqobal_linux_answer, &memory->os);
}

/* Joins two tables over real memory (sirqobal_join_tables), with the first's settings: the second's arenas go to the
 * first, and their mappings along. What is held stays where it is, with its bytes. It is released and swept through the
 * first, where the arenas are claimed from too, by their new ids (sirqobal_risen). The second has neither arena nor
 * mapping and can be used at once: sirqobal_memory_end of each unmaps what is its own then.
 * Refusals: 1, 2, 17, 18. Before them 14, and ENOMEM in os.error, if the first has no room for the second's mappings
 * though it has for its arenas, which only blocks that the OS would not unmap can bring about. Each leaves both. */
SIRQOBAL_USE
static inline struct sirqobal_join_reply sirqobal_memory_join(struct sirqobal_memory *first,
                                                              struct sirqobal_memory *second)
{
    size_t arenas = first->table.state.count + second->table.state.count;
    if (arenas <= SIRQOBAL_RECORDS && !sirqobal_linux_has_room(&first->os, &second->os)) {
        struct sirqobal_join_reply reply;
        memset(&reply, 0, sizeof reply);
        first->os.error = ENOMEM;
        reply.number = SIRQOBAL_MEMORY_REFUSED;
        reply.first = first->table.state;
        reply.second = second->table.state;
        return reply;
    }
    struct sirqobal_join_reply reply = sirqobal_table_join(&first->table, &second->table);
    if (reply.number == SIRQOBAL_GRANTED)
        sirqobal_linux_take(&first->os, &second->os);
    return reply;
}

/* Unmaps all memory, held or not, and begins anew with the settings as they are; whether all could be unmapped. */
static inline bool sirqobal_memory_end(struct sirqobal_memory *memory)
{
    struct sirqobal_settings settings = memory->table.settings;
    if (!sirqobal_linux_end(&memory->os))
        return false;
    sirqobal_table_init(&memory->table);
    memory->table.settings = settings;
    return true;
}

#ifdef __cplusplus
}
#endif

#endif
