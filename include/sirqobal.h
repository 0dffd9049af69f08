/* Sirqobal: the arena layer of rusty_alloc, ported and proved. What libsirqobal.a exports, and a few inline
 * functions over it. C11 and C++17, 64-bit Linux on x86-64.
 *
 * Each function takes every number, and every array of the length that is passed with it; it ends, and does
 * nothing undefined. Bad input is turned down by the number of a refusal. What the caller has to keep:
 * - A pointer points to as many elements as the length beside it says, aligned as their type asks (records and
 *   addresses 8, words, stamps, counts and answers 4). NULL goes only with length 0. No records, no stamps and no
 *   words are refused with 1; no addresses, no counts and no answers are an empty list.
 * - The arrays of one call do not overlap in memory: neither those of a list with each other or with the table, nor
 *   those of the two tables that are joined.
 * - One thread at a time on one table. The library keeps nothing of its own between calls, so two threads may
 *   use two tables.
 * - The reply brings the state that the next call is lent: a reply thrown away loses it. `struct sirqobal_table`
 *   (below) keeps it for you.
 *
 * Build the library by `bash library.sh` and link build/lib/libsirqobal.a, or install it by `bash install.sh`
 * and use pkg-config's flags for sirqobal (x86-64 Linux). */
#ifndef SIRQOBAL_H
#define SIRQOBAL_H

#include <stdbool.h>
#include <stddef.h>
#include <stdint.h>
#include <string.h>

#if SIZE_MAX != UINT64_MAX
#error "sirqobal.h: sizes have 64 bits"
#endif

#define SIRQOBAL_VERSION_MAJOR 0
#define SIRQOBAL_VERSION_MINOR 4
#define SIRQOBAL_VERSION_PATCH 0
#define SIRQOBAL_VERSION "0.4.0"

/* Whoever throws the answer away is warned. */
#if defined(__GNUC__)
#define SIRQOBAL_USE __attribute__((warn_unused_result))
#elif defined(__cplusplus) && __cplusplus >= 201703L
#define SIRQOBAL_USE [[nodiscard]]
#else
#define SIRQOBAL_USE
#endif

#ifdef __cplusplus
extern "C" {
#endif

/* Of 64 bits, so that no product with them wraps. */
#define SIRQOBAL_CHUNK UINT64_C(33554432)   /* bytes of a chunk */
#define SIRQOBAL_MAX_CHUNKS UINT64_C(1024)  /* chunks of an arena, at most */
#define SIRQOBAL_RECORDS UINT64_C(32)       /* records that are lent: arenas, at most */
#define SIRQOBAL_STAMPS UINT64_C(32768)     /* stamps that are lent: SIRQOBAL_MAX_CHUNKS for each record */
#define SIRQOBAL_LIST UINT64_C(32768)       /* items of a list of releases, at most */
#define SIRQOBAL_SLICE UINT64_C(65536)      /* bytes of a slice */
#define SIRQOBAL_SLICES UINT64_C(65536)     /* slices of a pool */
#define SIRQOBAL_SLICE_WORDS UINT64_C(2048) /* words that are lent for a pool */

/* Refusals. 0 means granted. */
enum sirqobal_refusal {
    SIRQOBAL_GRANTED = 0,
    SIRQOBAL_BROKEN = 1,           /* a slice of a wrong length, an unsound page size, a broken table */
    SIRQOBAL_QUESTION_OPEN = 2,    /* a question is open */
    SIRQOBAL_NO_SUCH_QUESTION = 3, /* none is open, or one of another kind */
    SIRQOBAL_ZERO = 4,             /* n or size is 0 */
    SIRQOBAL_ARENAS_OFF = 5,       /* arenas are off and the id is negative */
    SIRQOBAL_RANGE = 6,            /* the range starts at 0, ends past 2^64 - 1 or overlaps an arena */
    SIRQOBAL_NOT_WHOLE = 7,        /* an address or a size is not whole */
    SIRQOBAL_NOT_INSIDE = 8,       /* in no arena; a slice base below 65,536 */
    SIRQOBAL_PAST_END = 9,         /* the run passes the end */
    SIRQOBAL_NO_RUN = 10,          /* no such run */
    SIRQOBAL_COMMIT_REFUSED = 11,  /* the commit was answered no */
    SIRQOBAL_CHUNK_COUNT = 12,     /* 0 chunks, or above 1,024 */
    SIRQOBAL_TABLE_FULL = 13,      /* 32 arenas stand */
    SIRQOBAL_MEMORY_REFUSED = 14,  /* the memory was answered no */
    SIRQOBAL_NO_WHOLE_CHUNK = 15,  /* start 0, a sum past 2^64 - 1, no whole chunk */
    SIRQOBAL_HOST_REFUSED = 16,    /* in the segment map already, or not reserved */
    SIRQOBAL_TABLES_OVERLAP = 17,  /* a join: an arena of one table and one of the other share an address */
    SIRQOBAL_TOO_MANY_ARENAS = 18, /* a join: the two tables have more than 32 arenas */
    SIRQOBAL_LIST_LENGTH = 19      /* a list: its three lengths differ, or pass 32,768 */
};

/* `number` of a reply that is a question: neither a grant nor a refusal. */
#define SIRQOBAL_QUESTION 255

/* A sentence for a reply's number. The Rust crate has the same for the refusals. */
SIRQOBAL_USE
static inline const char *sirqobal_refusal_text(uint32_t number)
{
    switch (number) {
    case SIRQOBAL_GRANTED: return "granted";
    case SIRQOBAL_BROKEN: return "wrong length, unsound page size or broken table";
    case SIRQOBAL_QUESTION_OPEN: return "a question is open";
    case SIRQOBAL_NO_SUCH_QUESTION: return "no such question is open";
    case SIRQOBAL_ZERO: return "n or size is 0";
    case SIRQOBAL_ARENAS_OFF: return "arenas are off";
    case SIRQOBAL_RANGE: return "the range starts at 0, ends past 2^64 - 1 or overlaps an arena";
    case SIRQOBAL_NOT_WHOLE: return "an address or a size is not whole";
    case SIRQOBAL_NOT_INSIDE: return "the address lies in no arena or below the first slice";
    case SIRQOBAL_PAST_END: return "the run passes the end";
    case SIRQOBAL_NO_RUN: return "no such run is free";
    case SIRQOBAL_COMMIT_REFUSED: return "the commit was answered no";
    case SIRQOBAL_CHUNK_COUNT: return "0 chunks or above 1,024";
    case SIRQOBAL_TABLE_FULL: return "32 arenas stand";
    case SIRQOBAL_MEMORY_REFUSED: return "the memory was answered no";
    case SIRQOBAL_NO_WHOLE_CHUNK: return "no whole chunk lies in the range";
    case SIRQOBAL_HOST_REFUSED: return "the range is mapped already or not reserved";
    case SIRQOBAL_TABLES_OVERLAP: return "a range of one table overlaps a range of the other";
    case SIRQOBAL_TOO_MANY_ARENAS: return "the two tables have more than 32 arenas";
    case SIRQOBAL_LIST_LENGTH: return "the list's lengths differ or pass 32,768";
    case SIRQOBAL_QUESTION: return "the host is asked";
    default: return "no number of a reply";
    }
}

/* ---- size arithmetic */

/* Whether x is a multiple of align; no for an align of 0 or that is no power of two. */
SIRQOBAL_USE
bool sirqobal_is_aligned_to(uint64_t x,
                            uint64_t align);

/* size (0 counting as 1) rounded up to a multiple of page's lowest set bit (page 0 counting as 1);
 * size itself where the sum would pass 2^64 - 1. */
SIRQOBAL_USE
uint64_t sirqobal_page_align_up(uint64_t page,
                                uint64_t size);

/* ---- clock and deadlines, in milliseconds that wrap at 2^32 */

/* The clock's reading of a number of nanoseconds; never 0. */
SIRQOBAL_USE
uint32_t sirqobal_now_ms(uint64_t ns);

/* The milliseconds of a purge delay (option 15), clamped to 0 .. 1,073,741,823. A negative delay gives 0, which is what
 * a forced sweep keeps of it: whether anything is purged at all, its sign says (SIRQOBAL_NEVER). */
SIRQOBAL_USE
uint32_t sirqobal_delay_ms(int64_t delay);

/* The deadline after `due` (0 becoming 1) is armed over it; 0 is no deadline. */
SIRQOBAL_USE
uint32_t sirqobal_arm(uint32_t deadline,
                      uint32_t due);

/* Whether the deadline `due` has come at `now`. */
SIRQOBAL_USE
bool sirqobal_is_due(uint32_t due,
                     uint32_t now);

/* ---- the slice pool: 65,536 slices of 65,536 bytes over 2,048 words, a set bit being a free slice
 *
 * All zeros is a pool with no free slice: free a range first. Slice 0 is never free, for no range below 65,536 is
 * freed. A refusal leaves every word; of 1 these calls know only the length of the words. */

struct sirqobal_slice_answer {
    uint32_t number;  /* 0, or the refusal */
    uint64_t address; /* of the run; 0 with a refusal */
};

/* Takes the lowest run of so many free slices. Refusals, in this order: 1, 4, 10 (too long a run too). */
SIRQOBAL_USE
struct sirqobal_slice_answer sirqobal_alloc_run(uint32_t *words,
                                                size_t len,
                                                uint64_t slices);

/* Frees the slices of base .. base + size, free already or not: 0, or the refusal. In this order: 1, 4, 7, 8, 9. */
SIRQOBAL_USE
uint32_t sirqobal_free_range(uint32_t *words,
                             size_t len,
                             uint64_t base,
                             uint64_t size);

/* ---- the layer: what is lent */

/* One arena, with no byte between two fields. Bit j % 32 of word j / 32 of each map is chunk j. A flag is on
 * unless it is 0; registering writes 0 or 1. */
struct sirqobal_arena {
    uint64_t base;
    size_t chunks;
    uint32_t exclusive; /* a flag: serves only claims that name its id */
    uint32_t owned;     /* a flag: the layer's own range, not managed for the host */
    int32_t node;       /* the NUMA node, only stored */
    uint32_t deadline;
    uint32_t used[32];
    uint32_t dirty[32];
    uint32_t committed[32];
    uint32_t pending[32];
};

/* The kinds of questions. */
enum sirqobal_kind {
    SIRQOBAL_NONE = 0,
    SIRQOBAL_COMMIT = 1,   /* commit `bytes` at `address` */
    SIRQOBAL_PURGE = 2,    /* purge `bytes` at `address`, decommitting or not */
    SIRQOBAL_MEMORY = 3,   /* reserve `bytes` at a multiple of `align`, committed or not, large or not */
    SIRQOBAL_GIVE_BACK = 4 /* give back `bytes` at `address`; the answer is ignored */
};

/* The layer's own state. All zeros is the empty layer's. Fields that the open question does not use are 0;
 * a state that no call leaves (a kind, flag or case that is none of these, or a field that is not 0 where
 * it should be) makes the table broken: 1. */
struct sirqobal_state {
    size_t count;       /* arenas that stand */
    uint32_t mark;      /* 1: default reserves are given up; nothing but a join clears it */
    uint32_t question;  /* the open question's kind */
    size_t id;          /* commit, purge: the arena */
    size_t start;       /* commit: the first chunk; purge: the chunk */
    size_t n;           /* commit: the chunks; a claim that waits: its chunks */
    uint64_t chunks;    /* memory: the block's chunks */
    uint64_t bytes;     /* memory: the bytes that were asked for */
    uint32_t commit;    /* memory: 1 if committed */
    uint32_t exclusive; /* memory: 1 if the arena is to be exclusive */
    uint32_t waiting;   /* memory, give back: 0 a reserve waits, 1 a claim */
    uint32_t commits;   /* a claim that waits: 1 if it commits */
    uint32_t cause;     /* give back: 12, 7 or 13 */
    uint32_t force;     /* purge: the sweep's own clock and settings, and its yes answers */
    uint32_t now;
    uint32_t delay;
    uint32_t decommit;
    size_t purged;
};

/* The purge delay that means never: -1, as mimalloc.h has it. Every negative delay means this. */
#define SIRQOBAL_NEVER (-1)

/* What each call carries beside the clock. A flag is on unless it is 0. */
struct sirqobal_settings {
    int64_t delay;      /* the purge delay in milliseconds (option 15); above 1,073,741,823 it counts as that.
                         * Negative: never (SIRQOBAL_NEVER). Only releases and a sweep read it. */
    uint32_t decommits; /* a purge decommits (option 5) */
    uint32_t off;       /* arenas serve only claims that name them (option 27) */
    uint64_t reserve;   /* what a claim that finds nothing reserves, in bytes (option 23); below a chunk: nothing.
                         * The first such reserve that fails sets state.mark, and is the last. */
    uint64_t page;      /* the page size: 4,096 .. 65,536, a power of two; any other is refused with 1 */
};

/* What a call answers, and the state that it leaves. What does not belong to the answer is 0: look at `number` first,
 * for a refusal has the `id` and the `count` of nothing, and 0 is also the id of an arena. */
struct sirqobal_reply {
    uint32_t number;   /* 0 granted, 255 a question, else the refusal */
    uint32_t kind;     /* the question's kind */
    uint64_t address;  /* a claim's run, a question's range, an area's base */
    uint64_t bytes;    /* a question's range, an area */
    uint64_t align;    /* memory: the alignment */
    size_t id;         /* the arena that was registered or grown */
    size_t count;      /* a sweep's yes answers */
    bool fresh;        /* a claim: no chunk was dirty before */
    bool committed;    /* a claim: all chunks are committed */
    bool owns;         /* the address lies in an arena */
    bool decommit;     /* purge */
    bool commit;       /* memory */
    bool large;        /* memory */
    uint16_t spare;    /* always 0 */
    struct sirqobal_state state;
};

/* What a join answers, and the state that it leaves of each table. */
struct sirqobal_join_reply {
    uint32_t number;             /* 0 joined, else the refusal: 1, 2, 17 or 18 */
    uint32_t spare;              /* always 0 */
    size_t rise;                 /* joined: by so much the ids of the second's arenas have risen; else 0 */
    struct sirqobal_state first;
    struct sirqobal_state second;
};

/* A claim's id: every arena that is not exclusive. Every negative id means this. */
#define SIRQOBAL_ANY (-1)

/* What a release tells of the run's commitment. Every negative number says nothing, every positive one committed. */
enum sirqobal_told {
    SIRQOBAL_TOLD_NOTHING = -1,
    SIRQOBAL_TOLD_NOT_COMMITTED = 0,
    SIRQOBAL_TOLD_COMMITTED = 1
};

/* ---- the layer: its calls
 *
 * A call is lent 32 records, 32,768 stamps and the state, as the last call left them; nobody writes there between
 * calls. It carries the clock in nanoseconds and the settings. It answers at once, or it stops and puts one question
 * to the host (number 255); `sirqobal_answer` brings yes or no, and the call goes on from there.
 *
 * Refusals are tested in this order: 1; then 2, or 3 for answers; then the call's own, in the order that stands at
 * the call. Queries know 1 only. The first that fits is the answer, and all else in the reply but the state is 0.
 *
 * What a refusal leaves: records, stamps and state as they were, except that
 * - 10 may leave a new arena, or state.mark set: a claim with a negative id reserved (settings.reserve), and the new
 *   arena has no such run either, or the reserve failed. The mark stays, unless the table is joined with one that has
 *   none: from then on no claim reserves, and what finds nothing is refused with 10 at once, until
 *   sirqobal_reserve_os_memory_ex, sirqobal_manage_os_memory_ex or sirqobal_adopt_os_block bring an arena;
 * - 11 gives the run back that the claim had taken (its used bits are clear again), and may leave a new arena that
 *   the claim reserved;
 * - an answer that is refused with 7, 10, 11, 12, 13 or 14 ends the call that asked, and closes the question.
 *
 * An answer that is refused with 1, 3 or 6 keeps the question open, and the layer waits: every call but queries and
 * answers is then refused with 2. So a loop looks at the state, not at the number alone:
 *
 *     r = sirqobal_chunk_alloc(...), state = r.state;
 *     while (r.number == SIRQOBAL_QUESTION) {
 *         bool yes = do_what_is_asked(&r, &base);
 *         struct sirqobal_reply next = sirqobal_answer(..., state, ..., r.kind, yes, base);
 *         state = next.state;
 *         if (next.number == SIRQOBAL_QUESTION || state.question == SIRQOBAL_NONE)
 *             r = next;  // asked again, or at its end
 *         else
 *             ...;       // 1, 3 or 6, and r is still open: put right what is wrong and answer again; at 6 the memory
 *                        // is yours again, and the question can always be answered no
 *     }
 *
 * sirqobal_table_settle (below) is this loop. */

/* Registering. A call that is granted answers the arena's `id`. */

/* Asks the host for memory: `size` rounded up to whole chunks; size 0 asks for one page. It never grants at once.
 * Refusals: 1, 2; 12 unasked, where the bytes and a chunk more pass 2^64 - 1. May ask: memory, give back. The
 * answer then brings 14 for a no; after a yes, in this order: 6, which keeps the question open; 12, 7, 13, each
 * after a give back question. */
SIRQOBAL_USE
struct sirqobal_reply sirqobal_reserve_os_memory_ex(struct sirqobal_arena *records,
                                                    size_t record_count,
                                                    uint32_t *stamps,
                                                    size_t stamp_count,
                                                    struct sirqobal_state state,
                                                    uint64_t ns,
                                                    struct sirqobal_settings settings,
                                                    uint64_t size,
                                                    bool commit,
                                                    bool allow_large,
                                                    bool exclusive);

/* Registers the whole chunks inside a range that the host has. is_committed, is_large and is_zero change
 * nothing. The host's facts: `mapped` (in the segment map already), `reserved`. The arena is not owned, all its
 * chunks are committed and dirty.
 * Refusals: 1, 2, 15, 16, 6, 12, 13; they leave everything. It never asks. */
SIRQOBAL_USE
struct sirqobal_reply sirqobal_manage_os_memory_ex(struct sirqobal_arena *records,
                                                   size_t record_count,
                                                   uint32_t *stamps,
                                                   size_t stamp_count,
                                                   struct sirqobal_state state,
                                                   uint64_t ns,
                                                   struct sirqobal_settings settings,
                                                   uint64_t start,
                                                   uint64_t size,
                                                   bool is_committed,
                                                   bool is_large,
                                                   bool is_zero,
                                                   int32_t node,
                                                   bool exclusive,
                                                   bool mapped,
                                                   bool reserved);

/* Takes over a block of the allocator's own: the owned, not exclusive arena that ends at it grows, if at most 1,024
 * chunks result; else a new one stands. The new chunks are committed and dirty.
 * Refusals: 1, 2, 4, 7, 6; then, where none grows, 12, 13; they leave everything. It never asks. */
SIRQOBAL_USE
struct sirqobal_reply sirqobal_adopt_os_block(struct sirqobal_arena *records,
                                              size_t record_count,
                                              uint32_t *stamps,
                                              size_t stamp_count,
                                              struct sirqobal_state state,
                                              uint64_t ns,
                                              struct sirqobal_settings settings,
                                              uint64_t address,
                                              uint64_t size);

/* Claims. An id below 0 means every arena that is not exclusive, another id that one arena; the lowest id, then the
 * lowest run. A grant answers `address`, `fresh` (no chunk of it was claimed before) and `committed`.
 * Refusals: 1, 2, 4 (sirqobal_chunk_alloc_n), 5, 10. May ask: commit (not sirqobal_chunk_claim); where nothing is
 * found, the id is negative, settings.reserve is a chunk or more and state.mark is not set: memory, give back. The
 * answer then brings 11 for a commit answered no. A no to memory, and memory that could not be registered, bring 10
 * and the mark; 6 keeps the question open; memory that was registered is searched, and 10 leaves the new arena. */

/* One chunk, committed. */
SIRQOBAL_USE
struct sirqobal_reply sirqobal_chunk_alloc(struct sirqobal_arena *records,
                                           size_t record_count,
                                           uint32_t *stamps,
                                           size_t stamp_count,
                                           struct sirqobal_state state,
                                           uint64_t ns,
                                           struct sirqobal_settings settings,
                                           int32_t id);

/* One chunk as it is: look at `committed` before you touch it. */
SIRQOBAL_USE
struct sirqobal_reply sirqobal_chunk_claim(struct sirqobal_arena *records,
                                           size_t record_count,
                                           uint32_t *stamps,
                                           size_t stamp_count,
                                           struct sirqobal_state state,
                                           uint64_t ns,
                                           struct sirqobal_settings settings,
                                           int32_t id);

/* A run of n neighbouring chunks, committed. */
SIRQOBAL_USE
struct sirqobal_reply sirqobal_chunk_alloc_n(struct sirqobal_arena *records,
                                             size_t record_count,
                                             uint32_t *stamps,
                                             size_t stamp_count,
                                             struct sirqobal_state state,
                                             uint64_t ns,
                                             struct sirqobal_settings settings,
                                             int32_t id,
                                             size_t n);

/* Releases n chunks from an address on, held or not: the layer does not know whose they are. `told`: negative says
 * nothing of commitment, 0 that the run is not committed, positive that it is (enum sirqobal_told). `pending`: the
 * chunks are to be purged by a later sweep: they are stamped and marked, and the arena's deadline is armed. With a
 * negative settings.delay nothing is stamped, marked or armed: it is the same release not pending. What earlier
 * releases left to a sweep stays then, marks and stamps of these chunks and the deadline too.
 * Refusals: 1, 2, 4, 8, 7, 9; they leave everything. It never asks. */
SIRQOBAL_USE
struct sirqobal_reply sirqobal_chunk_release(struct sirqobal_arena *records,
                                             size_t record_count,
                                             uint32_t *stamps,
                                             size_t stamp_count,
                                             struct sirqobal_state state,
                                             uint64_t ns,
                                             struct sirqobal_settings settings,
                                             uint64_t address,
                                             size_t n,
                                             int32_t told,
                                             bool pending);

/* A list of releases: item i is counts[i] chunks from addresses[i] on. The three lists have one length, at most
 * SIRQOBAL_LIST; addresses and counts are only read. The items are released in list order, each as by
 * sirqobal_chunk_release at this clock and with these settings, SIRQOBAL_TOLD_NOTHING and `pending`, and finds what the
 * items before it left: a run may stand in the list twice, runs may overlap, and lie in several arenas.
 * answers[i] is then 0 if item i was granted, else its refusal: 4, 8, 7, 9, in this order. A refused item changes
 * nothing but its answer and does not stop the list. The call itself is granted: look at the answers. An empty list is
 * granted and changes nothing.
 * Refusals of the list as a whole: 1, 2; 19, where the three lengths differ or pass SIRQOBAL_LIST. They leave all that
 * is lent, the answers too. It never asks. */
SIRQOBAL_USE
struct sirqobal_reply sirqobal_chunk_release_list(struct sirqobal_arena *records,
                                                  size_t record_count,
                                                  uint32_t *stamps,
                                                  size_t stamp_count,
                                                  const uint64_t *addresses,
                                                  size_t address_count,
                                                  const uint32_t *counts,
                                                  size_t count_count,
                                                  uint32_t *answers,
                                                  size_t answer_count,
                                                  struct sirqobal_state state,
                                                  uint64_t ns,
                                                  struct sirqobal_settings settings,
                                                  bool pending);

/* Sweeps the arenas whose deadline has come; all that are armed, if forced. Nobody holds a chunk that it asks
 * about, and none is granted it while the question is open. The end answers `count`, the yes answers.
 * With a negative settings.delay it asks nothing and changes nothing, deadlines that have come included: `count` is 0.
 * Forced, it goes on as with a delay of 0, and asks about what was left to a sweep while the delay was not negative.
 * This call's clock, delay and decommits count until the sweep ends; those of its answers do not.
 * Refusals: 1, 2; they leave everything. May ask: purge, at most once for each pending chunk. */
SIRQOBAL_USE
struct sirqobal_reply sirqobal_purge_due(struct sirqobal_arena *records,
                                         size_t record_count,
                                         uint32_t *stamps,
                                         size_t stamp_count,
                                         struct sirqobal_state state,
                                         uint64_t ns,
                                         struct sirqobal_settings settings,
                                         bool force);

/* Answers the open question, which is of `kind`; `base` is the memory's address after a yes, and unused else. The
 * call that asked goes on: it is granted, asks again or is refused.
 * Refusals: 1 and 3, which keep the question open; then by kind, in this order:
 *   commit      11 after a no
 *   purge       none: the sweep goes on, yes or no, with the delay that it began with
 *   memory      14 after a no (10 and the mark, if a claim waits); after a yes 6, which keeps the question open;
 *               10, if a claim waits and the new arena has no such run
 *   give back   12, 7 or 13, whatever made it necessary (10 and the mark, if a claim waits)
 * After all of them but 1, 3 and 6 the question is closed. */
SIRQOBAL_USE
struct sirqobal_reply sirqobal_answer(struct sirqobal_arena *records,
                                      size_t record_count,
                                      uint32_t *stamps,
                                      size_t stamp_count,
                                      struct sirqobal_state state,
                                      uint64_t ns,
                                      struct sirqobal_settings settings,
                                      uint32_t kind,
                                      bool yes,
                                      uint64_t base);

/* Queries: they may be made while a question is open, and write nothing. Refusals: 1. */

/* `owns`: whether an address lies in an arena. */
SIRQOBAL_USE
struct sirqobal_reply sirqobal_owns(const struct sirqobal_arena *records,
                                    size_t record_count,
                                    const uint32_t *stamps,
                                    size_t stamp_count,
                                    struct sirqobal_state state,
                                    uint64_t ns,
                                    struct sirqobal_settings settings,
                                    uint64_t address);

/* The base (`address`) and the `bytes` of an arena; 0 and 0 for no such id, which is no refusal. */
SIRQOBAL_USE
struct sirqobal_reply sirqobal_arena_area(const struct sirqobal_arena *records,
                                          size_t record_count,
                                          const uint32_t *stamps,
                                          size_t stamp_count,
                                          struct sirqobal_state state,
                                          uint64_t ns,
                                          struct sirqobal_settings settings,
                                          int32_t id);

/* Joins two tables that are both in use: the second's arenas go to the first, and the second is left empty. It is lent
 * the records, the stamps and the state of each; records and stamps of the one do not overlap those of the other in
 * memory. The clock and the settings are one for both; of the settings only the page size is read.
 * Joined: the second's arena i is the first's arena `rise` + i, `rise` being the first's count before. Its record and
 * its 1,024 stamps move as they are: what is held stays held, what is pending stays pending, deadlines stay. The
 * first's arenas keep their ids, and what stands past the last arena is left. The first's state.mark is set only if it
 * was in both. The second is the empty layer, all zeros: a new sequence of calls may begin there.
 * From then on whoever names an arena of the second names it by its new id (sirqobal_risen), in calls on the first. A
 * negative id goes on meaning every arena that is not exclusive, now of both.
 * Refusals, in this order: 1, for the lengths and the table of either side and for the page size; 2, for an open
 * question on either side; 17, where an arena of one and an arena of the other share an address (neighbours do not);
 * 18, where more than 32 arenas would result. Each leaves both tables and both states. It never asks. */
SIRQOBAL_USE
struct sirqobal_join_reply sirqobal_join_tables(struct sirqobal_arena *records,
                                                size_t record_count,
                                                uint32_t *stamps,
                                                size_t stamp_count,
                                                struct sirqobal_arena *second_records,
                                                size_t second_record_count,
                                                uint32_t *second_stamps,
                                                size_t second_stamp_count,
                                                struct sirqobal_state state,
                                                struct sirqobal_state second,
                                                uint64_t ns,
                                                struct sirqobal_settings settings);

/* The id, after the join, of what had this id in the second table. A negative id names no arena and stays, as does one
 * that no arena can have; after a refusal every id stays. Not for ids of the first, nor twice for one id. */
SIRQOBAL_USE
static inline int32_t sirqobal_risen(const struct sirqobal_join_reply *joined,
                                     int32_t id)
{
    return id < 0 || id >= (int32_t)SIRQOBAL_RECORDS ? id : id + (int32_t)joined->rise;
}

/* ---- a table: what is lent, in one place
 *
 * The functions below make the calls above on a table and put the reply's state back. Only releases and a sweep
 * read the clock, so only they are handed it. The table is about 150 KB: static or allocated, not on a small stack.
 * A table that the functions have not begun (sirqobal_table_init) has page size 0: 1 to every call. */

struct sirqobal_table {
    struct sirqobal_state state;
    struct sirqobal_arena records[SIRQOBAL_RECORDS];
    uint32_t stamps[SIRQOBAL_STAMPS];
    struct sirqobal_settings settings; /* of the next calls: yours to set */
    struct sirqobal_reply asked;       /* while state.question is not 0: the open question as it was put */
};

/* The empty layer; purges after 10 ms, which decommit; no default reserve; pages of 4,096 bytes. */
static inline void sirqobal_table_init(struct sirqobal_table *table)
{
    memset(table, 0, sizeof *table);
    table->settings.delay = 10;
    table->settings.decommits = 1;
    table->settings.page = 4096;
}

/* Puts back what a call on this table answered; the functions below do it themselves. */
static inline void sirqobal_table_put_back(struct sirqobal_table *table,
                                           const struct sirqobal_reply *reply)
{
    table->state = reply->state;
    if (reply->number == SIRQOBAL_QUESTION)
        table->asked = *reply;
}

#define SIRQOBAL_LENT(table) \
    (table)->records, SIRQOBAL_RECORDS, (table)->stamps, SIRQOBAL_STAMPS, (table)->state

/* sirqobal_reserve_os_memory_ex */
SIRQOBAL_USE
static inline struct sirqobal_reply sirqobal_table_reserve(struct sirqobal_table *table,
                                                           uint64_t size,
                                                           bool commit,
                                                           bool allow_large,
                                                           bool exclusive)
{
    struct sirqobal_reply reply = sirqobal_reserve_os_memory_ex(SIRQOBAL_LENT(table), 0, table->settings, size,
                                                                commit, allow_large, exclusive);
    sirqobal_table_put_back(table, &reply);
    return reply;
}

/* sirqobal_manage_os_memory_ex, without the three flags that change nothing */
SIRQOBAL_USE
static inline struct sirqobal_reply sirqobal_table_manage(struct sirqobal_table *table,
                                                          uint64_t start,
                                                          uint64_t size,
                                                          int32_t node,
                                                          bool exclusive,
                                                          bool mapped,
                                                          bool reserved)
{
    struct sirqobal_reply reply = sirqobal_manage_os_memory_ex(SIRQOBAL_LENT(table), 0, table->settings, start, size,
                                                               true, false, false, node, exclusive, mapped, reserved);
    sirqobal_table_put_back(table, &reply);
    return reply;
}

/* sirqobal_adopt_os_block */
SIRQOBAL_USE
static inline struct sirqobal_reply sirqobal_table_adopt(struct sirqobal_table *table,
                                                         uint64_t address,
                                                         uint64_t size)
{
    struct sirqobal_reply reply = sirqobal_adopt_os_block(SIRQOBAL_LENT(table), 0, table->settings, address, size);
    sirqobal_table_put_back(table, &reply);
    return reply;
}

/* sirqobal_chunk_alloc_n: n chunks, committed */
SIRQOBAL_USE
static inline struct sirqobal_reply sirqobal_table_claim(struct sirqobal_table *table,
                                                         int32_t id,
                                                         size_t n)
{
    struct sirqobal_reply reply = sirqobal_chunk_alloc_n(SIRQOBAL_LENT(table), 0, table->settings, id, n);
    sirqobal_table_put_back(table, &reply);
    return reply;
}

/* sirqobal_chunk_alloc: one chunk, committed */
SIRQOBAL_USE
static inline struct sirqobal_reply sirqobal_table_claim_one(struct sirqobal_table *table,
                                                             int32_t id)
{
    struct sirqobal_reply reply = sirqobal_chunk_alloc(SIRQOBAL_LENT(table), 0, table->settings, id);
    sirqobal_table_put_back(table, &reply);
    return reply;
}

/* sirqobal_chunk_claim: one chunk, committed or not */
SIRQOBAL_USE
static inline struct sirqobal_reply sirqobal_table_claim_as_is(struct sirqobal_table *table,
                                                               int32_t id)
{
    struct sirqobal_reply reply = sirqobal_chunk_claim(SIRQOBAL_LENT(table), 0, table->settings, id);
    sirqobal_table_put_back(table, &reply);
    return reply;
}

/* sirqobal_chunk_release */
SIRQOBAL_USE
static inline struct sirqobal_reply sirqobal_table_release(struct sirqobal_table *table,
                                                           uint64_t ns,
                                                           uint64_t address,
                                                           size_t n,
                                                           int32_t told,
                                                           bool pending)
{
    struct sirqobal_reply reply = sirqobal_chunk_release(SIRQOBAL_LENT(table), ns, table->settings, address, n, told,
                                                         pending);
    sirqobal_table_put_back(table, &reply);
    return reply;
}

/* sirqobal_chunk_release_list, with lists of n items each */
SIRQOBAL_USE
static inline struct sirqobal_reply sirqobal_table_release_list(struct sirqobal_table *table,
                                                                uint64_t ns,
                                                                const uint64_t *addresses,
                                                                const uint32_t *counts,
                                                                uint32_t *answers,
                                                                size_t n,
                                                                bool pending)
{
    struct sirqobal_reply reply = sirqobal_chunk_release_list(table->records, SIRQOBAL_RECORDS, table->stamps,
                                                              SIRQOBAL_STAMPS, addresses, n, counts, n, answers, n,
                                                              table->state, ns, table->settings, pending);
    sirqobal_table_put_back(table, &reply);
    return reply;
}

/* sirqobal_purge_due */
SIRQOBAL_USE
static inline struct sirqobal_reply sirqobal_table_sweep(struct sirqobal_table *table,
                                                         uint64_t ns,
                                                         bool force)
{
    struct sirqobal_reply reply = sirqobal_purge_due(SIRQOBAL_LENT(table), ns, table->settings, force);
    sirqobal_table_put_back(table, &reply);
    return reply;
}

/* sirqobal_answer */
SIRQOBAL_USE
static inline struct sirqobal_reply sirqobal_table_answer(struct sirqobal_table *table,
                                                          uint32_t kind,
                                                          bool yes,
                                                          uint64_t base)
{
    struct sirqobal_reply reply = sirqobal_answer(SIRQOBAL_LENT(table), 0, table->settings, kind, yes, base);
    sirqobal_table_put_back(table, &reply);
    return reply;
}

/* sirqobal_owns */
SIRQOBAL_USE
static inline struct sirqobal_reply sirqobal_table_owns(const struct sirqobal_table *table,
                                                        uint64_t address)
{
    return sirqobal_owns(SIRQOBAL_LENT(table), 0, table->settings, address);
}

/* sirqobal_arena_area */
SIRQOBAL_USE
static inline struct sirqobal_reply sirqobal_table_area(const struct sirqobal_table *table,
                                                        int32_t id)
{
    return sirqobal_arena_area(SIRQOBAL_LENT(table), 0, table->settings, id);
}

#undef SIRQOBAL_LENT

/* sirqobal_join_tables, with the first's settings. Both keep their settings, and the second is ready for use. One table
 * given twice shares every address with itself: 17, and nothing is touched. */
SIRQOBAL_USE
static inline struct sirqobal_join_reply sirqobal_table_join(struct sirqobal_table *first,
                                                             struct sirqobal_table *second)
{
    struct sirqobal_join_reply reply;
    if (first == second) {
        memset(&reply, 0, sizeof reply);
        reply.number = SIRQOBAL_TABLES_OVERLAP;
        reply.first = reply.second = first->state;
        return reply;
    }
    reply = sirqobal_join_tables(first->records, SIRQOBAL_RECORDS, first->stamps, SIRQOBAL_STAMPS, second->records,
                                 SIRQOBAL_RECORDS, second->stamps, SIRQOBAL_STAMPS, first->state, second->state, 0,
                                 first->settings);
    first->state = reply.first;
    second->state = reply.second;
    return reply;
}

/* Who answers the questions: does what `asked` says (kind, address, bytes, align, decommit, commit, large), and
 * answers whether it is done; for memory it writes where it is. It makes no call on the table. */
typedef bool sirqobal_host(void *context,
                           const struct sirqobal_reply *asked,
                           uint64_t *base);

/* Has the host answer one question, and answers what the layer replied. */
SIRQOBAL_USE
static inline struct sirqobal_reply sirqobal_table_settle_one(struct sirqobal_table *table,
                                                              struct sirqobal_reply asked,
                                                              sirqobal_host *host,
                                                              void *context)
{
    uint64_t base = 0;
    struct sirqobal_reply reply;
    if (asked.kind == SIRQOBAL_GIVE_BACK) {
        /* The layer first, as its answer is ignored: were it to refuse this one (1), the host would be asked
         * again later, and unmap twice. */
        reply = sirqobal_table_answer(table, asked.kind, true, 0);
        if (reply.number != SIRQOBAL_BROKEN && reply.number != SIRQOBAL_NO_SUCH_QUESTION)
            host(context, &asked, &base);
        return reply;
    }
    bool yes = host(context, &asked, &base);
    reply = sirqobal_table_answer(table, asked.kind, yes, base);
    bool taken = reply.number != SIRQOBAL_BROKEN && reply.number != SIRQOBAL_NO_SUCH_QUESTION &&
                 reply.number != SIRQOBAL_RANGE;
    if (asked.kind != SIRQOBAL_MEMORY || !yes || taken)
        return reply;
    if (base != 0) {
        struct sirqobal_reply back = asked;
        back.kind = SIRQOBAL_GIVE_BACK;
        back.address = base;
        host(context, &back, &base);
    }
    return reply.number == SIRQOBAL_RANGE ? sirqobal_table_answer(table, asked.kind, false, 0) : reply;
}

/* Has the host answer until the call ends; answers its grant or its refusal. `reply` is what a call on this table
 * has just answered:
 *
 *     r = sirqobal_table_settle(&table, sirqobal_table_claim(&table, id, 2), host, context);
 *
 * A reply that is no question comes back as it is. Where the layer refuses an answer and keeps the question open:
 * 6   memory that the layer cannot take goes back to the host, as a give back question, and the question is answered
 *     no: the call ends with 14, or, if a claim waits, with 10 and the mark.
 * 1   it ends with 1, memory going back to the host first. The table or its settings are broken; the question stays
 *     open. When they are put right, go on with sirqobal_table_settle(&table, table.asked, host, context); what was
 *     asked last is asked again.
 * 3   it ends with 3, memory going back to the host first: `reply` was not the open question, or the host has
 *     answered it itself. */
SIRQOBAL_USE
static inline struct sirqobal_reply sirqobal_table_settle(struct sirqobal_table *table,
                                                          struct sirqobal_reply reply,
                                                          sirqobal_host *host,
                                                          void *context)
{
    while (reply.number == SIRQOBAL_QUESTION)
        reply = sirqobal_table_settle_one(table, reply, host, context);
    return reply;
}

/* A state's bytes, those between its fields being 0: to save it, or to compare two. */
static inline void sirqobal_state_bytes(const struct sirqobal_state *state,
                                        unsigned char bytes[sizeof(struct sirqobal_state)])
{
    const size_t gap = offsetof(struct sirqobal_state, decommit) + sizeof state->decommit;
    memcpy(bytes, state, sizeof *state);
    memset(bytes + gap, 0, offsetof(struct sirqobal_state, purged) - gap);
}

#ifdef __cplusplus
}
#endif

#endif
