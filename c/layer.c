/* The layer through its C surface: the layout of what is lent, and one sequence of calls whose answers documents 01
 * and 02 give. It prints each step, and exits with 0 only if every answer, and what it left in the records, is as it
 * should be.
 *
 *     bash library.sh
 *     gcc -std=c11 -Wall -Wextra -Wpedantic -Werror -Iinclude c/layer.c build/lib/libsirqobal.a -o layer
 *     ./layer */
#include "sirqobal.h"

#include <stdio.h>
#include <string.h>

#define S SIRQOBAL_CHUNK

_Static_assert(sizeof(struct sirqobal_arena) == 544, "arena");
_Static_assert(offsetof(struct sirqobal_arena, base) == 0, "base");
_Static_assert(offsetof(struct sirqobal_arena, chunks) == 8, "chunks");
_Static_assert(offsetof(struct sirqobal_arena, exclusive) == 16, "exclusive");
_Static_assert(offsetof(struct sirqobal_arena, owned) == 20, "owned");
_Static_assert(offsetof(struct sirqobal_arena, node) == 24, "node");
_Static_assert(offsetof(struct sirqobal_arena, deadline) == 28, "deadline");
_Static_assert(offsetof(struct sirqobal_arena, used) == 32, "used");
_Static_assert(offsetof(struct sirqobal_arena, dirty) == 160, "dirty");
_Static_assert(offsetof(struct sirqobal_arena, committed) == 288, "committed");
_Static_assert(offsetof(struct sirqobal_arena, pending) == 416, "pending");

/* Records and stamps are what is lent. Of a record each field begins where the one before it ends, and the last ends
 * with the record: it has no padding, so each of its bytes is of some field. */
#define PAST(field) (offsetof(struct sirqobal_arena, field) + sizeof(((struct sirqobal_arena *)0)->field))
#define FOLLOWS(field, before) \
    _Static_assert(offsetof(struct sirqobal_arena, field) == PAST(before), #before ", then " #field)
FOLLOWS(chunks, base);
FOLLOWS(exclusive, chunks);
FOLLOWS(owned, exclusive);
FOLLOWS(node, owned);
FOLLOWS(deadline, node);
FOLLOWS(used, deadline);
FOLLOWS(dirty, used);
FOLLOWS(committed, dirty);
FOLLOWS(pending, committed);
_Static_assert(PAST(pending) == sizeof(struct sirqobal_arena), "pending, then the end");

_Static_assert(sizeof(struct sirqobal_state) == 104, "state");
_Static_assert(sizeof(struct sirqobal_settings) == 32, "settings");
_Static_assert(sizeof(struct sirqobal_reply) == 160, "reply");
_Static_assert(sizeof(struct sirqobal_join_reply) == 224, "join reply");
_Static_assert(offsetof(struct sirqobal_join_reply, number) == 0, "number");
_Static_assert(offsetof(struct sirqobal_join_reply, spare) == 4, "spare");
_Static_assert(offsetof(struct sirqobal_join_reply, rise) == 8, "rise");
_Static_assert(offsetof(struct sirqobal_join_reply, first) == 16, "first");
_Static_assert(offsetof(struct sirqobal_join_reply, second) == 120, "second");

static struct sirqobal_arena records[SIRQOBAL_RECORDS];
static uint32_t stamps[SIRQOBAL_STAMPS];
static struct sirqobal_state state;
static struct sirqobal_settings settings = {.delay = 10, .decommits = 1, .page = 4096};
static uint64_t ns = 1000000000;
static int failures;

#define LENT records, SIRQOBAL_RECORDS, stamps, SIRQOBAL_STAMPS, state, ns, settings

/* The reply has these numbers, and its state is the next call's. */
static struct sirqobal_reply step(const char *what, struct sirqobal_reply r, uint32_t number, uint32_t kind,
                                  uint64_t address, uint64_t bytes)
{
    int fine = r.number == number && r.kind == kind && r.address == address && r.bytes == bytes;
    printf("%-52s %3u kind %u address %llu bytes %llu%s\n", what, r.number, r.kind, (unsigned long long)r.address,
           (unsigned long long)r.bytes, fine ? "" : "   WRONG");
    failures += !fine;
    state = r.state;
    return r;
}

static void check(const char *what, int fine)
{
    if (!fine) {
        printf("%-52s WRONG\n", what);
        failures++;
    }
}

/* The same numbers; what lies between the fields is nothing. */
static int same(const struct sirqobal_state *a, const struct sirqobal_state *b)
{
    return a->count == b->count && a->mark == b->mark && a->question == b->question && a->id == b->id &&
           a->start == b->start && a->n == b->n && a->chunks == b->chunks && a->bytes == b->bytes &&
           a->commit == b->commit && a->exclusive == b->exclusive && a->waiting == b->waiting &&
           a->commits == b->commits && a->cause == b->cause && a->force == b->force && a->now == b->now &&
           a->delay == b->delay && a->decommit == b->decommit && a->purged == b->purged;
}

static struct sirqobal_arena before[SIRQOBAL_RECORDS];
static uint32_t stamped[SIRQOBAL_STAMPS];

/* What stands in the table, to be compared. */
static void keep_lent(void)
{
    memcpy(before, records, sizeof before);
    memcpy(stamped, stamps, sizeof stamped);
}

/* The reply has this number alone; records, stamps and state are as they were kept. */
static void left(const char *what, struct sirqobal_reply r, uint32_t number, struct sirqobal_state was)
{
    step(what, r, number, 0, 0, 0);
    check("  the records are left", memcmp(records, before, sizeof records) == 0);
    check("  the stamps are left", memcmp(stamps, stamped, sizeof stamps) == 0);
    check("  the state is left", same(&state, &was));
}

static void registering(void)
{
    struct sirqobal_reply r;
    step("owns, of the empty layer", sirqobal_owns(LENT, 4 * S), 0, 0, 0, 0);
    step("area 0, of the empty layer", sirqobal_arena_area(LENT, 0), 0, 0, 0, 0);

    r = step("adopt 4 chunks", sirqobal_adopt_os_block(LENT, 4 * S, 4 * S), 0, 0, 0, 0);
    check("  it is arena 0", r.id == 0 && state.count == 1);
    check("  its record", records[0].base == 4 * S && records[0].chunks == 4 && records[0].exclusive == 0 &&
                              records[0].owned == 1 && records[0].node == -1 && records[0].deadline == 0);
    check("  its bits", records[0].used[0] == 0 && records[0].dirty[0] == 15 && records[0].committed[0] == 15 &&
                            records[0].pending[0] == 0);

    r = step("reserve 2 chunks", sirqobal_reserve_os_memory_ex(LENT, S + 1, false, true, true), 255, SIRQOBAL_MEMORY, 0,
             2 * S);
    check("  its flags",
          r.align == S && !r.commit && r.large && state.question == 3 && state.chunks == 2 && state.exclusive == 1);
    step("a claim while the question is open", sirqobal_chunk_alloc(LENT, 0), SIRQOBAL_QUESTION_OPEN, 0, 0, 0);
    step("an answer for a commit", sirqobal_answer(LENT, SIRQOBAL_COMMIT, true, 0), SIRQOBAL_NO_SUCH_QUESTION, 0, 0, 0);
    r = step("the memory comes", sirqobal_answer(LENT, SIRQOBAL_MEMORY, true, 64 * S), 0, 0, 0, 0);
    check("  it is arena 1", r.id == 1 && state.count == 2 && state.question == 0);
    check("  its record", records[1].base == 64 * S && records[1].chunks == 2 && records[1].exclusive == 1 &&
                              records[1].owned == 1 && records[1].committed[0] == 0);

    r = step("manage: the whole chunks inside",
             sirqobal_manage_os_memory_ex(LENT, 128 * S + 1, 3 * S, false, false, false, 3, true, false, true), 0, 0, 0,
             0);
    check("  it is arena 2", r.id == 2 && state.count == 3);
    check("  its record", records[2].base == 129 * S && records[2].chunks == 2 && records[2].exclusive == 1 &&
                              records[2].owned == 0 && records[2].node == 3);
    step("manage: in the segment map already",
         sirqobal_manage_os_memory_ex(LENT, 256 * S, S, false, false, false, 0, false, true, true),
         SIRQOBAL_HOST_REFUSED, 0, 0, 0);
    step("manage: not reserved",
         sirqobal_manage_os_memory_ex(LENT, 256 * S, S, false, false, false, 0, false, false, false),
         SIRQOBAL_HOST_REFUSED, 0, 0, 0);
    step("manage: no whole chunk",
         sirqobal_manage_os_memory_ex(LENT, 256 * S + 1, S, false, false, false, 0, false, false, true),
         SIRQOBAL_NO_WHOLE_CHUNK, 0, 0, 0);
    step("adopt: overlaps arena 0", sirqobal_adopt_os_block(LENT, 7 * S, S), SIRQOBAL_RANGE, 0, 0, 0);

    step("reserve 1 chunk", sirqobal_reserve_os_memory_ex(LENT, S, true, false, false), 255, SIRQOBAL_MEMORY, 0, S);
    step("the memory is not aligned: it is given back", sirqobal_answer(LENT, SIRQOBAL_MEMORY, true, 300 * S + 4096),
         255, SIRQOBAL_GIVE_BACK, 300 * S + 4096, S);
    step("given back: the reserve is refused", sirqobal_answer(LENT, SIRQOBAL_GIVE_BACK, false, 0), SIRQOBAL_NOT_WHOLE,
         0, 0, 0);
    step("reserve 1 chunk", sirqobal_reserve_os_memory_ex(LENT, S, true, false, false), 255, SIRQOBAL_MEMORY, 0, S);
    step("there is no memory", sirqobal_answer(LENT, SIRQOBAL_MEMORY, false, 0), SIRQOBAL_MEMORY_REFUSED, 0, 0, 0);
}

static void claiming(void)
{
    struct sirqobal_reply r;
    step("chunk_alloc in arena 1 asks for the commit", sirqobal_chunk_alloc(LENT, 1), 255, SIRQOBAL_COMMIT, 64 * S, S);
    check("  the used bit is set", records[1].used[0] == 1 && records[1].dirty[0] == 0);
    step("the commit fails", sirqobal_answer(LENT, SIRQOBAL_COMMIT, false, 0), SIRQOBAL_COMMIT_REFUSED, 0, 0, 0);
    check("  the used bit is clear", records[1].used[0] == 0);
    step("chunk_alloc in arena 1 asks again", sirqobal_chunk_alloc(LENT, 1), 255, SIRQOBAL_COMMIT, 64 * S, S);
    r = step("the commit is done", sirqobal_answer(LENT, SIRQOBAL_COMMIT, true, 0), 0, 0, 64 * S, 0);
    check("  fresh and committed", r.fresh && r.committed && records[1].dirty[0] == 1 && records[1].committed[0] == 1);
    r = step("chunk_claim in arena 1", sirqobal_chunk_claim(LENT, 1), 0, 0, 65 * S, 0);
    check("  fresh, not committed", r.fresh && !r.committed);
    step("chunk_alloc in arena 1, which is full", sirqobal_chunk_alloc(LENT, 1), SIRQOBAL_NO_RUN, 0, 0, 0);
    r = step("chunk_alloc_n, 3 in any arena", sirqobal_chunk_alloc_n(LENT, -1, 3), 0, 0, 4 * S, 0);
    check("  not fresh, committed", !r.fresh && r.committed && records[0].used[0] == 7);
    step("chunk_alloc_n, 2 in any arena", sirqobal_chunk_alloc_n(LENT, -1, 2), SIRQOBAL_NO_RUN, 0, 0, 0);
    step("chunk_alloc_n, 0", sirqobal_chunk_alloc_n(LENT, -1, 0), SIRQOBAL_ZERO, 0, 0, 0);
    settings.off = 1;
    step("arenas off", sirqobal_chunk_claim(LENT, -1), SIRQOBAL_ARENAS_OFF, 0, 0, 0);
    settings.off = 0;
}

static void releasing(void)
{
    uint32_t now = sirqobal_now_ms(ns);
    step("release 3 chunks, pending", sirqobal_chunk_release(LENT, 4 * S, 3, -1, true), 0, 0, 0, 0);
    check("  the record", records[0].used[0] == 0 && records[0].pending[0] == 7 && records[0].committed[0] == 15 &&
                              records[0].deadline == now + 10);
    check("  the stamps", stamps[0] == now && stamps[1] == now && stamps[2] == now && stamps[3] == 0);
    step("release, told that it is not committed", sirqobal_chunk_release(LENT, 64 * S, 1, 0, false), 0, 0, 0, 0);
    check("  the bits", records[1].used[0] == 2 && records[1].committed[0] == 0);
    step("release, told that it is committed", sirqobal_chunk_release(LENT, 64 * S, 1, 1, false), 0, 0, 0, 0);
    check("  the bits", records[1].used[0] == 2 && records[1].committed[0] == 1);
    step("release of 0", sirqobal_chunk_release(LENT, 4 * S, 0, -1, false), SIRQOBAL_ZERO, 0, 0, 0);
    step("release, not whole", sirqobal_chunk_release(LENT, 4 * S + 1, 1, -1, false), SIRQOBAL_NOT_WHOLE, 0, 0, 0);
    step("release in no arena", sirqobal_chunk_release(LENT, 3 * S, 1, -1, false), SIRQOBAL_NOT_INSIDE, 0, 0, 0);
    step("release past the end", sirqobal_chunk_release(LENT, 7 * S, 2, -1, false), SIRQOBAL_PAST_END, 0, 0, 0);
}

static void sweeping(void)
{
    struct sirqobal_reply r;
    r = step("sweep before the deadline", sirqobal_purge_due(LENT, false), 0, 0, 0, 0);
    check("  nothing is purged", r.count == 0);
    ns += 20000000;
    r = step("sweep after it", sirqobal_purge_due(LENT, false), 255, SIRQOBAL_PURGE, 4 * S, S);
    check("  decommitting",
          r.decommit && state.question == 2 && state.now == sirqobal_now_ms(ns) && state.decommit == 1);
    r = step("owns, while the question is open", sirqobal_owns(LENT, 4 * S), 0, 0, 0, 0);
    check("  it does", r.owns);
    step("purged; the next chunk", sirqobal_answer(LENT, SIRQOBAL_PURGE, true, 0), 255, SIRQOBAL_PURGE, 5 * S, S);
    step("not purged; the next chunk", sirqobal_answer(LENT, SIRQOBAL_PURGE, false, 0), 255, SIRQOBAL_PURGE, 6 * S, S);
    r = step("purged; the sweep ends", sirqobal_answer(LENT, SIRQOBAL_PURGE, true, 0), 0, 0, 0, 0);
    check("  two were purged", r.count == 2 && state.question == 0);
    check("  the record", records[0].used[0] == 0 && records[0].pending[0] == 0 && records[0].committed[0] == 10 &&
                              records[0].deadline == 0);
}

/* ---- a negative delay means never */

/* All of arena 0 is held; its first two chunks go while the delay is 10 ms, and their deadline comes. */
static void pending_and_due(void)
{
    settings.delay = 10;
    step("a run of 4 in arena 0", sirqobal_chunk_alloc_n(LENT, 0, 4), 255, SIRQOBAL_COMMIT, 4 * S, 4 * S);
    step("the commit is done", sirqobal_answer(LENT, SIRQOBAL_COMMIT, true, 0), 0, 0, 4 * S, 0);
    step("release 2 chunks, pending", sirqobal_chunk_release(LENT, 4 * S, 2, -1, true), 0, 0, 0, 0);
    check("  the record", records[0].used[0] == 12 && records[0].pending[0] == 3 && records[0].committed[0] == 15 &&
                              records[0].deadline == sirqobal_now_ms(ns) + 10);
    ns += 20000000;
}

/* A sweep that is not forced asks nothing and leaves all, what is due too. 1 comes first. */
static void never_sweeps(void)
{
    struct sirqobal_state idle = state;
    keep_lent();
    struct sirqobal_reply r = sirqobal_purge_due(LENT, false);
    left("never: a sweep of what is due", r, SIRQOBAL_GRANTED, idle);
    check("  nothing is purged", r.count == 0);
    settings.page = 5000;
    left("never: a sweep, no page size", sirqobal_purge_due(LENT, false), SIRQOBAL_BROKEN, idle);
    left("never: a release, no page size", sirqobal_chunk_release(LENT, 6 * S, 1, 0, true), SIRQOBAL_BROKEN, idle);
    settings.page = 4096;
    left("never: a release past the end", sirqobal_chunk_release(LENT, 7 * S, 2, 0, true), SIRQOBAL_PAST_END, idle);
}

/* A pending release clears used bits and obeys what it is told. It stamps, marks and arms nothing, and what is marked
 * stays so. */
static void never_releases(void)
{
    struct sirqobal_state idle = state;
    keep_lent();
    left("never: release what is pending", sirqobal_chunk_release(LENT, 4 * S, 2, -1, true), SIRQOBAL_GRANTED, idle);
    before[0].used[0] = 8;
    before[0].committed[0] = 11;
    left("never: release, told that it is not committed", sirqobal_chunk_release(LENT, 6 * S, 1, 0, true),
         SIRQOBAL_GRANTED, idle);
    before[0].used[0] = 0;
    before[0].committed[0] = 15;
    left("never: release, told that it is committed", sirqobal_chunk_release(LENT, 6 * S, 2, 1, true),
         SIRQOBAL_GRANTED, idle);
}

/* Forced, it asks about what was left to a sweep, with a delay of 0. 2 comes first, and an answer's delay counts for
 * nothing. */
static void never_forced(int64_t delay)
{
    struct sirqobal_reply r;
    r = step("never: a forced sweep", sirqobal_purge_due(LENT, true), 255, SIRQOBAL_PURGE, 4 * S, S);
    check("  its numbers", r.decommit && state.force == 1 && state.delay == 0 && state.now == sirqobal_now_ms(ns));
    struct sirqobal_state asking = state;
    keep_lent();
    left("never: a sweep meanwhile", sirqobal_purge_due(LENT, false), SIRQOBAL_QUESTION_OPEN, asking);
    left("never: a release meanwhile", sirqobal_chunk_release(LENT, 6 * S, 1, 0, true), SIRQOBAL_QUESTION_OPEN, asking);
    step("purged; the next chunk", sirqobal_answer(LENT, SIRQOBAL_PURGE, true, 0), 255, SIRQOBAL_PURGE, 5 * S, S);
    settings.delay = INT64_MAX;
    r = step("purged; the sweep ends", sirqobal_answer(LENT, SIRQOBAL_PURGE, true, 0), 0, 0, 0, 0);
    check("  two were purged", r.count == 2 && state.question == 0);
    check("  the record", records[0].used[0] == 0 && records[0].pending[0] == 0 && records[0].committed[0] == 12 &&
                              records[0].deadline == 0);
    settings.delay = delay;
    struct sirqobal_state idle = state;
    keep_lent();
    left("never: forced again, nothing is left to it", sirqobal_purge_due(LENT, true), SIRQOBAL_GRANTED, idle);
}

static void never(void)
{
    static const int64_t negative[] = {SIRQOBAL_NEVER, -2, INT64_MIN};
    for (size_t i = 0; i < sizeof negative / sizeof negative[0]; i++) {
        pending_and_due();
        settings.delay = negative[i];
        printf("delay %lld\n", (long long)negative[i]);
        check("  it counts as 0 ms", sirqobal_delay_ms(negative[i]) == 0);
        never_sweeps();
        never_releases();
        never_forced(negative[i]);
    }
}

/* The call that begins a sweep decides, not its answers. A delay of 0 is no never. */
static void never_too_late(void)
{
    settings.delay = 0;
    step("delay 0: release 2 chunks, pending", sirqobal_chunk_release(LENT, 4 * S, 2, -1, true), 0, 0, 0, 0);
    step("a sweep at the same clock", sirqobal_purge_due(LENT, false), 255, SIRQOBAL_PURGE, 4 * S, S);
    settings.delay = SIRQOBAL_NEVER;
    step("answered with never; the next chunk", sirqobal_answer(LENT, SIRQOBAL_PURGE, true, 0), 255, SIRQOBAL_PURGE,
         5 * S, S);
    struct sirqobal_reply r = step("again; the sweep ends", sirqobal_answer(LENT, SIRQOBAL_PURGE, true, 0), 0, 0, 0, 0);
    check("  two were purged", r.count == 2 && records[0].pending[0] == 0 && records[0].deadline == 0);
    settings.delay = 10;
}

static void queries(void)
{
    struct sirqobal_reply r;
    r = step("owns the first byte of arena 0", sirqobal_owns(LENT, 4 * S), 0, 0, 0, 0);
    check("  yes", r.owns);
    r = step("owns the byte before it", sirqobal_owns(LENT, 4 * S - 1), 0, 0, 0, 0);
    check("  no", !r.owns);
    step("area 0", sirqobal_arena_area(LENT, 0), 0, 0, 4 * S, 4 * S);
    step("area 3, of no arena", sirqobal_arena_area(LENT, 3), 0, 0, 0, 0);
    step("area -1", sirqobal_arena_area(LENT, -1), 0, 0, 0, 0);
}

/* What is no state, a slice of another length, a page size that is none: 1, and all is left. */
static void broken(void)
{
    struct sirqobal_state sound = state;
    keep_lent();

    state.question = 5;
    left("a question of no kind", sirqobal_chunk_alloc_n(LENT, -1, 1), SIRQOBAL_BROKEN, state);
    left("  the same, and an answer", sirqobal_answer(LENT, SIRQOBAL_COMMIT, true, 0), SIRQOBAL_BROKEN, state);
    left("  the same, and a sweep", sirqobal_purge_due(LENT, true), SIRQOBAL_BROKEN, state);
    left("  the same, and a query", sirqobal_owns(LENT, 4 * S), SIRQOBAL_BROKEN, state);
    state = sound;
    state.mark = 2;
    left("a flag that is neither 0 nor 1", sirqobal_chunk_claim(LENT, -1), SIRQOBAL_BROKEN, state);
    state = sound;
    state.question = SIRQOBAL_GIVE_BACK;
    state.cause = 11;
    left("a cause that is none", sirqobal_answer(LENT, SIRQOBAL_GIVE_BACK, true, 0), SIRQOBAL_BROKEN, state);
    state = sound;
    state.cause = 12;
    left("a field that the state does not use", sirqobal_adopt_os_block(LENT, 8 * S, S), SIRQOBAL_BROKEN, state);
    state = sound;
    state.count = 33;
    left("33 arenas", sirqobal_chunk_release(LENT, 4 * S, 1, -1, false), SIRQOBAL_BROKEN, state);
    state = sound;
    left("31 records", sirqobal_chunk_claim(records, 31, stamps, SIRQOBAL_STAMPS, state, ns, settings, -1),
         SIRQOBAL_BROKEN, sound);
    settings.page = 5000;
    left("a page size that is none", sirqobal_chunk_claim(LENT, -1), SIRQOBAL_BROKEN, sound);
    settings.page = 4096;
    step("and all goes on", sirqobal_chunk_claim(LENT, -1), 0, 0, 4 * S, 0);
}

/* A record's flag is on unless it is 0, whatever else stands there. */
static void flags(void)
{
    records[0].exclusive = 2;
    step("a claim, arena 0's exclusive being 2", sirqobal_chunk_claim(LENT, -1), SIRQOBAL_NO_RUN, 0, 0, 0);
    records[0].exclusive = 0;
    records[0].owned = UINT32_MAX;
    step("adopt behind arena 0, its owned being 2^32 - 1", sirqobal_adopt_os_block(LENT, 8 * S, S), 0, 0, 0, 0);
    check("  it grows, and the flag is left",
          state.count == 3 && records[0].chunks == 5 && records[0].owned == UINT32_MAX);
}

/* ---- two tables joined */

static struct sirqobal_arena other_records[SIRQOBAL_RECORDS], other_before[SIRQOBAL_RECORDS];
static uint32_t other_stamps[SIRQOBAL_STAMPS], other_stamped[SIRQOBAL_STAMPS];
static struct sirqobal_state other;

#define OTHER other_records, SIRQOBAL_RECORDS, other_stamps, SIRQOBAL_STAMPS, other, ns, settings
#define BOTH                                                                                                 \
    records, SIRQOBAL_RECORDS, stamps, SIRQOBAL_STAMPS, other_records, SIRQOBAL_RECORDS, other_stamps,       \
        SIRQOBAL_STAMPS, state, other, ns, settings

/* A step of the other table. */
static struct sirqobal_reply other_step(const char *what, struct sirqobal_reply r, uint32_t number, uint32_t kind,
                                        uint64_t address, uint64_t bytes)
{
    struct sirqobal_state first = state;
    step(what, r, number, kind, address, bytes);
    other = state;
    state = first;
    return r;
}

static void join_step(const char *what, struct sirqobal_join_reply r, uint32_t number, size_t rise)
{
    int fine = r.number == number && r.rise == rise && r.spare == 0;
    printf("%-52s %3u rise %zu%s\n", what, r.number, r.rise, fine ? "" : "   WRONG");
    failures += !fine;
    state = r.first;
    other = r.second;
}

/* What stands in both tables, to be compared. */
static void remember(void)
{
    keep_lent();
    memcpy(other_before, other_records, sizeof other_before);
    memcpy(other_stamped, other_stamps, sizeof other_stamped);
}

/* A join that is refused leaves both tables. */
static void turned_down(const char *what, struct sirqobal_join_reply r, uint32_t number)
{
    struct sirqobal_state first = state, second = other;
    join_step(what, r, number, 0);
    check("  both tables are left", memcmp(records, before, sizeof records) == 0 &&
                                        memcmp(stamps, stamped, sizeof stamps) == 0 &&
                                        memcmp(other_records, other_before, sizeof other_records) == 0 &&
                                        memcmp(other_stamps, other_stamped, sizeof other_stamps) == 0);
    check("  both states are left", same(&state, &first) && same(&other, &second));
}

/* Two arenas: one shared, a chunk of it pending; one exclusive, all of it held. Past the count anything may stand. */
static void second_table(void)
{
    memset(&other_records[2], 0xa5, 30 * sizeof other_records[0]);
    memset(&other_stamps[2048], 0xa5, 30 * 4096);
    other_step("second: adopt 3 chunks", sirqobal_adopt_os_block(OTHER, 300 * S, 3 * S), 0, 0, 0, 0);
    other_step("second: manage 2 chunks, exclusive",
               sirqobal_manage_os_memory_ex(OTHER, 9 * S, 2 * S, true, false, false, 5, true, false, true), 0, 0, 0, 0);
    other_step("second: a run of 2 in its arena 1", sirqobal_chunk_alloc_n(OTHER, 1, 2), 0, 0, 9 * S, 0);
    other_step("second: release a chunk, pending", sirqobal_chunk_release(OTHER, 301 * S, 1, -1, true), 0, 0, 0, 0);
    check("  its deadline and stamp",
          other_records[0].deadline == sirqobal_now_ms(ns) + 10 && other_stamps[1] == sirqobal_now_ms(ns));
}

static void before_joining(void)
{
    struct sirqobal_state idle = state;
    remember();
    turned_down("join: 31 records of the second",
                sirqobal_join_tables(records, SIRQOBAL_RECORDS, stamps, SIRQOBAL_STAMPS, other_records, 31,
                                     other_stamps, SIRQOBAL_STAMPS, state, other, ns, settings),
                SIRQOBAL_BROKEN);
    state.question = 5;
    turned_down("join: a question of no kind", sirqobal_join_tables(BOTH), SIRQOBAL_BROKEN);
    state = idle;

    step("reserve 1 chunk", sirqobal_reserve_os_memory_ex(LENT, S, true, false, false), 255, SIRQOBAL_MEMORY, 0, S);
    turned_down("join: the first's question is open", sirqobal_join_tables(BOTH), SIRQOBAL_QUESTION_OPEN);
    step("there is no memory", sirqobal_answer(LENT, SIRQOBAL_MEMORY, false, 0), SIRQOBAL_MEMORY_REFUSED, 0, 0, 0);

    other_step("second: adopt the first's chunk", sirqobal_adopt_os_block(OTHER, 64 * S, S), 0, 0, 0, 0);
    remember();
    turned_down("join: a range in both", sirqobal_join_tables(BOTH), SIRQOBAL_TABLES_OVERLAP);
    other.count = 2;
    memset(&other_records[2], 0xa5, sizeof other_records[0]);
    memset(&other_stamps[2048], 0xa5, 4096);
}

/* The second's arenas 0 and 1 are 3 and 4 from now on; its arena 1 stands right behind arena 0, and stays apart. */
static void joining(void)
{
    static const struct sirqobal_arena blank[SIRQOBAL_RECORDS];
    static const uint32_t no_stamps[SIRQOBAL_STAMPS];
    struct sirqobal_state empty = {0}, five = state;
    five.count = 5;
    memset(&records[5], 0x5a, 27 * sizeof records[0]);
    memset(&stamps[5120], 0x5a, 27 * 4096);
    remember();
    join_step("join", sirqobal_join_tables(BOTH), 0, 3);
    check("  both states", same(&state, &five) && same(&other, &empty));
    check("  the first's records keep their place", memcmp(records, before, 3 * sizeof records[0]) == 0);
    check("  the second's records follow", memcmp(&records[3], other_before, 2 * sizeof records[0]) == 0);
    check("  what stood behind them stands", memcmp(&records[5], &before[5], 27 * sizeof records[0]) == 0);
    check("  the stamps likewise", memcmp(stamps, stamped, 3 * 4096) == 0 &&
                                       memcmp(&stamps[3072], other_stamped, 2 * 4096) == 0 &&
                                       memcmp(&stamps[5120], &stamped[5120], 27 * 4096) == 0);
    check("  the second is empty", memcmp(other_records, blank, sizeof blank) == 0 &&
                                       memcmp(other_stamps, no_stamps, sizeof no_stamps) == 0);
}

static void after_joining(void)
{
    struct sirqobal_reply r;
    step("a claim in arena 4, which is full", sirqobal_chunk_alloc(LENT, 4), SIRQOBAL_NO_RUN, 0, 0, 0);
    step("adopt at the seam of two arenas", sirqobal_adopt_os_block(LENT, 9 * S, S), SIRQOBAL_RANGE, 0, 0, 0);
    step("its holder releases a chunk", sirqobal_chunk_release(LENT, 10 * S, 1, -1, false), 0, 0, 0, 0);
    r = step("and claims it again", sirqobal_chunk_alloc(LENT, 4), 0, 0, 10 * S, 0);
    check("  not fresh", !r.fresh);
    step("area 4", sirqobal_arena_area(LENT, 4), 0, 0, 9 * S, 2 * S);
    ns += 20000000;
    step("the sweep asks about what was pending", sirqobal_purge_due(LENT, false), 255, SIRQOBAL_PURGE, 301 * S, S);
    r = step("purged; the sweep ends", sirqobal_answer(LENT, SIRQOBAL_PURGE, true, 0), 0, 0, 0, 0);
    check("  one was purged", r.count == 1 && records[3].committed[0] == 5);
}

/* The emptied table is used and joined again, until 32 arenas stand; the give-up mark stands if it stood in both. */
static void joining_again(void)
{
    for (uint64_t i = 0; i < 27; i++)
        other = sirqobal_adopt_os_block(OTHER, (1000 + 2 * i) * S, S).state;
    check("  27 arenas in the second", other.count == 27);
    other.mark = 1;
    join_step("join: 32 arenas", sirqobal_join_tables(BOTH), 0, 5);
    check("  the mark stood in one", state.count == 32 && state.mark == 0 && other.mark == 0);
    state.mark = 1;
    other_step("second: adopt", sirqobal_adopt_os_block(OTHER, 3000 * S, S), 0, 0, 0, 0);
    remember();
    turned_down("join: a 33rd arena", sirqobal_join_tables(BOTH), SIRQOBAL_TOO_MANY_ARENAS);
    other_step("second: adopt one of the first's", sirqobal_adopt_os_block(OTHER, 4 * S, S), 0, 0, 0, 0);
    remember();
    turned_down("join: in both, and a 33rd", sirqobal_join_tables(BOTH), SIRQOBAL_TABLES_OVERLAP);
    memset(&other, 0, sizeof other);
    other.mark = 1;
    join_step("join: nothing", sirqobal_join_tables(BOTH), 0, 32);
    check("  the mark stood in both", state.count == 32 && state.mark == 1 && other.mark == 0);
}

/* ---- a list of releases */

/* A run that is given back, and the number that is to stand at its place. */
struct expected {
    uint64_t address;
    uint32_t n;
    uint32_t number;
};

static uint64_t addresses[SIRQOBAL_LIST + 1];
static uint32_t counts[SIRQOBAL_LIST + 1], answers[SIRQOBAL_LIST + 1], as_lent[SIRQOBAL_LIST + 1];

/* The call with these lengths. */
static struct sirqobal_reply list(size_t address_count, size_t count_count, size_t answer_count, bool pending)
{
    return sirqobal_chunk_release_list(records, SIRQOBAL_RECORDS, stamps, SIRQOBAL_STAMPS, addresses, address_count,
                                       counts, count_count, answers, answer_count, state, ns, settings, pending);
}

/* Arena 0 of 40 chunks and arena 1 of 4, all of them held but one, which is pending since 5 ms ago. */
static void held_but_one(void)
{
    memset(records, 0, sizeof records);
    memset(stamps, 0, sizeof stamps);
    memset(&state, 0, sizeof state);
    settings.delay = 10;
    state = sirqobal_adopt_os_block(LENT, 4 * S, 40 * S).state;
    state = sirqobal_adopt_os_block(LENT, 64 * S, 4 * S).state;
    state = sirqobal_chunk_alloc_n(LENT, 0, 40).state;
    state = sirqobal_chunk_alloc_n(LENT, 1, 4).state;
    state = sirqobal_chunk_release(LENT, 5 * S, 1, SIRQOBAL_TOLD_NOTHING, true).state;
    check("  44 chunks, one of them pending", state.count == 2 && records[0].used[0] == 0xfffffffd &&
                                                  records[0].used[1] == 255 && records[1].used[0] == 15 &&
                                                  records[0].pending[0] == 2);
    ns += 5000000;
}

/* Puts the items into the lists. What stands in the answers is no number of an answer. */
static void put(const struct expected *items, size_t n)
{
    for (size_t i = 0; i < n; i++) {
        addresses[i] = items[i].address;
        counts[i] = items[i].n;
    }
    memset(answers, 0xa5, sizeof answers);
    memset(as_lent, 0xa5, sizeof as_lent);
}

/* The same releases one by one, on a copy of the table as it is kept: the same numbers, and the same is left. */
static void as_single(size_t n, bool pending, struct sirqobal_state was)
{
    int alike = 1;
    memcpy(other_records, before, sizeof before);
    memcpy(other_stamps, stamped, sizeof stamped);
    other = was;
    for (size_t i = 0; i < n; i++) {
        struct sirqobal_reply r =
            sirqobal_chunk_release(OTHER, addresses[i], counts[i], SIRQOBAL_TOLD_NOTHING, pending);
        other = r.state;
        alike = alike && r.number == answers[i];
    }
    check("  the numbers of single releases", alike);
    check("  and the table that they leave", memcmp(records, other_records, sizeof records) == 0 &&
                                                 memcmp(stamps, other_stamps, sizeof stamps) == 0 &&
                                                 same(&state, &other));
    check("  no answer but the list's", memcmp(&answers[n], &as_lent[n], sizeof answers - n * sizeof answers[0]) == 0);
}

static void taken(const char *what, size_t n, bool pending)
{
    struct sirqobal_state idle = state;
    keep_lent();
    step(what, list(n, n, n, pending), 0, 0, 0, 0);
    as_single(n, pending, idle);
}

/* Granted and refused items, of both arenas, some twice and some overlapping. */
static void mixed(const char *what, int64_t delay, bool pending)
{
    static const struct expected items[] = {
        {4 * S, 2, 0},  {4 * S, 0, SIRQOBAL_ZERO},           {3 * S, 1, SIRQOBAL_NOT_INSIDE},
        {64 * S, 3, 0}, {4 * S + 1, 1, SIRQOBAL_NOT_WHOLE},  {43 * S, 2, SIRQOBAL_PAST_END},
        {34 * S, 5, 0}, {0, 0, SIRQOBAL_ZERO},               {UINT64_MAX, 9, SIRQOBAL_NOT_INSIDE},
        {36 * S, 8, 0}, {44 * S - 1, 9, SIRQOBAL_NOT_WHOLE}, {4 * S, UINT32_MAX, SIRQOBAL_PAST_END},
        {4 * S, 2, 0},  {68 * S, 1, SIRQOBAL_NOT_INSIDE},    {67 * S, 1, 0},
    };
    const size_t n = sizeof items / sizeof items[0];
    held_but_one();
    settings.delay = delay;
    put(items, n);
    taken(what, n, pending);
    for (size_t i = 0; i < n; i++)
        check("  its number at its place", answers[i] == items[i].number);
    check("  what was given back", records[0].used[0] == 0x3ffffffc && records[0].used[1] == 0 &&
                                       records[1].used[0] == 0);
    check("  nothing is said of commitment",
          records[0].committed[0] == UINT32_MAX && records[0].committed[1] == 255 && records[1].committed[0] == 15);
    if (pending && delay >= 0)
        check("  all of it is to be purged", records[0].pending[0] == 0xc0000003 && records[0].pending[1] == 255 &&
                                                 records[1].pending[0] == 15 && stamps[1] == sirqobal_now_ms(ns));
    else
        check("  what was pending is left, and nothing more", records[0].pending[0] == 2 &&
                                                                  records[1].pending[0] == 0 &&
                                                                  memcmp(stamps, stamped, sizeof stamps) == 0);
}

/* The list is refused as a whole: table, state and answers are left. */
static void list_left(const char *what, struct sirqobal_reply r, uint32_t number, struct sirqobal_state was)
{
    left(what, r, number, was);
    check("  the answers are left", memcmp(answers, as_lent, sizeof answers) == 0);
}

/* 19 for each of the three lengths; before it 2, and before that 1. */
static void list_refused(void)
{
    static const struct expected two[] = {{4 * S, 1, 0}, {6 * S, 1, 0}};
    held_but_one();
    put(two, 2);
    struct sirqobal_state idle = state;
    keep_lent();
    list_left("list: an address too few", list(1, 2, 2, true), SIRQOBAL_LIST_LENGTH, idle);
    list_left("list: a count too few", list(2, 1, 2, true), SIRQOBAL_LIST_LENGTH, idle);
    list_left("list: an answer too few", list(2, 2, 1, true), SIRQOBAL_LIST_LENGTH, idle);
    list_left("list: no answer", list(2, 2, 0, true), SIRQOBAL_LIST_LENGTH, idle);
    list_left("list: answers alone", list(0, 0, 2, true), SIRQOBAL_LIST_LENGTH, idle);
    list_left("list: nothing is to be given back", list(0, 0, 0, true), 0, idle);
    settings.page = 5000;
    list_left("list: no page size", list(2, 2, 1, true), SIRQOBAL_BROKEN, idle);
    list_left("list: the same, nothing", list(0, 0, 0, true), SIRQOBAL_BROKEN, idle);
    settings.page = 4096;

    step("a forced sweep", sirqobal_purge_due(LENT, true), 255, SIRQOBAL_PURGE, 5 * S, S);
    struct sirqobal_state asking = state;
    keep_lent();
    list_left("list: meanwhile", list(2, 2, 2, true), SIRQOBAL_QUESTION_OPEN, asking);
    list_left("list: 2 before 19", list(2, 1, 2, true), SIRQOBAL_QUESTION_OPEN, asking);
    state.mark = 2;
    list_left("list: 1 before 2", list(2, 1, 2, true), SIRQOBAL_BROKEN, state);
    state = asking;
    step("purged; the sweep ends", sirqobal_answer(LENT, SIRQOBAL_PURGE, true, 0), 0, 0, 0, 0);
    taken("and the list is taken", 2, true);
}

/* 32,768 items are a list, and one more is none. */
static void longest_list(void)
{
    held_but_one();
    put(NULL, 0);
    for (size_t i = 0; i <= SIRQOBAL_LIST; i++) {
        addresses[i] = (4 + i % 41) * S; /* one of 41 is past the arena */
        counts[i] = 1 + (i % 2 != 0);    /* and some runs pass its end */
    }
    struct sirqobal_state idle = state;
    keep_lent();
    const size_t more = SIRQOBAL_LIST + 1;
    list_left("list: 32,769", list(more, more, more, true), SIRQOBAL_LIST_LENGTH, idle);
    taken("list: 32,768", SIRQOBAL_LIST, true);
    check("  the last ones, too", answers[SIRQOBAL_LIST - 1] == 0 && answers[40] == SIRQOBAL_NOT_INSIDE &&
                                      answers[39] == SIRQOBAL_PAST_END);
    check("  arena 0 is free", records[0].used[0] == 0 && records[0].used[1] == 0 && records[1].used[0] == 15);
}

static void listing(void)
{
    mixed("list: not pending", 10, false);
    mixed("list: pending", 10, true);
    mixed("list: pending, delay 0", 0, true);
    mixed("list: pending, never", SIRQOBAL_NEVER, true);
    mixed("list: pending, never by another number", INT64_MIN, true);
    list_refused();
    longest_list();
}

int main(void)
{
    registering();
    claiming();
    releasing();
    sweeping();
    never();
    never_too_late();
    queries();
    broken();
    flags();
    second_table();
    before_joining();
    joining();
    after_joining();
    joining_again();
    listing();
    printf("%d wrong\n", failures);
    return failures != 0;
}
