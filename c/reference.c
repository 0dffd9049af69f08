/* A yardstick for the benchmark, and nothing that anyone links: calls of the layer in plain C, over the same lent table
 * and by the same ABI as include/sirqobal.h, written from documents 01 and 02. It shows what such calls cost in C where every
 * call pays for all of row 1, as the proved ones do. Nothing here is proved; rust/compare holds its answers against the
 * library's.
 *
 * Left out is what the benchmark does not time: reserve, manage, adopt, and the answers to memory and give back
 * questions, which are refused with 3. */
#include "sirqobal.h"

#define S SIRQOBAL_CHUNK
#define MAX_CHUNKS 1024
#define NONE SIZE_MAX

/* Every call begins with these; queries only read what is lent. */
#define LENT                                                                                                           \
    struct sirqobal_arena *records, size_t record_count, uint32_t *stamps, size_t stamp_count,                         \
        struct sirqobal_state state, uint64_t ns, struct sirqobal_settings settings

/* ---- maps */

/* The first place from `from` on, before `end`, whose bit is set after flipping by `flip`; `end` if there is none. It
 * looks at a word at a time, since most words are all set or all clear. */
static size_t next_place(const uint32_t *map, size_t from, size_t end, uint32_t flip)
{
    while (from < end) {
        uint32_t word = (map[from / 32] ^ flip) >> (from % 32);
        if (word != 0) {
            from += (size_t)__builtin_ctz(word);
            return from < end ? from : end;
        }
        from = (from / 32 + 1) * 32;
    }
    return end;
}

static size_t next_set(const uint32_t *map, size_t from, size_t end)
{
    return next_place(map, from, end, 0);
}

static size_t next_clear(const uint32_t *map, size_t from, size_t end)
{
    return next_place(map, from, end, UINT32_MAX);
}

static bool all_set(const uint32_t *map, size_t start, size_t n)
{
    return next_clear(map, start, start + n) == start + n;
}

static bool all_clear(const uint32_t *map, size_t start, size_t n)
{
    return next_set(map, start, start + n) == start + n;
}

/* By masks, so that a long run costs a write for each word and not for each chunk. */
static void write_run(uint32_t *map, size_t start, size_t n, bool on)
{
    size_t end = start + n;
    while (start < end) {
        size_t bit = start % 32;
        size_t bits = end - start < 32 - bit ? end - start : 32 - bit;
        uint32_t mask = UINT32_MAX >> (32 - bits) << bit;
        if (on)
            map[start / 32] |= mask;
        else
            map[start / 32] &= ~mask;
        start += bits;
    }
}

/* The lowest run of n chunks that are not used, or NONE. */
static size_t find_run(const struct sirqobal_arena *arena, size_t n)
{
    size_t start = next_clear(arena->used, 0, arena->chunks);
    /* Compared by a difference: a sum with any n could wrap. */
    while (n <= arena->chunks - start) {
        size_t used = next_set(arena->used, start, start + n);
        if (used == start + n)
            return start;
        start = next_clear(arena->used, used, arena->chunks);
    }
    return NONE;
}

/* ---- row 1 */

static uint64_t end_of(const struct sirqobal_arena *arena)
{
    return arena->base + arena->chunks * S;
}

static bool sound_arena(const struct sirqobal_arena *arena)
{
    if (arena->chunks < 1 || arena->chunks > MAX_CHUNKS)
        return false;
    if (arena->base == 0 || arena->base % S != 0 || arena->base > UINT64_MAX - arena->chunks * S)
        return false;
    size_t past = arena->chunks, rest = MAX_CHUNKS - arena->chunks;
    return all_clear(arena->used, past, rest) && all_clear(arena->dirty, past, rest) &&
           all_clear(arena->committed, past, rest) && all_clear(arena->pending, past, rest);
}

/* No arena overlaps one before it. The arenas may lie in any order, so each is compared with each. */
static bool apart(const struct sirqobal_arena *records, size_t count)
{
    for (size_t i = 1; i < count; i++)
        for (size_t j = 0; j < i; j++)
            if (records[i].base < end_of(&records[j]) && records[j].base < end_of(&records[i]))
                return false;
    return true;
}

/* Numbers that a call can have left: what the open question does not use is 0, and a flag is 0 or 1. */
static bool sound_numbers(const struct sirqobal_state *s)
{
    bool commit = s->question == SIRQOBAL_COMMIT, purge = s->question == SIRQOBAL_PURGE;
    bool memory = s->question == SIRQOBAL_MEMORY, back = s->question == SIRQOBAL_GIVE_BACK;
    bool claim_waits = (memory || back) && s->waiting == 1;
    bool cause = s->cause == SIRQOBAL_CHUNK_COUNT || s->cause == SIRQOBAL_NOT_WHOLE || s->cause == SIRQOBAL_TABLE_FULL;
    return s->question <= SIRQOBAL_GIVE_BACK && s->mark <= 1 &&
           (commit || purge || (s->id == 0 && s->start == 0)) && (commit || claim_waits || s->n == 0) &&
           (memory || (s->chunks == 0 && s->bytes == 0)) && s->commit <= memory && s->exclusive <= memory &&
           s->waiting <= (memory || back) && s->commits <= claim_waits && (back ? cause : s->cause == 0) &&
           (purge || (s->now == 0 && s->delay == 0 && s->purged == 0)) && s->force <= purge && s->decommit <= purge;
}

/* An open commit or purge question is about chunks of an arena that stands, and their used bits are set. */
static bool sound_question(const struct sirqobal_arena *records, const struct sirqobal_state *s)
{
    if (s->question != SIRQOBAL_COMMIT && s->question != SIRQOBAL_PURGE)
        return true;
    if (s->id >= s->count)
        return false;
    const struct sirqobal_arena *arena = &records[s->id];
    size_t n = s->question == SIRQOBAL_PURGE ? 1 : s->n;
    if (s->start > arena->chunks || n > arena->chunks - s->start || !all_set(arena->used, s->start, n))
        return false;
    return s->question == SIRQOBAL_COMMIT || s->purged <= MAX_CHUNKS * s->id + s->start;
}

/* All of row 1. Lengths and the count come first: the rest reads so many records. */
static bool sound(const struct sirqobal_arena *records, size_t record_count, size_t stamp_count,
                  const struct sirqobal_state *s, uint64_t page)
{
    if (record_count != SIRQOBAL_RECORDS || stamp_count != SIRQOBAL_STAMPS || s->count > SIRQOBAL_RECORDS)
        return false;
    if (page < 4096 || page > 65536 || (page & (page - 1)) != 0)
        return false;
    for (size_t i = 0; i < s->count; i++)
        if (!sound_arena(&records[i]))
            return false;
    return apart(records, s->count) && sound_numbers(s) && sound_question(records, s);
}

/* ---- replies */

static struct sirqobal_reply refuse(uint32_t number, struct sirqobal_state state)
{
    return (struct sirqobal_reply){.number = number, .state = state};
}

static struct sirqobal_reply ask(uint32_t kind, uint64_t address, uint64_t bytes, const struct sirqobal_state *s)
{
    return (struct sirqobal_reply){
        .number = SIRQOBAL_QUESTION, .kind = kind, .address = address, .bytes = bytes, .state = *s};
}

/* The state once no question is open: what it kept for the question goes. */
static struct sirqobal_state calm(const struct sirqobal_state *s)
{
    return (struct sirqobal_state){.count = s->count, .mark = s->mark};
}

/* Rows 1 and 2, with which every call but queries and answers begins; 0 if it may go on. */
static uint32_t turned_down(const struct sirqobal_arena *records, size_t record_count, size_t stamp_count,
                            const struct sirqobal_state *s, uint64_t page)
{
    if (!sound(records, record_count, stamp_count, s, page))
        return SIRQOBAL_BROKEN;
    return s->question == SIRQOBAL_NONE ? SIRQOBAL_GRANTED : SIRQOBAL_QUESTION_OPEN;
}

/* ---- clock */

static uint32_t now_ms(uint64_t ns)
{
    uint32_t ms = (uint32_t)(ns / 1000000);
    return ms == 0 ? 1 : ms; /* a deadline of 0 would be none */
}

static uint32_t delay_ms(int64_t delay)
{
    return delay < 0 ? 0 : delay > 1073741823 ? 1073741823 : (uint32_t)delay;
}

/* A negative delay means that nothing is purged, unless a sweep is forced. */
static bool never_purges(int64_t delay)
{
    return delay < 0;
}

/* Milliseconds wrap at 2^32, so the earlier of two is told by their difference. */
static void arm(struct sirqobal_arena *arena, uint32_t due)
{
    if (due == 0)
        due = 1;
    if (arena->deadline == 0 || arena->deadline - due <= 2147483647)
        arena->deadline = due;
}

/* ---- queries */

/* The arena that an address lies in, or NONE. */
static size_t find_arena(const struct sirqobal_arena *records, size_t count, uint64_t address)
{
    for (size_t i = 0; i < count; i++)
        if (records[i].base <= address && address < end_of(&records[i]))
            return i;
    return NONE;
}

struct sirqobal_reply reference_owns(LENT, uint64_t address)
{
    if (!sound(records, record_count, stamp_count, &state, settings.page))
        return refuse(SIRQOBAL_BROKEN, state);
    bool owns = find_arena(records, state.count, address) != NONE;
    return (struct sirqobal_reply){.owns = owns, .state = state};
}

struct sirqobal_reply reference_arena_area(LENT, int32_t id)
{
    if (!sound(records, record_count, stamp_count, &state, settings.page))
        return refuse(SIRQOBAL_BROKEN, state);
    if (id < 0 || (size_t)id >= state.count)
        return (struct sirqobal_reply){.state = state};
    const struct sirqobal_arena *arena = &records[id];
    return (struct sirqobal_reply){.address = arena->base, .bytes = arena->chunks * S, .state = state};
}

/* ---- claims */

/* The grant itself. Dirty bits come here alone: they wait for a commit that may be answered no. */
static struct sirqobal_reply grant(struct sirqobal_arena *arena, struct sirqobal_state state, size_t start, size_t n,
                                   bool committed)
{
    bool fresh = all_clear(arena->dirty, start, n);
    write_run(arena->dirty, start, n, true);
    return (struct sirqobal_reply){
        .address = arena->base + start * S, .fresh = fresh, .committed = committed, .state = state};
}

/* Takes a run that was found, and asks for its commit where that is needed. */
static struct sirqobal_reply take(struct sirqobal_arena *records, struct sirqobal_state state, size_t id, size_t start,
                                  size_t n, bool commits)
{
    struct sirqobal_arena *arena = &records[id];
    bool committed = all_set(arena->committed, start, n);
    write_run(arena->used, start, n, true);
    if (!commits || committed)
        return grant(arena, state, start, n, committed);
    state.question = SIRQOBAL_COMMIT;
    state.id = id;
    state.start = start;
    state.n = n;
    return ask(SIRQOBAL_COMMIT, arena->base + start * S, n * S, &state);
}

/* No arena has the run: asks for the default reserve, if there is one and it was not given up. */
static struct sirqobal_reply miss(struct sirqobal_state state, const struct sirqobal_settings *settings, int32_t id,
                                  size_t n, bool commits)
{
    if (id >= 0 || settings->reserve < S || state.mark != 0)
        return refuse(SIRQOBAL_NO_RUN, state);
    uint64_t chunks = settings->reserve / S + (settings->reserve % S != 0);
    /* These bytes and a chunk more would pass 2^64 - 1: the reserve fails unasked. */
    if (chunks > UINT64_MAX / S - 1) {
        state.mark = 1;
        return refuse(SIRQOBAL_NO_RUN, state);
    }
    state.question = SIRQOBAL_MEMORY;
    state.chunks = chunks;
    state.bytes = chunks * S;
    state.waiting = 1;
    state.n = n;
    state.commits = commits;
    struct sirqobal_reply reply = ask(SIRQOBAL_MEMORY, 0, chunks * S, &state);
    reply.align = S;
    return reply;
}

/* The three claims: rows 1 and 2, then "4, 5, search". */
static struct sirqobal_reply claim(struct sirqobal_arena *records, size_t record_count, size_t stamp_count,
                                   const struct sirqobal_state *state, const struct sirqobal_settings *settings,
                                   int32_t id, size_t n, bool commits)
{
    uint32_t number = turned_down(records, record_count, stamp_count, state, settings->page);
    if (number != 0)
        return refuse(number, *state);
    if (n == 0)
        return refuse(SIRQOBAL_ZERO, *state);
    if (id < 0 && settings->off != 0)
        return refuse(SIRQOBAL_ARENAS_OFF, *state);
    for (size_t i = 0; i < state->count; i++) {
        bool eligible = id < 0 ? records[i].exclusive == 0 : i == (size_t)id;
        size_t start = eligible ? find_run(&records[i], n) : NONE;
        if (start != NONE)
            return take(records, *state, i, start, n, commits);
    }
    return miss(*state, settings, id, n, commits);
}

struct sirqobal_reply reference_chunk_alloc(LENT, int32_t id)
{
    return claim(records, record_count, stamp_count, &state, &settings, id, 1, true);
}

struct sirqobal_reply reference_chunk_claim(LENT, int32_t id)
{
    return claim(records, record_count, stamp_count, &state, &settings, id, 1, false);
}

struct sirqobal_reply reference_chunk_alloc_n(LENT, int32_t id, size_t n)
{
    return claim(records, record_count, stamp_count, &state, &settings, id, n, true);
}

/* ---- releases */

/* A release behind rows 1 and 2: its number, 0 if it is granted. It is inlined, so that a single release costs no call
 * more because a list shares it. */
__attribute__((always_inline)) static inline uint32_t release(struct sirqobal_arena *records, uint32_t *stamps,
                                                              size_t count, uint64_t ns, int64_t delay,
                                                              uint64_t address, size_t n, int32_t told, bool pending)
{
    if (n == 0)
        return SIRQOBAL_ZERO;
    size_t id = find_arena(records, count, address);
    if (id == NONE)
        return SIRQOBAL_NOT_INSIDE;
    struct sirqobal_arena *arena = &records[id];
    if ((address - arena->base) % S != 0)
        return SIRQOBAL_NOT_WHOLE;
    size_t start = (address - arena->base) / S;
    if (n > arena->chunks - start)
        return SIRQOBAL_PAST_END;

    write_run(arena->used, start, n, false);
    if (told >= 0)
        write_run(arena->committed, start, n, told > 0);
    if (pending && !never_purges(delay)) {
        uint32_t now = now_ms(ns);
        for (size_t j = 0; j < n; j++)
            stamps[MAX_CHUNKS * id + start + j] = now;
        write_run(arena->pending, start, n, true);
        arm(arena, now + delay_ms(delay));
    }
    return SIRQOBAL_GRANTED;
}

struct sirqobal_reply reference_chunk_release(LENT, uint64_t address, size_t n, int32_t told, bool pending)
{
    uint32_t number = turned_down(records, record_count, stamp_count, &state, settings.page);
    if (number != 0)
        return refuse(number, state);
    number = release(records, stamps, state.count, ns, settings.delay, address, n, told, pending);
    if (number != 0)
        return refuse(number, state);
    return (struct sirqobal_reply){.state = state};
}

/* ---- a list of releases: 1 and 2, then "19 when the three lengths differ or pass 32,768", then release after release.
 * Row 1 is looked at once: a release keeps a sound table sound. */

struct sirqobal_reply reference_chunk_release_list(struct sirqobal_arena *records, size_t record_count,
                                                   uint32_t *stamps, size_t stamp_count, const uint64_t *addresses,
                                                   size_t address_count, const uint32_t *counts, size_t count_count,
                                                   uint32_t *answers, size_t answer_count, struct sirqobal_state state,
                                                   uint64_t ns, struct sirqobal_settings settings, bool pending)
{
    uint32_t number = turned_down(records, record_count, stamp_count, &state, settings.page);
    if (number != 0)
        return refuse(number, state);
    if (count_count != address_count || answer_count != address_count || address_count > SIRQOBAL_LIST)
        return refuse(SIRQOBAL_LIST_LENGTH, state);
    for (size_t i = 0; i < address_count; i++)
        answers[i] = release(records, stamps, state.count, ns, settings.delay, addresses[i], counts[i], -1, pending);
    return (struct sirqobal_reply){.state = state};
}

/* ---- sweeps. The state keeps a sweep's clock and settings while it asks, so it stands for the sweep here too. */

static bool is_due(const struct sirqobal_arena *arena, const struct sirqobal_state *sweep)
{
    if (arena->deadline == 0)
        return false;
    return sweep->force || arena->deadline == sweep->now || arena->deadline - sweep->now >= 2147483647;
}

/* A forced sweep asks whatever the age. */
static bool is_young(const struct sirqobal_state *sweep, uint32_t stamp)
{
    return !sweep->force && sweep->now - stamp < sweep->delay;
}

/* The chunks that were too young give the arena its next deadline: the one that comes first from now on. */
static void rearm(struct sirqobal_arena *arena, const uint32_t *stamps, const struct sirqobal_state *sweep)
{
    uint32_t soonest = 0; /* a young chunk waits for 1 at least */
    for (size_t j = next_set(arena->pending, 0, arena->chunks); j < arena->chunks;
         j = next_set(arena->pending, j + 1, arena->chunks)) {
        uint32_t wait = sweep->delay - (sweep->now - stamps[j]);
        if (is_young(sweep, stamps[j]) && (soonest == 0 || wait < soonest))
            soonest = wait;
    }
    if (soonest != 0)
        arm(arena, sweep->now + soonest);
}

/* Finds the next chunk of an arena to ask about, and marks it used meanwhile; without one the arena is done. */
static bool visit(struct sirqobal_arena *records, const uint32_t *stamps, struct sirqobal_state *sweep, size_t id,
                  size_t from)
{
    struct sirqobal_arena *arena = &records[id];
    stamps += MAX_CHUNKS * id;
    for (size_t j = next_set(arena->pending, from, arena->chunks); j < arena->chunks;
         j = next_set(arena->pending, j + 1, arena->chunks)) {
        if (is_young(sweep, stamps[j]) || all_set(arena->used, j, 1))
            continue;
        write_run(arena->used, j, 1, true);
        sweep->id = id;
        sweep->start = j;
        return true;
    }
    rearm(arena, stamps, sweep);
    return false;
}

static struct sirqobal_reply ask_purge(const struct sirqobal_arena *records, const struct sirqobal_state *sweep)
{
    struct sirqobal_reply reply = ask(SIRQOBAL_PURGE, records[sweep->id].base + sweep->start * S, S, sweep);
    reply.decommit = sweep->decommit;
    return reply;
}

/* The arenas from an id on, until there is a question or no arena is left. */
static struct sirqobal_reply sweep_from(struct sirqobal_arena *records, const uint32_t *stamps,
                                        struct sirqobal_state *sweep, size_t id)
{
    for (; id < sweep->count; id++) {
        if (!is_due(&records[id], sweep))
            continue;
        records[id].deadline = 0;
        if (visit(records, stamps, sweep, id, 0))
            return ask_purge(records, sweep);
    }
    return (struct sirqobal_reply){.count = sweep->purged, .state = calm(sweep)};
}

struct sirqobal_reply reference_purge_due(LENT, bool force)
{
    uint32_t number = turned_down(records, record_count, stamp_count, &state, settings.page);
    if (number != 0)
        return refuse(number, state);
    if (!force && never_purges(settings.delay))
        return (struct sirqobal_reply){.state = state};
    state.question = SIRQOBAL_PURGE;
    state.force = force;
    state.now = now_ms(ns);
    state.delay = delay_ms(settings.delay);
    state.decommit = settings.decommits != 0;
    return sweep_from(records, stamps, &state, 0);
}

/* ---- answers */

static struct sirqobal_reply answer_commit(struct sirqobal_arena *records, const struct sirqobal_state *s, bool yes)
{
    struct sirqobal_arena *arena = &records[s->id];
    if (!yes) {
        write_run(arena->used, s->start, s->n, false);
        return refuse(SIRQOBAL_COMMIT_REFUSED, calm(s));
    }
    write_run(arena->committed, s->start, s->n, true);
    return grant(arena, calm(s), s->start, s->n, true);
}

/* The chunk comes back, and the sweep goes on behind it. */
static struct sirqobal_reply answer_purge(struct sirqobal_arena *records, const uint32_t *stamps,
                                          struct sirqobal_state *s, bool yes)
{
    struct sirqobal_arena *arena = &records[s->id];
    write_run(arena->pending, s->start, 1, false);
    write_run(arena->used, s->start, 1, false);
    if (yes && s->decommit)
        write_run(arena->committed, s->start, 1, false);
    s->purged += yes;
    if (visit(records, stamps, s, s->id, s->start + 1))
        return ask_purge(records, s);
    return sweep_from(records, stamps, s, s->id + 1);
}

struct sirqobal_reply reference_answer(LENT, uint32_t kind, bool yes, uint64_t base)
{
    if (!sound(records, record_count, stamp_count, &state, settings.page))
        return refuse(SIRQOBAL_BROKEN, state);
    if (kind == SIRQOBAL_COMMIT && state.question == kind)
        return answer_commit(records, &state, yes);
    if (kind == SIRQOBAL_PURGE && state.question == kind)
        return answer_purge(records, stamps, &state, yes);
    return refuse(SIRQOBAL_NO_SUCH_QUESTION, state);
}

/* ---- a join: 1 and 2 of both tables, then "17 when a range of one overlaps a range of the other, 18 when more than 32
 * arenas result" */

static bool overlap(const struct sirqobal_arena *records, size_t count, const struct sirqobal_arena *second_records,
                    size_t second_count)
{
    for (size_t i = 0; i < count; i++)
        for (size_t j = 0; j < second_count; j++)
            if (records[i].base < end_of(&second_records[j]) && second_records[j].base < end_of(&records[i]))
                return true;
    return false;
}

struct sirqobal_join_reply reference_join_tables(struct sirqobal_arena *records, size_t record_count, uint32_t *stamps,
                                                 size_t stamp_count, struct sirqobal_arena *second_records,
                                                 size_t second_record_count, uint32_t *second_stamps,
                                                 size_t second_stamp_count, struct sirqobal_state state,
                                                 struct sirqobal_state second, uint64_t ns,
                                                 struct sirqobal_settings settings)
{
    struct sirqobal_join_reply reply = {.first = state, .second = second};
    if (!sound(records, record_count, stamp_count, &state, settings.page) ||
        !sound(second_records, second_record_count, second_stamp_count, &second, settings.page))
        reply.number = SIRQOBAL_BROKEN;
    else if (state.question != SIRQOBAL_NONE || second.question != SIRQOBAL_NONE)
        reply.number = SIRQOBAL_QUESTION_OPEN;
    else if (overlap(records, state.count, second_records, second.count))
        reply.number = SIRQOBAL_TABLES_OVERLAP;
    else if (state.count + second.count > SIRQOBAL_RECORDS)
        reply.number = SIRQOBAL_TOO_MANY_ARENAS;
    if (reply.number != SIRQOBAL_GRANTED)
        return reply;

    memcpy(records + state.count, second_records, second.count * sizeof *records);
    memcpy(stamps + MAX_CHUNKS * state.count, second_stamps, MAX_CHUNKS * second.count * sizeof *stamps);
    memset(second_records, 0, SIRQOBAL_RECORDS * sizeof *second_records);
    memset(second_stamps, 0, SIRQOBAL_STAMPS * sizeof *second_stamps);
    reply.rise = state.count;
    reply.first = (struct sirqobal_state){.count = state.count + second.count, .mark = state.mark & second.mark};
    reply.second = (struct sirqobal_state){.count = 0};
    return reply;
}
