/* The headers used wrongly, and at their edges: each refusal with document 01's example and what it leaves, NULL,
 * delays that mean never, joins of what cannot be joined, lists of any lengths and of anything, hosts that answer
 * nonsense, broken tables drawn, products of many chunks. It prints what is not as it should be, and exits with 0 only
 * if nothing is. It is C and C++ at once:
 *
 *     gcc -std=c11 -Wall -Wextra -Wpedantic -Werror -Iinclude c/misuse.c build/lib/libsirqobal.a -o misuse
 *     g++ -x c++ -std=c++17 -Iinclude c/misuse.c -x none build/lib/libsirqobal.a -o misuse */
#ifndef _DEFAULT_SOURCE
#define _DEFAULT_SOURCE
#endif

#include "sirqobal_linux.h"
#include "sirqobal_picture.h"

#include <assert.h>

#define BASE UINT64_C(1073741824)
#define S SIRQOBAL_CHUNK

#if 200 * SIRQOBAL_CHUNK != 6710886400
#error "the preprocessor has a chunk of another size"
#endif
static_assert(200 * SIRQOBAL_CHUNK == UINT64_C(6710886400), "200 chunks do not wrap");
static_assert(sizeof(200 * SIRQOBAL_CHUNK) == 8, "a product of chunks has 64 bits");
static_assert(sizeof(SIRQOBAL_SLICES * SIRQOBAL_SLICE) == 8, "a product of slices has 64 bits");
static_assert(sizeof(struct sirqobal_state) == 104 && sizeof(struct sirqobal_arena) == 544, "a saved table's parts");
static_assert(sizeof(struct sirqobal_settings) == 32 && sizeof(struct sirqobal_reply) == 160, "what is passed");
static_assert(sizeof(struct sirqobal_join_reply) == 224, "what a join answers");

static struct sirqobal_table table, before, second, second_before;
static struct sirqobal_memory memory, second_memory;
static int checks, failures;

static void check(const char *what, bool so)
{
    checks++;
    if (!so) {
        printf("NOT SO: %s\n", what);
        failures++;
    }
}

static bool same_state(const struct sirqobal_state *a, const struct sirqobal_state *b)
{
    unsigned char of_a[sizeof *a], of_b[sizeof *b];
    sirqobal_state_bytes(a, of_a);
    sirqobal_state_bytes(b, of_b);
    return memcmp(of_a, of_b, sizeof of_a) == 0;
}

static bool same_lent(const struct sirqobal_table *a, const struct sirqobal_table *b)
{
    return memcmp(a->records, b->records, sizeof a->records) == 0 &&
           memcmp(a->stamps, b->stamps, sizeof a->stamps) == 0;
}

/* The reply is this refusal, with nothing else in it, and the table has its state. */
static void refused(const char *what, struct sirqobal_reply r, uint32_t number)
{
    check(what, r.number == number && r.kind == 0 && r.address == 0 && r.bytes == 0 && r.align == 0 && r.id == 0 &&
                    r.count == 0 && !r.fresh && !r.committed && !r.owns && !r.decommit && !r.commit && !r.large);
    check("its state is put back", same_state(&table.state, &r.state));
}

/* A refusal that leaves records, stamps and state as `before` has them. */
static void left(const char *what, struct sirqobal_reply r, uint32_t number)
{
    refused(what, r, number);
    check("the records and stamps are left", same_lent(&table, &before));
    check("the state is left", same_state(&table.state, &before.state));
}

static void grants(const char *what, struct sirqobal_reply r)
{
    check(what, r.number == SIRQOBAL_GRANTED);
    check("its state is put back", same_state(&table.state, &r.state));
}

static void asks(const char *what, struct sirqobal_reply r, uint32_t kind)
{
    check(what, r.number == SIRQOBAL_QUESTION && r.kind == kind);
    check("its state is put back", same_state(&table.state, &r.state) && table.state.question == kind);
    check("the table has the question", table.asked.kind == kind && table.asked.address == r.address);
}

/* Document 01's example: arena 0, owned, not exclusive, 4 chunks, all free, uncommitted; no reserve. */
static void example(void)
{
    sirqobal_table_init(&table);
    asks("a reserve asks", sirqobal_table_reserve(&table, 4 * S, false, false, false), SIRQOBAL_MEMORY);
    grants("the memory is taken", sirqobal_table_answer(&table, SIRQOBAL_MEMORY, true, BASE));
    before = table;
}

/* ---- texts */

static void texts(void)
{
    for (uint32_t i = 0; i <= 20; i++) {
        uint32_t number = i == 20 ? SIRQOBAL_QUESTION : i;
        check("a number has a text", strlen(sirqobal_refusal_text(number)) > 5);
        check("it is no other's", strcmp(sirqobal_refusal_text(number), sirqobal_refusal_text(20)) != 0);
        for (uint32_t j = 0; j < i; j++)
            check("two numbers have two texts", strcmp(sirqobal_refusal_text(number), sirqobal_refusal_text(j)) != 0);
    }
    check("254 has none", strcmp(sirqobal_refusal_text(254), sirqobal_refusal_text(UINT32_MAX)) == 0);
    char version[32];
    snprintf(version, sizeof version, "%d.%d.%d", SIRQOBAL_VERSION_MAJOR, SIRQOBAL_VERSION_MINOR,
             SIRQOBAL_VERSION_PATCH);
    check("the version's numbers are its text's", strcmp(version, SIRQOBAL_VERSION) == 0);
}

/* ---- NULL */

#define NO_RECORDS NULL, 0, table.stamps, SIRQOBAL_STAMPS, table.state, 1, table.settings
#define NO_STAMPS table.records, SIRQOBAL_RECORDS, NULL, 0, table.state, 1, table.settings
#define NOTHING NULL, 0, NULL, 0, table.state, 1, table.settings

static void nulls(void)
{
    example();
    left("no records, reserve", sirqobal_reserve_os_memory_ex(NO_RECORDS, S, true, false, false), SIRQOBAL_BROKEN);
    left("no records, manage",
         sirqobal_manage_os_memory_ex(NO_RECORDS, S, S, true, false, false, 0, false, false, true), SIRQOBAL_BROKEN);
    left("no records, adopt", sirqobal_adopt_os_block(NO_RECORDS, 2 * BASE, S), SIRQOBAL_BROKEN);
    left("no stamps, one", sirqobal_chunk_alloc(NO_STAMPS, 0), SIRQOBAL_BROKEN);
    left("no stamps, as is", sirqobal_chunk_claim(NO_STAMPS, 0), SIRQOBAL_BROKEN);
    left("nothing, claim", sirqobal_chunk_alloc_n(NOTHING, 0, 1), SIRQOBAL_BROKEN);
    left("nothing, release", sirqobal_chunk_release(NOTHING, BASE, 1, -1, true), SIRQOBAL_BROKEN);
    left("nothing, sweep", sirqobal_purge_due(NOTHING, true), SIRQOBAL_BROKEN);
    left("nothing, answer", sirqobal_answer(NOTHING, SIRQOBAL_COMMIT, true, 0), SIRQOBAL_BROKEN);
    left("no stamps, owns", sirqobal_owns(NO_STAMPS, BASE), SIRQOBAL_BROKEN);
    left("no records, area", sirqobal_arena_area(NO_RECORDS, 0), SIRQOBAL_BROKEN);

    struct sirqobal_slice_answer run = sirqobal_alloc_run(NULL, 0, 1);
    check("no words, a run", run.number == SIRQOBAL_BROKEN && run.address == 0);
    check("no words, a free", sirqobal_free_range(NULL, 0, SIRQOBAL_SLICE, SIRQOBAL_SLICE) == SIRQOBAL_BROKEN);
}

/* ---- refusals, with document 01's examples */

static void refusals_at_once(void)
{
    example();
    left("1: 32,767 stamps",
         sirqobal_chunk_alloc(table.records, SIRQOBAL_RECORDS, table.stamps, SIRQOBAL_STAMPS - 1, table.state, 1,
                              table.settings, 0),
         SIRQOBAL_BROKEN);
    left("3: an answer to an idle layer", sirqobal_table_answer(&table, SIRQOBAL_COMMIT, true, 0),
         SIRQOBAL_NO_SUCH_QUESTION);
    left("4: a run of 0", sirqobal_table_claim(&table, 0, 0), SIRQOBAL_ZERO);
    left("6: adopt a chunk at the base", sirqobal_table_adopt(&table, BASE, S), SIRQOBAL_RANGE);
    left("7: release at the base + 1", sirqobal_table_release(&table, 1, BASE + 1, 1, SIRQOBAL_TOLD_NOTHING, true),
         SIRQOBAL_NOT_WHOLE);
    left("8: release past the arena", sirqobal_table_release(&table, 1, BASE + 4 * S, 1, SIRQOBAL_TOLD_NOTHING, true),
         SIRQOBAL_NOT_INSIDE);
    left("9: release 5", sirqobal_table_release(&table, 1, BASE, 5, SIRQOBAL_TOLD_NOTHING, true), SIRQOBAL_PAST_END);
    left("10: a run of 5", sirqobal_table_claim(&table, 0, 5), SIRQOBAL_NO_RUN);
    left("12: adopt 1,025 chunks", sirqobal_table_adopt(&table, UINT64_C(68719476736), 1025 * S),
         SIRQOBAL_CHUNK_COUNT);
    left("12: reserve all", sirqobal_table_reserve(&table, UINT64_MAX, true, false, false), SIRQOBAL_CHUNK_COUNT);
    left("15: manage 1, a chunk", sirqobal_table_manage(&table, 1, S, 0, true, false, true), SIRQOBAL_NO_WHOLE_CHUNK);
    left("16: not reserved", sirqobal_table_manage(&table, S, 2 * S, 0, true, false, false), SIRQOBAL_HOST_REFUSED);
    table.settings.off = 1;
    left("5: arenas off", sirqobal_table_claim_one(&table, SIRQOBAL_ANY), SIRQOBAL_ARENAS_OFF);
    left("4 before 5", sirqobal_table_claim(&table, SIRQOBAL_ANY, 0), SIRQOBAL_ZERO);
    table.settings.off = 0;
    left("4 before 8", sirqobal_table_release(&table, 1, 1, 0, 0, false), SIRQOBAL_ZERO);
    left("8 before 7", sirqobal_table_release(&table, 1, BASE - 1, 9, 0, false), SIRQOBAL_NOT_INSIDE);
    left("7 before 9", sirqobal_table_release(&table, 1, BASE + 1, 9, 0, false), SIRQOBAL_NOT_WHOLE);
    table.settings.page = 0;
    left("1 before 4", sirqobal_table_claim(&table, 0, 0), SIRQOBAL_BROKEN);
}

static void refusals_while_open(void)
{
    example();
    grants("a chunk goes, to be purged", sirqobal_table_release(&table, 1, BASE, 1, SIRQOBAL_TOLD_COMMITTED, true));
    asks("a sweep asks", sirqobal_table_sweep(&table, 1, true), SIRQOBAL_PURGE);
    before = table;
    left("2: a claim during a purge question", sirqobal_table_claim(&table, 0, 1), SIRQOBAL_QUESTION_OPEN);
    left("2 before 4", sirqobal_table_claim(&table, 0, 0), SIRQOBAL_QUESTION_OPEN);
    left("2: a second sweep", sirqobal_table_sweep(&table, 1, true), SIRQOBAL_QUESTION_OPEN);
    left("3: an answer of another kind", sirqobal_table_answer(&table, SIRQOBAL_MEMORY, true, 9 * BASE),
         SIRQOBAL_NO_SUCH_QUESTION);
    left("3: an answer of no kind", sirqobal_table_answer(&table, 77, true, 0), SIRQOBAL_NO_SUCH_QUESTION);
    check("the question is still there", table.asked.kind == SIRQOBAL_PURGE && table.asked.address == BASE);
    check("queries do not mind", sirqobal_table_owns(&table, BASE).owns &&
                                     sirqobal_table_area(&table, 0).bytes == 4 * S &&
                                     sirqobal_table_area(&table, 7).number == SIRQOBAL_GRANTED);
    struct sirqobal_reply r = sirqobal_table_answer(&table, table.asked.kind, true, 0);
    grants("the sweep ends", r);
    check("with one yes", r.count == 1);
}

static void refusals_by_answers(void)
{
    example();
    asks("a claim asks for its commit", sirqobal_table_claim_one(&table, 0), SIRQOBAL_COMMIT);
    check("the run is taken meanwhile", table.records[0].used[0] == 1);
    left("11: the commit is answered no", sirqobal_table_answer(&table, SIRQOBAL_COMMIT, false, 0),
         SIRQOBAL_COMMIT_REFUSED);
    asks("a reserve asks", sirqobal_table_reserve(&table, S, true, false, true), SIRQOBAL_MEMORY);
    left("14: the memory is answered no", sirqobal_table_answer(&table, SIRQOBAL_MEMORY, false, 0),
         SIRQOBAL_MEMORY_REFUSED);
    asks("a reserve asks", sirqobal_table_reserve(&table, S, true, false, true), SIRQOBAL_MEMORY);
    refused("6: the memory overlaps", sirqobal_table_answer(&table, SIRQOBAL_MEMORY, true, BASE), SIRQOBAL_RANGE);
    check("and the question is open", table.state.question == SIRQOBAL_MEMORY);
    asks("not whole: it goes back", sirqobal_table_answer(&table, SIRQOBAL_MEMORY, true, 9 * BASE + 4096),
         SIRQOBAL_GIVE_BACK);
    left("7: then it is refused", sirqobal_table_answer(&table, SIRQOBAL_GIVE_BACK, false, 0), SIRQOBAL_NOT_WHOLE);
    for (uint64_t i = 1; i < SIRQOBAL_RECORDS; i++)
        grants("a separate block", sirqobal_table_adopt(&table, BASE + 8 * i * S, S));
    before = table;
    left("13: the 33rd", sirqobal_table_adopt(&table, 9 * BASE, S), SIRQOBAL_TABLE_FULL);
    left("13: the 33rd, managed", sirqobal_table_manage(&table, 9 * BASE, S, 0, false, false, true),
         SIRQOBAL_TABLE_FULL);
}

/* ---- many chunks */

static void many_chunks(void)
{
    sirqobal_table_init(&table);
    grants("200 chunks are adopted", sirqobal_table_adopt(&table, BASE, 200 * SIRQOBAL_CHUNK));
    struct sirqobal_reply r = sirqobal_table_area(&table, 0);
    check("all of them", r.bytes == UINT64_C(6710886400) && table.records[0].chunks == 200);
    check("the last byte is inside", sirqobal_table_owns(&table, BASE + 200 * SIRQOBAL_CHUNK - 1).owns);
    check("the next one is not", !sirqobal_table_owns(&table, BASE + 200 * SIRQOBAL_CHUNK).owns);
    r = sirqobal_table_claim(&table, 0, 200);
    grants("a run of 200", r);
    check("at the base", r.address == BASE && r.committed);
    grants("is released", sirqobal_table_release(&table, 1, BASE, 200, SIRQOBAL_TOLD_NOTHING, false));
    r = sirqobal_table_claim_as_is(&table, SIRQOBAL_ANY);
    grants("one as it is", r);
    check("the lowest, not fresh", r.address == BASE && !r.fresh);
}

/* ---- hosts */

/* What a host answers, and what it was asked. */
struct script {
    bool yes;
    uint64_t base;       /* of memory */
    bool breaks;         /* makes the page size unsound */
    bool answers_itself; /* as no host should */
    int asked[5];        /* by kind */
    struct sirqobal_reply last;
};

static bool scripted(void *context, const struct sirqobal_reply *asked, uint64_t *base)
{
    struct script *script = (struct script *)context;
    script->asked[asked->kind <= SIRQOBAL_GIVE_BACK ? asked->kind : 0]++;
    script->last = *asked;
    if (script->breaks)
        table.settings.page = 5000;
    if (script->answers_itself && asked->kind == SIRQOBAL_MEMORY)
        check("answered in the host", sirqobal_table_answer(&table, SIRQOBAL_MEMORY, false, 0).number == 14);
    *base = script->base;
    return script->yes;
}

static struct script host_of(bool yes, uint64_t base)
{
    struct script script;
    memset(&script, 0, sizeof script);
    script.yes = yes;
    script.base = base;
    return script;
}

static void settle_at_6(void)
{
    example();
    struct script host = host_of(true, BASE + S);
    left("6 becomes 14",
         sirqobal_table_settle(&table, sirqobal_table_reserve(&table, S, true, false, true), scripted, &host),
         SIRQOBAL_MEMORY_REFUSED);
    check("the memory went back", host.asked[SIRQOBAL_MEMORY] == 1 && host.asked[SIRQOBAL_GIVE_BACK] == 1 &&
                                      host.last.address == BASE + S && host.last.bytes == S);
    host = host_of(true, 0);
    left("a yes without a base",
         sirqobal_table_settle(&table, sirqobal_table_reserve(&table, S, true, false, true), scripted, &host),
         SIRQOBAL_MEMORY_REFUSED);
    check("nothing goes back", host.asked[SIRQOBAL_GIVE_BACK] == 0);

    table.settings.reserve = S;
    host = host_of(true, BASE);
    refused("6 becomes 10 where a claim waits",
            sirqobal_table_settle(&table, sirqobal_table_claim(&table, SIRQOBAL_ANY, 5), scripted, &host),
            SIRQOBAL_NO_RUN);
    check("and default reserves are given up", table.state.mark == 1 && host.asked[SIRQOBAL_GIVE_BACK] == 1);
    host = host_of(true, 9 * BASE);
    refused("for good",
            sirqobal_table_settle(&table, sirqobal_table_claim(&table, SIRQOBAL_ANY, 5), scripted, &host),
            SIRQOBAL_NO_RUN);
    check("nobody is asked", host.asked[SIRQOBAL_MEMORY] == 0 && table.state.mark == 1);
}

static void settle_at_1(void)
{
    example();
    struct script host = host_of(true, 9 * BASE);
    host.breaks = true;
    refused("1 is handed on",
            sirqobal_table_settle(&table, sirqobal_table_reserve(&table, 2 * S, true, false, true), scripted, &host),
            SIRQOBAL_BROKEN);
    check("the memory went back", host.asked[SIRQOBAL_GIVE_BACK] == 1 && host.last.address == 9 * BASE &&
                                      host.last.bytes == 2 * S);
    check("the question is open", table.state.question == SIRQOBAL_MEMORY && table.asked.kind == SIRQOBAL_MEMORY);
    table.settings.page = 4096;
    host = host_of(true, 9 * BASE + 5);
    struct sirqobal_reply asked = table.asked;
    refused("put right, it goes on", sirqobal_table_settle(&table, asked, scripted, &host), SIRQOBAL_NOT_WHOLE);
    check("one block came and went", host.asked[SIRQOBAL_MEMORY] == 1 && host.asked[SIRQOBAL_GIVE_BACK] == 1);

    asks("a reserve", sirqobal_table_reserve(&table, 2 * S, true, false, true), SIRQOBAL_MEMORY);
    asks("not whole", sirqobal_table_answer(&table, SIRQOBAL_MEMORY, true, 9 * BASE + 5), SIRQOBAL_GIVE_BACK);
    table.settings.page = 5000;
    host = host_of(true, 0);
    asked = table.asked;
    refused("1 at a give back", sirqobal_table_settle(&table, asked, scripted, &host), SIRQOBAL_BROKEN);
    check("the host is not asked yet", host.asked[SIRQOBAL_GIVE_BACK] == 0);
    table.settings.page = 4096;
    refused("then it is, once", sirqobal_table_settle(&table, asked, scripted, &host), SIRQOBAL_NOT_WHOLE);
    check("so it is", host.asked[SIRQOBAL_GIVE_BACK] == 1 && table.state.question == SIRQOBAL_NONE);
}

static void settle_at_3(void)
{
    example();
    struct script host = host_of(true, 9 * BASE);
    host.answers_itself = true;
    left("3 is handed on",
         sirqobal_table_settle(&table, sirqobal_table_reserve(&table, S, true, false, true), scripted, &host),
         SIRQOBAL_NO_SUCH_QUESTION);
    check("the memory went back", host.asked[SIRQOBAL_GIVE_BACK] == 1);
    host = host_of(true, 0);
    left("a reply that is no question comes back",
         sirqobal_table_settle(&table, sirqobal_table_claim(&table, 0, 0), scripted, &host), SIRQOBAL_ZERO);
    check("nobody is asked", host.last.kind == 0);
}

static void settle_to_the_end(void)
{
    example();
    table.settings.reserve = 2 * S;
    struct script host = host_of(true, 9 * BASE);
    grants("4 chunks",
           sirqobal_table_settle(&table, sirqobal_table_claim(&table, SIRQOBAL_ANY, 4), scripted, &host));
    struct sirqobal_reply r =
        sirqobal_table_settle(&table, sirqobal_table_claim(&table, SIRQOBAL_ANY, 2), scripted, &host);
    grants("2 of a new arena", r);
    check("memory, then commits", r.address == 9 * BASE && host.asked[SIRQOBAL_MEMORY] == 1 &&
                                      host.asked[SIRQOBAL_COMMIT] == 2 && table.state.count == 2);
    host = host_of(true, 10 * BASE);
    r = sirqobal_table_settle(&table, sirqobal_table_claim(&table, SIRQOBAL_ANY, 3), scripted, &host);
    refused("3 of another", r, SIRQOBAL_NO_RUN);
    check("10 leaves the new arena", table.state.count == 3 && table.state.mark == 0);
    grants("release", sirqobal_table_release(&table, 1, BASE, 3, SIRQOBAL_TOLD_NOTHING, true));
    r = sirqobal_table_settle(&table, sirqobal_table_sweep(&table, 1, true), scripted, &host);
    grants("a sweep of 3", r);
    check("counts 3", r.count == 3 && host.asked[SIRQOBAL_PURGE] == 3);
}

/* ---- delays that mean never */

static void each_negative(void (*scene)(int64_t delay))
{
    static const int64_t delays[] = {SIRQOBAL_NEVER, -2, INT64_MIN};
    for (size_t i = 0; i < sizeof delays / sizeof delays[0]; i++)
        scene(delays[i]);
}

/* The example, its first chunk pending since 1 ms and due at 11; then this delay. */
static void one_pending(int64_t delay)
{
    example();
    grants("a chunk goes, to be purged",
           sirqobal_table_release(&table, 1000000, BASE, 1, SIRQOBAL_TOLD_COMMITTED, true));
    check("it is marked, stamped and armed", table.records[0].pending[0] == 1 && table.stamps[0] == 1 &&
                                                 table.records[0].deadline == 11);
    table.settings.delay = delay;
    before = table;
}

static void never_on_a_table(int64_t delay)
{
    struct script host = host_of(true, 0);
    one_pending(delay);
    left("never: a sweep of what is due",
         sirqobal_table_settle(&table, sirqobal_table_sweep(&table, 100000000, false), scripted, &host),
         SIRQOBAL_GRANTED);
    left("never: the same chunk again",
         sirqobal_table_release(&table, 100000000, BASE, 1, SIRQOBAL_TOLD_NOTHING, true), SIRQOBAL_GRANTED);
    before.records[0].committed[0] = 7;
    left("never: two more, told committed",
         sirqobal_table_release(&table, 100000000, BASE + S, 2, SIRQOBAL_TOLD_COMMITTED, true), SIRQOBAL_GRANTED);
    before.records[0].dirty[0] = 7; /* by the claim */
    struct sirqobal_reply run = sirqobal_table_claim(&table, 0, 3);
    grants("a run of all three", run);
    check("at the base, unasked", run.address == BASE && run.committed && table.records[0].used[0] == 7);
    grants("is released", sirqobal_table_release(&table, 100000000, BASE, 3, SIRQOBAL_TOLD_NOTHING, true));
    check("the older mark, stamp and deadline stay", same_lent(&table, &before));
    check("nobody is asked", host.last.kind == SIRQOBAL_NONE);
    run = sirqobal_table_settle(&table, sirqobal_table_sweep(&table, 100000000, true), scripted, &host);
    grants("a forced sweep", run);
    check("purges the older one", run.count == 1 && host.asked[SIRQOBAL_PURGE] == 1 && host.last.address == BASE);
    check("and leaves the others", table.records[0].committed[0] == 6 && table.records[0].deadline == 0);
}

/* 1 and 2 come first, forced or not. */
static void refusals_of_never(int64_t delay)
{
    one_pending(delay);
    asks("a forced sweep asks", sirqobal_table_sweep(&table, 100000000, true), SIRQOBAL_PURGE);
    check("its delay is 0", table.state.delay == 0 && table.state.force == 1);
    before = table;
    left("2: a sweep", sirqobal_table_sweep(&table, 100000000, false), SIRQOBAL_QUESTION_OPEN);
    left("2: a forced one", sirqobal_table_sweep(&table, 100000000, true), SIRQOBAL_QUESTION_OPEN);
    left("2: a release", sirqobal_table_release(&table, 1, BASE + S, 1, 0, true), SIRQOBAL_QUESTION_OPEN);
    table.state.mark = 2;
    before = table;
    left("1 before 2: a sweep", sirqobal_table_sweep(&table, 100000000, false), SIRQOBAL_BROKEN);
    left("1 before 2: a release", sirqobal_table_release(&table, 1, BASE + S, 1, 0, true), SIRQOBAL_BROKEN);
    one_pending(delay);
    table.settings.page = 5000;
    left("1: a sweep", sirqobal_table_sweep(&table, 100000000, false), SIRQOBAL_BROKEN);
    left("1: a forced one", sirqobal_table_sweep(&table, 100000000, true), SIRQOBAL_BROKEN);
    left("1: a release", sirqobal_table_release(&table, 1, BASE + S, 1, 0, true), SIRQOBAL_BROKEN);
}

/* ---- joins */

/* The example, and a second table with a held chunk, a pending one and the give-up mark. */
static void two_tables(void)
{
    example();
    sirqobal_table_init(&second);
    check("a block", sirqobal_table_adopt(&second, 5 * BASE, 3 * S).number == SIRQOBAL_GRANTED);
    check("a claim", sirqobal_table_claim(&second, 0, 1).number == SIRQOBAL_GRANTED);
    check("a release", sirqobal_table_release(&second, 5000000, 5 * BASE + 2 * S, 1, SIRQOBAL_TOLD_NOTHING, true)
                               .number == SIRQOBAL_GRANTED);
    second.records[0].owned = 77; /* on, as every number but 0 */
    second.state.mark = 1;
    second_before = second;
}

/* A join that is refused has nothing but its number, and leaves both tables as they are remembered. */
static void left_both(const char *what, struct sirqobal_join_reply r, uint32_t number)
{
    check(what, r.number == number && r.spare == 0 && r.rise == 0);
    check("both states come back", same_state(&r.first, &before.state) && same_state(&r.second, &second_before.state));
    check("both states are left",
          same_state(&table.state, &before.state) && same_state(&second.state, &second_before.state));
    check("both tables are left", same_lent(&table, &before) && same_lent(&second, &second_before));
    check("no id rises", sirqobal_risen(&r, 0) == 0 && sirqobal_risen(&r, 31) == 31);
}

/* The same, of the two tables as they are now. */
static void refuses_join(const char *what, uint32_t number)
{
    before = table;
    second_before = second;
    left_both(what, sirqobal_table_join(&table, &second), number);
}

/* A table's two arrays with the lengths that are passed for them. */
struct lent {
    struct sirqobal_arena *records;
    size_t record_count;
    uint32_t *stamps;
    size_t stamp_count;
};

static struct lent lent_of(struct sirqobal_table *of, size_t record_count, size_t stamp_count)
{
    struct lent lent = {record_count == 0 ? NULL : of->records, record_count, stamp_count == 0 ? NULL : of->stamps,
                        stamp_count};
    return lent;
}

static struct sirqobal_join_reply join(struct lent a, struct lent b)
{
    return sirqobal_join_tables(a.records, a.record_count, a.stamps, a.stamp_count, b.records, b.record_count, b.stamps,
                                b.stamp_count, table.state, second.state, 1, table.settings);
}

/* Too few, none, and one too many, of the records and the stamps of either side. */
static void join_lengths(void)
{
    static struct sirqobal_arena records[SIRQOBAL_RECORDS + 1];
    static uint32_t stamps[SIRQOBAL_STAMPS + 1];
    const size_t fewer[][2] = {{0, 0}, {0, SIRQOBAL_STAMPS}, {SIRQOBAL_RECORDS, 0}, {1, 1024},
                               {SIRQOBAL_RECORDS - 1, SIRQOBAL_STAMPS}, {SIRQOBAL_RECORDS, SIRQOBAL_STAMPS - 1}};
    two_tables();
    struct lent first = lent_of(&table, SIRQOBAL_RECORDS, SIRQOBAL_STAMPS);
    struct lent other = lent_of(&second, SIRQOBAL_RECORDS, SIRQOBAL_STAMPS);
    for (size_t i = 0; i < sizeof fewer / sizeof fewer[0]; i++) {
        left_both("the first is short", join(lent_of(&table, fewer[i][0], fewer[i][1]), other), SIRQOBAL_BROKEN);
        left_both("the second is short", join(first, lent_of(&second, fewer[i][0], fewer[i][1])), SIRQOBAL_BROKEN);
    }
    struct lent longer = {records, SIRQOBAL_RECORDS + 1, table.stamps, SIRQOBAL_STAMPS};
    left_both("33 records of the first", join(longer, other), SIRQOBAL_BROKEN);
    longer.stamps = second.stamps;
    left_both("33 records of the second", join(first, longer), SIRQOBAL_BROKEN);
    struct lent stamped = {table.records, SIRQOBAL_RECORDS, stamps, SIRQOBAL_STAMPS + 1};
    left_both("32,769 stamps of the first", join(stamped, other), SIRQOBAL_BROKEN);
    stamped.records = second.records;
    left_both("32,769 stamps of the second", join(first, stamped), SIRQOBAL_BROKEN);
}

/* A page size, a state's number and a record that make a table broken, on either side. */
static void broken_joins(void)
{
    two_tables();
    table.settings.page = 5000;
    refuses_join("an unsound page size", SIRQOBAL_BROKEN);
    for (int side = 0; side < 2; side++) {
        two_tables();
        struct sirqobal_table *bad = side == 0 ? &table : &second;
        struct sirqobal_state sound = bad->state;
        bad->state.mark = 2;
        refuses_join("a mark that is none", SIRQOBAL_BROKEN);
        bad->state = sound;
        bad->state.question = 5;
        refuses_join("a question of no kind", SIRQOBAL_BROKEN);
        bad->state = sound;
        bad->state.purged = SIZE_MAX;
        refuses_join("a number that the state does not use", SIRQOBAL_BROKEN);
        bad->state = sound;
        bad->state.count = SIRQOBAL_RECORDS + 1;
        refuses_join("33 arenas on one side", SIRQOBAL_BROKEN);
        bad->state.count = SIZE_MAX;
        refuses_join("more than that", SIRQOBAL_BROKEN);
        bad->state = sound;
        bad->records[0].pending[31] = 1;
        refuses_join("a bit past the last chunk", SIRQOBAL_BROKEN);
        bad->records[0].pending[31] = 0;
    }
    sirqobal_table_init(&table);
    table.settings.page = 0;
    sirqobal_table_init(&second);
    refuses_join("two empty tables, no page size", SIRQOBAL_BROKEN);
}

/* A table with a question of this kind open. */
static void open_question(struct sirqobal_table *asking, uint32_t kind, uint64_t at)
{
    sirqobal_table_init(asking);
    struct sirqobal_reply r = sirqobal_table_reserve(asking, S, false, false, true);
    if (kind == SIRQOBAL_GIVE_BACK)
        r = sirqobal_table_answer(asking, SIRQOBAL_MEMORY, true, at + 4096);
    if (kind == SIRQOBAL_COMMIT || kind == SIRQOBAL_PURGE) {
        check("an arena", sirqobal_table_answer(asking, SIRQOBAL_MEMORY, true, at).number == SIRQOBAL_GRANTED);
        r = sirqobal_table_claim(asking, 0, 1);
    }
    if (kind == SIRQOBAL_PURGE) {
        check("a chunk", sirqobal_table_answer(asking, SIRQOBAL_COMMIT, true, 0).number == SIRQOBAL_GRANTED);
        check("goes", sirqobal_table_release(asking, 1, at, 1, SIRQOBAL_TOLD_NOTHING, true).number == SIRQOBAL_GRANTED);
        r = sirqobal_table_sweep(asking, 1, true);
    }
    check("it asks", r.number == SIRQOBAL_QUESTION && asking->state.question == kind);
}

static void joins_while_open(void)
{
    for (uint32_t kind = SIRQOBAL_COMMIT; kind <= SIRQOBAL_GIVE_BACK; kind++) {
        two_tables();
        open_question(&table, kind, 9 * BASE);
        refuses_join("2: the first asks", SIRQOBAL_QUESTION_OPEN);
        open_question(&second, kind, 9 * BASE);
        refuses_join("2 before 17: both ask", SIRQOBAL_QUESTION_OPEN);
        check("both questions are there", table.asked.kind == kind && second.asked.kind == kind);
        example();
        refuses_join("2: the second asks", SIRQOBAL_QUESTION_OPEN);
        table.state.mark = 7;
        refuses_join("1 of the first before 2 of the second", SIRQOBAL_BROKEN);
        open_question(&table, kind, 9 * BASE);
        second.records[0].base = 1;
        second.state.count = 1;
        refuses_join("1 of the second before 2 of the first", SIRQOBAL_BROKEN);
    }
}

static void joins_of_the_same_range(void)
{
    two_tables();
    second = table;
    refuses_join("17: a copy", SIRQOBAL_TABLES_OVERLAP);
    refuses_join("17: and again", SIRQOBAL_TABLES_OVERLAP);
    for (uint64_t start = 0; start <= 8; start++) {
        two_tables();
        check("a block about the arena",
              sirqobal_table_adopt(&second, BASE + (start - 4) * S, 4 * S).number == SIRQOBAL_GRANTED);
        second_before = second;
        if (start != 0 && start != 8)
            refuses_join("17: some of its chunks", SIRQOBAL_TABLES_OVERLAP);
        else
            check("neighbours are joined", sirqobal_table_join(&table, &second).rise == 1 && table.state.count == 3);
    }
    two_tables();
    struct sirqobal_join_reply r = sirqobal_table_join(&table, &table);
    check("17: with itself", r.number == SIRQOBAL_TABLES_OVERLAP && r.rise == 0);
    check("it is left", same_lent(&table, &before) && same_state(&table.state, &before.state) &&
                            same_state(&r.first, &before.state) && same_state(&r.second, &before.state));
}

static void joins_of_many(void)
{
    two_tables();
    for (uint64_t i = 1; i < SIRQOBAL_RECORDS; i++)
        check("an arena", sirqobal_table_adopt(&second, 5 * BASE + 8 * i * S, S).id == i);
    refuses_join("18: 33 arenas", SIRQOBAL_TOO_MANY_ARENAS);
    grants("one of the second's", sirqobal_table_adopt(&table, 5 * BASE + 8 * 31 * S, S));
    refuses_join("17 before 18", SIRQOBAL_TABLES_OVERLAP);
    two_tables();
    for (uint64_t i = 1; i < SIRQOBAL_RECORDS - 1; i++)
        grants("an arena", sirqobal_table_adopt(&table, 20 * BASE + 8 * i * S, S));
    before = table;
    struct sirqobal_join_reply r = sirqobal_table_join(&table, &second);
    check("32 are joined", r.number == SIRQOBAL_GRANTED && r.rise == 31 && table.state.count == 32);
    check("the last is the second's", memcmp(&table.records[31], &second_before.records[0],
                                             sizeof table.records[0]) == 0 &&
                                          memcmp(&table.stamps[31 * 1024], second_before.stamps, 4096) == 0);
    check("the others are the first's", memcmp(table.records, before.records, 31 * sizeof table.records[0]) == 0 &&
                                            memcmp(table.stamps, before.stamps, 31 * 4096) == 0);
    check("ids rise", sirqobal_risen(&r, 0) == 31 && sirqobal_risen(&r, 1) == 32 && sirqobal_risen(&r, 31) == 62);
    const int32_t no_arena[] = {SIRQOBAL_ANY, INT32_MIN, 32, INT32_MAX};
    for (size_t i = 0; i < sizeof no_arena / sizeof no_arena[0]; i++)
        check("what is no arena's stays", sirqobal_risen(&r, no_arena[i]) == no_arena[i]);
    r = sirqobal_table_join(&table, &second);
    check("an empty second, too", r.number == SIRQOBAL_GRANTED && r.rise == 32 && table.state.count == 32);
}

/* Default reserves are given up if they were in both, whether arenas stand there or not. */
static void joins_of_marks(void)
{
    for (uint32_t marks = 0; marks < 8; marks++) {
        two_tables();
        if (marks >= 4)
            sirqobal_table_init(&second);
        table.state.mark = marks & 1;
        second.state.mark = marks >> 1 & 1;
        check("joined", sirqobal_table_join(&table, &second).number == SIRQOBAL_GRANTED);
        check("the mark stands if it stood in both", table.state.mark == (marks % 4 == 3) && second.state.mark == 0);
    }
}

/* Joined: both go on, each by itself. */
static void joins(void)
{
    static struct sirqobal_table empty;
    two_tables();
    second.settings.page = 0; /* the first's settings count */
    struct sirqobal_join_reply r = sirqobal_table_join(&table, &second);
    check("joined", r.number == SIRQOBAL_GRANTED && r.spare == 0 && r.rise == 1);
    check("the states are put back", same_state(&table.state, &r.first) && same_state(&second.state, &r.second));
    check("the mark stood in one", table.state.count == 2 && table.state.mark == 0);
    check("the second is empty", same_lent(&second, &empty) && same_state(&second.state, &empty.state));
    check("both keep their settings",
          table.settings.page == 4096 && second.settings.page == 0 && second.settings.delay == 10);
    second.settings.page = 4096;
    int32_t id = sirqobal_risen(&r, 0);
    struct sirqobal_reply run = sirqobal_table_claim(&table, id, 1);
    grants("the lowest of the second's", run);
    check("where it would have been", run.address == 5 * BASE + S && !run.fresh);
    struct script host = host_of(true, 0);
    run = sirqobal_table_settle(&table, sirqobal_table_sweep(&table, 100000000, false), scripted, &host);
    check("what was pending is due", run.count == 1 && host.last.address == 5 * BASE + 2 * S);
    check("the second knows nothing of it",
          sirqobal_table_release(&second, 1, 5 * BASE, 1, 0, false).number == SIRQOBAL_NOT_INSIDE);
    check("it begins anew", sirqobal_table_adopt(&second, 7 * BASE, S).id == 0);
    r = sirqobal_table_join(&table, &second);
    check("and is joined again", r.rise == 2 && table.records[2].base == 7 * BASE && second.state.count == 0);
}

/* ---- lists of releases */

#define LONGER (SIRQOBAL_LIST + 1)

static uint64_t addresses[LONGER];
static uint32_t counts[LONGER], answers[LONGER], as_lent[LONGER];

/* What stands in the answers is no number of an answer. */
static void lend_answers(void)
{
    memset(answers, 0xa5, sizeof answers);
    memset(as_lent, 0xa5, sizeof as_lent);
    before = table;
}

/* Lists of these lengths, NULL where it is 0. */
static struct sirqobal_reply list(size_t address_count, size_t count_count, size_t answer_count)
{
    struct sirqobal_reply r = sirqobal_chunk_release_list(
        table.records, SIRQOBAL_RECORDS, table.stamps, SIRQOBAL_STAMPS, address_count == 0 ? NULL : addresses,
        address_count, count_count == 0 ? NULL : counts, count_count, answer_count == 0 ? NULL : answers, answer_count,
        table.state, 1, table.settings, true);
    sirqobal_table_put_back(&table, &r);
    return r;
}

/* Turned down as a whole, or empty: the answers are left, too. */
static void list_left(const char *what, struct sirqobal_reply r, uint32_t number)
{
    left(what, r, number);
    check("the answers are left", memcmp(answers, as_lent, sizeof answers) == 0);
}

static void list_lengths(void)
{
    static const size_t lengths[] = {0, 1, 2, SIRQOBAL_LIST - 1, SIRQOBAL_LIST, LONGER};
    const size_t n = sizeof lengths / sizeof lengths[0];
    example();
    memset(addresses, 0, sizeof addresses);
    memset(counts, 0, sizeof counts);
    for (size_t i = 0; i < n * n * n; i++) {
        size_t a = lengths[i % n], b = lengths[i / n % n], c = lengths[i / n / n];
        bool fits = a == b && b == c && a <= SIRQOBAL_LIST;
        lend_answers();
        if (!fits || a == 0) {
            list_left("19 for lengths that differ or pass", list(a, b, c), fits ? 0 : SIRQOBAL_LIST_LENGTH);
            continue;
        }
        left("lists of one length", list(a, b, c), SIRQOBAL_GRANTED);
        check("4 at each place", answers[0] == SIRQOBAL_ZERO && answers[a - 1] == SIRQOBAL_ZERO);
        check("and at no other", memcmp(&answers[a], &as_lent[a], (LONGER - a) * sizeof answers[0]) == 0);
    }
}

/* 1 before 19, whatever is broken, and 2 before it, whatever is asked. */
static void list_refusals(void)
{
    example();
    lend_answers();
    list_left("1: no table", sirqobal_chunk_release_list(NULL, 0, NULL, 0, addresses, 1, counts, 1, answers, 1,
                                                         table.state, 1, table.settings, true), SIRQOBAL_BROKEN);
    table.settings.page = 5000;
    list_left("1: no page size", list(1, 1, 1), SIRQOBAL_BROKEN);
    list_left("1: the same, and an empty list", list(0, 0, 0), SIRQOBAL_BROKEN);
    example();
    table.records[0].used[31] = 1;
    lend_answers();
    list_left("1 before 19: a bit past the last chunk", list(1, 2, 3), SIRQOBAL_BROKEN);
    for (uint32_t kind = SIRQOBAL_COMMIT; kind <= SIRQOBAL_GIVE_BACK; kind++) {
        open_question(&table, kind, BASE);
        lend_answers();
        list_left("2: a question is open", list(1, 1, 1), SIRQOBAL_QUESTION_OPEN);
        list_left("2: an empty list", list(0, 0, 0), SIRQOBAL_QUESTION_OPEN);
        list_left("2 before 19", list(LONGER, LONGER, LONGER), SIRQOBAL_QUESTION_OPEN);
        check("the question is still there", table.asked.kind == kind);
        table.state.mark = 2;
        lend_answers();
        list_left("1 before 2", list(LONGER, 1, 0), SIRQOBAL_BROKEN);
    }
    memset(&table, 0xff, sizeof table);
    lend_answers();
    list_left("1: ones everywhere", list(3, 3, 3), SIRQOBAL_BROKEN);
}

static uint64_t drawn_number(uint64_t below)
{
    static uint64_t seed = 20261117;
    seed = seed * UINT64_C(6364136223846793005) + UINT64_C(1442695040888963407);
    return (seed >> 33) % below;
}

/* At, about and past the ends of both arenas; zeros, ones and anything. */
static void draw_item(size_t i)
{
    static const uint64_t edges[] = {0, 1, BASE - 1, BASE - S, BASE + 4 * S, 0 - S, UINT64_MAX, UINT64_MAX - S};
    static const uint32_t numbers[] = {0, 4, 5, 32, 33, 1024, 1025, INT32_MAX, UINT32_MAX};
    uint64_t chunk = drawn_number(2) == 0 ? BASE + drawn_number(5) * S : (0 - 1025 * S) + drawn_number(1026) * S;
    switch (drawn_number(8)) {
    case 0: addresses[i] = edges[drawn_number(sizeof edges / sizeof edges[0])]; break;
    case 1: addresses[i] = chunk + drawn_number(S); break;
    case 2: addresses[i] = drawn_number(UINT64_C(1) << 31) << drawn_number(34); break;
    default: addresses[i] = chunk;
    }
    counts[i] = drawn_number(4) == 0 ? numbers[drawn_number(sizeof numbers / sizeof numbers[0])]
                                     : 1 + (uint32_t)drawn_number(4);
}

/* A list is what its items are one by one, on a copy of the table. */
static void as_single(size_t n, uint64_t ns, bool pending, unsigned seen[])
{
    second = table;
    memset(answers, 0xa5, sizeof answers);
    grants("a list of anything", sirqobal_table_release_list(&table, ns, addresses, counts, answers, n, pending));
    for (size_t i = 0; i < n; i++) {
        uint32_t number =
            sirqobal_table_release(&second, ns, addresses[i], counts[i], SIRQOBAL_TOLD_NOTHING, pending).number;
        check("the number of the single release", number <= 9 && answers[i] == number);
        seen[number <= 9 ? number : 1]++;
    }
    check("the table of single releases", same_lent(&table, &second) && same_state(&table.state, &second.state));
    check("with no answer more", memcmp(&answers[n], as_lent, sizeof answers[0]) == 0);
}

static void lists_of_anything(void)
{
    static const int64_t delays[] = {10, 0, SIRQOBAL_NEVER, INT64_MAX, INT64_MIN};
    unsigned seen[10] = {0};
    lend_answers();
    for (uint64_t round = 0; round < 300; round++) {
        if (round % 30 == 0) {
            example();
            grants("1,024 chunks at the top", sirqobal_table_adopt(&table, 0 - 1025 * S, 1024 * S));
        }
        table.settings.delay = delays[drawn_number(5)];
        uint32_t claimed = sirqobal_table_claim(&table, 1, 1 + drawn_number(300)).number;
        check("some are held", claimed == SIRQOBAL_GRANTED || claimed == SIRQOBAL_NO_RUN);
        size_t n = drawn_number(40);
        for (size_t i = 0; i < n; i++)
            draw_item(i);
        as_single(n, round * 3000000, drawn_number(3) != 0, seen);
    }
    check("each number stood there", seen[0] > 500 && seen[4] > 50 && seen[7] > 50 && seen[8] > 50 && seen[9] > 50);
    check("and no other", seen[1] + seen[2] + seen[3] + seen[5] + seen[6] == 0);
}

/* ---- the host over the real OS */

/* A page that somebody else mapped: whatever is asked about it, the host answers no and leaves it. */
static void not_its_own(void)
{
    size_t page = (size_t)sirqobal_linux_page();
    void *mapped = mmap(NULL, page, PROT_READ | PROT_WRITE, MAP_PRIVATE | MAP_ANONYMOUS, -1, 0);
    check("a page", mapped != MAP_FAILED);
    if (mapped == MAP_FAILED)
        return;
    unsigned char *own = (unsigned char *)mapped;
    memset(own, 7, page);
    sirqobal_memory_init(&memory);
    check("an arena", sirqobal_memory_reserve(&memory, S, true).number == SIRQOBAL_GRANTED);
    struct sirqobal_reply ask = memory.table.asked;
    uint64_t base = 0;
    ask.address = (uintptr_t)mapped;
    ask.bytes = page;
    for (uint32_t kind = 0; kind <= 8; kind++) {
        if (kind == SIRQOBAL_MEMORY)
            continue;
        ask.kind = kind;
        check("no to what it did not map", !sirqobal_linux_answer(&memory.os, &ask, &base));
    }
    check("it is left", own[0] == 7 && own[page - 1] == 7);
    ask.kind = SIRQOBAL_PURGE;
    ask.address = memory.os.ranges[0].base + S / 2;
    ask.bytes = S;
    check("no to what is its own in part", !sirqobal_linux_answer(&memory.os, &ask, &base) &&
                                               sirqobal_linux_find(&memory.os, ask.address, S / 2 + 1) == 1);
    ask.bytes = UINT64_MAX;
    check("no to what wraps", !sirqobal_linux_answer(&memory.os, &ask, &base));
    check("the end", sirqobal_memory_end(&memory) && munmap(mapped, page) == 0);
}

/* MiB of addresses that this process has mapped; 0 where the system does not say. */
static uint64_t mapped_addresses(void)
{
    uint64_t pages = 0;
    FILE *statm = fopen("/proc/self/statm", "r");
    if (statm != NULL) {
        if (fscanf(statm, "%" SCNu64, &pages) != 1)
            pages = 0;
        fclose(statm);
    }
    return pages * sirqobal_linux_page() >> 20;
}

static void linux_host(void)
{
    struct sirqobal_reply ask;
    uint64_t base = 0, addresses = mapped_addresses();
    memset(&ask, 0, sizeof ask);
    sirqobal_memory_init(&memory);
    check("more than there is", sirqobal_memory_reserve(&memory, UINT64_C(1) << 62, true).number == 14);
    check("its errno is kept", memory.os.error != 0 && memory.os.count == 0);
    check("size 0: one page comes, and goes", sirqobal_memory_reserve(&memory, 0, true).number == 12);
    check("nothing stays mapped", memory.os.count == 0);
    for (uint64_t i = 0; i < SIRQOBAL_RECORDS; i++)
        check("an arena", sirqobal_memory_reserve(&memory, S, i % 2 == 0).id == i);
    check("the 33rd", sirqobal_memory_reserve(&memory, S, true).number == SIRQOBAL_TABLE_FULL);
    check("goes back", memory.os.count == SIRQOBAL_RECORDS);
    ask.kind = SIRQOBAL_GIVE_BACK;
    ask.address = memory.os.ranges[3].base;
    ask.bytes = S;
    check("once", sirqobal_linux_answer(&memory.os, &ask, &base));
    check("not twice", !sirqobal_linux_answer(&memory.os, &ask, &base));
    check("no more than 31 chunks of addresses are kept", mapped_addresses() <= addresses + 31 * 32 + 8);
    check("the rest", sirqobal_memory_end(&memory) && memory.os.count == 0 && memory.table.state.count == 0);
    check("none are kept", mapped_addresses() <= addresses + 8);
}

/* Whether a page may be read and written, as the system says. */
static bool is_open(uint64_t address)
{
    char line[512], mode[5] = "";
    uint64_t start, end;
    bool found = false;
    FILE *maps = fopen("/proc/self/maps", "r");
    while (maps != NULL && !found && fgets(line, sizeof line, maps) != NULL)
        found = sscanf(line, "%" SCNx64 "-%" SCNx64 " %4s", &start, &end, mode) == 3 && start <= address &&
                address < end;
    if (maps != NULL)
        fclose(maps);
    return found && strncmp(mode, "rw", 2) == 0;
}

static void real_memory(void)
{
    sirqobal_memory_init(&memory);
    memory.table.settings.delay = 3600000; /* nothing is due meanwhile, however slow the machine */
    struct sirqobal_reply arena = sirqobal_memory_reserve(&memory, 2 * S, true);
    check("an arena", arena.number == SIRQOBAL_GRANTED);
    for (int decommits = 0; decommits <= 1; decommits++) {
        memory.table.settings.decommits = (uint32_t)decommits;
        struct sirqobal_reply run = sirqobal_memory_claim(&memory, (int32_t)arena.id, 2);
        check("a run", run.number == SIRQOBAL_GRANTED && run.committed && run.fresh == !decommits);
        unsigned char *bytes = (unsigned char *)sirqobal_at(run.address);
        check("it is clear", bytes[0] == 0 && bytes[2 * S - 1] == 0);
        bytes[0] = bytes[2 * S - 1] = 1;
        check("released", sirqobal_memory_release(&memory, run.address, 2).number == SIRQOBAL_GRANTED);
        check("not due yet", sirqobal_memory_sweep(&memory, false).count == 0);
        check("swept", sirqobal_memory_sweep(&memory, true).count == 2);
        check("decommitted or not", (memory.table.records[0].committed[0] == 0) == decommits);
        check("the OS says the same", is_open(run.address) == !decommits && is_open(run.address + S) == !decommits);
    }
    check("the end", sirqobal_memory_end(&memory));
}

/* A memory with one arena of 2 chunks, of which the first is held and full of a byte: where it is. */
static unsigned char *one_held(struct sirqobal_memory *holder, unsigned char byte)
{
    sirqobal_memory_init(holder);
    check("an arena", sirqobal_memory_reserve(holder, 2 * S, true).number == SIRQOBAL_GRANTED);
    struct sirqobal_reply run = sirqobal_memory_claim(holder, 0, 1);
    check("a chunk", run.number == SIRQOBAL_GRANTED);
    if (run.number == SIRQOBAL_GRANTED)
        memset(sirqobal_at(run.address), byte, S);
    return (unsigned char *)sirqobal_at(run.address);
}

static bool is_full_of(const unsigned char *bytes, unsigned char byte)
{
    return bytes != NULL && bytes[0] == byte && memcmp(bytes, bytes + 1, S - 1) == 0;
}

/* What is released stays open, with its bytes; what was pending before goes by a forced sweep alone. */
static void never_in_memory(int64_t delay)
{
    unsigned char *bytes = one_held(&memory, 7);
    uint64_t at = (uintptr_t)bytes;
    memory.table.settings.delay = delay;
    check("released", sirqobal_memory_release(&memory, at, 1).number == SIRQOBAL_GRANTED);
    check("nothing is purged", sirqobal_memory_sweep(&memory, false).count == 0);
    check("by force, neither", sirqobal_memory_sweep(&memory, true).count == 0);
    check("it stays open", is_open(at) && memory.table.records[0].committed[0] == 1);
    struct sirqobal_reply run = sirqobal_memory_claim(&memory, 0, 1);
    check("it is claimed again", run.address == at && run.committed && !run.fresh);
    check("with every byte", is_full_of(bytes, 7));

    memory.table.settings.delay = 0;
    check("released, due at once", sirqobal_memory_release(&memory, at, 1).number == SIRQOBAL_GRANTED);
    memory.table.settings.delay = delay;
    check("it is left", sirqobal_memory_sweep(&memory, false).count == 0 && is_open(at) && is_full_of(bytes, 7));
    check("until a forced sweep", sirqobal_memory_sweep(&memory, true).count == 1 && !is_open(at));
    check("the end", sirqobal_memory_end(&memory));
}

/* A ring of three runs, the second of which stays; in the list stands a run of nobody. */
static void list_in_memory(int64_t delay)
{
    sirqobal_memory_init(&memory);
    memory.table.settings.delay = delay;
    check("an arena", sirqobal_memory_reserve(&memory, 4 * S, true).number == SIRQOBAL_GRANTED);
    for (size_t i = 0; i < 3; i++) {
        addresses[i] = sirqobal_memory_claim(&memory, 0, 1).address;
        memset(sirqobal_at(addresses[i]), 7, S);
        counts[i] = 1;
    }
    uint64_t kept = addresses[1];
    addresses[1] = addresses[0] + 4 * S;
    struct sirqobal_reply r = sirqobal_memory_release_list(&memory, addresses, counts, answers, 3);
    check("closed by one call", r.number == SIRQOBAL_GRANTED && same_state(&r.state, &memory.table.state));
    check("but for the run of nobody", answers[0] == 0 && answers[1] == SIRQOBAL_NOT_INSIDE && answers[2] == 0);
    size_t purged = delay < 0 ? 0 : 2;
    check("the two are purged, or stay", sirqobal_memory_sweep(&memory, true).count == purged);
    check("the OS says the same", is_open(addresses[0]) == (purged == 0) && is_open(addresses[2]) == (purged == 0));
    check("the one that is held is left", is_open(kept) && is_full_of((unsigned char *)sirqobal_at(kept), 7));
    r = sirqobal_memory_claim(&memory, 0, 1);
    check("the lowest is claimed again", r.address == addresses[0] && !r.fresh &&
                                             is_full_of((unsigned char *)sirqobal_at(r.address), purged == 0 ? 7 : 0));
    check("an empty list", sirqobal_memory_release_list(&memory, NULL, NULL, NULL, 0).number == SIRQOBAL_GRANTED);
    check("the end", sirqobal_memory_end(&memory));
}

/* The mappings go along; each end unmaps what is its own then, in either order. */
static void joined_memory(bool first_ends_first)
{
    uint64_t addresses = mapped_addresses();
    unsigned char *ring = one_held(&memory, 1), *telemetry = one_held(&second_memory, 2);
    struct sirqobal_join_reply r = sirqobal_memory_join(&memory, &second_memory);
    check("joined", r.number == SIRQOBAL_GRANTED && r.rise == 1);
    check("the mappings are the first's", memory.os.count == 2 && second_memory.os.count == 0);
    check("every byte is there", is_full_of(ring, 1) && is_full_of(telemetry, 2));
    int32_t id = sirqobal_risen(&r, 0);
    struct sirqobal_reply next = sirqobal_memory_claim(&memory, id, 1);
    check("the next of the second's", sirqobal_at(next.address) == telemetry + S && next.fresh && next.committed);
    check("not through the second",
          sirqobal_memory_release(&second_memory, next.address, 1).number == SIRQOBAL_NOT_INSIDE);
    check("through the first", sirqobal_memory_release(&memory, next.address, 1).number == SIRQOBAL_GRANTED);
    check("and swept", sirqobal_memory_sweep(&memory, true).count == 1 && !is_open(next.address));
    check("the held ones are left", is_full_of(ring, 1) && is_full_of(telemetry, 2));

    unsigned char *again = one_held(&second_memory, 3);
    check("the second has its own", is_full_of(again, 3) && second_memory.os.count == 1 && memory.os.count == 2);
    check("one end", sirqobal_memory_end(first_ends_first ? &memory : &second_memory));
    check("leaves the other's",
          first_ends_first ? is_full_of(again, 3) : is_full_of(ring, 1) && is_full_of(telemetry, 2));
    check("the other end", sirqobal_memory_end(first_ends_first ? &second_memory : &memory));
    check("nothing is kept", mapped_addresses() <= addresses + 8);
}

/* A refused join moves no mapping. */
static void unjoined_memory(void)
{
    unsigned char *ring = one_held(&memory, 1), *telemetry = one_held(&second_memory, 2);
    second_memory.table.state.mark = 2;
    check("1", sirqobal_memory_join(&memory, &second_memory).number == SIRQOBAL_BROKEN);
    second_memory.table.state.mark = 0;
    check("17, with itself", sirqobal_memory_join(&memory, &memory).number == SIRQOBAL_TABLES_OVERLAP);
    check("the mappings stay", memory.os.count == 1 && second_memory.os.count == 1);

    /* As if the OS had refused to unmap 32 blocks. */
    memory.os.count = SIRQOBAL_LINUX_RANGES;
    struct sirqobal_join_reply r = sirqobal_memory_join(&memory, &second_memory);
    check("14: no room for a mapping", r.number == SIRQOBAL_MEMORY_REFUSED && r.rise == 0 && memory.os.error == ENOMEM);
    check("both are left", same_state(&r.first, &memory.table.state) && memory.table.state.count == 1 &&
                               same_state(&r.second, &second_memory.table.state) && second_memory.os.count == 1);
    memory.os.count = 1;
    for (size_t i = 1; i < SIRQOBAL_RECORDS; i++)
        check("an arena", sirqobal_memory_reserve(&memory, S, true).id == i);
    check("18", sirqobal_memory_join(&memory, &second_memory).number == SIRQOBAL_TOO_MANY_ARENAS);
    check("the mappings stay", memory.os.count == SIRQOBAL_RECORDS && second_memory.os.count == 1);
    check("every byte, too", is_full_of(ring, 1) && is_full_of(telemetry, 2));
    check("the ends", sirqobal_memory_end(&memory) && sirqobal_memory_end(&second_memory));
}

/* ---- pictures */

/* What is drawn of the table, at most so many bytes. */
static size_t drawn(char *text, size_t size, sirqobal_holder *holder)
{
    FILE *file = tmpfile();
    if (file == NULL)
        return 0;
    sirqobal_table_picture(file, &table, holder, NULL);
    rewind(file);
    size_t n = fread(text, 1, size - 1, file);
    text[n] = '\0';
    fclose(file);
    return n;
}

static char third_is_c(void *context, uint64_t address)
{
    (void)context;
    return address == BASE + 2 * S || address == BASE + 3 * S ? 'C' : address == BASE ? '?' : 'z';
}

#define LEGEND \
    "  A..Z held, a..z held and not committed, # + the same by others, ~ to be purged, - free and committed, . free\n"

static char text[65536];

static void pictures(void)
{
    sirqobal_table_init(&table);
    drawn(text, sizeof text, NULL);
    check("no arena", strcmp(text, "arenas: none\n") == 0);
    grants("65 chunks", sirqobal_table_manage(&table, BASE, 65 * S, 0, true, false, true));
    table.records[0].used[0] = 15;         /* 0 and 1 not known, 2 and 3 C's */
    table.records[0].committed[0] = 0x55;  /* 0, 2, 4, 6 */
    table.records[0].pending[0] = 0x31;    /* 0, 4, 5 */
    table.records[0].committed[1] = 0;
    drawn(text, sizeof text, third_is_c);
    check("a cell for a chunk",
          strcmp(text, "arena 0: base 0x0000000040000000, 65 chunks, 61 free, managed, exclusive\n"
                       "     0 #+Cc~~-.........................................................\n"
                       "    64 -\n" LEGEND) == 0);
    sirqobal_table_init(&table);
    grants("1,024 chunks", sirqobal_table_adopt(&table, BASE, 1024 * S));
    drawn(text, sizeof text, NULL);
    size_t lines = 0;
    for (const char *c = text; *c != '\0'; c++)
        lines += *c == '\n';
    check("16 rows", lines == 18 && strstr(text, "1024 chunks, 1024 free, owned, shared\n     0 ---") != NULL &&
                         strstr(text, "\n   960 ----") != NULL);
}

static void broken_pictures(void)
{
    memset(&table, 0xff, sizeof table);
    size_t n = drawn(text, sizeof text, third_is_c);
    size_t arena = strlen("arena 0: base 0xffffffffffffffff, 18446744073709551615 chunks, 0 free, owned, exclusive\n");
    check("32 arenas of 1,024 chunks", n == 32 * (arena + 16 * (7 + 64 + 1)) + 22 + strlen(LEGEND));
    FILE *file = tmpfile();
    if (file != NULL) {
        sirqobal_picture(file, table.records, SIZE_MAX, SIZE_MAX, NULL, NULL);
        check("whatever is said of the records", ftell(file) == (long)n);
        fclose(file);
    }
    for (uint32_t i = 0; i < SIRQOBAL_RECORDS; i++)
        table.records[i].chunks = 0;
    n = drawn(text, sizeof text, NULL);
    check("no chunks, no rows", n > 0 && strstr(text, "\n     0 ") == NULL && strstr(text, "arena 31: ") != NULL);
}

static void saved(void)
{
    static struct sirqobal_arena records[SIRQOBAL_RECORDS];
    struct sirqobal_state state;
    example();
    FILE *file = tmpfile();
    check("a file", file != NULL);
    if (file == NULL)
        return;
    check("is written", sirqobal_table_save(file, &table) && ftell(file) == (long)SIRQOBAL_SAVED);
    rewind(file);
    check("and read", sirqobal_saved_read(file, &state, records));
    check("all of it", same_state(&state, &table.state) && memcmp(records, table.records, sizeof records) == 0);
    check("the end is too short", !sirqobal_saved_read(file, &state, records));
    fputc(0, file);
    rewind(file);
    check("a byte more is too long", !sirqobal_saved_read(file, &state, records));
    fclose(file);
}

int main(void)
{
    texts();
    nulls();
    refusals_at_once();
    refusals_while_open();
    refusals_by_answers();
    many_chunks();
    settle_at_6();
    settle_at_1();
    settle_at_3();
    settle_to_the_end();
    each_negative(never_on_a_table);
    each_negative(refusals_of_never);
    joins();
    join_lengths();
    broken_joins();
    joins_while_open();
    joins_of_the_same_range();
    joins_of_many();
    joins_of_marks();
    list_lengths();
    list_refusals();
    lists_of_anything();
    not_its_own();
    linux_host();
    real_memory();
    each_negative(never_in_memory);
    list_in_memory(10);
    each_negative(list_in_memory);
    joined_memory(true);
    joined_memory(false);
    unjoined_memory();
    pictures();
    broken_pictures();
    saved();
    printf("%d checks, %d wrong\n", checks, failures);
    return failures != 0;
}
