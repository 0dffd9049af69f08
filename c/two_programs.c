/* Two programs share one arena layer over real memory: guidance keeps its rings in an exclusive arena, the recorder
 * its telemetry in shared ones. Follow it on the terminal: the same steps as the crate's demonstration (bin/demo.rs).
 * What it says is compared, and it ends with 1 if something is not so. With a FILE the last table is saved there, for
 * `picture`. The OS's calls that answer the layer's questions stand in sirqobal_linux.h.
 *
 *     bash library.sh
 *     gcc -std=c11 -O2 -Wall -Wextra -Iinclude c/two_programs.c build/lib/libsirqobal.a -o two_programs
 *     ./two_programs [FILE] */
#define _DEFAULT_SOURCE /* mmap's flags, which C11 alone does not show */

#include "sirqobal_linux.h"
#include "sirqobal_picture.h"

#include <stdlib.h>

#define GUIDANCE 'G'
#define RECORDER 'R'

/* A run that a program holds, and what it wrote into every page of it. */
struct run {
    uint64_t address;
    size_t n;
    char mark;
    bool fresh;
    char program; /* 0: nobody's any more */
};

static struct sirqobal_memory memory;
static struct run ring1, ring2, ring3, telemetry, more;
static struct run *const runs[] = {&ring1, &ring2, &ring3, &telemetry, &more};
static int wrong;

static void say(const char *text)
{
    printf("\n%s\n", text);
}

static void compare(const char *what, bool so)
{
    if (!so) {
        printf("  NOT SO: %s\n", what);
        wrong++;
    }
}

/* A call of the demonstration that is not granted ends it. */
static struct sirqobal_reply granted(struct sirqobal_reply reply)
{
    if (reply.number != SIRQOBAL_GRANTED) {
        fprintf(stderr, "turned down: %s (refusal %u)\n", sirqobal_refusal_text(reply.number), reply.number);
        sirqobal_memory_end(&memory);
        exit(1);
    }
    return reply;
}

/* MiB of this process in memory; 0 where the system does not say. */
static uint64_t resident(void)
{
    unsigned long long all, pages = 0;
    FILE *statm = fopen("/proc/self/statm", "r");
    if (statm != NULL) {
        if (fscanf(statm, "%llu %llu", &all, &pages) != 2)
            pages = 0;
        fclose(statm);
    }
    return pages * memory.table.settings.page >> 20;
}

static char holder(void *context, uint64_t address)
{
    (void)context;
    for (size_t i = 0; i < sizeof runs / sizeof runs[0]; i++)
        if (runs[i]->program != 0 && address - runs[i]->address < runs[i]->n * SIRQOBAL_CHUNK)
            return runs[i]->program;
    return 0;
}

/* The arenas, who holds what, and what is resident. */
static void show(void)
{
    sirqobal_table_picture(stdout, &memory.table, holder, NULL);
    printf("  resident: %llu MiB\n", (unsigned long long)resident());
}

/* Claims a run and writes the mark into every page. */
static struct run written(char program, int32_t id, size_t n, char mark)
{
    struct sirqobal_reply reply = granted(sirqobal_memory_claim(&memory, id, n));
    char *bytes = sirqobal_at(reply.address);
    for (uint64_t at = 0; at < n * SIRQOBAL_CHUNK; at += memory.table.settings.page)
        bytes[at] = mark;
    compare("the run is committed", reply.committed);
    return (struct run){reply.address, n, mark, reply.fresh, program};
}

static void check_pages(const char *name, const struct run *run)
{
    const char *bytes = sirqobal_at(run->address);
    uint64_t page = memory.table.settings.page;
    uint64_t all = run->n * SIRQOBAL_CHUNK / page, kept = 0;
    for (uint64_t i = 0; i < all; i++)
        kept += bytes[i * page] == run->mark;
    printf("  %-9s at 0x%llx: %llu of %llu pages\n", name, (unsigned long long)run->address, (unsigned long long)kept,
           (unsigned long long)all);
    compare("every page is its owner's", kept == all);
}

/* Two tables of the same records, stamps and state. */
static bool same(const struct sirqobal_table *a, const struct sirqobal_table *b)
{
    unsigned char of_a[sizeof a->state], of_b[sizeof b->state];
    sirqobal_state_bytes(&a->state, of_a);
    sirqobal_state_bytes(&b->state, of_b);
    return memcmp(of_a, of_b, sizeof of_a) == 0 && memcmp(a->records, b->records, sizeof a->records) == 0 &&
           memcmp(a->stamps, b->stamps, sizeof a->stamps) == 0;
}

static void claims(int32_t guidance)
{
    say("It claims a run of 2 for ring 1 and a run of 2 for ring 2, and writes every page.");
    ring1 = written(GUIDANCE, guidance, 2, '1');
    ring2 = written(GUIDANCE, guidance, 2, '2');
    show();

    say("The recorder claims 3 chunks of any shared arena. There is none: the layer reserves 4.");
    telemetry = written(RECORDER, SIRQOBAL_ANY, 3, 't');
    compare("its chunks are fresh", telemetry.fresh);
    show();
}

/* One list gives back the runs of a ring; a run of another layer, which stands among them, stays held. */
static void close_spare_ring(int32_t guidance)
{
    static struct sirqobal_memory elsewhere;
    sirqobal_memory_init(&elsewhere);
    uint64_t held[3];
    const uint32_t counts[3] = {1, 1, 1};
    uint32_t answers[3];
    say("A spare ring's 2 runs go back by one call. A run of another layer is turned down.");
    granted(sirqobal_memory_reserve(&elsewhere, SIRQOBAL_CHUNK, true));
    held[0] = written(GUIDANCE, guidance, 1, 's').address;
    held[1] = granted(sirqobal_memory_claim(&elsewhere, 0, 1)).address;
    held[2] = written(GUIDANCE, guidance, 1, 's').address;
    granted(sirqobal_memory_release_list(&memory, held, counts, answers, 3));
    for (size_t i = 0; i < 3; i++)
        if (answers[i] != SIRQOBAL_GRANTED)
            printf("  not released: %s (refusal %u)\n", sirqobal_refusal_text(answers[i]), answers[i]);
    compare("2 are released, 1 is not, by 8", answers[0] == SIRQOBAL_GRANTED && answers[1] == SIRQOBAL_NOT_INSIDE &&
                                                  answers[2] == SIRQOBAL_GRANTED);
    size_t purged = granted(sirqobal_memory_sweep(&memory, true)).count;
    printf("  %zu chunks purged\n", purged);
    compare("2 chunks are purged", purged == 2);
    compare("the other run stays held", elsewhere.table.records[0].used[0] == 1);
    compare("it is given back", sirqobal_memory_end(&elsewhere));
    show();
}

/* Closed while the delay means never, ring 1 comes back as it was. */
static void keep_ring(int32_t guidance)
{
    int64_t delay = memory.table.settings.delay;
    say("The purge delay is set to -1: never. Ring 1 is closed and swept, by force too: it stays.");
    memory.table.settings.delay = SIRQOBAL_NEVER;
    memset(sirqobal_at(ring1.address), ring1.mark, ring1.n * SIRQOBAL_CHUNK);
    uint64_t before = resident();
    granted(sirqobal_memory_release(&memory, ring1.address, ring1.n));
    ring1.program = 0;
    size_t purged = granted(sirqobal_memory_sweep(&memory, false)).count;
    purged += granted(sirqobal_memory_sweep(&memory, true)).count;
    printf("  %zu chunks purged\n", purged);
    compare("0 chunks are purged", purged == 0);
    compare("they stay resident", resident() + 1 >= before);
    show();

    say("Claimed again, its chunks still hold every byte. The delay is set back.");
    struct sirqobal_reply again = granted(sirqobal_memory_claim(&memory, guidance, ring1.n));
    const char *bytes = sirqobal_at(again.address);
    uint64_t all = ring1.n * SIRQOBAL_CHUNK, kept = 0;
    for (uint64_t i = 0; i < all; i++)
        kept += bytes[i] == ring1.mark;
    printf("  %llu of %llu bytes\n", (unsigned long long)kept, (unsigned long long)all);
    compare("they are where ring 1 was", again.address == ring1.address);
    compare("they are not fresh", !again.fresh);
    compare("they hold every byte", kept == all);
    ring1.program = GUIDANCE;
    memory.table.settings.delay = delay;
    show();
}

static void release_and_sweep(void)
{
    say("Ring 1 is closed again: its chunks are released, and stay resident until a sweep.");
    uint64_t before = resident();
    granted(sirqobal_memory_release(&memory, ring1.address, ring1.n));
    ring1.program = 0;
    compare("they stay resident", resident() + 1 >= before);
    show();

    say("The recorder asks for 2 chunks more. Ring 1's are free, but not for it: a new arena.");
    more = written(RECORDER, SIRQOBAL_ANY, 2, 'u');
    show();

    say("A forced sweep hands the memory of ring 1's chunks back to the OS.");
    before = resident();
    size_t purged = granted(sirqobal_memory_sweep(&memory, true)).count;
    printf("  %zu chunks purged\n", purged);
    compare("2 chunks are purged", purged == 2);
    compare("64 MiB less are resident", before == 0 || resident() + 63 <= before);
    show();
}

static void refusal_and_grant(int32_t guidance)
{
    static struct sirqobal_table before;
    say("Guidance wants a run of 3. Free are 2 and 2, apart: turned down, and nothing changes.");
    before = memory.table;
    struct sirqobal_reply reply = sirqobal_memory_claim(&memory, guidance, 3);
    printf("  %s (refusal %u)\n", sirqobal_refusal_text(reply.number), reply.number);
    compare("by 10", reply.number == SIRQOBAL_NO_RUN);
    compare("nothing changes", same(&memory.table, &before));

    say("A run of 2 is granted, the lowest: where ring 1 was.");
    ring3 = written(GUIDANCE, guidance, 2, '3');
    compare("it is where ring 1 was", ring3.address == ring1.address);
    compare("it is not fresh", !ring3.fresh);
    show();

    say("Every page still holds what its owner wrote:");
    check_pages("ring 2", &ring2);
    check_pages("ring 3", &ring3);
    check_pages("telemetry", &telemetry);
    check_pages("telemetry", &more);
}

/* The table goes to the file, if one is named. */
static void save(const char *name)
{
    FILE *out = fopen(name, "wb");
    bool saved = out != NULL && sirqobal_table_save(out, &memory.table);
    if (out != NULL && fclose(out) != 0)
        saved = false;
    compare("the table is saved", saved);
}

static bool is_mapped(uint64_t address)
{
    unsigned char in_memory;
    return mincore(sirqobal_at(address), memory.table.settings.page, &in_memory) == 0 || errno != ENOMEM;
}

/* Every mapping goes back. */
static void give_back(void)
{
    struct sirqobal_linux was = memory.os;
    compare("3 ranges are mapped", was.count == 3 && is_mapped(was.ranges[0].base));
    compare("all is given back", sirqobal_memory_end(&memory));
    for (size_t i = 0; i < was.count; i++)
        for (uint64_t at = 0; at < was.ranges[i].bytes; at += SIRQOBAL_CHUNK)
            compare("nothing is mapped there", !is_mapped(was.ranges[i].base + at));
}

int main(int argc, char **argv)
{
    sirqobal_memory_init(&memory);
    memory.table.settings.reserve = 4 * SIRQOBAL_CHUNK;

    say("Guidance reserves 6 chunks of 32 MiB for itself alone.");
    int32_t guidance = (int32_t)granted(sirqobal_memory_reserve(&memory, 6 * SIRQOBAL_CHUNK, true)).id;
    show();
    claims(guidance);
    close_spare_ring(guidance);
    keep_ring(guidance);
    release_and_sweep();
    refusal_and_grant(guidance);
    if (argc > 1)
        save(argv[1]);
    give_back();
    if (wrong != 0)
        fprintf(stderr, "%d things are not as they should be\n", wrong);
    return wrong != 0;
}
