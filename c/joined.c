/* Two programs, each on an arena layer of its own over real memory, are switched over to one layer while both hold
 * chunks: guidance (G) and the recorder (R) go on, each in its exclusive arena. Follow it on the terminal: the same
 * steps as the crate's program (bin/joined.rs). What it says is compared, every byte that is held too, and it ends with
 * 1 if something is not so. With a FILE the joined table is saved there, for `picture`.
 *
 *     bash library.sh
 *     gcc -std=c11 -O2 -Wall -Wextra -Iinclude c/joined.c build/lib/libsirqobal.a -o joined
 *     ./joined [FILE] */
#define _DEFAULT_SOURCE /* mmap's flags, which C11 alone does not show */

#include "sirqobal_linux.h"
#include "sirqobal_picture.h"

#include <stdlib.h>

#define GUIDANCE 'G'
#define RECORDER 'R'

/* A run that a program holds. Each word of it has the mark and its own address. */
struct run {
    const char *name;
    uint64_t address;
    size_t n;
    char mark;
    bool fresh;
    char program; /* 0: nobody's any more */
};

static struct sirqobal_memory first, second;
static struct run ring1, ring2, lines, telemetry, spool, journal, ring3, frames;
static struct run *const runs[] = {&ring1, &ring2, &lines, &telemetry, &spool, &journal, &ring3, &frames};
static const size_t run_count = sizeof runs / sizeof runs[0];
static int wrong;

static void say(const char *text)
{
    printf("\n%s\n", text);
}

static void compare(const char *what, bool so)
{
    if (!so) {
        printf("  NOT SO: %s\n", what);
        wrong++;
    }
}

/* A call of the demonstration that is not granted ends it. */
static void must(uint32_t number)
{
    if (number != SIRQOBAL_GRANTED) {
        fprintf(stderr, "turned down: %s (refusal %u)\n", sirqobal_refusal_text(number), number);
        sirqobal_memory_end(&first);
        sirqobal_memory_end(&second);
        exit(1);
    }
}

static int32_t reserved(struct sirqobal_memory *memory, uint64_t chunks, bool exclusive)
{
    struct sirqobal_reply reply = sirqobal_memory_reserve(memory, chunks * SIRQOBAL_CHUNK, exclusive);
    must(reply.number);
    return (int32_t)reply.id;
}

static char holder(void *context, uint64_t address)
{
    (void)context;
    for (size_t i = 0; i < run_count; i++)
        if (runs[i]->program != 0 && address - runs[i]->address < runs[i]->n * SIRQOBAL_CHUNK)
            return runs[i]->program;
    return 0;
}

static void show(const struct sirqobal_memory *memory)
{
    sirqobal_table_picture(stdout, &memory->table, holder, NULL);
}

static uint64_t word(const struct run *run, uint64_t i)
{
    return (uint64_t)run->mark << 56 | (run->address + 8 * i);
}

/* Claims a run and writes every byte. */
static struct run written(struct sirqobal_memory *memory, char program, const char *name, int32_t id, size_t n,
                          char mark)
{
    struct sirqobal_reply reply = sirqobal_memory_claim(memory, id, n);
    must(reply.number);
    compare("the run is committed", reply.committed);
    struct run run = {name, reply.address, n, mark, reply.fresh, program};
    uint64_t *words = sirqobal_at(run.address);
    for (uint64_t i = 0; i < n * SIRQOBAL_CHUNK / 8; i++)
        words[i] = word(&run, i);
    return run;
}

static void released(struct sirqobal_memory *memory, struct run *run)
{
    must(sirqobal_memory_release(memory, run->address, run->n).number);
    run->program = 0;
}

/* How many bytes are as they were written. */
static uint64_t kept(const struct run *run)
{
    const uint64_t *words = sirqobal_at(run->address);
    uint64_t as_written = 0;
    for (uint64_t i = 0; i < run->n * SIRQOBAL_CHUNK / 8; i++)
        as_written += words[i] == word(run, i);
    return 8 * as_written;
}

static bool all_kept(void)
{
    bool all = true;
    for (size_t i = 0; i < run_count; i++)
        if (runs[i]->program != 0)
            all = all && kept(runs[i]) == runs[i]->n * SIRQOBAL_CHUNK;
    return all;
}

/* Two tables of the same records, stamps and state. */
static bool same(const struct sirqobal_table *a, const struct sirqobal_table *b)
{
    unsigned char of_a[sizeof a->state], of_b[sizeof b->state];
    sirqobal_state_bytes(&a->state, of_a);
    sirqobal_state_bytes(&b->state, of_b);
    return memcmp(of_a, of_b, sizeof of_a) == 0 && memcmp(a->records, b->records, sizeof a->records) == 0 &&
           memcmp(a->stamps, b->stamps, sizeof a->stamps) == 0;
}

/* The id of its exclusive arena. */
static int32_t guidance_alone(void)
{
    say("Guidance (G) has a layer of its own, 6 chunks for itself alone, and claims 2 rings.");
    int32_t id = reserved(&first, 6, true);
    ring1 = written(&first, GUIDANCE, "ring 1", id, 2, '1');
    ring2 = written(&first, GUIDANCE, "ring 2", id, 2, '2');
    show(&first);
    return id;
}

/* Likewise, in its own layer. */
static int32_t recorder_alone(void)
{
    say("The recorder (R) has another: 4 chunks for itself alone, 2 shared; 1 is released.");
    int32_t id = reserved(&second, 4, true);
    reserved(&second, 2, false);
    lines = written(&second, RECORDER, "lines", id, 1, 'l');
    telemetry = written(&second, RECORDER, "telemetry", id, 2, 't');
    spool = written(&second, RECORDER, "spool", SIRQOBAL_ANY, 1, 's');
    released(&second, &lines);
    show(&second);
    return id;
}

static struct sirqobal_join_reply switch_over(void)
{
    static struct sirqobal_table one, two, empty;
    say("Switch-over: the recorder's table is joined; its arenas 0 and 1 are 1 and 2 now.");
    one = first.table;
    two = second.table;
    struct sirqobal_join_reply joined = sirqobal_memory_join(&first, &second);
    must(joined.number);
    show(&first);
    printf("The recorder's own layer is left empty:\n");
    show(&second);
    compare("ids 0 and 1 are 1 and 2", sirqobal_risen(&joined, 0) == 1 && sirqobal_risen(&joined, 1) == 2);
    compare("three arenas stand", first.table.state.count == 3);
    compare("guidance's arena is as it was", memcmp(first.table.records, one.records, sizeof one.records[0]) == 0 &&
                                                 memcmp(first.table.stamps, one.stamps, 4096) == 0);
    compare("the recorder's arenas are as they were",
            memcmp(first.table.records + 1, two.records, 2 * sizeof two.records[0]) == 0);
    compare("so are their stamps", memcmp(first.table.stamps + 1024, two.stamps, 2 * 4096) == 0);
    compare("its own layer is empty", same(&second.table, &empty));
    compare("not a byte has changed", all_kept());
    return joined;
}

static void begin_anew(void)
{
    say("It begins anew: a new arena there has number 0 again.");
    int32_t id = reserved(&second, 1, true);
    compare("it is number 0", id == 0);
    journal = written(&second, RECORDER, "journal", id, 1, 'j');
    show(&second);
}

static void release_and_sweep(void)
{
    say("Ring 1 and telemetry are released. A sweep purges them, and the 1 released before.");
    compare("not in the layer that was left",
            sirqobal_memory_release(&second, telemetry.address, telemetry.n).number == SIRQOBAL_NOT_INSIDE);
    released(&first, &ring1);
    released(&first, &telemetry);
    struct sirqobal_reply swept = sirqobal_memory_sweep(&first, true);
    must(swept.number);
    printf("  %zu chunks purged\n", swept.count);
    compare("5 chunks are purged", swept.count == 5);
    show(&first);
}

static void go_on(int32_t guidance, int32_t recorder)
{
    say("Each claims in its arena, by the id of now: the lowest run, where it gave one back.");
    ring3 = written(&first, GUIDANCE, "ring 3", guidance, 2, '3');
    compare("it is where ring 1 was, and not fresh", ring3.address == ring1.address && !ring3.fresh);
    frames = written(&first, RECORDER, "frames", recorder, 3, 'f');
    compare("it is where the lines were, and not fresh", frames.address == lines.address && !frames.fresh);
    show(&first);
}

static void turned_down(void)
{
    static struct sirqobal_table before;
    say("The recorder wants 2 that are shared. Free is 1; guidance has 2, but not for it.");
    before = first.table;
    struct sirqobal_reply reply = sirqobal_memory_claim(&first, SIRQOBAL_ANY, 2);
    printf("  %s (refusal %u)\n", sirqobal_refusal_text(reply.number), reply.number);
    compare("by 10", reply.number == SIRQOBAL_NO_RUN);
    compare("nothing changes", same(&first.table, &before));
}

static void look(void)
{
    say("Every byte still is what its owner wrote:");
    for (size_t i = 0; i < run_count; i++)
        if (runs[i]->program != 0)
            printf("  %-9s at 0x%llx: %llu of %llu bytes\n", runs[i]->name, (unsigned long long)runs[i]->address,
                   (unsigned long long)kept(runs[i]), (unsigned long long)(runs[i]->n * SIRQOBAL_CHUNK));
    compare("every byte is its owner's", all_kept());
}

/* The table goes to the file, if one is named. */
static void save(const char *name)
{
    FILE *out = fopen(name, "wb");
    bool saved = out != NULL && sirqobal_table_save(out, &first.table);
    if (out != NULL && fclose(out) != 0)
        saved = false;
    compare("the table is saved", saved);
}

static bool is_mapped(uint64_t address)
{
    unsigned char in_memory;
    return mincore(sirqobal_at(address), sirqobal_linux_page(), &in_memory) == 0 || errno != ENOMEM;
}

/* Each end unmaps what is its own: the first's the three arenas, the second's the new one. */
static void give_back(void)
{
    compare("3 and 1 ranges are mapped", first.os.count == 3 && second.os.count == 1);
    compare("the first's are given back", sirqobal_memory_end(&first));
    compare("its runs are gone", !is_mapped(ring3.address) && !is_mapped(frames.address) && !is_mapped(spool.address));
    compare("the second's is there", kept(&journal) == SIRQOBAL_CHUNK);
    compare("it is given back", sirqobal_memory_end(&second) && !is_mapped(journal.address));
}

int main(int argc, char **argv)
{
    sirqobal_memory_init(&first);
    sirqobal_memory_init(&second);
    int32_t guidance = guidance_alone();
    int32_t recorder = recorder_alone();
    struct sirqobal_join_reply joined = switch_over();
    recorder = sirqobal_risen(&joined, recorder);
    begin_anew();
    release_and_sweep();
    go_on(guidance, recorder);
    turned_down();
    look();
    if (argc > 1)
        save(argv[1]);
    give_back();
    if (wrong != 0)
        fprintf(stderr, "%d things are not as they should be\n", wrong);
    return wrong != 0;
}
