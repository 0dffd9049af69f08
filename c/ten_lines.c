/* A program over real memory: it claims, touches, releases and sweeps.
 *
 *     gcc -Iinclude c/ten_lines.c build/lib/libsirqobal.a -o ten_lines && ./ten_lines */
#include "sirqobal_linux.h"
#include "sirqobal_picture.h"

static struct sirqobal_memory memory;

int main(void)
{
    sirqobal_memory_init(&memory);
    struct sirqobal_reply arena = sirqobal_memory_reserve(&memory, 4 * SIRQOBAL_CHUNK, true);
    if (arena.number != SIRQOBAL_GRANTED)
        return 1;
    struct sirqobal_reply run = sirqobal_memory_claim(&memory, (int32_t)arena.id, 2);
    if (run.number != SIRQOBAL_GRANTED)
        return 1;
    memset(sirqobal_at(run.address), 1, 2 * SIRQOBAL_CHUNK);
    struct sirqobal_reply release = sirqobal_memory_release(&memory, run.address, 2);
    printf("release: %s; %zu chunks purged\n", sirqobal_refusal_text(release.number),
           sirqobal_memory_sweep(&memory, true).count);
    sirqobal_table_picture(stdout, &memory.table, NULL, NULL);
    return !sirqobal_memory_end(&memory);
}
