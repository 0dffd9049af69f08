/* Draws a saved table: the bytes of `struct sirqobal_state`, then of the 32 records, as sirqobal_table_save writes
 * them. Who holds a chunk is not saved: it is drawn as # or +.
 *
 *     gcc -std=c11 -Iinclude c/picture.c -o picture && ./picture FILE */
#include "sirqobal_picture.h"

#include <errno.h>

static struct sirqobal_arena records[SIRQOBAL_RECORDS];

int main(int argc, char **argv)
{
    if (argc != 2) {
        fputs("usage: picture FILE\n", stderr);
        return 2;
    }
    FILE *in = fopen(argv[1], "rb");
    if (in == NULL) {
        fprintf(stderr, "picture: %s: %s\n", argv[1], strerror(errno));
        return 1;
    }
    struct sirqobal_state state;
    bool whole = sirqobal_saved_read(in, &state, records);
    bool failed = ferror(in) != 0;
    fclose(in);
    if (failed) {
        fprintf(stderr, "picture: %s: cannot be read\n", argv[1]);
        return 1;
    }
    if (!whole) {
        fprintf(stderr, "picture: %s: no saved table, which has %zu bytes\n", argv[1], (size_t)SIRQOBAL_SAVED);
        return 1;
    }
    sirqobal_picture(stdout, records, SIRQOBAL_RECORDS, state.count, NULL, NULL);
    return fflush(stdout) != 0 || ferror(stdout);
}
