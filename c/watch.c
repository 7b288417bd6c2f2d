/* watch BUNDLE PIECE < history: prints and ends as `ringplan watch BUNDLE` does, by the library. Hands on PIECE bytes at a time. */
#include "jobs.h"

/* Prints the text of a call, which is made again if the room is too small. */
#define TELL(call) \
    do { \
        status = (call); \
        if (length > room) { \
            room = length; \
            output = realloc(output, room); \
            if (!output) return 64; \
            status = (call); \
        } \
        if (fwrite(output, 1, length, stdout) != length || fflush(stdout)) return 64; \
    } while (0)

int main(int count, char **words) {
    size_t bundle_length, length, got, room = RINGPLAN_LINE, piece = count == 3 ? strtoul(words[2], NULL, 10) : 0;
    FILE *file = piece ? fopen(words[1], "rb") : NULL;
    if (!file) {
        fputs("watch BUNDLE PIECE < history\n", stderr);
        return 64;
    }
    uint8_t *bundle = read_whole(file, &bundle_length), *bytes = malloc(piece), *output = malloc(room), status;
    fclose(file);
    if (!bytes || !output) return 64;
    struct ringplan_watch watch = RINGPLAN_WATCH_EMPTY;
    TELL(ringplan_watch_new(&watch, bundle, bundle_length, output, room, &length));
    free(bundle);
    while (status == RINGPLAN_DONE && (got = fread(bytes, 1, piece, stdin)) > 0)
        TELL(ringplan_watch_take(&watch, bytes, got, output, room, &length));
    if (status == RINGPLAN_DONE) TELL(ringplan_watch_end(&watch, output, room, &length));
    ringplan_watch_free(&watch);
    ringplan_watch_free(&watch);
    free(output);
    free(bytes);
    return status;
}
