/* What the C programs of this folder share: the call that words name, and a whole file. */
#ifndef RINGPLAN_JOBS_H
#define RINGPLAN_JOBS_H

#include "ringplan.h"
#include <stdio.h>
#include <stdlib.h>
#include <string.h>

typedef uint8_t ringplan_job(const uint8_t *, size_t, uint8_t *, size_t, size_t *);

/* The call of a job, or NULL. */
static inline ringplan_job *job_of(const char *word) {
    if (!strcmp(word, "check")) return ringplan_check;
    if (!strcmp(word, "plan")) return ringplan_plan;
    if (!strcmp(word, "play")) return ringplan_play;
    if (!strcmp(word, "migrate")) return ringplan_migrate;
    if (!strcmp(word, "replay")) return ringplan_replay;
    return NULL;
}

/* A job without options, or another command with its options. */
struct command {
    ringplan_job *job;
    const char *word;
    uint8_t *options;
    size_t options_length;
};

/* The command that the first word names, with the other words as its options. */
static inline struct command command_of(const char *word, int count, char **options) {
    struct command command = {count ? NULL : job_of(word), word, NULL, 0};
    for (int each = 0; each < count; each++) {
        size_t length = strlen(options[each]) + 1;
        command.options = realloc(command.options, command.options_length + length);
        if (!command.options) exit(64);
        memcpy(command.options + command.options_length, options[each], length);
        command.options_length += length;
    }
    return command;
}

/* Makes the call. */
static inline uint8_t answer(const struct command *command, const uint8_t *input, size_t input_length, uint8_t *output, size_t room, size_t *length, size_t *errors) {
    *errors = 0;
    if (command->job) return command->job(input, input_length, output, room, length);
    return ringplan_call((const uint8_t *)command->word, strlen(command->word), command->options, command->options_length, input, input_length, output, room, length, errors);
}

/* All bytes of a stream, and how many there are. Ends the process where memory or the stream fails. */
static inline uint8_t *read_whole(FILE *stream, size_t *count) {
    size_t capacity = 1 << 16, got;
    uint8_t *bytes = malloc(capacity);
    *count = 0;
    while (bytes && (got = fread(bytes + *count, 1, capacity - *count, stream)) > 0) {
        *count += got;
        if (*count == capacity) bytes = realloc(bytes, capacity *= 2);
    }
    if (!bytes || ferror(stream)) {
        fputs("the input cannot be read\n", stderr);
        exit(64);
    }
    return bytes;
}

#endif
