/* ringplan as a C library: plans for changes of a live ring, and the proved checker of plans.
 *
 * A call takes the bytes that the program `ringplan` would read from standard input, and gives the bytes that it would print. It
 * keeps nothing: no state, thread, lock, file, signal handler or environment. It takes memory from malloc and frees all of it
 * before it returns. Only a watch, at the end of this file, keeps something: a judge, from ringplan_watch_new to ringplan_watch_free.
 * No call ends the process, and none stands for the program's `drive` or its `--workers`. The first five calls take no options.
 * ringplan_call, for people, takes a command and options, and gives what the program prints on standard error too.
 *
 * What becomes of a call, which is proved:
 *   `*length` is the length of the text.
 *   Where the text fits into `room` bytes, it stands at `output`, with no NUL behind it, the bytes behind it are as they were,
 *   and the result is the exit status of the program, 0 to 3 (4 too for `goal`, below).
 *   Where it does not fit, all of `output` is as it was and the result is 4: `*length` bytes serve, and the call may be made again.
 *
 * What the caller owes, which nothing checks:
 *   - `input` has `input_length` bytes that can be read, `output` has `room` bytes that can be written, and `length` is one size_t.
 *     So do `command`, `options` and `errors`. `output`, `length` and `errors` overlap nothing, and no other thread touches them
 *     while the call runs. No thread writes the others meanwhile.
 *   - `input` may be NULL where `input_length` is 0, and so may `command`, `options` and `output`. `length` and `errors` may not.
 *   - Lengths are below 2^63.
 *   - malloc, realloc and free are those of one allocator. It may answer NULL: then the text is `no 60` and the result 3.
 *   - The calling thread has 64 KiB of stack left, and 256 KiB for ringplan_call.
 *   - No call is made from a signal handler, or in the forked child of a process that has threads.
 *
 * Calls may run in any number of threads at once, each with buffers of its own.
 *
 * What is trusted beside that: the toolchain that built the library, the C library's malloc, realloc, free, memcpy, memmove and
 * memset, and this header. The library is for x86-64-v2 on Linux. docs/EMBEDDING.md has more.
 */
#ifndef RINGPLAN_H
#define RINGPLAN_H

#include <stdbool.h>
#include <stddef.h>
#include <stdint.h>

#ifdef __cplusplus
extern "C" {
#endif

/* What a call returns. */
enum ringplan_status {
    RINGPLAN_DONE = 0,         /* yes, a plan, what a play printed, migrated texts, or a history that is a run */
    RINGPLAN_PLAN_REFUSED = 1, /* the plan is refused, there is none, or the history is not a run of it */
    RINGPLAN_TEXT_REFUSED = 2, /* a text is refused, or the input has more than 67,108,864 bytes (`no 2 0`) */
    RINGPLAN_OUT_OF_MEMORY = 3,
    RINGPLAN_MORE_ROOM = 4     /* `room` is too small: `output` is as it was */
};

/* Room for every answer of ringplan_check and for every refusal: the longest is "no 32 4294967295 4294967295\n", 28 bytes. */
#define RINGPLAN_LINE 32

/* 2, for the calls of this header. Later ones may be added with the same version. */
uint32_t ringplan_version(void);

/* A ring, a plan of it and the plan's certificate: "yes\n", or the line of the first refusal. */
uint8_t ringplan_check(const uint8_t *input, size_t input_length, uint8_t *output, size_t room, size_t *length);

/* A ring and a change of it: a plan that the checker accepts and its certificate, or the line of a refusal. */
uint8_t ringplan_plan(const uint8_t *input, size_t input_length, uint8_t *output, size_t room, size_t *length);

/* A ring, a plan, its certificate and a script: what each event is answered and the owners at the end, or the line of a refusal. */
uint8_t ringplan_play(const uint8_t *input, size_t input_length, uint8_t *output, size_t room, size_t *length);

/* A ring, a plan and its certificate: the same in the ring's next format, with nothing checked, or the line of a refusal. */
uint8_t ringplan_migrate(const uint8_t *input, size_t input_length, uint8_t *output, size_t room, size_t *length);

/* A ring, a plan, its certificate and a history: "yes\n" and the owners at the end, or the line of the first fault. */
uint8_t ringplan_replay(const uint8_t *input, size_t input_length, uint8_t *output, size_t room, size_t *length);

/* Does a command for people as `ringplan COMMAND OPTION..` does. Each function below calls it with its own name as `command`.
 *
 * `options` has the words that would stand after the command on the program's command line, each followed by a byte 0, which the
 * last word may lack: "--dead\0n07\0--back". There are none if `options_length` is 0.
 *
 * The text is what the program prints on standard output and then what it prints on standard error. `*length` is the length of
 * both, and `*errors` how many bytes at the end are of standard error: those are text for people. The result is as above, but:
 *   2 also says that the line is refused, in words at the end, as the program refuses it. Refused too are options that name a file
 *   (`-o`, the bundle's, `--layout`), bytes that are not UTF-8, and a command that is not for people: `check`, `drive`, `man`.
 *   4 of `goal` is also the program's status at a plan with steps, where an option is --exit-code. `*length` is at most `room`
 *   then, and greater where the room is too small.
 *   3 has the text `no 60` and `*errors` 0.
 */
uint8_t ringplan_call(const uint8_t *command, size_t command_length, const uint8_t *options, size_t options_length,
                      const uint8_t *input, size_t input_length, uint8_t *output, size_t room, size_t *length, size_t *errors);

#define RINGPLAN_COMMAND(name) \
    static inline uint8_t ringplan_##name(const uint8_t *options, size_t options_length, const uint8_t *input, size_t input_length, \
                                          uint8_t *output, size_t room, size_t *length, size_t *errors) { \
        return ringplan_call((const uint8_t *)#name, sizeof #name - 1, options, options_length, input, input_length, output, room, length, errors); \
    }

/* A ring and a change or a goal ring: the ring, a plan that leads there and its certificate. */
RINGPLAN_COMMAND(goal)

/* A bundle with a history, and --dead: another plan around nodes that died, and the history that goes on by it. */
RINGPLAN_COMMAND(around)

/* A bundle, a change or a ring: a summary in words, or JSON. */
RINGPLAN_COMMAND(show)

/* A bundle or a change: a picture as SVG. */
RINGPLAN_COMMAND(draw)

/* Any text of the program: why it is refused, with lines that may mend it, in words or JSON. */
RINGPLAN_COMMAND(why)

/* A bundle or a change: the plan's steps as lines of JSON. */
RINGPLAN_COMMAND(steps)

/* A bundle or a change, and --rounds: the plan cut into bundles that are done one after the other. */
RINGPLAN_COMMAND(windows)

/* A bundle or a change: the ring that the plan leaves, or what a history has done of it. */
RINGPLAN_COMMAND(after)

/* A ring and a plan: the same with a certificate that is found. */
RINGPLAN_COMMAND(cert)

#undef RINGPLAN_COMMAND

/* A watch: a judge of a history while it grows, as `ringplan watch` is. It begins as RINGPLAN_WATCH_EMPTY.
 *
 * What the caller owes beside the above:
 *   - Only these calls write the two fields. The watch overlaps no buffer, and is not copied while it holds a judge.
 *   - ringplan_watch_new is called with an empty watch. The three calls after it are called with a watch that holds a judge.
 *   - One call at a time uses a watch, and all of them run on one thread.
 *   - ringplan_watch_free is called once the watch is done with. Otherwise the judge's memory is lost.
 */
struct ringplan_watch {
    void *judge;
    bool is_held;
};

#define RINGPLAN_WATCH_EMPTY {NULL, false}

/* Begins a judge by a ring, a plan and its certificate. At 0 the text is empty, and the watch holds the judge. Otherwise the watch is
 * empty, and the text is a refusal's line as of ringplan_check. The bundle is not needed after the call. */
uint8_t ringplan_watch_new(struct ringplan_watch *watch, const uint8_t *bundle, size_t bundle_length, uint8_t *output, size_t room, size_t *length);

/* Hands the judge the next bytes of the history, which may end anywhere: `history 1`, entries, `end`. Bytes after `end` are left out.
 * At 0 the text is empty: all entries so far are a run of the plan. Otherwise the text is the line of a refusal (`no 70 K N`: entry K).
 * A judge that has refused, also for want of memory, answers the same refusal to each later call, so a call may be made again with more room. */
uint8_t ringplan_watch_take(struct ringplan_watch *watch, const uint8_t *bytes, size_t bytes_length, uint8_t *output, size_t room, size_t *length);

/* How many entries the judge has followed: those before the entry that it refused. */
uint32_t ringplan_watch_count(struct ringplan_watch *watch);

/* What a replay of the history prints if no more bytes come: "yes\n" and the owners, or a refusal's line (`no 1 LINE` in the middle of a
 * line). The judge is as it was, and may take more. */
uint8_t ringplan_watch_end(struct ringplan_watch *watch, uint8_t *output, size_t room, size_t *length);

/* Frees the judge, if the watch holds one. The watch is empty then. */
void ringplan_watch_free(struct ringplan_watch *watch);

#ifdef __cplusplus
}
#endif

#endif
