/* stack COMMAND BUNDLE OPTION..: how many bytes of stack a call uses, by a thread whose stack was filled before with one byte. */
#define _GNU_SOURCE
#include "jobs.h"
#include <pthread.h>
#include <sys/mman.h>

enum { SIZE = 8 << 20, FILL = 0xa5 };

static struct command command;
static uint8_t *input;
static size_t input_length, length, errors;

static void *nothing(void *given) {
    return given;
}

static void *one_call(void *given) {
    answer(&command, input, input_length, NULL, 0, &length, &errors);
    return given;
}

/* How many bytes of its stack a thread wrote. */
static size_t stack_of(void *(*body)(void *)) {
    uint8_t *stack = mmap(NULL, SIZE, PROT_READ | PROT_WRITE, MAP_PRIVATE | MAP_ANONYMOUS, -1, 0);
    pthread_attr_t form;
    pthread_t thread;
    size_t unused = 0;
    if (stack == MAP_FAILED) exit(64);
    memset(stack, FILL, SIZE);
    if (pthread_attr_init(&form) || pthread_attr_setstack(&form, stack, SIZE) || pthread_create(&thread, &form, body, NULL)) exit(64);
    pthread_join(thread, NULL);
    while (unused < SIZE && stack[unused] == FILL) unused++;
    munmap(stack, SIZE);
    return SIZE - unused;
}

int main(int count, char **words) {
    FILE *file = count >= 3 ? fopen(words[2], "rb") : NULL;
    if (!file) return 64;
    command = command_of(words[1], count - 3, words + 3);
    input = read_whole(file, &input_length);
    size_t empty = stack_of(nothing);
    printf("%zu bytes of stack: %s of %zu bytes\n", stack_of(one_call) - empty, words[1], input_length);
    return 0;
}
