/* growths COMMAND BUNDLE OPTION..: refuses each growth of memory of a call in turn, and counts what is answered and what is left allocated. Linked with
 * -Wl,--wrap=malloc,--wrap=realloc,--wrap=free. Ends with 1 where an answer is neither `no 60` nor the usual one, or memory is left. */
#include "jobs.h"

void *__real_malloc(size_t size);
void *__real_realloc(void *old, size_t size);
void __real_free(void *block);

/* How many growths come up to the refused one, and how many blocks the call holds. */
static long until_refused, held;
static int counting;

void *__wrap_malloc(size_t size) {
    if (counting && --until_refused == 0) return NULL;
    void *block = __real_malloc(size);
    held += counting && block;
    return block;
}

void *__wrap_realloc(void *old, size_t size) {
    if (counting && --until_refused == 0) return NULL;
    void *block = __real_realloc(old, size);
    held += counting && block && !old;
    return block;
}

void __wrap_free(void *block) {
    held -= counting && block;
    __real_free(block);
}

int main(int count, char **words) {
    static uint8_t output[1 << 20], wanted[1 << 20];
    FILE *file = count >= 3 ? fopen(words[2], "rb") : NULL;
    if (!file) return 64;
    struct command command = command_of(words[1], count - 3, words + 3);
    size_t input_length, length, errors, wanted_length, wanted_errors;
    uint8_t *input = read_whole(file, &input_length);
    int wanted_status = answer(&command, input, input_length, wanted, sizeof wanted, &wanted_length, &wanted_errors);
    long refused = 0, same = 0, other = 0, leaks = 0, growth = 0;
    do {
        until_refused = ++growth, held = 0, counting = 1;
        int status = answer(&command, input, input_length, output, sizeof output, &length, &errors);
        counting = 0;
        leaks += held != 0;
        if (until_refused > 0) break;
        if (status == 3 && length == 6 && errors == 0 && !memcmp(output, "no 60\n", 6)) refused++;
        else if (status == wanted_status && length == wanted_length && errors == wanted_errors && !memcmp(output, wanted, length)) same++;
        else other++;
    } while (1);
    printf("%s: %ld growths refused, `no 60` at %ld, the usual answer at %ld, another at %ld, memory left at %ld\n", words[1], growth - 1, refused, same, other, leaks);
    return other || leaks;
}
