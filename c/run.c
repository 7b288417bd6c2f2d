/* run COMMAND OPTION.. < bundle: prints and ends as the program `ringplan COMMAND OPTION..` does, by the library. For comparing the two. */
#include "jobs.h"

int main(int count, char **words) {
    if (count < 2) {
        fputs("run COMMAND OPTION.. < bundle\n", stderr);
        return 64;
    }
    struct command command = command_of(words[1], count - 2, words + 2);
    size_t input_length, length, errors, room = RINGPLAN_LINE;
    uint8_t *input = read_whole(stdin, &input_length);
    uint8_t *output = malloc(room);
    if (!output) return 64;
    uint8_t status = answer(&command, input, input_length, output, room, &length, &errors);
    if (length > room) {
        room = length;
        output = realloc(output, room);
        if (!output) return 64;
        status = answer(&command, input, input_length, output, room, &length, &errors);
    }
    if (fwrite(output, 1, length - errors, stdout) != length - errors || fflush(stdout)) return 64;
    if (fwrite(output + length - errors, 1, errors, stderr) != errors) return 64;
    free(output);
    free(input);
    free(command.options);
    return status;
}
