/* Builds the module of a script and steps its run, so many reductions at a time: what it prints stands there as it comes, behind how many
 * reductions were taken: steps FILE [REDUCTIONS]. */
#include <inttypes.h>
#include <stdio.h>
#include <stdlib.h>

#include "stackwasm.h"

enum { INPUT = 1 << 24, ROOM = 1 << 12, RUNNING = 10 };

static uint8_t script[INPUT], module[INPUT], text[ROOM];

static int give_up(uint32_t status, uint64_t length) {
    fwrite(text, 1, length < ROOM ? (size_t)length : ROOM, stderr);
    return (int)status;
}

static void print_unread(stackwasm_handle *run, uint64_t taken) {
    uint64_t count = ROOM;
    while (count == ROOM && stackwasm_read(run, text, ROOM, &count) == 0 && count > 0) {
        printf("%6" PRIu64 ": ", taken);
        fwrite(text, 1, (size_t)count, stdout);
    }
}

int main(int count, char **words) {
    FILE *file = count > 1 ? fopen(words[1], "rb") : NULL;
    if (file == NULL) {
        fprintf(stderr, "usage: steps FILE [REDUCTIONS]\n");
        return 2;
    }
    size_t length = fread(script, 1, INPUT, file);
    fclose(file);
    uint64_t steps = count > 2 ? strtoull(words[2], NULL, 10) : 25;

    uint64_t size, told;
    uint32_t status = stackwasm_build(script, length, module, INPUT, &size, text, ROOM, &told);
    if (status != 0) return give_up(status, told);

    stackwasm_handle run = {0};
    status = stackwasm_begin(module, (size_t)size, &run, text, ROOM, &told);
    if (status != 0) return give_up(status, told);
    uint64_t taken, made, consumed, live;
    do {
        status = stackwasm_step(&run, steps, text, ROOM, &told);
        stackwasm_counts(&run, &taken, &made, &consumed, &live);
        print_unread(&run, taken);
    } while (status == RUNNING && steps > 0);
    if (status != 0) give_up(status, told);
    if (stackwasm_results(&run, text, ROOM, &told) == 0) fwrite(text, 1, told < ROOM ? (size_t)told : ROOM, stdout);
    printf("%" PRIu64 " reductions, %" PRIu64 " continuations made, %" PRIu64 " consumed, %" PRIu64 " left\n", taken, made, consumed, live);
    stackwasm_end(&run);
    return (int)status;
}
