/* Builds the module of a script and runs it: example FILE [STEPS]. */
#include <inttypes.h>
#include <stdio.h>
#include <stdlib.h>

#include "stackwasm.h"

enum { INPUT = 1 << 24, ROOM = 1 << 16 };

static uint8_t script[INPUT], module[INPUT], printed[ROOM], told[ROOM];

static int give_up(uint32_t status, uint64_t length) {
    fwrite(told, 1, length < ROOM ? (size_t)length : ROOM, stderr);
    return (int)status;
}

int main(int count, char **words) {
    FILE *file = count > 1 ? fopen(words[1], "rb") : NULL;
    if (file == NULL) {
        fprintf(stderr, "usage: example FILE [STEPS]\n");
        return 2;
    }
    size_t length = fread(script, 1, INPUT, file);
    fclose(file);
    uint64_t steps = count > 2 ? strtoull(words[2], NULL, 10) : 100000000;

    uint64_t size, errors;
    uint32_t status = stackwasm_build(script, length, module, INPUT, &size, told, ROOM, &errors);
    if (status != 0) return give_up(status, errors);
    printf("a module of %" PRIu64 " bytes\n", size);

    uint64_t text;
    status = stackwasm_run(module, (size_t)size, steps, true, printed, ROOM, &text, told, ROOM, &errors);
    fwrite(printed, 1, text < ROOM ? (size_t)text : ROOM, stdout);
    if (text > ROOM) printf(".. and %" PRIu64 " bytes more\n", text - ROOM);
    return give_up(status, errors);
}
