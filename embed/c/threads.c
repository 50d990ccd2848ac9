/* Steps the run of a script's module on several threads at once, each with a handle of its own and steps of another size, and says whether all
 * of them printed the same: threads FILE. */
#include <pthread.h>
#include <stdio.h>
#include <string.h>

#include "stackwasm.h"

enum { INPUT = 1 << 24, ROOM = 1 << 16, THREADS = 4, RUNNING = 10 };

static uint8_t script[INPUT], module[INPUT];
static uint64_t size;

typedef struct {
    uint64_t steps;
    uint32_t status;
    size_t length;
    uint8_t printed[ROOM];
} task;

static task tasks[THREADS];

static void *work(void *given) {
    task *mine = given;
    uint64_t count;
    stackwasm_handle run = {0};
    mine->status = stackwasm_begin(module, (size_t)size, &run, mine->printed, 0, &count);
    if (mine->status != 0) return NULL;
    do {
        mine->status = stackwasm_step(&run, mine->steps, mine->printed, 0, &count);
        stackwasm_read(&run, mine->printed + mine->length, ROOM - mine->length, &count);
        mine->length += (size_t)count;
    } while (mine->status == RUNNING);
    stackwasm_end(&run);
    return NULL;
}

int main(int count, char **words) {
    FILE *file = count > 1 ? fopen(words[1], "rb") : NULL;
    if (file == NULL) {
        fprintf(stderr, "usage: threads FILE\n");
        return 2;
    }
    size_t length = fread(script, 1, INPUT, file);
    fclose(file);
    uint64_t told;
    uint32_t status = stackwasm_build(script, length, module, INPUT, &size, script, 0, &told);
    if (status != 0) return (int)status;

    pthread_t threads[THREADS];
    for (int each = 0; each < THREADS; each++) {
        tasks[each].steps = 1 + 10 * (uint64_t)each;
        if (pthread_create(&threads[each], NULL, work, &tasks[each]) != 0) return 1;
    }
    for (int each = 0; each < THREADS; each++) pthread_join(threads[each], NULL);
    for (int each = 1; each < THREADS; each++) {
        if (tasks[each].status != tasks[0].status || tasks[each].length != tasks[0].length ||
            memcmp(tasks[each].printed, tasks[0].printed, tasks[0].length) != 0) {
            fprintf(stderr, "two threads printed two texts\n");
            return 1;
        }
    }
    printf("%d threads printed the same %zu bytes\n", THREADS, tasks[0].length);
    return (int)tasks[0].status;
}
