/* Puts calls to the library, one after another, and prints its answers. Each call is made twice where an answer is longer than a short
 * buffer: first with that, then with just the room that was told. Beside each buffer stand bytes that have to stay. The action `held` is a
 * run by a handle, in steps that grow.
 *
 * A call on standard input is a line `ACTION STEPS STATS LENGTH SECOND`, and so many bytes behind it, twice: the second are the trace of an audit,
 * or the lengths of files to link, as numbers of 64 bits. An answer on standard output is a line `STATUS OUT ERR`, and so many bytes of each
 * behind it. */
#include <stdio.h>
#include <stdlib.h>
#include <string.h>

#include "stackwasm.h"

enum { SHORT = 64, GUARD = 16, MARK = 0xA5, RUNNING = 10, NO_RUN = 15, HAS_RUN = 16 };

typedef struct {
    uint8_t *at;
    size_t room;
    uint64_t length;
} text;

typedef struct {
    char action[8];
    unsigned long long steps;
    unsigned stats;
    uint8_t *bytes, *second;
    size_t length, second_length;
} request;

static void fail(const char *why) {
    fprintf(stderr, "rows: %s\n", why);
    exit(1);
}

static void *room_for(size_t size) {
    void *at = malloc(size);
    if (at == NULL) fail("no memory");
    return at;
}

static text make(size_t room) {
    text made = {room_for(room + GUARD), room, 0};
    memset(made.at, MARK, room + GUARD);
    return made;
}

/* What lies behind the text, and behind the buffer, has to be as it was. */
static void look_behind(const text *seen) {
    size_t held = seen->length < seen->room ? (size_t)seen->length : seen->room;
    for (size_t at = held; at < seen->room + GUARD; at++)
        if (seen->at[at] != MARK) fail("a byte behind the text was written");
}

static uint32_t call(const request *asked, text *out, text *err) {
    const char *action = asked->action;
    const uint8_t *bytes = asked->bytes;
    size_t length = asked->length;
    if (strcmp(action, "check") == 0)
        return stackwasm_check(bytes, length, out->at, out->room, &out->length, err->at, err->room, &err->length);
    if (strcmp(action, "build") == 0)
        return stackwasm_build(bytes, length, out->at, out->room, &out->length, err->at, err->room, &err->length);
    if (strcmp(action, "dump") == 0)
        return stackwasm_dump(bytes, length, out->at, out->room, &out->length, err->at, err->room, &err->length);
    if (strcmp(action, "asm") == 0)
        return stackwasm_asm(bytes, length, out->at, out->room, &out->length, err->at, err->room, &err->length);
    if (strcmp(action, "run") == 0)
        return stackwasm_run(bytes, length, asked->steps, asked->stats != 0, out->at, out->room, &out->length, err->at, err->room, &err->length);
    if (strcmp(action, "trace") == 0)
        return stackwasm_trace(bytes, length, asked->steps, out->at, out->room, &out->length, err->at, err->room, &err->length);
    if (strcmp(action, "audit") == 0)
        return stackwasm_audit(bytes, length, asked->second, asked->second_length, asked->steps, out->at, out->room, &out->length, err->at,
                               err->room, &err->length);
    if (strcmp(action, "link") == 0)
        return stackwasm_link(bytes, length, (const uint64_t *)(const void *)asked->second, asked->second_length / sizeof(uint64_t), asked->steps,
                              asked->stats != 0, out->at, out->room, &out->length, err->at, err->room, &err->length);
    fail("no such action");
    return 0;
}

/* The first text is a front of the second, and both have one length. */
static void agree(const text *first, const text *second) {
    size_t held = first->length < first->room ? (size_t)first->length : first->room;
    if (first->length != second->length || memcmp(first->at, second->at, held) != 0) fail("two calls have two answers");
}

static void print(uint32_t status, const text *out, const text *err) {
    printf("%u %llu %llu\n", status, (unsigned long long)out->length, (unsigned long long)err->length);
    fwrite(out->at, 1, (size_t)out->length, stdout);
    fwrite(err->at, 1, (size_t)err->length, stdout);
}

static void answer(const request *asked) {
    text out = make(SHORT), err = make(SHORT);
    uint32_t status = call(asked, &out, &err);
    look_behind(&out);
    look_behind(&err);
    if (out.length > out.room || err.length > err.room) {
        text whole_out = make((size_t)out.length), whole_err = make((size_t)err.length);
        if (call(asked, &whole_out, &whole_err) != status) fail("two calls have two statuses");
        look_behind(&whole_out);
        look_behind(&whole_err);
        agree(&out, &whole_out);
        agree(&err, &whole_err);
        free(out.at);
        free(err.at);
        out = whole_out;
        err = whole_err;
    }
    print(status, &out, &err);
    free(out.at);
    free(err.at);
}

/* Appends to a text what a call wrote into a short buffer. */
static void append(text *whole, const text *part, uint64_t count) {
    look_behind(part);
    whole->at = realloc(whole->at, whole->length + count + 1);
    if (whole->at == NULL) fail("no memory");
    memcpy(whole->at + whole->length, part->at, (size_t)count);
    whole->length += count;
    memset(part->at, MARK, part->room);
}

static void append_unread(text *out, stackwasm_handle *run, size_t room) {
    text part = make(room);
    do {
        if (stackwasm_read(run, part.at, part.room, &part.length) != 0) fail("a handle holds no run");
        append(out, &part, part.length);
    } while (part.length == room);
    free(part.at);
}

/* The results, asked for again where a short buffer doesn't hold them. */
static void append_results(text *out, stackwasm_handle *run) {
    text part = make(SHORT);
    if (stackwasm_results(run, part.at, part.room, &part.length) != 0) fail("no results");
    if (part.length > part.room) {
        size_t room = (size_t)part.length;
        look_behind(&part);
        free(part.at);
        part = make(room);
        if (stackwasm_results(run, part.at, part.room, &part.length) != 0) fail("no results");
    }
    append(out, &part, part.length);
    free(part.at);
}

static void append_counts(text *err, stackwasm_handle *run) {
    uint64_t taken, made, consumed, live;
    if (stackwasm_counts(run, &taken, &made, &consumed, &live) != 0) fail("no counts");
    text line = make(128);
    line.length = (uint64_t)snprintf((char *)line.at, line.room, "stats steps %llu made %llu consumed %llu live %llu\n", (unsigned long long)taken,
                                     (unsigned long long)made, (unsigned long long)consumed, (unsigned long long)live);
    line.at[line.length] = MARK;
    append(err, &line, line.length);
    free(line.at);
}

/* Steps of 1, 2, 4 and so on, until so many were asked for or the run doesn't go on; the end is told twice. */
static uint32_t step_on(const request *asked, stackwasm_handle *run, text *out, text *err) {
    uint64_t left = asked->steps, steps = 1;
    uint32_t status, again;
    text told = make(SHORT);
    do {
        steps = steps < left ? steps : left;
        status = stackwasm_step(run, steps, told.at, told.room, &told.length);
        append_unread(out, run, steps < SHORT ? (size_t)steps + 1 : SHORT);
        left -= steps;
        steps *= 2;
        if (status == RUNNING && left > 0) {
            look_behind(&told);
            memset(told.at, MARK, told.room);
        }
    } while (status == RUNNING && left > 0);
    text same = make(SHORT);
    again = stackwasm_step(run, 0, same.at, same.room, &same.length);
    if (again != status || same.length != told.length || memcmp(same.at, told.at, SHORT) != 0) fail("a step of none has another answer");
    append(err, &told, told.length);
    free(told.at);
    free(same.at);
    return status;
}

static void answer_held(const request *asked) {
    text out = make(0), err = make(0), told = make(SHORT);
    stackwasm_handle run = {0};
    uint32_t status = stackwasm_begin(asked->bytes, asked->length, &run, told.at, told.room, &told.length);
    append(&err, &told, told.length);
    if (status == 0) {
        if (stackwasm_begin(asked->bytes, asked->length, &run, told.at, told.room, &told.length) != HAS_RUN) fail("a run began in a run");
        status = step_on(asked, &run, &out, &err);
        append_results(&out, &run);
        if (asked->stats != 0) append_counts(&err, &run);
        if (stackwasm_end(&run) != 0) fail("a run didn't end");
    }
    if (stackwasm_end(&run) != NO_RUN || stackwasm_step(&run, 1, told.at, told.room, &told.length) != NO_RUN) fail("there is a run");
    print(status, &out, &err);
    free(out.at);
    free(err.at);
    free(told.at);
}

static uint8_t *read_bytes(size_t length) {
    uint8_t *bytes = room_for(length + 1);
    if (fread(bytes, 1, length, stdin) != length) fail("bytes are missing");
    return bytes;
}

int main(void) {
    request asked;
    while (scanf("%7s %llu %u %zu %zu", asked.action, &asked.steps, &asked.stats, &asked.length, &asked.second_length) == 5) {
        getchar();
        asked.bytes = read_bytes(asked.length);
        asked.second = read_bytes(asked.second_length);
        if (strcmp(asked.action, "held") == 0)
            answer_held(&asked);
        else
            answer(&asked);
        free(asked.bytes);
        free(asked.second);
    }
    return 0;
}
