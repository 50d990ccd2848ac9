/* stackwasm: a WebAssembly engine with stack switching, and a compiler onto it for a small script language, as functions on bytes in memory.
 *
 * Each of the first functions does what the command of its name does with a file that holds the bytes, and hands its answer over. A text that
 * is longer than its buffer is cut off there, and its length is told all the same: call once more with so much room. The same bytes and
 * numbers have the same answer each time. A run keeps no more of what it prints than the buffer holds. The functions on a handle, below,
 * step a run that goes on where it stopped.
 *
 * The status is the command's, or from 14 on the library's own:
 *
 *    0  done; what was asked for is on out
 *    1  the run trapped
 *    3  the bytes are no module
 *    4  the module is not valid, or its run can't begin
 *    5  the bytes are no script, or one that breaks a rule
 *    8  memory ran out; the lengths are 0, and the buffers are as they were
 *    9  a limit is passed, that on the bytes of the input (16 MiB) among them
 *   10  the steps are used up, and the run has not ended
 *   12  the bytes are no text of a module
 *   13  the second bytes are no trace, or not that of the run
 *   14  more than 2^40 steps are asked for; the lengths are 0, and the buffers are as they were
   15  the handle holds no run; the same
   16  the handle holds a run; the same
   17  the lengths of files don't add up to that of their bytes; the same
 *
 * What went wrong stands on err, in the command's words. To check, build and run, bytes whose first four are those of modules are a module,
 * and a script else; to dump, link, trace, audit and the functions on a handle they are a module, and to asm the text of one.
 *
 * What is proved of each function is its contract in crates/embed/src. It rests on what a caller owes:
 *
 * - Each pointer is not null, also with a room or length of 0, and good for what its length says, which is below 2^63 bytes. The buffers are
 *   initialised. During the call nothing else reads or writes what the function writes, or writes what it reads.
 * - What a function writes lies apart from all else that it is given: out, err, the lengths and counts, and the handle.
 * - A handle is all zeros before the first call on it. Then these functions alone read and write it, one call at a time has it, and it stays
 *   on the thread that began its run until that run is let go. It may be moved, but of two copies one alone is ever used.
 * - A bool is 0 or 1.
 * - malloc, realloc and free are those of the C library, or others that belong together and align as it does.
 * - There is stack enough: 8 MiB, as the command has. How much a script takes goes by how deep its expressions are nested; of all rows that
 *   the project has, none took more than 1 MiB.
 * - No call comes from a signal handler.
 *
 * Any other value has an answer. Nothing is kept between calls but what a handle holds, no memory is left behind by a run that was let go,
 * and calls of several threads don't disturb each other. */

#ifndef STACKWASM_H
#define STACKWASM_H

#include <stdbool.h>
#include <stddef.h>
#include <stdint.h>

#ifdef __cplusplus
extern "C" {
#endif

/* Judges a module or a script. */
uint32_t stackwasm_check(const uint8_t *bytes, size_t length, uint8_t *out, size_t out_room, uint64_t *out_length, uint8_t *err,
                         size_t err_room, uint64_t *err_length);

/* Writes a module in its canonical spelling, or the module of a script. */
uint32_t stackwasm_build(const uint8_t *bytes, size_t length, uint8_t *out, size_t out_room, uint64_t *out_length, uint8_t *err,
                         size_t err_room, uint64_t *err_length);

/* Writes a module as text. */
uint32_t stackwasm_dump(const uint8_t *bytes, size_t length, uint8_t *out, size_t out_room, uint64_t *out_length, uint8_t *err,
                        size_t err_room, uint64_t *err_length);

/* Reads a module from its text, and writes it in its canonical spelling. */
uint32_t stackwasm_asm(const uint8_t *bytes, size_t length, uint8_t *out, size_t out_room, uint64_t *out_length, uint8_t *err,
                       size_t err_room, uint64_t *err_length);

/* Runs a module or a script for so many steps at most: 2^40, or fewer. What it prints, and its results, go to out; where `stats` is true a
 * line of statistics goes to err, if the bytes are a module. */
uint32_t stackwasm_run(const uint8_t *bytes, size_t length, uint64_t steps, bool stats, uint8_t *out, size_t out_room, uint64_t *out_length,
                       uint8_t *err, size_t err_room, uint64_t *err_length);

/* Runs a module for so many steps at most, and writes what the run does with continuations. */
uint32_t stackwasm_trace(const uint8_t *bytes, size_t length, uint64_t steps, uint8_t *out, size_t out_room, uint64_t *out_length,
                         uint8_t *err, size_t err_room, uint64_t *err_length);

/* Audits a trace: whether the second bytes are what stackwasm_trace writes of the module for so many steps, each line well spelled, and each
 * continuation used once. */
uint32_t stackwasm_audit(const uint8_t *bytes, size_t length, const uint8_t *trace, size_t trace_length, uint64_t steps, uint8_t *out,
                         size_t out_room, uint64_t *out_length, uint8_t *err, size_t err_room, uint64_t *err_length);

/* Links modules, and runs them: their bytes stand one behind the other, and `lengths` has the length of each, in order. Statistics are those
 * of stackwasm_run. */
uint32_t stackwasm_link(const uint8_t *bytes, size_t length, const uint64_t *lengths, size_t count, uint64_t steps, bool stats, uint8_t *out,
                        size_t out_room, uint64_t *out_length, uint8_t *err, size_t err_room, uint64_t *err_length);

/* A run that goes on where it stopped, or none: `stackwasm_handle run = {0};` holds none. */
typedef struct {
    uint8_t *at;
    bool held;
} stackwasm_handle;

/* Begins the run of a module in a handle that holds none: 0. Else the handle holds none, and why stands on err: 3, 4, 8, 9, or 1 where the
 * module traps as it is instantiated. With 16 the run that it holds stays as it is. */
uint32_t stackwasm_begin(const uint8_t *bytes, size_t length, stackwasm_handle *run, uint8_t *err, size_t err_room, uint64_t *err_length);

/* Lets the run take at most so many reductions, and says how it stands, with the command's line for it on err: 10, it goes on; 0, it has ended;
 * 1, it trapped; 9, it passed a limit; 8, memory ran out, in the run or for the line. Once it doesn't go on it takes none, and each step
 * answers the same again. With 14, by this step it would have taken more than 2^40 in all, and it takes none. What the reductions print is
 * kept until it is read. */
uint32_t stackwasm_step(stackwasm_handle *run, uint64_t steps, uint8_t *err, size_t err_room, uint64_t *err_length);

/* Reads what the run printed and wasn't read, as much as the buffer holds, and says how many bytes: 0. Where that is the whole buffer there
 * may be more. */
uint32_t stackwasm_read(stackwasm_handle *run, uint8_t *out, size_t out_room, uint64_t *count);

/* The results of a run that has ended, a line each, as the command writes them; before, none. */
uint32_t stackwasm_results(stackwasm_handle *run, uint8_t *out, size_t out_room, uint64_t *out_length);

/* How many reductions the run has taken, and how many continuations it made, consumed, and has left. */
uint32_t stackwasm_counts(stackwasm_handle *run, uint64_t *taken, uint64_t *made, uint64_t *consumed, uint64_t *live);

/* Lets the run go, with all of its memory: 0. Then the handle holds none. */
uint32_t stackwasm_end(stackwasm_handle *run);

#ifdef __cplusplus
}
#endif

#endif
