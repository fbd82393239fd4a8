/*
 * Pulpgarnet for C and C++: majority tables, rewriting steps and scripts, RM3 tables, and the catalogue of three-input functions
 * (docs/SPEC.md). README.md says how the archive is written, target/staticlib/libpulpgarnet.a, for x86-64-v2.
 *
 * A buffer is a pointer and its length in bytes, or of numbers a pointer and their count. The pointer is never null, also at length 0,
 * and has so much behind it.
 * The buffers of one call do not overlap, and nobody writes to them before the call returns. No call keeps a pointer, allocates
 * memory or holds a state, so calls on different buffers may run at the same time.
 *
 * `used` is the table's own length, in bytes from the beginning of its buffer. It may be any number: what is wrong is refused.
 *
 * A record of a table is 8 bytes (docs/SPEC.md, 2.1 and 6.1): its kind, its block, which is 0 in all but gates and operations, and three
 * 16-bit numbers, low byte first. Steps keep the gates' blocks. An operation has that of its gate, and 0 where it was made for an output.
 *
 * A reply begins with `refusal`, 0 for none, else 1 to 12, 15 or 17 as README.md lists them, `record`, the record that refusals 2, 4
 * and 5 carry, counted from 0, else 0, and `edge`, which of that record's edges refusal 5 means, the first bad one: 1, 2 or 3, else 0.
 * Where a call is refused it has written nothing and all other numbers are 0; pulpgarnet_script and pulpgarnet_follow say what they
 * do instead. Bytes that a call is not said to write stay as they were.
 */
#ifndef PULPGARNET_H
#define PULPGARNET_H

#include <stddef.h>
#include <stdint.h>

#ifdef __cplusplus
extern "C" {
#endif

struct pulpgarnet_checked  { uint32_t refusal; size_t record; uint32_t edge; size_t inputs, gates, outputs; };
struct pulpgarnet_valued   { uint32_t refusal; size_t record; uint32_t edge; uint32_t outputs; };
struct pulpgarnet_reported { uint32_t refusal; size_t record; uint32_t edge; size_t size, depth; };
struct pulpgarnet_placed   { uint32_t refusal; size_t record; uint32_t edge; size_t places; };
struct pulpgarnet_stepped  { uint32_t refusal; size_t record; uint32_t edge; size_t used; };
struct pulpgarnet_ran      { uint32_t refusal; size_t record; uint32_t edge; size_t taken, used; };
struct pulpgarnet_written  { uint32_t refusal; size_t record; uint32_t edge; size_t length; };
struct pulpgarnet_deep     { uint32_t refusal; size_t record; uint32_t edge; size_t depth; };

/* Whether the buffer holds a table: the numbers of its inputs, gates and outputs. Writes nothing. Refusals 1 to 5. */
struct pulpgarnet_checked pulpgarnet_check(const uint8_t *table, size_t length, size_t used);

/* The outputs under an assignment: bit i-1 of the assignment is input i, bit j-1 of `outputs` is output j. Writes nothing.
   Refusals 1 to 6. */
struct pulpgarnet_valued pulpgarnet_evaluate(const uint8_t *table, size_t length, size_t used, uint32_t assignment);

/* The number of gates, and the depth, which is the highest level among the nodes that outputs name: a gate that no output reaches
   counts for the first alone. Writes nothing. Refusals 1 to 5. */
struct pulpgarnet_reported pulpgarnet_report(const uint8_t *table, size_t length, size_t used);

/* Sixty-four assignments at once, of a table of at most 16 inputs. With n inputs, `first` is a multiple of 64 below 2^n, so 0 alone
   where n is at most 6. Place j-1 becomes the word of output j: bit k is its value under the assignment `first` + k, and 0 where that is
   2^n or more. Writes so many places as there are outputs, which `places` says; those after them stay. 32 are enough for any table.
   Refusals 1 to 5, then 15 for more inputs, then 6 for another `first`, then 11 where there are fewer places than outputs. */
struct pulpgarnet_placed pulpgarnet_words(const uint8_t *table, size_t length, size_t used, uint32_t first,
                                          uint64_t *places, size_t places_count);

/* The same over all assignments: place j-1 becomes the number of those that make output j true, at most 65,536.
   Refusals 1 to 5, then 15, then 11. */
struct pulpgarnet_placed pulpgarnet_totals(const uint8_t *table, size_t length, size_t used,
                                           uint64_t *places, size_t places_count);

/* Applies one step, and returns the new used length. Writes the table, no byte past the larger of its old and its new used
   length: where the table became shorter, the bytes between the two become 0. Refusals 1 to 5, 7 to 11. */
struct pulpgarnet_stepped pulpgarnet_step(uint8_t *table, size_t length, size_t used,
                                          uint16_t rule, uint16_t gate, uint16_t a, uint16_t b);

/* Takes the steps of a script, 8 bytes each, in order until one is refused. Returns the number of steps taken and the used
   length after them, also where `refusal` says why the next step, or the whole script, was refused: then `taken` steps stand.
   Where the table or the script's length is refused, `taken` is 0 and `used` the number given. Writes the table, just as
   `taken` calls of pulpgarnet_step would. Refusals 1 to 5, 7 to 12. */
struct pulpgarnet_ran pulpgarnet_script(uint8_t *table, size_t length, size_t used,
                                        const uint8_t *steps, size_t steps_length);

/* The same as pulpgarnet_script, and where the gates of the first table stand then. A place is an edge: twice the number of a node, plus
   1 for its inverse. Place i, counted from 0, is that of the first table's gate i: it becomes the edge that has that gate's first
   value now, or 0 where the gate was swept away. Places past those of the gates stay; 1,024 are enough for any table. Where there are
   fewer than gates, which is refused with 11 after 12 and before any step, or where the table or the script's length is refused,
   nothing is written. Refusals 1 to 5, 7 to 12. */
struct pulpgarnet_ran pulpgarnet_follow(uint8_t *table, size_t length, size_t used,
                                        const uint8_t *steps, size_t steps_length,
                                        uint16_t *places, size_t places_count);

/* Writes the RM3 table to the first `length` bytes of out, and returns that length; the table stays as it was. A node's helper is
   made once, at its first need, and used again. 25,344 bytes are enough for any. Refusals 1 to 5, 11. */
struct pulpgarnet_written pulpgarnet_translate(const uint8_t *table, size_t length, size_t used,
                                               uint8_t *out, size_t out_length);

/* The same with a helper made anew at each need, as in listings that were stored before. It never has fewer operations. */
struct pulpgarnet_written pulpgarnet_translate_anew(const uint8_t *table, size_t length, size_t used,
                                                    uint8_t *out, size_t out_length);

/* The depth of the RM3 table, the same of both, which is the highest level among the operands that its outputs name. Writes nothing. Refusals 1 to 5. */
struct pulpgarnet_deep pulpgarnet_rm3_depth(const uint8_t *table, size_t length, size_t used);

/* Writes the table of the function of three inputs with this number to the first `length` bytes of out, and returns that length: three
   inputs, at most seven gates, of block 0, and one output. Bit k of the number is the output under the assignment k, k from 0 to 7. 88
   bytes are enough for any. Refusals 11 and 17, the second first. */
struct pulpgarnet_written pulpgarnet_catalogue(uint32_t number, uint8_t *out, size_t out_length);

/* The same as pulpgarnet_evaluate and pulpgarnet_report through a reading: all `length` bytes are the table, and its counts are
   those given. Other counts are refused with 3, after 1 and 2 and before 4 and 5. Nothing is trusted: each call checks again.
   Writes nothing. Refusals 1 to 6, and 1 to 5. */
struct pulpgarnet_valued pulpgarnet_reading_evaluate(const uint8_t *records, size_t length,
                                                     size_t inputs, size_t gates, size_t outputs, uint32_t assignment);
struct pulpgarnet_reported pulpgarnet_reading_report(const uint8_t *records, size_t length,
                                                     size_t inputs, size_t gates, size_t outputs);

#ifdef __cplusplus
}
#endif

#endif
