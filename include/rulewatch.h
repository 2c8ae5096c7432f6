/* The rule watch, for programs in C: link target/staticlib/libembed.a (made by `tools/staticlib`).
 *
 * Every pointer has to be valid for its length, also where the length is 0 (pass the address of any byte, not NULL), and
 * `out` may not overlap `book` or `trace`. Nothing else can be got wrong: any bytes are answered or refused. No heap is used;
 * a call needs up to 224 KiB of stack. Calls may be made from several threads at once: nothing is shared between them.
 */
#ifndef RULEWATCH_H
#define RULEWATCH_H

#include <stddef.h>
#include <stdint.h>

#ifdef __cplusplus
extern "C" {
#endif

/* The longest line there is, with its line feed. */
#define RULEWATCH_LINE_MAX 64

/* Loads the rule of the book, follows the trace on a new watch, and writes one line that ends with a line feed to `out`:
 *     verdict=false records=2 cells=0
 * or, where something is refused,
 *     refused=9 layer=watch record=511
 * Returns the number of bytes written, or 0 where `out` is too short, and then `out` is untouched.
 * Clocks 0 to 3 are sums, 4 and 5 peaks, 6 and 7 channels.
 */
size_t rulewatch_run(const uint8_t *book, size_t book_len, const uint8_t *trace, size_t trace_len, uint8_t *out, size_t out_len);

#ifdef __cplusplus
}
#endif

#endif
