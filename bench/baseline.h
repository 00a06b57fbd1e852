/* The same algorithms in plain C, written to be fast: what the proved code is compared with. */
#ifndef BASELINE_H
#define BASELINE_H
#include <stddef.h>
#include <stdint.h>

/* One step of a rule, in place, without a test; the rules as in the source paper, with the least rotation found in O(n). */
void baseline_step(int rule, uint8_t *w, int n);

/* Steps of a rule, each with the tests of the proved step: n, the rule, and the window's form. */
void baseline_walk(int rule, uint8_t *w, int n, uint64_t steps);

/* What wko_next_symbol answers, with the same tests. */
uint32_t baseline_next_symbol(uint64_t n, uint64_t rule, const uint8_t *window, size_t window_len);

/* What wko_previous_symbol answers, with the same tests: the undoing rule on the window turned back by one. */
uint32_t baseline_previous_symbol(uint64_t n, uint64_t rule, const uint8_t *window, size_t window_len);

/* The next symbol by rule 1 alone, by the proved code's way: it looks for a repeat before every 1 first, and then often needs no search. */
uint32_t baseline_rule1_looking(uint64_t n, uint64_t rule, const uint8_t *window, size_t window_len);

/* What wko_rotation_start and wko_period answer, with the same tests, by the search in O(n). */
uint32_t baseline_rotation_start(uint64_t n, uint64_t rule, const uint8_t *window, size_t window_len);
uint32_t baseline_period(uint64_t n, uint64_t rule, const uint8_t *window, size_t window_len);

/* What wko_place and wko_window_at answer, with the same tests, by the library's own algorithm: a recursive count of completions. */
uint32_t baseline_place(uint64_t n, const uint8_t *window, size_t window_len, uint8_t *out, size_t out_len);
uint32_t baseline_window_at(uint64_t n, uint64_t place, uint8_t *out, size_t out_len);

/* What wko_fill answers, with the same tests: counted once, and filled in one pass. */
uint32_t baseline_fill(uint64_t n, const uint8_t *pattern, size_t pattern_len, uint8_t *out, size_t out_len);
#endif
