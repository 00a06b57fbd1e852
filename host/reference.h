/* An independent implementation of document 01, and of what document 02 adds, in plain C, written from the papers, for the host tests and the
 * benchmarks. */
#ifndef REFERENCE_H
#define REFERENCE_H
#include <stddef.h>
#include <stdint.h>

int ref_is_rank(const uint8_t *w, int n);
int ref_is_height(const uint8_t *w, int n);
int ref_in_form(int rule, const uint8_t *w, int n);
void ref_heights(const uint8_t *w, int n, uint8_t *out);
void ref_ranks(const uint8_t *w, int n, uint8_t *out);
int ref_next_symbol(int rule, const uint8_t *w, int n);
void ref_step(int rule, uint8_t *w, int n);
/* Document 02, Paper 13: the oldest symbol of the only window that the rule sends to w, by trying every symbol; -1 where not just one is found. */
int ref_previous_symbol(int rule, const uint8_t *w, int n);
/* The next string of n symbols from 0 to `most`, in dictionary order: whether there is one; if not, w is all zeros again. */
int ref_next_string(uint8_t *w, int n, int most);
/* Document 02, Paper 5: where the least rotation starts, the greatest under rules 2 and 3, from 1; and how many rotations are different. */
int ref_rotation_start(int rule, const uint8_t *w, int n);
int ref_period(const uint8_t *w, int n);

uint64_t ref_count(int n);
uint64_t ref_place(const uint8_t *w, int n);
void ref_window_at(int n, uint64_t place, uint8_t *out);

/* Patterns in height form, 255 for an open place: whether p is one; and into w the first weak order in dictionary order that has its fixed bytes,
 * or 0 where none has: by trying all in this order (for small n), and by giving each open place, from the left, the least height that leaves an
 * open place for each missing one. */
int ref_is_pattern(const uint8_t *p, int n);
int ref_earliest_by_trying(const uint8_t *p, int n, uint8_t *w);
int ref_earliest_by_counting(const uint8_t *p, int n, uint8_t *w);

/* Even spacing: whether top and spacing pass test 9, and the level of a symbol. */
int ref_setting_ok(int n, long top, long spacing);
long ref_level(int rule, long top, long spacing, int symbol);

/* Document 02, Paper 4: whether sixteen levels are a table; the text of the file that has them, good or not, into REF_FILE + 1 bytes, of which it
 * gives the length; and whether a file is the level file of a table, which is then in `table`. */
enum { REF_FILE = 512 };
int ref_table_ok(const int16_t *table);
size_t ref_write_table(const int16_t *table, char *text);
int ref_read_table(const uint8_t *file, size_t len, int16_t *table);

/* A random weak order of n in height form, with few or many ties; `next` gives 64 random bits. */
void ref_random_heights(uint64_t (*next)(void), int n, uint8_t *out);
#endif
