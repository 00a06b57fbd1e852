/* Documents 01, 02 and 002 in plain C, as they are written: no thought of speed, no shared code with the library. */
#include "reference.h"
#include <stdio.h>
#include <stdlib.h>
#include <string.h>

static int num(const uint8_t *w, int n, int v)
{
    int count = 0;
    for (int i = 0; i < n; i++)
        count += w[i] == v;
    return count;
}

static int below(const uint8_t *w, int n, int v)
{
    int count = 0;
    for (int i = 0; i < n; i++)
        count += w[i] < v;
    return count;
}

static int different_below(const uint8_t *w, int n, int v)
{
    int count = 0;
    for (int u = 0; u < v; u++)
        count += num(w, n, u) > 0;
    return count;
}

int ref_is_rank(const uint8_t *w, int n)
{
    for (int i = 0; i < n; i++)
        if (w[i] != 1 + below(w, n, w[i]))
            return 0;
    return 1;
}

int ref_is_height(const uint8_t *w, int n)
{
    for (int i = 0; i < n; i++)
        if (different_below(w, n, w[i]) != w[i])
            return 0;
    return 1;
}

int ref_in_form(int rule, const uint8_t *w, int n)
{
    return rule == 1 ? ref_is_rank(w, n) : ref_is_height(w, n);
}

void ref_heights(const uint8_t *w, int n, uint8_t *out)
{
    for (int i = 0; i < n; i++)
        out[i] = (uint8_t)different_below(w, n, w[i]);
}

void ref_ranks(const uint8_t *w, int n, uint8_t *out)
{
    for (int i = 0; i < n; i++)
        out[i] = (uint8_t)(1 + below(w, n, w[i]));
}

/* The order of the rotations from i and from j: below zero, zero, above zero. */
static int compare_rotations(const uint8_t *w, int n, int i, int j)
{
    for (int k = 0; k < n; k++) {
        int d = w[(i + k) % n] - w[(j + k) % n];
        if (d != 0)
            return d;
    }
    return 0;
}

/* The least index, from 1, of the least rotation, or of the greatest. */
static int start(const uint8_t *w, int n, int greatest)
{
    for (int t = 0; t < n; t++) {
        int first = 1;
        for (int j = 0; j < n; j++)
            if (greatest ? compare_rotations(w, n, j, t) > 0 : compare_rotations(w, n, j, t) < 0)
                first = 0;
        if (first)
            return t + 1;
    }
    return 0;
}

int ref_rotation_start(int rule, const uint8_t *w, int n)
{
    return start(w, n, rule != 1);
}

int ref_period(const uint8_t *w, int n)
{
    int different = 0;
    for (int i = 0; i < n; i++) {
        int fresh = 1;
        for (int j = 0; j < i; j++)
            if (compare_rotations(w, n, i, j) == 0)
                fresh = 0;
        different += fresh;
    }
    return different;
}

static int single(const uint8_t *w, int n, int v)
{
    return v == 1 || num(w, n, v) == 1;
}

static int rule1(const uint8_t *w, int n)
{
    int plain = 1, x = w[0], ones = num(w, n, 1);
    for (int i = 0; i < n; i++)
        if (!single(w, n, w[i]))
            plain = 0;
    if (plain && x == ones + 1)
        return 1;
    if (plain && x == 1)
        return ones;
    if (!plain && x > 1 && num(w, n, x) > 1) {
        int all = 1, t = start(w, n, 0);
        for (int i = 2; i < t; i++)
            if (!single(w, n, w[i - 1]))
                all = 0;
        if (all)
            return x + num(w, n, x) - 1;
    }
    if (x > 1 && num(w, n, x) == 1) {
        int p = 0;
        for (int i = 0; i < n; i++)
            if (w[i] < x && w[i] > p)
                p = w[i];
        if (p != 1) {
            uint8_t q[16];
            memcpy(q, w, (size_t)n);
            q[0] = (uint8_t)p;
            int all = 1, t = start(q, n, 0);
            for (int i = 2; i < t; i++)
                if (w[i - 1] == p || !single(w, n, w[i - 1]))
                    all = 0;
            if (all)
                return p;
        }
    }
    return x;
}

/* The window with x for its first symbol is in R. */
static int in_r(const uint8_t *w, int n, int x)
{
    uint8_t v[16];
    int zeros = 1;
    if (x < 0 || x > 255)
        return 0;
    memcpy(v, w, (size_t)n);
    v[0] = (uint8_t)x;
    if (!ref_is_height(v, n))
        return 0;
    for (int i = 0; i < n; i++)
        if (v[i] != 0)
            zeros = 0;
    for (int j = 1; j < n; j++)
        if (compare_rotations(v, n, j, 0) > 0)
            return 0;
    return !zeros;
}

static int rule2(const uint8_t *w, int n)
{
    int x = w[0];
    if (in_r(w, n, x + 1))
        return x + 1;
    if (in_r(w, n, x) && in_r(w, n, x - 1))
        return x - 2;
    if (in_r(w, n, x))
        return x - 1;
    return x;
}

static int rule3(const uint8_t *w, int n)
{
    int x = w[0];
    if (in_r(w, n, x))
        return x - 1;
    if (in_r(w, n, x + 1) && in_r(w, n, x + 2))
        return x + 2;
    if (in_r(w, n, x + 1))
        return x + 1;
    return x;
}

int ref_next_symbol(int rule, const uint8_t *w, int n)
{
    return rule == 1 ? rule1(w, n) : rule == 2 ? rule2(w, n) : rule3(w, n);
}

void ref_step(int rule, uint8_t *w, int n)
{
    int s = ref_next_symbol(rule, w, n);
    memmove(w, w + 1, (size_t)(n - 1));
    w[n - 1] = (uint8_t)s;
}

int ref_previous_symbol(int rule, const uint8_t *w, int n)
{
    int found = -1;
    for (int x = 0; x <= n; x++) {
        uint8_t v[16] = {(uint8_t)x};
        memcpy(v + 1, w, (size_t)(n - 1));
        if (!ref_in_form(rule, v, n) || ref_next_symbol(rule, v, n) != w[n - 1])
            continue;
        if (found >= 0)
            return -1;
        found = x;
    }
    return found;
}

int ref_next_string(uint8_t *w, int n, int most)
{
    int i = n - 1;
    while (i >= 0 && w[i] == most)
        w[i--] = 0;
    if (i < 0)
        return 0;
    w[i]++;
    return 1;
}

/* The ways to fill r places so that each of m missing heights occurs, p others being allowed; filled once by its recurrence. */
static uint64_t ways_table[17][17][18];
static int ways_ready;

static uint64_t ways(int r, int m, int p)
{
    if (!ways_ready) {
        for (int rr = 0; rr <= 16; rr++)
            for (int mm = 0; mm <= 16; mm++)
                for (int pp = 0; pp <= 16; pp++)
                    ways_table[rr][mm][pp] =
                        rr == 0 ? mm == 0
                                : (mm == 0 ? 0 : (uint64_t)mm * ways_table[rr - 1][mm - 1][pp + 1])
                                      + (uint64_t)pp * ways_table[rr - 1][mm][pp];
        ways_ready = 1;
    }
    return ways_table[r][m][p];
}

/* The height windows of n that begin with the first i symbols of w. */
static uint64_t completions(const uint8_t *w, int i, int n)
{
    int top = 0, d = different_below(w, i, 256);
    uint64_t sum = 0;
    for (int k = 0; k < i; k++)
        if (w[k] + 1 > top)
            top = w[k] + 1;
    for (int k = top; k <= n; k++)
        if (k - d >= 0 && k - d <= n - i)
            sum += ways(n - i, k - d, d);
    return sum;
}

uint64_t ref_count(int n)
{
    return completions((const uint8_t *)"", 0, n);
}

uint64_t ref_place(const uint8_t *w, int n)
{
    uint8_t v[16];
    uint64_t place = 0;
    memcpy(v, w, (size_t)n);
    for (int i = 0; i < n; i++) {
        for (int x = 0; x < w[i]; x++) {
            v[i] = (uint8_t)x;
            place += completions(v, i + 1, n);
        }
        v[i] = w[i];
    }
    return place;
}

void ref_window_at(int n, uint64_t place, uint8_t *out)
{
    for (int i = 0; i < n; i++) {
        for (int x = 0;; x++) {
            uint64_t c;
            out[i] = (uint8_t)x;
            c = completions(out, i + 1, n);
            if (place < c)
                break;
            place -= c;
        }
    }
}

int ref_is_pattern(const uint8_t *p, int n)
{
    for (int i = 0; i < n; i++)
        if (p[i] != 255 && p[i] >= n)
            return 0;
    return 1;
}

/* The strings that have the fixed bytes of p, and the first i symbols of w, are tried in dictionary order up to a weak order. */
static int first_from(const uint8_t *p, uint8_t *w, int i, int n)
{
    if (i == n)
        return ref_is_height(w, n);
    for (int v = 0; v < n; v++) {
        w[i] = (uint8_t)v;
        if ((p[i] == 255 || p[i] == v) && first_from(p, w, i + 1, n))
            return 1;
    }
    return 0;
}

int ref_earliest_by_trying(const uint8_t *p, int n, uint8_t *w)
{
    return first_from(p, w, 0, n);
}

/* No more heights are missing than places are open. */
static int has_room(const uint8_t *p, int n)
{
    int top = 0;
    for (int i = 0; i < n; i++)
        if (p[i] != 255 && p[i] + 1 > top)
            top = p[i] + 1;
    return top - different_below(p, n, top) <= num(p, n, 255);
}

int ref_earliest_by_counting(const uint8_t *p, int n, uint8_t *w)
{
    memcpy(w, p, (size_t)n);
    if (!has_room(w, n))
        return 0;
    for (int i = 0; i < n; i++)
        if (w[i] == 255)
            for (w[i] = 0; !has_room(w, n); w[i]++) {
            }
    return 1;
}

int ref_setting_ok(int n, long top, long spacing)
{
    return top >= -10000 && top <= 2000 && spacing >= 25 && spacing <= 500 && top - (n - 1) * spacing >= -12000;
}

/* Of the multiple of 25 that is not above x and the next, the one that is nearer. */
static long nearest_multiple(long x)
{
    long above = ((x % 25) + 25) % 25;
    return above < 25 - above ? x - above : x - above + 25;
}

long ref_level(int rule, long top, long spacing, int symbol)
{
    return nearest_multiple(top - (rule == 1 ? symbol - 1 : symbol) * spacing);
}

int ref_table_ok(const int16_t *table)
{
    for (int d = 0; d < 16; d++) {
        if (table[d] < -12000 || table[d] > 2000 || table[d] % 25 != 0)
            return 0;
        if (d > 0 && table[d] >= table[d - 1])
            return 0;
    }
    return 1;
}

size_t ref_write_table(const int16_t *table, char *text)
{
    char line[24];
    strcpy(text, "d level\n");
    for (int d = 0; d < 16; d++) {
        snprintf(line, sizeof line, "%d %d\n", d, table[d]);
        strcat(text, line);
    }
    return strlen(text);
}

/* Takes what numbers there are, however they stand, and judges the file by what would have been written for them: a table has one text, as
 * decimals have no leading zeros and all else is fixed. */
int ref_read_table(const uint8_t *file, size_t len, int16_t *table)
{
    char text[REF_FILE + 1] = "", good[REF_FILE + 1], *at;
    if (len == 0 || len > REF_FILE)
        return 0;
    memcpy(text, file, len);
    at = text + strcspn(text, "\n");
    for (int d = 0; d < 16; d++) {
        long level;
        strtol(at, &at, 10);
        level = strtol(at, &at, 10);
        if (level < -12000 || level > 2000)
            return 0;
        table[d] = (int16_t)level;
    }
    return ref_table_ok(table) && ref_write_table(table, good) == len && memcmp(good, file, len) == 0;
}

void ref_random_heights(uint64_t (*next)(void), int n, uint8_t *out)
{
    uint8_t w[16];
    int most = 1 + (int)(next() % (uint64_t)n);
    for (int i = 0; i < n; i++)
        w[i] = (uint8_t)(next() % (uint64_t)most);
    ref_heights(w, n, out);
}
