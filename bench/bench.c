/* Speed of the proved code against plain C on the same windows in the same run, as ratios. Not a test: nothing here fails on time. */
#include "../include/wko_frames.h"
#include "baseline.h"
#include <stdio.h>
#include <string.h>
#include <time.h>

uint32_t walk(size_t n, uint8_t rule, const uint8_t *window, size_t window_len, uint64_t count);

enum { RUNS = 9, MOST_PLACES = 5000 };

static const uint64_t WINDOWS[17] = {[8] = 545835, [12] = 28091567595, [16] = 5315654681981355};

/* The processor time of this process: other work on the machine is left out. */
static double now(void)
{
    struct timespec t;
    clock_gettime(CLOCK_PROCESS_CPUTIME_ID, &t);
    return (double)t.tv_sec + 1e-9 * (double)t.tv_nsec;
}

/* Adds a run to the best time so far, and gives the time at its end. */
static double keep_best(double *best, double since)
{
    double end = now();
    if (end - since < *best)
        *best = end - since;
    return end;
}

static void start_window(int rule, int n, uint8_t *w)
{
    memset(w, 0, 16);
    for (int i = 0; i < n; i++)
        w[i] = (uint8_t)(rule == 1 ? i + 1 : i);
}

typedef uint32_t rule_call(uint64_t n, uint64_t rule, const uint8_t *window, size_t window_len);

/* So many windows on, by a call that tests all it is given. */
static void call_steps(rule_call *call, int rule, int n, uint8_t *w, uint64_t count)
{
    for (uint64_t k = 0; k < count; k++) {
        uint32_t symbol = call((uint64_t)n, (uint64_t)rule, w, (size_t)n);
        memmove(w, w + 1, (size_t)(n - 1));
        w[n - 1] = (uint8_t)symbol;
    }
}

/* Steps along the cycle, the best of nine runs of each, one after the other in turn. */
static void steps(int rule, int n, uint64_t count)
{
    double c = 1e9, ours = 1e9, call_c = 1e9, call_ours = 1e9;
    uint8_t w[16], v[16];
    unsigned differ = 0;
    for (int run = 0; run < RUNS; run++) {
        double t = now();
        start_window(rule, n, w);
        baseline_walk(rule, w, n, count);
        t = keep_best(&c, t);
        start_window(rule, n, v);
        differ += walk((size_t)n, (uint8_t)rule, v, (size_t)n, count) != w[n - 1];
        t = keep_best(&ours, t);
        call_steps(wko_next_symbol, rule, n, v, count);
        t = keep_best(&call_ours, t);
        differ += memcmp(v, w, (size_t)n) != 0;
        start_window(rule, n, v);
        call_steps(baseline_next_symbol, rule, n, v, count);
        keep_best(&call_c, t);
        differ += memcmp(v, w, (size_t)n) != 0;
    }
    printf("rule %d  n = %2d   step: C %6.1f ns, proved %6.1f ns (%.2f of C)   call with its tests: C %6.1f ns, wko_next_symbol %6.1f ns (%.2f of C)%s\n",
           rule, n, 1e9 * c / (double)count, 1e9 * ours / (double)count, ours / c, 1e9 * call_c / (double)count,
           1e9 * call_ours / (double)count, call_ours / call_c, differ ? "   THE ANSWERS DIFFER" : "");
}

/* So many windows back. */
static void call_steps_back(rule_call *call, int rule, int n, uint8_t *w, uint64_t count)
{
    for (uint64_t k = 0; k < count; k++) {
        uint32_t symbol = call((uint64_t)n, (uint64_t)rule, w, (size_t)n);
        memmove(w + 1, w, (size_t)(n - 1));
        w[0] = (uint8_t)symbol;
    }
}

/* Steps back along the cycle, and whether as many steps lead to the start again. */
static void steps_back(int rule, int n, uint64_t count)
{
    double c = 1e9, ours = 1e9;
    uint8_t start[16], w[16], v[16];
    unsigned differ = 0;
    start_window(rule, n, start);
    for (int run = 0; run < RUNS; run++) {
        double t = now();
        memcpy(w, start, sizeof w);
        call_steps_back(baseline_previous_symbol, rule, n, w, count);
        t = keep_best(&c, t);
        memcpy(v, start, sizeof v);
        call_steps_back(wko_previous_symbol, rule, n, v, count);
        keep_best(&ours, t);
        differ += memcmp(v, w, (size_t)n) != 0;
    }
    call_steps(wko_next_symbol, rule, n, v, count);
    differ += memcmp(v, start, (size_t)n) != 0;
    printf("rule %d  n = %2d   call with its tests: C %6.1f ns, wko_previous_symbol %6.1f ns (%.2f of C)%s\n", rule, n, 1e9 * c / (double)count,
           1e9 * ours / (double)count, ours / c, differ ? "   THE ANSWERS DIFFER" : "");
}

/* Calls of rule 1 against C that goes the same way, which the paper does not: like for like. */
static void rule1_alike(int n, uint64_t count)
{
    double c = 1e9, ours = 1e9;
    uint8_t w[16], v[16];
    unsigned differ = 0;
    for (int run = 0; run < RUNS; run++) {
        double t = now();
        start_window(1, n, w);
        call_steps(baseline_rule1_looking, 1, n, w, count);
        t = keep_best(&c, t);
        start_window(1, n, v);
        call_steps(wko_next_symbol, 1, n, v, count);
        keep_best(&ours, t);
        differ += memcmp(v, w, (size_t)n) != 0;
    }
    printf("rule 1  n = %2d   call with its tests: C %6.1f ns, wko_next_symbol %6.1f ns (%.2f of C)%s\n", n, 1e9 * c / (double)count,
           1e9 * ours / (double)count, ours / c, differ ? "   THE ANSWERS DIFFER" : "");
}

/* Sends the step frames 1 to count; gives how many were refused. */
static unsigned send_steps(struct wko_session *s, uint64_t count)
{
    uint8_t step[40], answer[40];
    unsigned refused = 0;
    wko_build_step(step, 0);
    for (uint64_t k = 1; k <= count; k++) {
        struct wko_exchanged x;
        wko_put_number(step + 8, 8, k);
        x = wko_exchange(*s, step, 40, answer, 40);
        refused += x.number != 0;
        *s = x.session;
    }
    return refused;
}

/* Step frames through the session, beside the bare next symbol. */
static void frames(int n, uint64_t count)
{
    const struct wko_setting setting = {0, 100, {0}};
    uint8_t begin[40], answer[40], w[16];
    double by_frame = 1e9, by_call = 1e9;
    unsigned wrong = 0;
    start_window(1, n, w);
    wko_build_begin(begin, (uint8_t)n, 1, setting, w);
    for (int run = 0; run < RUNS; run++) {
        struct wko_session s = wko_exchange(wko_fresh(), begin, 40, answer, 40).session;
        double t = now();
        wrong += send_steps(&s, count);
        t = keep_best(&by_frame, t);
        start_window(1, n, w);
        call_steps(wko_next_symbol, 1, n, w, count);
        keep_best(&by_call, t);
        wrong += memcmp(w, s.window, (size_t)n) != 0;
    }
    printf("n = %2d   %9.0f step frames a second, %.2f of the time of wko_next_symbol%s\n", n, (double)count / by_frame, by_frame / by_call,
           wrong ? "   WRONG" : "");
}

static uint64_t random64(void)
{
    static uint64_t x = 0x9E3779B97F4A7C15u;
    x ^= x >> 12;
    x ^= x << 25;
    x ^= x >> 27;
    return x * 0x2545F4914F6CDD1Du;
}

/* The same random windows both ways, there and back. */
static void places(int n, int count)
{
    static uint64_t at[MOST_PLACES];
    static uint8_t w[MOST_PLACES][16], v[MOST_PLACES][16], by_c[MOST_PLACES][8], bytes[MOST_PLACES][8];
    double place_c = 1e9, place_ours = 1e9, window_c = 1e9, window_ours = 1e9;
    unsigned differ = 0;
    memset(w, 0, sizeof w);
    memset(v, 0, sizeof v);
    for (int k = 0; k < count; k++)
        at[k] = random64() % WINDOWS[n];
    for (int run = 0; run < RUNS; run++) {
        double t = now();
        for (int k = 0; k < count; k++)
            baseline_window_at((uint64_t)n, at[k], w[k], 16);
        t = keep_best(&window_c, t);
        for (int k = 0; k < count; k++)
            wko_window_at((uint64_t)n, at[k], v[k], 16);
        t = keep_best(&window_ours, t);
        for (int k = 0; k < count; k++)
            baseline_place((uint64_t)n, w[k], (size_t)n, by_c[k], 8);
        t = keep_best(&place_c, t);
        for (int k = 0; k < count; k++)
            wko_place((uint64_t)n, v[k], (size_t)n, bytes[k], 8);
        keep_best(&place_ours, t);
        for (int k = 0; k < count; k++)
            differ += wko_get_number(bytes[k], 8) != at[k];
        differ += memcmp(by_c, bytes, sizeof bytes) != 0;
        differ += memcmp(v, w, sizeof w) != 0;
    }
    printf("n = %2d   place: C %8.2f us, wko_place %8.2f us (%.2f of C)   window: C %8.2f us, wko_window_at %8.2f us (%.2f of C)%s\n", n,
           1e6 * place_c / count, 1e6 * place_ours / count, place_ours / place_c, 1e6 * window_c / count, 1e6 * window_ours / count,
           window_ours / window_c, differ ? "   THE ANSWERS DIFFER" : "");
}

static unsigned sum_of(rule_call *call, uint8_t w[][16], int n, int count)
{
    unsigned sum = 0;
    for (int k = 0; k < count; k++)
        sum += call((uint64_t)n, 2, w[k], (size_t)n);
    return sum;
}

/* Random height windows, and of each where its greatest rotation starts, and its period. */
static void rotations(int n, int count)
{
    static uint8_t w[MOST_PLACES][16];
    double start_c = 1e9, start_ours = 1e9, period_c = 1e9, period_ours = 1e9;
    unsigned differ = 0, sum;
    for (int k = 0; k < count; k++)
        baseline_window_at((uint64_t)n, random64() % WINDOWS[n], w[k], 16);
    for (int run = 0; run < RUNS; run++) {
        double t = now();
        sum = sum_of(baseline_rotation_start, w, n, count);
        t = keep_best(&start_c, t);
        differ += sum != sum_of(wko_rotation_start, w, n, count);
        t = keep_best(&start_ours, t);
        sum = sum_of(baseline_period, w, n, count);
        t = keep_best(&period_c, t);
        differ += sum != sum_of(wko_period, w, n, count);
        keep_best(&period_ours, t);
    }
    printf("n = %2d   start: C %6.1f ns, wko_rotation_start %6.1f ns (%.2f of C)   period: C %6.1f ns, wko_period %6.1f ns (%.2f of C)%s\n", n,
           1e9 * start_c / count, 1e9 * start_ours / count, start_ours / start_c, 1e9 * period_c / count, 1e9 * period_ours / count,
           period_ours / period_c, differ ? "   THE ANSWERS DIFFER" : "");
}

/* The same random patterns: weak orders with about half of their places opened. */
static void patterns(int n, int count)
{
    static uint8_t p[MOST_PLACES][16], by_c[MOST_PLACES][16], w[MOST_PLACES][16];
    double c = 1e9, ours = 1e9;
    unsigned differ = 0;
    for (int k = 0; k < count; k++) {
        baseline_window_at((uint64_t)n, random64() % WINDOWS[n], p[k], 16);
        for (int i = 0; i < n; i++)
            if (random64() % 2)
                p[k][i] = WKO_OPEN;
    }
    for (int run = 0; run < RUNS; run++) {
        double t = now();
        for (int k = 0; k < count; k++)
            baseline_fill((uint64_t)n, p[k], (size_t)n, by_c[k], 16);
        t = keep_best(&c, t);
        for (int k = 0; k < count; k++)
            wko_fill((uint64_t)n, p[k], (size_t)n, w[k], 16);
        keep_best(&ours, t);
        differ += memcmp(w, by_c, sizeof w) != 0;
    }
    printf("n = %2d   C %6.1f ns, wko_fill %6.1f ns (%.2f of C)%s\n", n, 1e9 * c / count, 1e9 * ours / count, ours / c,
           differ ? "   THE ANSWERS DIFFER" : "");
}

int main(void)
{
    printf("One step along the cycle, in a loop of steps and as a call; each tests n, the rule and the window's form.\n");
    for (int rule = 1; rule <= 3; rule++)
        for (int n = 8; n <= 16; n += 4)
            steps(rule, n, 2000000);
    printf("\nRule 1 again, against C that looks for a repeat before every 1 first, as the proved code does.\n");
    for (int n = 8; n <= 16; n += 4)
        rule1_alike(n, 2000000);
    printf("\nOne step back along the cycle, as a call.\n");
    for (int rule = 1; rule <= 3; rule++)
        for (int n = 8; n <= 16; n += 4)
            steps_back(rule, n, 2000000);
    printf("\nA session driven by step frames, rule 1, each frame and its answer.\n");
    frames(8, 500000);
    frames(16, 500000);
    printf("\nThe place of a random height window, and the window at a random place.\n");
    for (int n = 8; n <= 16; n += 4)
        places(n, n == 16 ? 500 : 5000);
    printf("\nWhere the greatest rotation of a random height window starts, and its period.\n");
    for (int n = 8; n <= 16; n += 4)
        rotations(n, 5000);
    printf("\nA weak order for a pattern, half of its places open.\n");
    for (int n = 8; n <= 16; n += 4)
        patterns(n, 5000);
    return 0;
}
