/* A plain C program that prints the round of a sheet, for comparison with the program `round`: the same bytes for a good sheet. */
#include "baseline.h"
#include <stdio.h>

static char buffer[65536];
static size_t used;

static void put_number(long x)
{
    char digits[20];
    int k = 0;
    if (x < 0) {
        buffer[used++] = '-';
        x = -x;
    }
    do {
        digits[k++] = (char)('0' + x % 10);
        x /= 10;
    } while (x != 0);
    while (k > 0)
        buffer[used++] = digits[--k];
}

/* The nearest multiple of 25; the quotient is cut off towards zero. */
static int rounded(int x)
{
    return (x < 0 ? x - 12 : x + 12) / 25 * 25;
}

int main(void)
{
    static const long counts[9] = {1, 1, 3, 13, 75, 541, 4683, 47293, 545835};
    int n, rule, top, spacing, x;
    uint8_t w[16] = {0};
    if (scanf("n rule top spacing start %d %d %d %d", &n, &rule, &top, &spacing) != 4 || n < 1 || n > 8)
        return 1;
    for (int i = 0; i < n; i++) {
        if (scanf(i == 0 ? "%d" : ",%d", &x) != 1)
            return 1;
        w[i] = (uint8_t)x;
    }
    puts("step symbol level window");
    fflush(stdout);
    for (long k = 1; k <= counts[n]; k++) {
        baseline_step(rule, w, n);
        put_number(k);
        buffer[used++] = ' ';
        put_number(w[n - 1]);
        buffer[used++] = ' ';
        put_number(rounded(top - (rule == 1 ? w[n - 1] - 1 : w[n - 1]) * spacing));
        for (int i = 0; i < n; i++) {
            buffer[used++] = i == 0 ? ' ' : ',';
            put_number(w[i]);
        }
        buffer[used++] = '\n';
        if (used > sizeof buffer - 200) {
            fwrite(buffer, 1, used, stdout);
            used = 0;
        }
    }
    fwrite(buffer, 1, used, stdout);
    return 0;
}
