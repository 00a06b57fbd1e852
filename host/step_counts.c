/* Writes the test of the program `step_kinds`, from document 02, Paper 7: prints for each rule and n = 1 to 8 how many weak orders are followed
 * by the symbol that they drop, and how many by another. It tries all strings of n heights, and walks along no round. Where rule 1's second number
 * is not twice one less than the number of rings, that is said, and the exit status is 1. */
#include "reference.h"
#include <stdio.h>

enum { MOST = 8 };

struct counts {
    long same, other, rings;
};

/* A ring is counted by its least rotation. */
static void count(struct counts *c, int rule, const uint8_t *heights, int n)
{
    uint8_t w[MOST];
    if (rule == 1)
        ref_ranks(heights, n, w);
    else
        for (int i = 0; i < n; i++)
            w[i] = heights[i];
    if (ref_next_symbol(rule, w, n) == w[0])
        c->same++;
    else
        c->other++;
    if (rule == 1)
        c->rings += ref_rotation_start(rule, w, n) == 1;
}

static struct counts count_all(int rule, int n)
{
    struct counts c = {0, 0, 0};
    uint8_t s[MOST] = {0};
    do
        if (ref_is_height(s, n))
            count(&c, rule, s, n);
    while (ref_next_string(s, n, n - 1));
    return c;
}

int main(void)
{
    int status = 0;
    for (int rule = 1; rule <= 3; rule++) {
        printf("n rule same other\n");
        for (int n = 1; n <= MOST; n++) {
            struct counts c = count_all(rule, n);
            printf("%d %d %ld %ld\n", n, rule, c.same, c.other);
            if (rule == 1 && c.other != 2 * (c.rings - 1)) {
                fprintf(stderr, "n = %d: %ld rings, and %ld steps from one to another\n", n, c.rings, c.other);
                status = 1;
            }
        }
    }
    return status;
}
