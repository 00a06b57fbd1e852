/* A start window from what service says: "third sweep on top, fifth level with it", of five sweeps. */
#include <stdio.h>
#include "wko.h"

int main(void)
{
    const uint8_t pattern[5] = {WKO_OPEN, WKO_OPEN, 0, WKO_OPEN, 0};
    uint8_t start[5], ranks[5];
    uint32_t refusal = WKO_REFUSED(wko_fill(5, pattern, 5, start, 5));
    if (refusal != 0) {
        fprintf(stderr, "the pattern is refused: %s\n", wko_refusal_text(refusal));
        return 1;
    }
    if (WKO_REFUSED(wko_height_to_rank(5, start, 5, ranks, 5)))
        return 1;
    printf("start for rules 2 and 3: %u,%u,%u,%u,%u\n", start[0], start[1], start[2], start[3], start[4]);
    printf("start for rule 1:        %u,%u,%u,%u,%u\n", ranks[0], ranks[1], ranks[2], ranks[3], ranks[4]);
    return 0;
}
