/* A small bench host: one round of three symbols under rule 1, in ranks and in heights, with the place of each window. */
#include <inttypes.h>
#include <stdio.h>
#include "wko_frames.h"

/* Whether a call is done; if not, that is said. */
static int done(const char *call, uint32_t returned)
{
    uint32_t refusal = WKO_REFUSED(returned);
    if (refusal != 0)
        fprintf(stderr, "%s is refused: %s\n", call, wko_refusal_text(refusal));
    return refusal == 0;
}

int main(void)
{
    uint8_t w[3] = {1, 1, 1}, h[3], bytes[8];
    uint64_t steps;
    if (!done("wko_count", wko_count(3, bytes, 8)))
        return 1;
    steps = wko_get_number(bytes, 8);
    for (uint64_t k = 1; k <= steps; k++) {
        uint32_t symbol = wko_next_symbol(3, 1, w, 3);
        if (!done("wko_next_symbol", symbol))
            return 1;
        w[0] = w[1];
        w[1] = w[2];
        w[2] = (uint8_t)symbol;
        if (!done("wko_rank_to_height", wko_rank_to_height(3, w, 3, h, 3)) || !done("wko_place", wko_place(3, h, 3, bytes, 8)))
            return 1;
        printf("%u%u%u in ranks is %u%u%u in heights, place %" PRIu64 "\n", w[0], w[1], w[2], h[0], h[1], h[2], wko_get_number(bytes, 8));
    }
    return 0;
}
