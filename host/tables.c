/* Two tables of the README, from the library and its header: `tables counts` and `tables refusals`. */
#include <inttypes.h>
#include <stdio.h>
#include <string.h>
#include "wko_frames.h"

/* How long so many steps take, in the largest unit of which there are two. */
static void print_duration(int width, double seconds)
{
    static const struct { double seconds; const char *name; } units[] = {
        {365.25 * 86400, "years"}, {86400, "days"}, {3600, "hours"}, {60, "minutes"}, {1, "seconds"}};
    char text[32] = "under 2 seconds";
    for (int i = 0; i < 5; i++)
        if (seconds >= 2 * units[i].seconds) {
            snprintf(text, sizeof text, "%.0f %s", seconds / units[i].seconds, units[i].name);
            break;
        }
    printf("  %-*s", width, text);
}

static int print_counts(void)
{
    printf("  n              a(n)  %-16s  %s\n", "1,000 a second", "5,000,000 a second");
    for (uint64_t n = 1; n <= WKO_MAX_N; n++) {
        uint8_t bytes[8];
        double steps;
        if (WKO_REFUSED(wko_count(n, bytes, 8)))
            return 1;
        steps = (double)wko_get_number(bytes, 8);
        printf("%3" PRIu64 "  %16" PRIu64, n, wko_get_number(bytes, 8));
        print_duration(16, steps / 1e3);
        print_duration(0, steps / 5e6);
        putchar('\n');
    }
    return 0;
}

static int print_refusals(void)
{
    for (uint32_t number = WKO_SHORT_BUFFER; number <= WKO_ROUND_IN_FORCE; number++)
        printf("%2" PRIu32 "  %s\n", number, wko_refusal_text(number));
    return 0;
}

int main(int argc, char **argv)
{
    if (argc == 2 && strcmp(argv[1], "counts") == 0)
        return print_counts();
    if (argc == 2 && strcmp(argv[1], "refusals") == 0)
        return print_refusals();
    fprintf(stderr, "usage: tables counts | tables refusals\n");
    return 2;
}
