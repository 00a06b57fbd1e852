/* How many bytes of stack each call takes, measured: it runs on a stack that was filled before, over many windows of 16 symbols, and the
 * deepest byte that changed counts. What the loop around the call takes itself is left out. Fails where a call takes more than MOST. */
#include "../include/wko_frames.h"
#include "reference.h"
#include "testing.h"
#include <ucontext.h>

enum { SIZE = 1 << 14, MOST = 1500, ROUNDS = 3000 };

static uint8_t stack[SIZE], ranks[16], heights[16], pattern[16], out[40], frame[40], file[REF_FILE + 1];
static size_t file_len;
static uint64_t place;
static struct wko_session unused;
static struct wko_exchanged state;
static struct wko_loaded loaded;
static ucontext_t here, there;

static void nothing(void) {}
static void next_symbol_1(void) { out[0] = (uint8_t)wko_next_symbol(16, 1, ranks, 16); }
static void next_symbol_2(void) { out[0] = (uint8_t)wko_next_symbol(16, 2, heights, 16); }
static void next_symbol_3(void) { out[0] = (uint8_t)wko_next_symbol(16, 3, heights, 16); }
static void previous_symbol_1(void) { out[0] = (uint8_t)wko_previous_symbol(16, 1, ranks, 16); }
static void previous_symbol_2(void) { out[0] = (uint8_t)wko_previous_symbol(16, 2, heights, 16); }
static void previous_symbol_3(void) { out[0] = (uint8_t)wko_previous_symbol(16, 3, heights, 16); }
static void rotation_start_1(void) { out[0] = (uint8_t)wko_rotation_start(16, 1, ranks, 16); }
static void rotation_start_2(void) { out[0] = (uint8_t)wko_rotation_start(16, 2, heights, 16); }
static void period(void) { out[0] = (uint8_t)wko_period(16, 2, heights, 16); }
static void rank_to_height(void) { wko_rank_to_height(16, ranks, 16, out, 16); }
static void height_to_rank(void) { wko_height_to_rank(16, heights, 16, out, 16); }
static void count(void) { wko_count(16, out, 8); }
static void place_of(void) { wko_place(16, heights, 16, out, 8); }
static void window_at(void) { wko_window_at(16, place, out, 16); }
static void fill(void) { wko_fill(16, pattern, 16, out, 16); }
static void fresh(void) { unused = wko_fresh(); }
static void load_levels(void) { loaded = wko_load_levels(state.session, file, file_len), state.session = loaded.session; }
static void exchange(void) { state = wko_exchange(state.session, frame, 40, out, 40); }

/* The bytes that a call leaves changed, from the deepest to the top of its stack. */
static size_t used(void (*call)(void))
{
    size_t free_bytes = 0;
    memset(stack, FILL, sizeof stack);
    getcontext(&there);
    there.uc_stack.ss_sp = stack;
    there.uc_stack.ss_size = sizeof stack;
    there.uc_link = &here;
    makecontext(&there, call, 0);
    swapcontext(&here, &there);
    while (free_bytes < sizeof stack && stack[free_bytes] == FILL)
        free_bytes++;
    return sizeof stack - free_bytes;
}

/* A level file of any length that one has, from small gaps at 2000 to large ones. */
static void prepare_file(void)
{
    int gap = 25 * (1 + (int)random_below(35)), top = 2000 - 25 * (int)random_below(36);
    int16_t table[WKO_LEVELS];
    for (int d = 0; d < WKO_LEVELS; d++)
        table[d] = (int16_t)(top - d * gap);
    table[WKO_LEVELS - 1] = -12000;
    file_len = ref_write_table(table, (char *)file);
}

/* A begin frame, on the table that is held or with even spacing, sent twice, thirteen steps and a query in turn, in either version. */
static void prepare_frame(int round)
{
    const struct wko_setting setting = {0, (uint16_t)(round / 48 % 2 ? 0 : 100), {0}};
    if (round % 16 == 1)
        return;
    if (round % 16 == 0)
        wko_build_begin(frame, 16, (uint8_t)(1 + round / 16 % 3), setting, round / 16 % 3 == 0 ? ranks : heights);
    else if (round % 16 == 15)
        wko_build_query(frame);
    else
        wko_build_step(frame, state.session.done + 1);
    if (round / 96 % 2)
        wko_set_round(frame, (uint8_t)(1 + round / 16 % 255));
}

/* Another window, pattern, place, file and frame: with few ties or many, all alike, all different. */
static void prepare(int round)
{
    ref_random_heights(random64, 16, heights);
    for (int i = 0; i < 16 && round % 8 < 3; i++)
        heights[i] = (uint8_t)(round % 8 == 0 ? 0 : round % 8 == 1 ? i : 15 - i);
    ref_ranks(heights, 16, ranks);
    for (int i = 0; i < 16; i++)
        pattern[i] = random_below(4) < (uint64_t)round % 5 ? WKO_OPEN : heights[i];
    place = random_below(ref_count(16));
    prepare_file();
    prepare_frame(round);
}

int main(void)
{
    static const struct { const char *name; void (*call)(void); } calls[] = {
        {"nothing", nothing}, {"wko_next_symbol, rule 1", next_symbol_1}, {"wko_next_symbol, rule 2", next_symbol_2},
        {"wko_next_symbol, rule 3", next_symbol_3}, {"wko_previous_symbol, rule 1", previous_symbol_1},
        {"wko_previous_symbol, rule 2", previous_symbol_2}, {"wko_previous_symbol, rule 3", previous_symbol_3},
        {"wko_rotation_start, rule 1", rotation_start_1}, {"wko_rotation_start, rule 2", rotation_start_2},
        {"wko_period", period}, {"wko_rank_to_height", rank_to_height}, {"wko_height_to_rank", height_to_rank},
        {"wko_count", count}, {"wko_place", place_of}, {"wko_window_at", window_at}, {"wko_fill", fill},
        {"wko_fresh", fresh}, {"wko_load_levels", load_levels}, {"wko_exchange", exchange}};
    enum { CALLS = sizeof calls / sizeof calls[0] };
    size_t most[CALLS] = {0};
    for (int round = 0; round < ROUNDS; round++) {
        prepare(round);
        for (int i = 0; i < CALLS; i++) {
            size_t bytes = used(calls[i].call);
            if (round > 0 && bytes > most[i]) /* the first finds memcpy, once for the program */
                most[i] = bytes;
        }
        CHECK(loaded.number == 0 && state.number == 0, "a file is refused with %u, a frame with %u", loaded.number, state.number);
    }
    for (int i = 1; i < CALLS; i++) {
        most[i] -= most[0];
        printf("%-27s %5zu bytes of stack\n", calls[i].name, most[i]);
        CHECK(most[i] <= MOST, "%s takes more than %d bytes of stack", calls[i].name, MOST);
    }
    return report("stack");
}
