/* Random histories of frames and level files through wko_exchange and wko_load_levels against an independent model: replies, sessions and
 * every byte of the buffer. */
#include "../include/wko_frames.h"
#include "reference.h"
#include "session_model.h"
#include "testing.h"

static uint8_t *frame_page, *answer_page, *file_page;
static long seen[20], seen_loads[2], seen_table_steps, seen_round_steps, seen_again, seen_like_steps, seen_taken;

static int same_setting(const struct wko_setting *a, const struct wko_setting *b)
{
    return a->top == b->top && a->spacing == b->spacing && memcmp(a->table, b->table, sizeof a->table) == 0;
}

static int same_session(const struct wko_session *a, const struct wko_session *b)
{
    return a->begun == b->begun && a->version == b->version && a->round == b->round && a->n == b->n && a->rule == b->rule
           && same_setting(&a->setting, &b->setting) && a->done == b->done && memcmp(a->window, b->window, 16) == 0
           && memcmp(a->held, b->held, sizeof a->held) == 0;
}

/* Whether a host takes an answer for the step that the session did last: the answer to a step, or one to a query that is the same in all bytes. */
static void check_taken(const struct wko_answer *read, const struct wko_session *model, int refusal, int stepped, int version)
{
    int newest = refusal == 0 ? model->window[model->n - 1] : 0, round = version == 2 ? model->round : 0;
    int like_step = stepped || (newest == 0 && refusal == 0 && model_level(model, 0) == 0);
    int want = refusal == 0 && model->done > 0 && like_step;
    seen_like_steps += want && !stepped;
    CHECK(wko_is_step_answer(read, (uint8_t)model->n, model->rule, model->setting, (uint8_t)round, model->done) == want,
          "an answer is%s taken for step %d, refusal %d", want ? " not" : "", (int)model->done, refusal);
}

/* What wko_read_answer reads, against the model after the frame; `stepped` where the frame was a step, and `version` that of the frame. */
static void check_read(const uint8_t *answer, const struct wko_session *model, int refusal, int stepped, int version)
{
    struct wko_answer read;
    int symbol = refusal == 0 && stepped ? model->window[model->n - 1] : 0;
    long level = refusal == 0 && stepped ? model_level(model, symbol) : 0;
    CHECK(wko_read_answer(&read, answer, 40) == 1 && read.refusal == refusal, "an answer reads as refusal %d", refusal);
    CHECK(read.version == version, "version %d of the answer to a frame of version %d", read.version, version);
    CHECK(read.round == (refusal == 0 && version == 2 ? model->round : 0), "round %d in an answer, refusal %d", read.round, refusal);
    CHECK(read.symbol == symbol && read.level == level, "symbol %d and level %d", read.symbol, (int)read.level);
    CHECK(read.done == (refusal == 0 ? model->done : 0), "steps done in an answer, refusal %d", refusal);
    CHECK((read.different == 0) == (refusal != 0), "different symbols in an answer, refusal %d", refusal);
    if (refusal == 0)
        CHECK(memcmp(read.window, model->window, 16) == 0, "the window in an answer");
    check_taken(&read, model, refusal, stepped, version);
}

/* Counts what a frame came to. A WKO2 begin frame that is accepted and changes nothing is a resend. */
static void count_frame(const struct wko_session *before, const uint8_t *frame, const struct wko_session *after, int refusal)
{
    seen[refusal]++;
    if (refusal != 0)
        return;
    seen_table_steps += frame[4] == 'S' && after->setting.spacing == 0;
    seen_round_steps += frame[4] == 'S' && frame[3] == '2';
    seen_again += frame[4] == 'B' && frame[3] == '2' && same_session(before, after);
}

/* One frame through both, from the same session; the library's answer buffer ends at a page that may not be touched. */
static void check_frame(struct wko_session *s, const uint8_t *frame, size_t frame_len, size_t answer_len)
{
    uint8_t expected[128], *f = at_end(frame_page, frame_len), *answer = at_end(answer_page, answer_len);
    struct wko_session model = *s;
    struct wko_exchanged got;
    int want;
    memcpy(f, frame, frame_len);
    memset(answer_page, FILL, (size_t)sysconf(_SC_PAGESIZE));
    memset(expected, FILL, sizeof expected);
    got = wko_exchange(*s, f, frame_len, answer, answer_len);
    want = model_exchange(&model, frame, frame_len, expected, answer_len);
    count_frame(s, frame, &model, want);
    CHECK((int)got.number == want, "frame of %zu bytes, kind %d: %u, not %d", frame_len, frame_len > 4 ? frame[4] : -1, got.number, want);
    CHECK(same_session(&got.session, &model), "another session after kind %d, refusal %d", frame_len > 4 ? frame[4] : -1, want);
    CHECK(memcmp(answer, expected, answer_len) == 0, "another answer, refusal %d", want);
    CHECK(untouched(answer_page, answer, answer_len, answer_len), "wrote in front of the answer buffer");
    if (answer_len >= 40)
        check_read(answer, &model, want, frame_len > 4 && frame[4] == 'S', frame_len == 40 && memcmp(frame, "WKO2", 4) == 0 ? 2 : 1);
    *s = got.session;
}

/* One level file through both, from the same session; the file ends at a page that may not be touched. Gives the number. */
static int check_load(struct wko_session *s, const void *file, size_t len)
{
    uint8_t *f = at_end(file_page, len);
    struct wko_session model = *s;
    struct wko_loaded got;
    int want;
    memcpy(f, file, len);
    got = wko_load_levels(*s, f, len);
    want = model_load(&model, file, len);
    seen_loads[want != 0]++;
    CHECK((int)got.number == want, "file of %zu bytes: %u, not %d: %.*s", len, got.number, want, (int)len, (const char *)file);
    CHECK(same_session(&got.session, &model), "another session after a file, refusal %d", want);
    CHECK(memcmp(f, file, len) == 0, "a file is written to");
    *s = got.session;
    return (int)got.number;
}

static void random_window(int rule, int n, uint8_t *w)
{
    uint8_t h[16];
    memset(w, 0, 16);
    ref_random_heights(random64, n, h);
    if (rule == 1)
        ref_ranks(h, n, w);
    else
        memcpy(w, h, (size_t)n);
}

/* At the edges of test 9 and of rounding. */
static const int16_t tops[] = {-32768, -10001, -10000, -9999, -1000, -13, -12, 0, 12, 13, 37, 38, 1988, 1999, 2000, 2001, 32767};
static const uint16_t spacings[] = {0, 1, 10, 24, 25, 26, 100, 133, 134, 400, 401, 499, 500, 501, 65535};

/* With small gaps or large ones, at 2000 and at -12000 now and then. */
static void good_table(int16_t *table)
{
    uint64_t most = 1 + random_below(34);
    int level = 2025;
    for (int d = 0; d < WKO_LEVELS; d++) {
        level -= 25 * (1 + (int)random_below(most));
        table[d] = (int16_t)level;
    }
    if (random_below(8) == 0)
        table[WKO_LEVELS - 1] = -12000;
}

/* One entry as its neighbour is, the next multiple of 25, a little beside one, or any. */
static void change_entry(int16_t *table)
{
    uint64_t d = random_below(WKO_LEVELS), kind = random_below(4);
    int off = random_below(2) ? 1 : -1;
    if (kind == 0)
        table[d] = table[d > 0 ? d - 1 : 1];
    else if (kind == 3)
        table[d] = (int16_t)(uint16_t)random64();
    else
        table[d] = (int16_t)(table[d] + off * (kind == 1 ? 25 : 1));
}

/* Good or nearly so, zeros, noise. */
static void random_table(int16_t *table)
{
    uint64_t kind = random_below(8);
    if (kind == 0) {
        memset(table, 0, WKO_LEVELS * sizeof *table);
    } else if (kind == 1) {
        for (int d = 0; d < WKO_LEVELS; d++)
            table[d] = (int16_t)(uint16_t)random64();
    } else {
        good_table(table);
        if (kind < 4)
            change_entry(table);
    }
}

/* A byte of the kind that level files have, or any. */
static char file_byte(void)
{
    static const char bytes[] = "00123456789-- \n\r\t+,.dD";
    return random_below(4) ? bytes[random_below(sizeof bytes)] : (char)random64();
}

/* The file of a table, one in two with a byte changed, removed or added. */
static size_t random_file(char *file)
{
    int16_t table[WKO_LEVELS];
    size_t len, at;
    random_table(table);
    len = ref_write_table(table, file);
    at = random_below(len);
    switch (random_below(6)) {
    case 0:
        file[at] = file_byte();
        return len;
    case 1:
        memmove(file + at, file + at + 1, len - at - 1);
        return len - 1;
    case 2:
        memmove(file + at + 1, file + at, len - at);
        file[at] = file_byte();
        return len + 1;
    default:
        return len;
    }
}

static void load_random(struct wko_session *s)
{
    char file[REF_FILE + 1];
    size_t len = random_file(file);
    check_load(s, file, len);
}

/* At an edge, on a table, or any top and any spacing that pass for 16 symbols, most of them no multiples of 25. The table stands there in any
 * case: it is of no account unless top and spacing are 0, and frames do not carry it. */
static struct wko_setting random_setting(int edge)
{
    struct wko_setting s;
    random_table(s.table);
    if (random_below(3) == 0) {
        s.top = 0;
        s.spacing = 0;
        return s;
    }
    s.top = edge ? tops[random_below(sizeof tops / sizeof *tops)] : (int16_t)(2000 - (int)random_below(6501));
    s.spacing = edge ? spacings[random_below(sizeof spacings / sizeof *spacings)] : (uint16_t)(25 + random_below(476));
    return s;
}

/* A frame as WKO2 with a round number; 0 leaves WKO1. */
static uint8_t *in_round(int round, uint8_t *f)
{
    if (round != 0)
        wko_set_round(f, (uint8_t)round);
    return f;
}

/* In either version, with few round numbers, so that they come again. */
static void begin_frame(uint8_t *f, int small)
{
    int n = 1 + (int)random_below(small ? 3 : 16), rule = 1 + (int)random_below(3);
    struct wko_setting setting = random_setting(random_below(4) == 0);
    uint8_t window[16];
    random_window(rule, n, window);
    wko_build_begin(f, (uint8_t)n, (uint8_t)rule, setting, window);
    in_round(random_below(2) ? 1 + (int)random_below(3) : 0, f);
}

/* The begin frame in force, where a WKO2 round is and no step is done; else one with the round's number, or 1. */
static void begin_again_frame(uint8_t *f, const struct wko_session *s)
{
    wko_build_begin(f, (uint8_t)s->n, s->rule, s->setting, s->window);
    wko_set_round(f, s->round != 0 ? s->round : 1);
}

/* A step or a query, of the session's version and round more often than not. */
static void round_frame(uint8_t *f, const struct wko_session *s, uint64_t kind)
{
    if (kind == 0)
        wko_build_query(f);
    else if (kind < 10)
        wko_build_step(f, s->done + 1);
    else if (kind < 12)
        wko_build_step(f, s->done);
    else
        wko_build_step(f, random_below(2) ? random_below(20) : random64());
    if (random_below(16) ? s->version == 2 : random_below(2))
        wko_set_round(f, random_below(12) ? s->round : (uint8_t)random_below(4));
}

/* A frame that fits the session more often than not, sometimes with a byte changed, sometimes of another length. */
static size_t random_frame(uint8_t *f, const struct wko_session *s, int small)
{
    uint64_t kind = random_below(16);
    size_t len = 40;
    if (kind == 0)
        begin_frame(f, small);
    else if (kind == 1)
        begin_again_frame(f, s);
    else
        round_frame(f, s, kind - 2);
    if (random_below(8) == 0)
        f[random_below(40)] = (uint8_t)random64();
    if (random_below(32) == 0)
        len = random_below(64);
    return len;
}

static struct wko_session random_session(void)
{
    struct wko_session s = wko_fresh();
    s.begun = (uint8_t)(random_below(4) ? 1 : random64());
    s.version = (uint8_t)(random_below(4) ? 1 + random_below(2) : random64());
    s.round = (uint8_t)(random_below(4) ? random_below(4) : random64());
    s.n = random_below(8) ? 1 + random_below(16) : random64() >> random_below(64);
    s.rule = (uint8_t)(random_below(8) ? 1 + random_below(3) : random64());
    s.setting = random_setting(random_below(2) == 0);
    if (random_below(4))
        random_window(s.rule, s.n >= 1 && s.n <= 16 ? (int)s.n : 16, s.window);
    else
        wko_put_number(s.window + random_below(8), 8, random64());
    s.done = random_below(4) ? random_below(random_below(2) ? 2 : 100) : random64() >> random_below(64);
    if (random_below(4) == 0 && s.n >= 1 && s.n <= 16)
        s.done = ref_count((int)s.n) + random_below(3) - 1;
    random_table(s.held);
    return s;
}

static void history(int small)
{
    struct wko_session s = random_below(3) ? wko_fresh() : random_session();
    uint8_t f[64] = {0};
    if (random_below(2))
        load_random(&s);
    if (random_below(4))
        begin_frame(f, small);
    else
        begin_again_frame(f, &s);
    for (uint64_t times = random_below(3); times > 0; times--) {
        check_frame(&s, f, 40, 40);
        if (random_below(4) == 0)
            load_random(&s);
    }
    for (int k = 0; k < (small ? 24 : 8); k++) {
        if (random_below(8) == 0)
            load_random(&s);
        size_t len = random_frame(f, &s, small);
        check_frame(&s, f, len, random_below(16) ? 40 + random_below(24) : random_below(40));
    }
}

/* Each refusal of a frame and each answer to a file is met, and steps on a table, steps of WKO2 and resends of its begin frame are. */
static void histories(long rounds)
{
    for (long k = 0; k < rounds; k++) {
        history(1);
        history(0);
    }
    for (int k = 0; k <= 19; k++)
        CHECK(seen[k] > 0 || (k > 12 && k < 17), "no frame came to %d", k);
    CHECK(seen_loads[0] > 0 && seen_loads[1] > 0, "no file came to %d", seen_loads[0] > 0 ? 16 : 0);
    CHECK(seen_table_steps > rounds, "only %ld steps were on a table", seen_table_steps);
    CHECK(seen_round_steps > rounds, "only %ld steps were WKO2", seen_round_steps);
    CHECK(seen_again > rounds / 4, "only %ld begin frames came again", seen_again);
    CHECK(seen_like_steps > 0, "no answer to a query was that to a step");
}

/* A session as a device may have kept it, with every value of its first byte: 1 has begun, the others have not and stay as they are. Round 0 is
 * WKO1. */
static void check_begun_bytes(int round)
{
    const struct wko_setting setting = WKO_EVEN(-1000, 100);
    const uint8_t start[3] = {2, 0, 1};
    uint8_t begin[40], query[40], step[40];
    wko_build_begin(begin, 3, 2, setting, start);
    wko_build_query(query);
    wko_build_step(step, 1);
    in_round(round, begin);
    in_round(round, query);
    in_round(round, step);
    for (int byte = 0; byte < 256; byte++) {
        struct wko_session s = wko_exchange(wko_fresh(), begin, 40, answer_page, 40).session;
        CHECK(s.begun == 1, "an accepted begin frame leaves %d", s.begun);
        s.begun = (uint8_t)byte;
        CHECK(wko_exchange(s, query, 40, answer_page, 40).number == (byte == 1 ? 0u : 10u), "a query where the byte is %d", byte);
        check_frame(&s, query, 40, 40);
        check_frame(&s, step, 40, 40);
        CHECK(s.begun == byte && s.done == (byte == 1), "the session after a step where the byte is %d", byte);
    }
}

/* A session kept after a step that left the heights 0 to 15, the height d newest: the step sent again is answered with the level of d. */
static void check_level(int d, int top, int spacing)
{
    struct wko_session s = {1, 1, 0, 16, 2, WKO_EVEN((int16_t)top, (uint16_t)spacing), {0}, 1, {0}};
    uint8_t step[40];
    for (int i = 0; i < 16; i++)
        s.window[i] = (uint8_t)((d + 1 + i) % 16);
    wko_build_step(step, 1);
    check_frame(&s, step, 40, 40);
}

/* Every top with a spacing that any top passes with, where it passes; and every spacing with every height, from tops on both sides of zero. */
static void check_levels(void)
{
    for (int top = -10001; top <= 2001; top++)
        check_level(0, top, 133);
    for (int spacing = 24; spacing <= 501; spacing++)
        for (int d = 0; d < 16; d++) {
            check_level(d, -1013, spacing);
            check_level(d, 1987, spacing);
        }
}

/* The bytes of each kind of frame, and an answer, written out. */
static void check_bytes(void)
{
    static const uint8_t begin[40] = {'W', 'K', 'O', '1', 'B', 3, 2, 0, 0, 0, 0, 0, 0, 0, 0, 0, 24, 252, 44, 1, 0, 0, 0, 0, 2, 0, 1};
    static const uint8_t step[40] = {'W', 'K', 'O', '1', 'S', 0, 0, 0, 8, 7, 6, 5, 4, 3, 2, 1};
    static const uint8_t query[40] = {'W', 'K', 'O', '1', 'Q'};
    static const uint8_t answer[40] = {'W', 'K', 'A', '1', 0, 2, 3, 0, 8, 7, 6, 5, 4, 3, 2, 1, 192, 249, 255, 255, 0, 0, 0, 0, 1, 0, 2};
    const struct wko_setting setting = WKO_EVEN(-1000, 300);
    const uint8_t start[3] = {2, 0, 1}, window[16] = {1, 0, 2};
    struct wko_answer read;
    uint8_t f[40];
    wko_build_begin(f, 3, 2, setting, start);
    CHECK(memcmp(f, begin, 40) == 0, "the bytes of a begin frame");
    wko_build_step(f, 0x0102030405060708u);
    CHECK(memcmp(f, step, 40) == 0, "the bytes of a step frame");
    wko_build_query(f);
    CHECK(memcmp(f, query, 40) == 0, "the bytes of a query frame");
    CHECK(wko_read_answer(&read, answer, 40) == 1 && read.refusal == 0 && read.symbol == 2 && read.different == 3, "an answer is read");
    CHECK(read.done == 0x0102030405060708u && read.level == -1600 && memcmp(read.window, window, 16) == 0, "numbers and window of an answer");
    CHECK(wko_read_answer(&read, answer, 39) == 0 && wko_read_answer(&read, query, 40) == 0, "what is no answer is not read");
}

/* wko_level for every symbol, any top and any spacing, those that test 9 refuses too, and for any table. */
static void check_level_of(void)
{
    for (long k = 0; k < 200000; k++) {
        struct wko_session s = random_session();
        s.rule = (uint8_t)(1 + k % 3);
        if (k % 2)
            s.setting.top = (int16_t)(uint16_t)random64();
        if (k % 2)
            s.setting.spacing = (uint16_t)random64();
        for (int symbol = s.rule == 1; symbol < 16 + (s.rule == 1); symbol++)
            CHECK(wko_level(s.rule, s.setting, (uint8_t)symbol) == model_level(&s, symbol), "the level of %d under rule %d", symbol, s.rule);
    }
}

/* Whether the answer in these bytes is taken for step k of the session's round. */
static int takes(const struct wko_session *s, const uint8_t *bytes, int round, uint64_t k)
{
    struct wko_answer read;
    return wko_read_answer(&read, bytes, 40) && wko_is_step_answer(&read, (uint8_t)s->n, s->rule, s->setting, (uint8_t)round, k);
}

/* The answer to the step that the session did last, with every byte changed to every other value: what a host does not compare is the number of
 * different symbols, bytes 20 to 23 and the window but for its newest symbol. Then with another symbol and the same as the newest. */
static void damaged_answers(const struct wko_session *s, const uint8_t *answer, int round)
{
    int newest = 24 + (int)s->n - 1;
    uint8_t other[40];
    for (int at = 0; at < 40; at++)
        for (int byte = 0; byte < 256; byte++) {
            int want = byte == answer[at] || at == 6 || (at >= 20 && at != newest);
            memcpy(other, answer, 40);
            other[at] = (uint8_t)byte;
            CHECK(takes(s, other, round, s->done) == want, "byte %d as %d: the answer is%s taken", at, byte, want ? " not" : "");
        }
    for (int symbol = s->rule == 1; symbol < 256; symbol++) {
        memcpy(other, answer, 40);
        other[5] = other[newest] = (uint8_t)symbol;
        CHECK(takes(s, other, round, s->done) == (symbol == answer[5]), "symbol %d is taken at the level of %d", symbol, answer[5]);
    }
}

/* Steps of a random round: each answer is taken for its step, and for no other step, round or version. */
static void check_step_answers(void)
{
    uint8_t f[40];
    struct wko_session s = wko_fresh();
    load_random(&s);
    begin_frame(f, 0);
    int round = f[7];
    check_frame(&s, f, 40, 40);
    for (uint64_t k = 1; s.begun && k <= 3; k++) {
        const uint8_t *answer = at_end(answer_page, 40);
        wko_build_step(f, k);
        in_round(round, f);
        check_frame(&s, f, 40, 40);
        if (answer[4] != 0)
            continue;
        seen_taken++;
        CHECK(takes(&s, answer, round, k), "the answer to step %d is not taken", (int)k);
        CHECK(!takes(&s, answer, round, k - 1) && !takes(&s, answer, round, k + 1), "the answer to step %d is taken for another", (int)k);
        CHECK(!takes(&s, answer, round == 0 ? 1 : 0, k) && !takes(&s, answer, round == 255 ? 1 : round + 1, k), "an answer of another round is taken");
        damaged_answers(&s, answer, round);
    }
}

/* 0,1 and 0,1,0 are the same sixteen bytes. Where the level of 0 is 0, the answer to a query at 0,1 is that to a step to 0,1,0: a host that does
 * not look at n would take it. */
static void query_like_a_step(void)
{
    const struct wko_session two = {1, 2, 7, 2, 2, WKO_EVEN(0, 100), {0, 1}, 1, {0}}, three = {1, 2, 7, 3, 2, WKO_EVEN(0, 100), {0, 1}, 1, {0}};
    uint8_t query[40], step[40], asked[40], stepped[40];
    wko_build_query(query);
    wko_build_step(step, 1);
    in_round(7, query);
    in_round(7, step);
    CHECK(wko_exchange(two, query, 40, asked, 40).number == 0 && wko_exchange(three, step, 40, stepped, 40).number == 0, "both are answered");
    CHECK(memcmp(asked, stepped, 40) == 0, "the answers are the same bytes");
    CHECK(!takes(&two, asked, 7, 1) && takes(&three, stepped, 7, 1), "they are told apart by n");
}

/* Document 02, Paper 4. Two tables that have no level in common; a session that has begun a round of 3 on the first under rule 2, with two steps
 * done, and holds nothing; and frames of rule 2. */
static const int16_t first_table[WKO_LEVELS] = {2000,  1975,  1000,   25,     0,      -25,    -100,   -1000,
                                                -2500, -9975, -10000, -10500, -11000, -11500, -11950, -11975};
static const int16_t second_table[WKO_LEVELS] = {1950,  1900,  975,    50,     -50,    -75,    -125,   -1025,
                                                 -2525, -9950, -10025, -10525, -11025, -11525, -11925, -12000};
static const uint8_t zeros[WKO_LEVELS * sizeof(int16_t)];

static struct wko_session kept_round(void)
{
    struct wko_session s = {1, 1, 0, 3, 2, {0, 0, {0}}, {2, 0, 1}, 2, {0}};
    memcpy(s.setting.table, first_table, sizeof first_table);
    return s;
}

static uint8_t *begin_at(int top, int spacing)
{
    static uint8_t frame[40];
    const struct wko_setting setting = WKO_EVEN((int16_t)top, (uint16_t)spacing);
    const uint8_t start[3] = {2, 0, 1};
    wko_build_begin(frame, 3, 2, setting, start);
    return frame;
}

/* The number of the answer to a frame, and the level in it, with the model's beside it. */
static int number_of(struct wko_session *s, const uint8_t *frame)
{
    check_frame(s, frame, 40, 40);
    return at_end(answer_page, 40)[4];
}

static int level_after(struct wko_session *s, uint64_t number)
{
    uint8_t step[40];
    struct wko_answer read = {0};
    wko_build_step(step, number);
    CHECK(number_of(s, step) == 0, "step %d is answered", (int)number);
    wko_read_answer(&read, at_end(answer_page, 40), 40);
    return read.level;
}

static int load_table(struct wko_session *s, const int16_t *table)
{
    char file[REF_FILE + 1];
    size_t len = ref_write_table(table, file);
    return check_load(s, file, len);
}

/* Whether a round on a table has begun is judged by its copy, whatever is held. */
static void bad_copy_good_held(void)
{
    uint8_t query[40], step[40];
    wko_build_query(query);
    wko_build_step(step, 3);
    for (int d = 0; d < WKO_LEVELS; d++) {
        struct wko_session s = kept_round();
        s.setting.table[d] = (int16_t)(s.setting.table[d] + 5);
        CHECK(number_of(&s, query) == 10 && number_of(&s, step) == 10, "a copy with a bad entry %d, nothing held", d);
        memcpy(s.held, first_table, sizeof first_table);
        CHECK(number_of(&s, query) == 10 && number_of(&s, step) == 10, "a copy with a bad entry %d, a good table held", d);
        CHECK(load_table(&s, second_table) == 0 && number_of(&s, step) == 10, "a copy with a bad entry %d, a good table loaded", d);
        CHECK(number_of(&s, begin_at(0, 0)) == 0 && number_of(&s, query) == 0, "a begin frame mends a copy with a bad entry %d", d);
    }
}

static void good_copy_none_held(void)
{
    struct wko_session s = kept_round();
    CHECK(level_after(&s, 2) == first_table[1], "a step is sent again to a session that holds no table");
    CHECK(level_after(&s, 3) == first_table[s.window[2]] && s.done == 3, "a step where no table is held");
    s.held[0] = 1;
    CHECK(level_after(&s, 4) == first_table[s.window[2]] && s.done == 4, "a step where a bad table is held");
    CHECK(number_of(&s, begin_at(0, 0)) == 9 && s.done == 4, "a begin frame asks for a bad table, and the round goes on");
    CHECK(level_after(&s, 5) == first_table[s.window[2]], "a step behind a refused begin frame");
}

/* A held table that loading would refuse counts as none. */
static void bad_held(void)
{
    for (int d = 1; d < WKO_LEVELS; d++) {
        struct wko_session s = wko_fresh();
        memcpy(s.held, first_table, sizeof first_table);
        s.held[d] = s.held[d - 1];
        CHECK(number_of(&s, begin_at(0, 0)) == 9, "the entries %d and %d are equal in the table that is held", d - 1, d);
        CHECK(number_of(&s, begin_at(0, 25)) == 0, "even spacing, whatever is held");
    }
}

static void none_held(void)
{
    struct wko_session s = wko_fresh();
    CHECK(memcmp(s.held, zeros, sizeof zeros) == 0 && memcmp(s.setting.table, zeros, sizeof zeros) == 0, "a fresh session holds no table");
    CHECK(number_of(&s, begin_at(0, 0)) == 9, "a begin frame asks for a table that was never loaded");
    CHECK(check_load(&s, "d level\n", 8) == 16 && number_of(&s, begin_at(0, 0)) == 9, "a begin frame asks for a table that was refused");
}

/* Spacing 0 with another top is even spacing, in a begin frame and in a session that is kept. */
static void spacing_0(void)
{
    static const int tops[] = {25, -25, 1, -1, 2000, -12000, 256};
    uint8_t query[40];
    wko_build_query(query);
    for (size_t k = 0; k < sizeof tops / sizeof *tops; k++) {
        struct wko_session s = kept_round();
        CHECK(load_table(&s, first_table) == 0 && number_of(&s, query) == 0, "a round on a table");
        CHECK(number_of(&s, begin_at(tops[k], 0)) == 9, "top %d with spacing 0 and a table held", tops[k]);
        s.setting.top = (int16_t)tops[k];
        CHECK(number_of(&s, query) == 10, "top %d with spacing 0 in a session with a good copy", tops[k]);
    }
}

static void even_round_keeps_held(void)
{
    struct wko_session s = kept_round();
    CHECK(load_table(&s, second_table) == 0 && number_of(&s, begin_at(0, 25)) == 0, "an even round behind one on a table");
    CHECK(memcmp(s.held, second_table, sizeof second_table) == 0, "a begin frame keeps the table that is held");
    CHECK(memcmp(s.setting.table, zeros, sizeof zeros) == 0, "an even round has no copy");
    CHECK(level_after(&s, 1) == -25 * s.window[2], "even spacing, with a table held");
    CHECK(number_of(&s, begin_at(0, 0)) == 0, "a round on the table that is held");
    CHECK(memcmp(s.setting.table, second_table, sizeof second_table) == 0, "that round has a copy of it");
    CHECK(level_after(&s, 1) == second_table[s.window[2]], "a step of that round");
}

/* The same round on two benches, from the same table: one is sent a file in front of each frame and each step twice, and answers the same. */
static void loads_between_steps(int rule)
{
    const struct wko_setting setting = {0, 0, {0}};
    const uint8_t start[4] = {(uint8_t)(rule == 1), (uint8_t)(rule == 1), (uint8_t)(rule == 1), (uint8_t)(rule == 1)};
    struct wko_session a = wko_fresh(), b = random_session();
    uint8_t frame[40], answer[40];
    load_table(&a, first_table);
    load_table(&b, first_table);
    wko_build_begin(frame, 4, (uint8_t)rule, setting, start);
    for (uint64_t k = 0; k <= 75; k++) {
        if (k > 0)
            wko_build_step(frame, k);
        CHECK(number_of(&a, frame) == 0, "bench A steps to %d", (int)k);
        memcpy(answer, at_end(answer_page, 40), 40);
        for (int times = 0; times < 2; times++) {
            CHECK(number_of(&b, frame) == 0, "bench B steps to %d", (int)k);
            CHECK(memcmp(answer, at_end(answer_page, 40), 40) == 0, "bench B answers as bench A at %d, rule %d", (int)k, rule);
            if (k > 0) {
                load_table(&b, k % 2 ? second_table : first_table);
                load_random(&b);
            }
        }
    }
}

/* The level of each d: a session kept with d newest of 16 different symbols, and a table that is random. */
static void check_table_level(int rule, int d)
{
    struct wko_session s = {1, 1, 0, 16, (uint8_t)rule, {0, 0, {0}}, {0}, 1, {0}};
    good_table(s.setting.table);
    random_table(s.held);
    for (int i = 0; i < 16; i++)
        s.window[i] = (uint8_t)((d + 1 + i) % 16 + (rule == 1));
    CHECK(level_after(&s, 1) == s.setting.table[d], "rule %d: the level is entry %d of the table", rule, d);
}

/* Each value of an entry between two others: in a file, and in the copy of a session that is kept. */
static void check_entries(int d, int from, int to)
{
    uint8_t query[40];
    wko_build_query(query);
    for (int value = from; value <= to; value++) {
        struct wko_session s = kept_round();
        int good;
        s.setting.table[d] = (int16_t)value;
        good = value % 25 == 0 && value >= -12000 && value <= 2000 && (d == 0 || value < first_table[d - 1])
               && (d == 15 || value > first_table[d + 1]);
        CHECK(load_table(&s, s.setting.table) == (good ? 0 : 16), "a file whose entry %d is %d", d, value);
        CHECK(number_of(&s, query) == (good ? 0 : 10), "a copy whose entry %d is %d", d, value);
    }
}

static void check_tables(void)
{
    bad_copy_good_held();
    good_copy_none_held();
    bad_held();
    none_held();
    spacing_0();
    even_round_keeps_held();
    for (int rule = 1; rule <= 3; rule++) {
        loads_between_steps(rule);
        for (int d = 0; d < WKO_LEVELS; d++)
            for (int k = 0; k < 100; k++)
                check_table_level(rule, d);
    }
    check_entries(0, INT16_MIN, INT16_MAX);
    check_entries(8, -10100, -900);
    check_entries(15, -12100, -11900);
}

/* Document 02, Paper 6. The session of kept_round with another version and round; and frames, where round 0 is WKO1. */
static struct wko_session kept_as(int version, int round)
{
    struct wko_session s = kept_round();
    s.version = (uint8_t)version;
    s.round = (uint8_t)round;
    return s;
}

static uint8_t *begin_of(int round, int top, int spacing)
{
    return in_round(round, begin_at(top, spacing));
}

static uint8_t *step_of(int round, uint64_t number)
{
    static uint8_t frame[40];
    wko_build_step(frame, number);
    return in_round(round, frame);
}

/* A query has no round number: any but 0 stands for WKO2. */
static uint8_t *query_of(int round)
{
    static uint8_t frame[40];
    wko_build_query(frame);
    return in_round(round, frame);
}

static uint8_t *changed(uint8_t *f, int at, int value)
{
    f[at] = (uint8_t)value;
    return f;
}

/* A frame of 40 bytes is refused, in its own version, and changes nothing. */
static void refuse(struct wko_session *s, const uint8_t *f, int number, const char *what)
{
    const uint8_t want[40] = {'W', 'K', 'A', number > 3 && f[3] == '2' ? '2' : '1', (uint8_t)number};
    const struct wko_session before = *s;
    CHECK(number_of(s, f) == number, "%s is not %d", what, number);
    CHECK(memcmp(at_end(answer_page, 40), want, 40) == 0, "%s: another answer of refusal %d", what, number);
    CHECK(same_session(s, &before), "%s changes the session", what);
}

/* A begin frame begins a round of its version and number, with no step done. */
static void begins(struct wko_session *s, const uint8_t *f, const char *what)
{
    CHECK(number_of(s, f) == 0 && s->begun == 1 && s->done == 0, "%s does not begin a round", what);
    CHECK(s->version == (f[3] == '2' ? 2 : 1) && s->round == f[7], "%s leaves version %d and round %d", what, s->version, s->round);
    CHECK(memcmp(s->window, f + 24, 16) == 0, "%s leaves another window", what);
}

/* What the library answers to a frame, byte for byte. */
static void check_answer(struct wko_session *s, const uint8_t *f, const uint8_t *answer, const char *what)
{
    CHECK(number_of(s, f) == 0 && memcmp(at_end(answer_page, 40), answer, 40) == 0, "the bytes of the answer to %s", what);
}

/* The bytes of WKO2 frames and of their answers, written out. */
static void version_2_bytes(void)
{
    static const uint8_t begin[40] = {'W', 'K', 'O', '2', 'B', 3, 2, 7, 0, 0, 0, 0, 0, 0, 0, 0, 24, 252, 44, 1, 0, 0, 0, 0, 2, 0, 1};
    static const uint8_t step[40] = {'W', 'K', 'O', '2', 'S', 0, 0, 7, 1}, query[40] = {'W', 'K', 'O', '2', 'Q'};
    static const uint8_t begun[40] = {'W', 'K', 'A', '2', 0, 0, 3, 7, 0, 0, 0, 0, 0, 0, 0, 0, 0, 0, 0, 0, 0, 0, 0, 0, 2, 0, 1};
    static const uint8_t stepped[40] = {'W', 'K', 'A', '2', 0, 1, 2, 7, 1, 0, 0, 0, 0, 0, 0, 0, 236, 250, 255, 255, 0, 0, 0, 0, 0, 1, 1};
    static const uint8_t asked[40] = {'W', 'K', 'A', '2', 0, 0, 2, 7, 1, 0, 0, 0, 0, 0, 0, 0, 0, 0, 0, 0, 0, 0, 0, 0, 0, 1, 1};
    struct wko_session s = wko_fresh();
    struct wko_answer read;
    uint8_t other[40];
    CHECK(memcmp(begin_of(7, -1000, 300), begin, 40) == 0, "the bytes of a WKO2 begin frame");
    CHECK(memcmp(step_of(7, 1), step, 40) == 0, "the bytes of a WKO2 step frame");
    CHECK(memcmp(query_of(7), query, 40) == 0, "the bytes of a WKO2 query frame");
    check_answer(&s, begin, begun, "a WKO2 begin frame");
    check_answer(&s, begin, begun, "that frame again");
    check_answer(&s, step, stepped, "a WKO2 step frame");
    check_answer(&s, query, asked, "a WKO2 query frame");
    check_answer(&s, step, stepped, "that step again");
    CHECK(wko_read_answer(&read, stepped, 40) == 1 && read.version == 2 && read.round == 7 && read.refusal == 0, "a WKA2 answer is read");
    CHECK(read.symbol == 1 && read.different == 2 && read.done == 1 && read.level == -1300, "the numbers of a WKA2 answer");
    memcpy(other, stepped, 40);
    CHECK(wko_read_answer(&read, changed(other, 3, '3'), 40) == 0 && wko_read_answer(&read, changed(other, 3, '0'), 40) == 0, "WKA3 is not read");
    CHECK(wko_read_answer(&read, stepped, 39) == 0 && wko_read_answer(&read, step, 40) == 0, "what is no WKA2 answer is not read");
}

/* Lengths and headers are refused as WKA1, all else in the frame's version. */
static void answer_headers(void)
{
    static const uint8_t refused_2[40] = {'W', 'K', 'A', '1', 2}, refused_4[40] = {'W', 'K', 'A', '2', 4};
    struct wko_session s = kept_as(2, 7);
    uint8_t f[64] = {0};
    memcpy(f, step_of(7, 3), 40);
    for (size_t len = 0; len < sizeof f; len++)
        if (len != 40) {
            check_frame(&s, f, len, 40);
            CHECK(memcmp(at_end(answer_page, 40), refused_2, 40) == 0, "the answer to %d bytes of WKO2", (int)len);
        }
    for (int byte = 0; byte < 256; byte++) {
        if (byte != '1' && byte != '2')
            refuse(&s, changed(step_of(7, 3), 3, byte), 3, "another version");
        if (byte != 'B' && byte != 'S' && byte != 'Q') {
            refuse(&s, changed(step_of(7, 3), 4, byte), 4, "another kind in WKO2");
            CHECK(memcmp(at_end(answer_page, 40), refused_4, 40) == 0, "the answer to the kind %d in WKO2", byte);
        }
    }
    CHECK(s.done == 2, "a step is done");
}

/* Test 5 of byte 7, by the frame's own version, and in front of all that asks for the session. */
static void round_byte(void)
{
    struct wko_session fresh = wko_fresh(), first = kept_as(1, 7), second = kept_as(2, 7);
    struct wko_session *const sessions[] = {&fresh, &first, &second};
    for (int k = 0; k < 3; k++) {
        refuse(sessions[k], changed(begin_of(7, -1000, 300), 7, 0), 5, "a WKO2 begin frame with round 0");
        refuse(sessions[k], changed(step_of(7, 3), 7, 0), 5, "a WKO2 step with round 0");
        refuse(sessions[k], changed(begin_of(0, -1000, 300), 7, 7), 5, "a WKO1 begin frame with a round number");
        refuse(sessions[k], changed(step_of(0, 3), 7, 7), 5, "a WKO1 step with a round number");
        refuse(sessions[k], changed(query_of(0), 7, 7), 5, "a WKO1 query with a round number");
        refuse(sessions[k], changed(query_of(7), 7, 7), 5, "a WKO2 query with a round number");
        for (int at = 5; at < 40; at++) {
            refuse(sessions[k], changed(query_of(7), at, 1), 5, "a WKO2 query with another byte");
            if (at < 7 || at > 15)
                refuse(sessions[k], changed(step_of(7, 3), at, 1), 5, "a WKO2 step with another byte");
            if ((at > 7 && at < 16) || (at > 19 && at < 24))
                refuse(sessions[k], changed(begin_of(7, -1000, 300), at, 1), 5, "a WKO2 begin frame with another byte");
        }
    }
}

/* Every value of the version in a session that is kept: 2 is WKO2, any other WKO1, where the round is of no account. Steps keep both. */
static void version_bytes(void)
{
    for (int byte = 0; byte < 256; byte++)
        for (int round = 0; round <= 7; round += 7) {
            struct wko_session s = kept_as(byte, 7);
            int want = (byte == 2) == (round == 7) ? 0 : 17;
            CHECK(number_of(&s, query_of(round)) == want, "a query of round %d, where the version is %d", round, byte);
            CHECK(number_of(&s, step_of(round, 2)) == want, "a step again of round %d, where the version is %d", round, byte);
            CHECK(number_of(&s, step_of(round, 3)) == want, "a step of round %d, where the version is %d", round, byte);
            CHECK(s.version == byte && s.round == 7 && s.done == (want == 0 ? 3 : 2), "the session where the version is %d", byte);
        }
    for (int byte = 0; byte < 256; byte++) {
        struct wko_session s = kept_as(1, byte);
        CHECK(number_of(&s, step_of(0, 3)) == 0 && s.done == 3, "a step of a WKO1 round where the round is %d", byte);
        CHECK(at_end(answer_page, 40)[7] == 0 && s.version == 1 && s.round == byte, "the round %d beside a WKO1 round", byte);
    }
}

/* A WKO2 round kept with the number 0 has not begun, and any begin frame begins. */
static void round_0(void)
{
    for (int round = 1; round < 256; round++) {
        struct wko_session s = kept_as(2, 0);
        s.done = (uint64_t)round % 3;
        refuse(&s, query_of(0), 10, "a WKO1 query of round 0");
        refuse(&s, query_of(round), 10, "a WKO2 query of round 0");
        refuse(&s, step_of(0, s.done + 1), 10, "a WKO1 step of round 0");
        refuse(&s, step_of(round, s.done + 1), 10, "a WKO2 step of round 0");
        refuse(&s, begin_of(round, 0, 0), 9, "a begin frame asks for a table in round 0");
        begins(&s, begin_of(round % 2 ? round : 0, 0, 25), "a begin frame in round 0");
    }
}

/* 5 before 10 before 17 before 18 before 11 before 12. */
static void order_of_steps(void)
{
    struct wko_session first = kept_as(1, 7), second = kept_as(2, 7), none = kept_as(2, 7);
    none.begun = 0;
    refuse(&none, changed(step_of(9, 9), 7, 0), 5, "no round, and round number 0");
    refuse(&none, step_of(0, 9), 10, "no round, another version and number");
    refuse(&none, step_of(9, 9), 10, "no round, another round and number");
    refuse(&none, query_of(0), 10, "no round, and a query in another version");
    refuse(&first, changed(step_of(9, 9), 7, 0), 5, "another version, and round number 0");
    refuse(&first, step_of(9, 9), 17, "a WKO2 step in a WKO1 round: another round and number");
    refuse(&first, step_of(7, 3), 17, "a WKO2 step in a WKO1 round: the next number");
    refuse(&second, step_of(0, 9), 17, "a WKO1 step in a WKO2 round: another number");
    refuse(&second, step_of(0, 3), 17, "a WKO1 step in a WKO2 round: the next number");
    refuse(&second, step_of(9, 9), 18, "another round and number");
    refuse(&second, step_of(9, 0), 18, "another round and step 0");
    refuse(&second, step_of(9, 3), 18, "another round");
    refuse(&second, step_of(9, 2), 18, "another round, the last number again");
    refuse(&second, step_of(7, 9), 11, "another number");
    refuse(&second, step_of(7, 0), 11, "step 0");
    second.done = 13;
    refuse(&second, step_of(0, 14), 17, "a WKO1 step behind the last");
    refuse(&second, step_of(9, 14), 18, "a step of another round behind the last");
    refuse(&second, step_of(7, 15), 11, "a step two behind the last");
    refuse(&second, step_of(7, 14), 12, "a step behind the last");
    CHECK(number_of(&second, step_of(7, 13)) == 0 && number_of(&second, query_of(7)) == 0, "a finished round is answered");
}

/* Every round number but the round's own is another, and a step of it comes late: nothing moves, and the round goes on. */
static void late_steps(void)
{
    for (int round = 1; round < 256; round++) {
        struct wko_session s = wko_fresh();
        begins(&s, begin_of(round, 0, 25), "a begin frame");
        for (int other = 1; other < 256; other++)
            if (other != round)
                refuse(&s, step_of(other, 1), 18, "a late step");
        CHECK(number_of(&s, step_of(round, 1)) == 0 && s.done == 1, "a step of round %d", round);
        CHECK(at_end(answer_page, 40)[7] == round && s.round == round, "the number of round %d in an answer", round);
        begins(&s, begin_of(round % 255 + 1, 0, 25), "the next round");
        refuse(&s, step_of(round, 1), 18, "a step of the round before");
        refuse(&s, step_of(round, 2), 18, "the next step of the round before");
    }
}

/* The begin frame in force again: the same answer, and nothing changes, whatever table is held by now. The round goes by its copy. */
static void begin_again(void)
{
    static const int16_t none[WKO_LEVELS];
    static const int16_t *const held[] = {first_table, second_table, none, first_table};
    for (int k = 0; k < 4; k++)
        for (int spacing = 0; spacing <= 25; spacing += 25) {
            struct wko_session s = wko_fresh(), begun;
            uint8_t answer[40];
            load_table(&s, first_table);
            begins(&s, begin_of(7, 0, spacing), "a begin frame");
            memcpy(answer, at_end(answer_page, 40), 40);
            memcpy(s.held, held[k], sizeof s.held);
            s.held[0] = (int16_t)(s.held[0] - (k == 3));
            begun = s;
            for (int times = 0; times < 3; times++) {
                check_answer(&s, begin_of(7, 0, spacing), answer, "the begin frame in force");
                CHECK(same_session(&s, &begun), "the begin frame in force changes the session, table %d", k);
            }
            CHECK(number_of(&s, step_of(7, 1)) == 0 && s.done == 1, "a step behind it");
            CHECK((int16_t)wko_get_number(at_end(answer_page, 40) + 16, 2) == (spacing ? -25 * s.window[2] : first_table[s.window[2]]),
                  "the level by the copy, table %d", k);
        }
}

/* The begin frame in force with one byte changed: what it comes to. 0 begins another round. */
static void begin_changed(void)
{
    static const struct { int at, value, number; } changes[] = {
        {0, 'w', 3}, {3, '1', 5}, {3, '3', 3}, {4, 'b', 4}, {4, 'S', 5}, {4, 'Q', 5}, {5, 0, 6}, {5, 17, 6}, {5, 1, 8}, {5, 2, 19},
        {5, 4, 19}, {5, 16, 19}, {6, 0, 7}, {6, 1, 8}, {6, 3, 19}, {6, 4, 7}, {7, 0, 5}, {7, 6, 0}, {7, 255, 0}, {8, 1, 5},
        {15, 128, 5}, {16, 25, 19}, {17, 251, 19}, {17, 0, 19}, {17, 127, 9}, {18, 45, 19}, {18, 0, 19}, {19, 0, 19}, {19, 2, 9},
        {20, 1, 5}, {23, 1, 5}, {24, 1, 19}, {24, 2, 19}, {24, 3, 8}, {25, 0, 19}, {25, 2, 8}, {26, 1, 19}, {26, 2, 19}, {26, 3, 8},
        {27, 1, 8}, {39, 1, 8}};
    const struct wko_setting setting = WKO_EVEN(-1000, 300);
    const uint8_t start[3] = {0, 1, 0};
    uint8_t f[40], other[40];
    wko_build_begin(f, 3, 2, setting, start);
    wko_set_round(f, 7);
    for (size_t k = 0; k < sizeof changes / sizeof *changes; k++)
        for (int steps = 0; steps < 2; steps++) {
            struct wko_session s = wko_fresh();
            CHECK(number_of(&s, f) == 0 && (steps == 0 || number_of(&s, step_of(7, 1)) == 0), "a round");
            memcpy(other, f, 40);
            changed(other, changes[k].at, changes[k].value);
            if (changes[k].number != 0)
                refuse(&s, other, changes[k].number, "a begin frame with a byte changed");
            else
                begins(&s, other, "a begin frame with another round number");
        }
}

/* Each byte as it is and changed to each value, with no step done and with one, on a table or not. */
static void begin_with_each_byte(int top, int spacing, int steps)
{
    for (int at = 0; at < 40; at++)
        for (int value = 0; value < 256; value++) {
            struct wko_session s = wko_fresh();
            uint8_t *f;
            int again, number;
            load_table(&s, first_table);
            begins(&s, begin_of(7, top, spacing), "a begin frame");
            CHECK(steps == 0 || number_of(&s, step_of(7, 1)) == 0, "a step");
            f = begin_of(7, top, spacing);
            again = f[at] == value;
            number = number_of(&s, changed(f, at, value));
            if (again)
                CHECK(number == (steps == 0 ? 0 : 19), "the begin frame in force with %d steps done comes to %d", steps, number);
            else
                CHECK((number == 0) == (at == 7 && value != 0), "the begin frame in force with %d at %d comes to %d", value, at, number);
        }
}

/* With a step done the begin frame in force is refused as any other with its number, behind 6 to 9. 9 looks at the table that is held. */
static void begin_after_a_step(void)
{
    struct wko_session s = kept_as(2, 7), even = wko_fresh();
    refuse(&s, begin_of(7, 0, 0), 9, "no table held, and the number in force");
    s.held[0] = 1;
    refuse(&s, begin_of(7, 0, 0), 9, "a bad table held, and the number in force");
    memcpy(s.held, first_table, sizeof s.held);
    refuse(&s, begin_of(7, 0, 0), 19, "the begin frame in force, with a step done");
    refuse(&s, changed(begin_of(7, 0, 0), 5, 17), 6, "n, and the number in force");
    refuse(&s, changed(begin_of(7, 0, 0), 6, 4), 7, "the rule, and the number in force");
    refuse(&s, changed(begin_of(7, 0, 0), 24, 3), 8, "the window, and the number in force");
    refuse(&s, begin_of(7, 25, 0), 9, "the level setting, and the number in force");
    refuse(&s, begin_of(7, -1000, 300), 19, "another round with the number in force");
    CHECK(number_of(&s, step_of(7, 3)) == 0 && s.done == 3, "the round goes on");
    begins(&even, begin_of(7, -1000, 300), "an even round");
    refuse(&even, begin_of(7, 0, 0), 9, "no table held, with no step done");
    CHECK(number_of(&even, step_of(7, 1)) == 0, "a step of an even round");
    refuse(&even, begin_of(7, -1000, 300), 19, "the begin frame in force, with a step done in an even round");
    even.done = 13;
    refuse(&even, begin_of(7, -1000, 300), 19, "the begin frame in force, with the round finished");
    begins(&even, begin_of(8, -1000, 300), "another number");
    begins(&even, begin_of(7, -1000, 300), "the number of the round before");
}

/* A WKO1 round has no number, so that any is free, also the one that stands beside it; and WKO1 begins at any time. */
static void versions_meet(void)
{
    for (int done = 0; done <= 2; done++) {
        struct wko_session s = kept_as(1, 7);
        s.done = (uint64_t)done;
        refuse(&s, begin_of(7, 0, 0), 9, "no table is held for a WKO2 round");
        memcpy(s.held, second_table, sizeof s.held);
        begins(&s, begin_of(7, 0, 0), "a WKO2 begin frame in a WKO1 round");
        CHECK(memcmp(s.setting.table, second_table, sizeof second_table) == 0, "that round has a copy of the table that is held");
        s = kept_as(2, 7);
        s.done = (uint64_t)done;
        begins(&s, begin_of(0, 0, 25), "a WKO1 begin frame in a WKO2 round");
        refuse(&s, step_of(7, 1), 17, "a late step of the WKO2 round");
        CHECK(number_of(&s, step_of(0, 1)) == 0 && number_of(&s, query_of(0)) == 0, "the WKO1 round goes on");
        begins(&s, begin_of(0, 0, 25), "the same WKO1 begin frame with a step done");
        begins(&s, begin_of(7, 0, 25), "the number is free");
        refuse(&s, step_of(0, 1), 17, "a late step of the WKO1 round");
    }
}

/* Where a session counts as not begun no round is in force, and its begin frame begins anew, by the table that is held. */
static void none_in_force(void)
{
    for (int what = 0; what < 4; what++) {
        struct wko_session s = kept_as(2, 7);
        s.done = what == 0 ? 14 : 0;
        s.begun = what == 1 ? 2 : 1;
        s.setting.table[3] = (int16_t)(s.setting.table[3] + 5 * (what == 2));
        s.window[3] = what == 3;
        refuse(&s, query_of(7), 10, "a session that does not count as begun");
        refuse(&s, begin_of(7, 0, 0), 9, "its begin frame, with no table held");
        memcpy(s.held, second_table, sizeof s.held);
        begins(&s, begin_of(7, 0, 0), "its begin frame, with a table held");
        CHECK(memcmp(s.setting.table, second_table, sizeof second_table) == 0, "that round has a copy of the table that is held");
    }
}

/* What a hub may deliver while a round stands at k steps: frames of the round before and of WKO1, and the begin frame once steps are done. */
static void deliver_late(struct wko_session *s, const uint8_t *begin, int round, uint64_t k)
{
    refuse(s, step_of(round - 1, k), 18, "the last step's number, of the round before");
    refuse(s, step_of(round - 1, k + 1), 18, "the next step's number, of the round before");
    refuse(s, step_of(0, k + 1), 17, "a WKO1 step");
    refuse(s, query_of(0), 17, "a WKO1 query");
    load_table(s, k % 2 ? first_table : second_table);
    load_random(s);
    if (k > 0)
        refuse(s, begin, 19, "the begin frame, late");
}

/* The same two rounds on two benches. One gets each frame once; the other each frame twice, late frames and level files between, and answers the
 * same. It starts anyhow: a WKO1 begin frame leaves no round number in force. */
static void two_benches(int rule)
{
    const struct wko_setting setting = {0, 0, {0}};
    const uint8_t first = rule == 1, start[4] = {first, first, first, first};
    struct wko_session a = wko_fresh(), b = random_session();
    uint8_t begin[40], frame[40], answer[40];
    begins(&b, begin_of(0, 0, 25), "a WKO1 begin frame");
    for (int round = 8; round <= 9; round++) {
        load_table(&a, first_table);
        load_table(&b, first_table);
        wko_build_begin(begin, 4, (uint8_t)rule, setting, start);
        wko_set_round(begin, (uint8_t)round);
        for (uint64_t k = 0; k <= 75; k++) {
            memcpy(frame, k == 0 ? begin : step_of(round, k), 40);
            CHECK(number_of(&a, frame) == 0 && a.done == k, "bench A steps to %d", (int)k);
            memcpy(answer, at_end(answer_page, 40), 40);
            for (int times = 0; times < 2; times++) {
                check_answer(&b, frame, answer, "a frame of bench A, on bench B");
                deliver_late(&b, begin, round, k);
            }
        }
    }
}

static void check_versions(void)
{
    version_2_bytes();
    answer_headers();
    round_byte();
    version_bytes();
    round_0();
    order_of_steps();
    late_steps();
    begin_again();
    begin_changed();
    for (int steps = 0; steps < 2; steps++) {
        begin_with_each_byte(0, 0, steps);
        begin_with_each_byte(-1000, 300, steps);
    }
    begin_after_a_step();
    versions_meet();
    none_in_force();
    for (int rule = 1; rule <= 3; rule++)
        two_benches(rule);
}

static const char good_file[] = "d level\n0 2000\n1 1975\n2 1000\n3 25\n4 0\n5 -25\n6 -100\n7 -1000\n8 -2500\n9 -9975\n10 -10000\n11 -10500\n"
                                "12 -11000\n13 -11500\n14 -11950\n15 -11975\n";

/* A file with a good round and a table going on: what it is answered, and what it leaves. */
static void check_file(const char *what, const void *file, size_t len, int want)
{
    struct wko_session s = kept_round();
    memcpy(s.held, second_table, sizeof second_table);
    CHECK(check_load(&s, file, len) == want, "%s is not %d", what, want);
    CHECK(want == 0 || memcmp(s.held, second_table, sizeof second_table) == 0, "%s changes the table that is held", what);
}

/* The good file with a piece of it, which stands there, written otherwise. */
static void check_edited(const char *what, const char *piece, const char *other, int want)
{
    char text[REF_FILE];
    const char *at = strstr(good_file, piece);
    int len = snprintf(text, sizeof text, "%.*s%s%s", (int)(at - good_file), good_file, other, at + strlen(piece));
    check_file(what, text, (size_t)len, want);
}

/* Every byte of the good file changed to every other, and removed; every byte added at every place; every beginning. */
static void check_single_bytes(void)
{
    const size_t len = strlen(good_file);
    char text[sizeof good_file];
    struct wko_session s = kept_round();
    for (size_t at = 0; at <= len; at++)
        for (int byte = 0; byte < 256; byte++) {
            memcpy(text, good_file, len);
            text[at] = (char)byte;
            if (at < len)
                check_load(&s, text, len);
            memcpy(text + at + 1, good_file + at, len - at);
            check_load(&s, text, len + 1);
        }
    for (size_t at = 0; at < len; at++) {
        memcpy(text, good_file, len);
        memmove(text + at, text + at + 1, len - at - 1);
        check_load(&s, text, len - 1);
        check_file("a beginning of a file", good_file, at, 16);
    }
}

/* A good file with more behind it, of 512 bytes and fewer or more. */
static void check_long_files(void)
{
    static const char behind[] = {' ', '\n', '0', 0};
    char text[4096];
    for (size_t k = 0; k < sizeof behind; k++) {
        memset(text, behind[k], sizeof text);
        memcpy(text, good_file, strlen(good_file));
        for (size_t len = strlen(good_file) + 1; len <= 600; len++)
            check_file("a file with more behind it", text, len, 16);
        check_file("a file with very much behind it", text, sizeof text, 16);
    }
}

/* Each line as long as any level makes it: 158 bytes. A table has such a file. */
static void longest_file(void)
{
    size_t longest = strlen("d level\n");
    int16_t table[WKO_LEVELS];
    char text[REF_FILE + 1];
    struct wko_session s = wko_fresh();
    for (int d = 0; d < WKO_LEVELS; d++) {
        int most = 0;
        for (int level = -12000; level <= 2000; level += 25) {
            int len = snprintf(text, sizeof text, "%d %d\n", d, level);
            most = len > most ? len : most;
        }
        longest += (size_t)most;
        table[d] = (int16_t)(-10000 - 25 * d);
    }
    CHECK(longest == 158 && ref_write_table(table, text) == longest, "the longest file has %zu bytes", longest);
    CHECK(check_load(&s, text, longest) == 0 && memcmp(s.held, table, sizeof table) == 0, "the longest file is loaded");
}

/* The README's level file. */
static void sample_file(void)
{
    static const int16_t table[WKO_LEVELS] = {2000, 1500, 1475, 1000, 500, 0, -500, -1000, -2000, -3000, -4000, -5000, -6000, -8000, -10000, -12000};
    char text[REF_FILE + 1] = {0};
    struct wko_session s = wko_fresh();
    FILE *file = fopen("docs/sample.levels", "rb");
    size_t len = file != NULL ? fread(text, 1, sizeof text, file) : 0;
    if (file != NULL)
        fclose(file);
    CHECK(check_load(&s, text, len) == 0 && memcmp(s.held, table, sizeof table) == 0, "docs/sample.levels is not loaded");
}

static void check_files(void)
{
    struct wko_session s = wko_fresh();
    CHECK(check_load(&s, good_file, strlen(good_file)) == 0, "a file that is as described is loaded");
    CHECK(memcmp(s.held, first_table, sizeof first_table) == 0, "a file is loaded as it is written");
    CHECK(wko_load_levels(s, NULL, 0).number == 16, "no file at all is 16");
    check_file("an empty file", "", 0, 16);
    check_edited("another table", "3 25\n", "3 75\n", 0);
    check_edited("fifteen lines", "15 -11975\n", "", 16);
    check_edited("fifteen lines, one missing between", "7 -1000\n", "", 16);
    check_edited("seventeen lines", "15 -11975\n", "15 -11975\n16 -12000\n", 16);
    check_edited("no first line", "d level\n", "", 16);
    check_edited("two first lines", "d level\n", "d level\nd level\n", 16);
    check_edited("no line feed at the end", "15 -11975\n", "15 -11975", 16);
    check_edited("an empty line at the end", "15 -11975\n", "15 -11975\n\n", 16);
    check_edited("an empty line between", "7 -1000\n", "\n7 -1000\n", 16);
    check_edited("minus zero", "4 0\n", "4 -0\n", 16);
    check_edited("two zeros", "4 0\n", "4 00\n", 16);
    check_edited("a leading zero", "3 25\n", "3 025\n", 16);
    check_edited("a leading zero behind a minus", "5 -25\n", "5 -025\n", 16);
    check_edited("a leading zero of d", "\n3 25\n", "\n03 25\n", 16);
    check_edited("+5", "3 25\n", "3 +5\n", 16);
    check_edited("a plus", "3 25\n", "3 +25\n", 16);
    check_edited("a plus on d", "3 25\n", "+3 25\n", 16);
    check_edited("a minus on d", "0 2000\n", "-0 2000\n", 16);
    check_edited("two minuses", "5 -25\n", "5 --25\n", 16);
    check_edited("a minus alone", "5 -25\n", "5 -\n", 16);
    check_edited("a space behind a minus", "5 -25\n", "5 - 25\n", 16);
    check_edited("two spaces", "3 25\n", "3  25\n", 16);
    check_edited("two spaces in the first line", "d level\n", "d  level\n", 16);
    check_edited("a space at the end of a line", "3 25\n", "3 25 \n", 16);
    check_edited("a space at the start of a line", "3 25\n", " 3 25\n", 16);
    check_edited("no space", "3 25\n", "325\n", 16);
    check_edited("a carriage return", "3 25\n", "3 25\r\n", 16);
    check_edited("a carriage return in the first line", "d level\n", "d level\r\n", 16);
    check_edited("a carriage return at the end", "15 -11975\n", "15 -11975\r\n", 16);
    check_edited("a tab", "3 25\n", "3\t25\n", 16);
    check_edited("a comma", "3 25\n", "3,25\n", 16);
    check_edited("a third field", "3 25\n", "3 25 1\n", 16);
    check_edited("no level", "3 25\n", "3\n", 16);
    check_edited("no d", "3 25\n", "25\n", 16);
    check_edited("decibels with a point", "0 2000\n", "0 20.00\n", 16);
    check_edited("2025", "0 2000\n", "0 2025\n", 16);
    check_edited("-12000", "15 -11975\n", "15 -12000\n", 0);
    check_edited("-12025", "15 -11975\n", "15 -12025\n", 16);
    check_edited("1005", "2 1000\n", "2 1005\n", 16);
    check_edited("-105", "6 -100\n", "6 -105\n", 16);
    check_edited("equal neighbours", "3 25\n", "3 0\n", 16);
    check_edited("a level above the one before", "3 25\n", "3 1025\n", 16);
    check_edited("a minus lost", "9 -9975\n", "9 9975\n", 16);
    check_edited("2000 and 2 to the 16", "0 2000\n", "0 67536\n", 16);
    check_edited("-11975 less 2 to the 16", "15 -11975\n", "15 -77511\n", 16);
    check_edited("2000 and 2 to the 32", "0 2000\n", "0 4294969296\n", 16);
    check_edited("2000 and 2 to the 64", "0 2000\n", "0 18446744073709553616\n", 16);
    check_edited("seven digits", "0 2000\n", "0 2000000\n", 16);
    check_edited("d twice", "3 25\n", "2 25\n", 16);
    check_edited("d left out", "3 25\n4 0\n", "4 25\n5 0\n", 16);
    check_edited("two lines the other way round", "3 25\n4 0\n", "4 0\n3 25\n", 16);
    check_edited("d and 256", "0 2000\n", "256 2000\n", 16);
    check_edited("d in hexadecimal", "10 -10000\n", "a -10000\n", 16);
    check_edited("a capital in the first line", "d level\n", "D level\n", 16);
    check_edited("another capital in the first line", "d level\n", "d Level\n", 16);
    check_edited("a byte order mark", "d level\n", "\357\273\277d level\n", 16);
    check_edited("a printed minus", "5 -25\n", "5 \342\210\22225\n", 16);
    check_edited("a remark in front", "d level\n", "! bench 3\nd level\n", 16);
    check_single_bytes();
    check_long_files();
    longest_file();
    sample_file();
}

int main(void)
{
    struct wko_session fresh = wko_fresh();
    frame_page = guarded_page();
    answer_page = guarded_page();
    file_page = guarded_page();
    CHECK(!fresh.begun && fresh.done == 0 && !model_has_begun(&fresh), "a fresh session has not begun");
    CHECK(fresh.version == 1 && fresh.round == 0, "a fresh session has version %d and round %d", fresh.version, fresh.round);
    histories(50000);
    check_bytes();
    check_begun_bytes(0);
    check_begun_bytes(7);
    check_levels();
    check_level_of();
    for (int k = 0; k < 200; k++)
        check_step_answers();
    CHECK(seen_taken > 100, "only %ld answers to steps were tried", seen_taken);
    query_like_a_step();
    check_tables();
    check_versions();
    check_files();
    return report("session");
}
