/* Document 01, "Frames" and "Turned down", and document 02, Papers 4 and 6, in plain C. */
#include "session_model.h"
#include "reference.h"
#include <string.h>

static int all_zero(const uint8_t *p, int from, int to)
{
    for (int i = from; i <= to; i++)
        if (p[i] != 0)
            return 0;
    return 1;
}

static uint64_t little_endian(const uint8_t *p, int bytes)
{
    uint64_t x = 0;
    for (int i = bytes - 1; i >= 0; i--)
        x = x << 8 | p[i];
    return x;
}

/* Document 02, Paper 4: top 0 and spacing 0 ask for the table. */
static int on_table(const struct wko_setting *setting)
{
    return setting->top == 0 && setting->spacing == 0;
}

/* Test 9, which judges a round on a table by its copy. */
static int setting_ok(int n, const struct wko_setting *setting)
{
    return on_table(setting) ? ref_table_ok(setting->table) : ref_setting_ok(n, setting->top, setting->spacing);
}

/* Tests 6 to 9 of the session's round: 0, or the number of the first that fails. */
static int round_refusal(const struct wko_session *s)
{
    if (s->n < 1 || s->n > 16)
        return 6;
    if (s->rule < 1 || s->rule > 3)
        return 7;
    if (!ref_in_form(s->rule, s->window, (int)s->n) || !all_zero(s->window, (int)s->n, 15))
        return 8;
    if (!setting_ok((int)s->n, &s->setting))
        return 9;
    return 0;
}

/* Document 02, Paper 6: the version that the session's begin frame was in, where 2 alone is the second; and that of a frame, 0 for neither. */
static int round_version(const struct wko_session *s)
{
    return s->version == 2 ? 2 : 1;
}

static int frame_version(const uint8_t *f)
{
    return memcmp(f, "WKO", 3) != 0 ? 0 : f[3] == '1' ? 1 : f[3] == '2' ? 2 : 0;
}

/* Byte 7 of B and S: a round number in the second version, else zero. */
static int round_byte_ok(const uint8_t *f)
{
    return frame_version(f) == 2 ? f[7] != 0 : f[7] == 0;
}

int model_has_begun(const struct wko_session *s)
{
    if (round_version(s) == 2 && s->round == 0)
        return 0;
    return s->begun == 1 && round_refusal(s) == 0 && s->done <= ref_count((int)s->n);
}

/* Whether a WKO2 round is in force. */
static int in_force(const struct wko_session *s)
{
    return round_version(s) == 2 && model_has_begun(s);
}

/* Whether f is the begin frame in force, byte for byte, and no step is done: with none done the window is still the start. */
static int begin_again(const struct wko_session *s, const uint8_t *f)
{
    uint8_t b[40] = {'W', 'K', 'O', '2', 'B', (uint8_t)s->n, s->rule, s->round};
    uint16_t top = (uint16_t)s->setting.top;
    b[16] = (uint8_t)top;
    b[17] = (uint8_t)(top >> 8);
    b[18] = (uint8_t)s->setting.spacing;
    b[19] = (uint8_t)(s->setting.spacing >> 8);
    memcpy(b + 24, s->window, 16);
    return in_force(s) && s->done == 0 && memcmp(b, f, 40) == 0;
}

long model_level(const struct wko_session *s, int symbol)
{
    if (on_table(&s->setting))
        return s->setting.table[s->rule == 1 ? symbol - 1 : symbol];
    return ref_level(s->rule, s->setting.top, s->setting.spacing, symbol);
}

static void write_answer(const struct wko_session *s, int with_symbol, uint8_t *answer)
{
    int different = 0, n = (int)s->n, symbol = s->window[n - 1];
    long level = model_level(s, symbol);
    for (int v = 0; v < 256; v++)
        different += memchr(s->window, v, (size_t)n) != NULL;
    memcpy(answer, round_version(s) == 2 ? "WKA2" : "WKA1", 4);
    answer[4] = 0;
    answer[5] = (uint8_t)(with_symbol ? symbol : 0);
    answer[6] = (uint8_t)different;
    answer[7] = round_version(s) == 2 ? s->round : 0;
    for (int i = 0; i < 8; i++)
        answer[8 + i] = (uint8_t)(s->done >> (8 * i));
    for (int i = 0; i < 4; i++)
        answer[16 + i] = (uint8_t)(with_symbol ? (uint32_t)(int32_t)level >> (8 * i) : 0);
    memset(answer + 20, 0, 4);
    memcpy(answer + 24, s->window, 16);
}

/* The round that a begin frame asks for. The table that is held stays; a round that asks for it takes a copy, and another round has none. */
static struct wko_session asked_for(const struct wko_session *s, const uint8_t *f)
{
    struct wko_session next;
    memset(&next, 0, sizeof next);
    next.begun = 1;
    next.version = (uint8_t)frame_version(f);
    next.round = f[7];
    next.n = f[5];
    next.rule = f[6];
    next.setting.top = (int16_t)(uint16_t)little_endian(f + 16, 2);
    next.setting.spacing = (uint16_t)little_endian(f + 18, 2);
    memcpy(next.window, f + 24, 16);
    memcpy(next.held, s->held, sizeof next.held);
    if (on_table(&next.setting))
        memcpy(next.setting.table, s->held, sizeof s->held);
    return next;
}

static int begin(struct wko_session *s, const uint8_t *f, uint8_t *answer)
{
    struct wko_session next = asked_for(s, f);
    int refusal = round_refusal(&next);
    if (!round_byte_ok(f) || !all_zero(f, 8, 15) || !all_zero(f, 20, 23))
        return 5;
    if (!begin_again(s, f)) {
        if (refusal != 0)
            return refusal;
        if (frame_version(f) == 2 && in_force(s) && f[7] == s->round)
            return 19;
        *s = next;
    }
    write_answer(s, 0, answer);
    return 0;
}

static int step(struct wko_session *s, const uint8_t *f, uint8_t *answer)
{
    uint64_t number = little_endian(f + 8, 8);
    if (!all_zero(f, 5, 6) || !round_byte_ok(f) || !all_zero(f, 16, 39))
        return 5;
    if (!model_has_begun(s))
        return 10;
    if (frame_version(f) != round_version(s))
        return 17;
    if (frame_version(f) == 2 && f[7] != s->round)
        return 18;
    if (number == 0 || (number != s->done && number != s->done + 1))
        return 11;
    if (number == s->done + 1) {
        if (s->done == ref_count((int)s->n))
            return 12;
        ref_step(s->rule, s->window, (int)s->n);
        s->done++;
    }
    write_answer(s, 1, answer);
    return 0;
}

static int query(struct wko_session *s, const uint8_t *f, uint8_t *answer)
{
    if (!all_zero(f, 5, 39))
        return 5;
    if (!model_has_begun(s))
        return 10;
    if (frame_version(f) != round_version(s))
        return 17;
    write_answer(s, 0, answer);
    return 0;
}

int model_load(struct wko_session *s, const uint8_t *file, size_t len)
{
    int16_t table[WKO_LEVELS];
    if (!ref_read_table(file, len, table))
        return 16;
    memcpy(s->held, table, sizeof s->held);
    return 0;
}

int model_exchange(struct wko_session *s, const uint8_t *frame, size_t frame_len, uint8_t *answer, size_t answer_len)
{
    int refusal;
    if (answer_len < 40)
        return 1;
    if (frame_len != 40)
        refusal = 2;
    else if (frame_version(frame) == 0)
        refusal = 3;
    else if (frame[4] == 'B')
        refusal = begin(s, frame, answer);
    else if (frame[4] == 'S')
        refusal = step(s, frame, answer);
    else if (frame[4] == 'Q')
        refusal = query(s, frame, answer);
    else
        refusal = 4;
    if (refusal != 0) {
        memset(answer, 0, 40);
        memcpy(answer, refusal > 3 && frame_version(frame) == 2 ? "WKA2" : "WKA1", 4);
        answer[4] = (uint8_t)refusal;
    }
    return refusal;
}
