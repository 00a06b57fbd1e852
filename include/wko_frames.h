/*
 * wko_frames.h: builds the frames that wko_exchange takes and reads its answers. For hosts and tests; wko.h has the layout.
 *
 * Inline C that needs nothing of libwko.a, so that it serves a host that only sends frames, on any machine (WKO_FRAMES_ONLY in wko.h). It is
 * tested with the library; it is not proved. A builder fills all 40 bytes of a frame and tests nothing: what is wrong with a frame, its answer says.
 * What a host does so that nothing is skipped on a link that loses frames stands in the README under "For hosts"; host/link.c is such a host.
 */
#ifndef WKO_FRAMES_H
#define WKO_FRAMES_H

#include <string.h>
#include "wko.h"

/* Numbers of some bytes, little-endian: fields of frames and answers, and the 8 bytes of wko_count and wko_place. */
static inline void wko_put_number(uint8_t *bytes, int len, uint64_t number)
{
    for (int i = 0; i < len; i++)
        bytes[i] = (uint8_t)(number >> (8 * i));
}

static inline uint64_t wko_get_number(const uint8_t *bytes, int len)
{
    uint64_t number = 0;
    for (int i = len - 1; i >= 0; i--)
        number = number << 8 | bytes[i];
    return number;
}

/* A frame of a kind, zero behind it: the whole of a query. This and the three that follow build WKO1; wko_set_round makes WKO2 of it. */
static inline void wko_build_frame(uint8_t frame[WKO_FRAME_LEN], char kind)
{
    memset(frame, 0, WKO_FRAME_LEN);
    memcpy(frame, "WKO1", 4);
    frame[4] = (uint8_t)kind;
}

/* Begins a round of n symbols under a rule at a start window of n bytes. Of the setting it sends top and spacing: with 0 for both the device
 * takes the level table that it holds. */
static inline void wko_build_begin(uint8_t frame[WKO_FRAME_LEN], uint8_t n, uint8_t rule, struct wko_setting setting, const uint8_t *start)
{
    wko_build_frame(frame, 'B');
    frame[5] = n;
    frame[6] = rule;
    wko_put_number(frame + 16, 2, (uint16_t)setting.top);
    wko_put_number(frame + 18, 2, setting.spacing);
    memcpy(frame + 24, start, n < WKO_MAX_N ? n : WKO_MAX_N);
}

/* Asks for the step with a number, 1 to a(n). */
static inline void wko_build_step(uint8_t frame[WKO_FRAME_LEN], uint64_t number)
{
    wko_build_frame(frame, 'S');
    wko_put_number(frame + 8, 8, number);
}

/* Asks where the session stands. */
static inline void wko_build_query(uint8_t frame[WKO_FRAME_LEN])
{
    wko_build_frame(frame, 'Q');
}

/* Makes a frame that is built one of the second version, WKO2, with a round number, 1 to 255. A query carries no number. */
static inline void wko_set_round(uint8_t frame[WKO_FRAME_LEN], uint8_t round)
{
    frame[3] = '2';
    if (frame[4] != 'Q')
        frame[7] = round;
}

/* What an answer says. Where it is a refusal, every field but that and the version is zero. */
struct wko_answer {
    uint8_t version;           /* 1: WKA1; 2: WKA2 */
    uint8_t refusal;           /* 0, or the number of the refusal */
    uint8_t symbol;            /* of the last step, in the answer to a step; else 0 */
    uint8_t different;         /* number of different symbols in the window */
    uint8_t round;             /* round number, in WKA2; else 0 */
    uint64_t done;             /* steps done */
    int32_t level;             /* of that symbol, in hundredths of a dBm, in the answer to a step; else 0 */
    uint8_t window[WKO_MAX_N]; /* after the frame, zeros behind its n symbols */
};

/* Reads an answer. Returns 1, or 0 where it is no answer: not 40 bytes, or neither WKA1 nor WKA2. */
static inline int wko_read_answer(struct wko_answer *answer, const uint8_t *bytes, size_t len)
{
    uint32_t level;
    if (len != WKO_FRAME_LEN || (memcmp(bytes, "WKA1", 4) != 0 && memcmp(bytes, "WKA2", 4) != 0))
        return 0;
    level = (uint32_t)wko_get_number(bytes + 16, 4);
    answer->version = bytes[3] == '2' ? 2 : 1;
    answer->refusal = bytes[4];
    answer->symbol = bytes[5];
    answer->different = bytes[6];
    answer->round = bytes[7];
    answer->done = wko_get_number(bytes + 8, 8);
    answer->level = level <= INT32_MAX ? (int32_t)level : (int32_t)(level - 0x80000000u) + INT32_MIN;
    memcpy(answer->window, bytes + 24, WKO_MAX_N);
    return 1;
}

/* The level of a symbol under a rule and a setting, in hundredths of a dBm, as the library computes it: the multiple of 25 nearest to
 * top - d * spacing, or entry d of the table where top and spacing are both 0 (wko.h says what d is). A host plays the start window by it. */
static inline int32_t wko_level(uint8_t rule, struct wko_setting setting, uint8_t symbol)
{
    int32_t d = rule == 1 && symbol > 0 ? symbol - 1 : symbol, exact = setting.top - d * (int32_t)setting.spacing;
    if (setting.top == 0 && setting.spacing == 0)
        return d < WKO_LEVELS ? setting.table[d] : 0;
    return exact < 0 ? -((12 - exact) / 25 * 25) : (exact + 12) / 25 * 25; /* no quotient below zero, which C would cut off towards zero */
}

/* Whether an answer is the one to step k of a round of n symbols: it has the round number (0 for a WKO1 round), k steps done, and the symbol and
 * the level that belong to the newest symbol of its window. Answers do not carry the kind of the question: one to a query says "k steps done" too,
 * with symbol 0 and level 0. On a table round the setting holds the host's own copy of the table, which must be the one that the device took. */
static inline int wko_is_step_answer(const struct wko_answer *answer, uint8_t n, uint8_t rule, struct wko_setting setting, uint8_t round, uint64_t k)
{
    if (n < 1 || n > WKO_MAX_N || k < 1)
        return 0;
    if (answer->refusal != 0 || answer->version != (round == 0 ? 1 : 2) || answer->round != round || answer->done != k)
        return 0;
    return answer->symbol == answer->window[n - 1] && answer->level == wko_level(rule, setting, answer->symbol);
}

#endif
