/* What replay_records and event_records share: the two files, the session that all records work on, and the frames that are sent. */
#ifndef RECORDS_H
#define RECORDS_H
#include "../include/wko_frames.h"
#include "session_model.h"
#include <stdio.h>
#include <string.h>

static FILE *records, *answers;
static struct wko_session session = {.version = 1}; /* as wko_fresh gives it */
static int seen[20], seen_again;

/* Opens the files that the arguments name: whether it could. */
static inline int open_files(int argc, char **argv)
{
    if (argc == 3 && (records = fopen(argv[1], "wb")) && (answers = fopen(argv[2], "wb")))
        return 1;
    fprintf(stderr, "usage: %s RECORDS ANSWERS\n", argv[0]);
    return 0;
}

/* Whether a frame has the number of the WKO2 round that is in force: a begin frame that has it and is accepted is the one in force, again. */
static inline int has_number_in_force(const uint8_t *f)
{
    return f[3] == '2' && session.version == 2 && f[7] == session.round && model_has_begun(&session);
}

/* A record of `replay`, and what the model answers. */
static inline void send(const uint8_t *f, size_t frame_len, size_t answer_len)
{
    uint8_t answer[255];
    int number, same = has_number_in_force(f);
    memset(answer, 165, sizeof answer);
    number = model_exchange(&session, f, frame_len, answer, answer_len);
    seen[number]++;
    seen_again += number == 0 && f[4] == 'B' && same;
    fputc((int)answer_len, records);
    fputc((int)frame_len, records);
    fwrite(f, 1, frame_len, records);
    fputc(number, answers);
    fwrite(answer, 1, answer_len, answers);
}

/* The frame that is built, with room behind it for one that is too long. */
static uint8_t frame[255];

/* The window stands there whole, whatever n says. */
static inline uint8_t *begin(int n, int rule, int top, int spacing, const char *window)
{
    const struct wko_setting setting = {(int16_t)top, (uint16_t)spacing, {0}};
    uint8_t start[255] = {0};
    wko_build_begin(frame, (uint8_t)n, (uint8_t)rule, setting, start);
    for (int i = 0; window[i] != 0; i++)
        frame[24 + i] = (uint8_t)(window[i] - '0');
    return frame;
}

static inline uint8_t *step(uint64_t number)
{
    wko_build_step(frame, number);
    return frame;
}

static inline uint8_t *query(void)
{
    wko_build_query(frame);
    return frame;
}

/* A frame as WKO2 with a round number; 0 leaves WKO1. */
static inline uint8_t *in_round(int round, uint8_t *f)
{
    if (round != 0)
        wko_set_round(f, (uint8_t)round);
    return f;
}

static inline uint8_t *changed(uint8_t *f, int at, int value)
{
    f[at] = (uint8_t)value;
    return f;
}
#endif
