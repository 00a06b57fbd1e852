/*
 * A bench host over a link that loses and delays frames: one round of three symbols under rule 1. It keeps to what the README asks of hosts: a step
 * counts when its own answer has come and its level is measured and logged, and until then it is sent again, whatever else comes. The link has in its
 * script what can make a host skip a pattern, the host crashes once, and the device loses power once. At the end the weak orders are counted in the log
 * of what was measured, and nowhere else. The device at the other end of the link is the library.
 */
#include <inttypes.h>
#include <stdio.h>
#include <stdlib.h>
#include "wko_frames.h"

enum { N = 3, RULE = 1, ROUND = 2, COUNT = 13, SWEEPS = N - 1 + COUNT, TRIES = 10, CRASH = 8, NO_TONE = -20000 }; /* there are 13 weak orders of 3 */

static const struct wko_setting setting = WKO_EVEN(-1000, 100);
static const uint8_t start[N] = {1, 1, 1};

static void give_up(const char *why)
{
    fprintf(stderr, "link: %s\n", why);
    exit(1);
}

/* ---- the link, and the device behind it */

struct link {
    struct wko_session session;        /* the device's */
    int32_t tone;                      /* the level at which the device has set the tone */
    uint8_t waiting[2][WKO_FRAME_LEN]; /* answers on their way to the host */
    unsigned come, read, questions, lost_questions, answers, lost_answers;
    const char *script; /* what becomes of the frames that are sent */
};

/* Of a frame that is sent, q: the question is lost; a: its answer is lost; p: neither, but the device loses power once it has answered; a point: none of
 * these. In front of them, r: step 4 of round 1, which was stuck in the hub, comes to the device; s: so does step 4 of this round; m: a query does, which
 * somebody else has sent. */
static char scripted(struct link *link)
{
    while (*link->script == ' ')
        link->script++;
    return *link->script != '\0' ? *link->script++ : '.';
}

/* The device takes a frame, and its answer is on its way. At a step that is accepted, first sent or again, it sets the tone. */
static void deliver(struct link *link, const uint8_t *frame)
{
    struct wko_exchanged after = wko_exchange(link->session, frame, WKO_FRAME_LEN, link->waiting[link->come++], WKO_FRAME_LEN);
    link->session = after.session;
    if (after.number == 0 && frame[4] == 'S')
        link->tone = wko_level(RULE, setting, link->session.window[N - 1]);
}

/* A frame comes that the host does not wait for, and its answer goes to the host. */
static void deliver_other(struct link *link, char which)
{
    uint8_t frame[WKO_FRAME_LEN];
    wko_build_step(frame, 4);
    if (which == 'm')
        wko_build_query(frame);
    wko_set_round(frame, which == 'r' ? ROUND - 1 : ROUND);
    deliver(link, frame);
    if (which == 'm')
        printf("         the answer to a query comes: %" PRIu64 " steps done, level 0\n", link->session.done);
    else
        printf("         step 4 of round %u comes late: %s\n", frame[7], wko_refusal_text(link->waiting[0][4]));
}

/* The host sends a frame. */
static void transmit(struct link *link, const uint8_t *frame)
{
    char what = scripted(link);
    link->come = link->read = 0;
    if (what == 'r' || what == 's' || what == 'm') {
        deliver_other(link, what);
        what = scripted(link);
    }
    link->questions++;
    if (what == 'q') {
        link->lost_questions++;
        return;
    }
    deliver(link, frame);
    link->answers++;
    if (what == 'p')
        link->tone = NO_TONE;
    if (what == 'a') {
        link->lost_answers++;
        link->come--;
    }
}

/* The next answer that comes to the host, or 0 where none does. */
static int receive(struct link *link, struct wko_answer *answer)
{
    return link->read < link->come && wko_read_answer(answer, link->waiting[link->read++], WKO_FRAME_LEN);
}

/* ---- the log, which a crash leaves */

struct log {
    int32_t set[SWEEPS], measured[SWEEPS]; /* the level that was set, and what the analyser measured */
    unsigned sweeps;
};

static void keep(struct log *log, int32_t set, int32_t measured)
{
    if (log->sweeps == SWEEPS)
        give_up("more sweeps than a round has");
    log->set[log->sweeps] = set;
    log->measured[log->sweeps++] = measured;
}

/* A window is the last N sweeps, so the round starts with the N - 1 newest symbols of its start window. */
static void play_start(struct log *log)
{
    for (int i = 1; i < N; i++) {
        int32_t level = wko_level(RULE, setting, start[i]);
        keep(log, level, level);
        printf("start    symbol %u  level %d\n", start[i], (int)level);
    }
}

static uint64_t steps_logged(const struct log *log)
{
    return log->sweeps < N ? 0 : log->sweeps - (N - 1);
}

/* The place of the weak order that N levels have: the highest level has rank 1. */
static uint64_t place_of(const int32_t *levels)
{
    uint8_t ranks[N], heights[N], place[8];
    for (int i = 0; i < N; i++) {
        ranks[i] = 1;
        for (int j = 0; j < N; j++)
            ranks[i] = (uint8_t)(ranks[i] + (levels[j] > levels[i]));
    }
    if (WKO_REFUSED(wko_rank_to_height(N, ranks, N, heights, N)) || WKO_REFUSED(wko_place(N, heights, N, place, 8)))
        give_up("the window is no weak order");
    return wko_get_number(place, 8);
}

/* How many weak orders were measured just once; and whether every level was measured where it was set. */
static unsigned met_once(const struct log *log, int *as_set)
{
    unsigned met[COUNT] = {0}, once = 0;
    *as_set = 1;
    for (unsigned i = 0; i < log->sweeps; i++)
        *as_set &= log->measured[i] == log->set[i];
    for (unsigned i = 0; i + N <= log->sweeps; i++)
        met[place_of(log->measured + i)]++;
    for (int i = 0; i < COUNT; i++)
        once += met[i] == 1;
    return once;
}

/* ---- the host */

static void begin(struct link *link)
{
    uint8_t frame[WKO_FRAME_LEN];
    struct wko_answer answer;
    wko_build_begin(frame, N, RULE, setting, start);
    wko_set_round(frame, ROUND);
    for (int sent = 1; sent <= TRIES; sent++) {
        transmit(link, frame);
        while (receive(link, &answer))
            if (answer.refusal == 0 && answer.round == ROUND && answer.done == 0)
                return;
    }
    give_up("the begin frame stays unanswered");
}

/* Sends step k until its own answer has come, and passes over whatever else comes. Gives how often it was sent. */
static int take_step(struct link *link, uint64_t k, struct wko_answer *answer)
{
    uint8_t frame[WKO_FRAME_LEN];
    wko_build_step(frame, k);
    wko_set_round(frame, ROUND);
    for (int sent = 1; sent <= TRIES; sent++) {
        transmit(link, frame);
        while (receive(link, answer))
            if (wko_is_step_answer(answer, N, RULE, setting, ROUND, k))
                return sent;
    }
    give_up("a step stays unanswered: the round must be begun anew, with a new number");
    return 0;
}

/* Asks by a query, at the end of the round, whether the device is still in it. A late answer to another query would say so too. */
static void confirm_end(struct link *link)
{
    uint8_t frame[WKO_FRAME_LEN];
    struct wko_answer answer;
    wko_build_query(frame);
    wko_set_round(frame, ROUND);
    for (int sent = 1; sent <= TRIES; sent++) {
        transmit(link, frame);
        while (receive(link, &answer))
            if (answer.refusal == 0 && answer.round == ROUND && answer.done == COUNT && answer.symbol == 0) {
                printf("query    %" PRIu64 " steps done: the device is still in the round\n", answer.done);
                return;
            }
    }
    give_up("the device has left the round: it must be begun anew, with a new number");
}

/* Measures the tone and logs it. Gives 0 where the tone is not at the level of the answer, which a bench asks within its tolerance. */
static int measured(const struct link *link, const struct wko_answer *answer, struct log *log)
{
    if (link->tone != answer->level) {
        printf("step %2" PRIu64 "  not measured at its level\n", answer->done);
        return 0;
    }
    keep(log, answer->level, link->tone);
    return 1;
}

int main(void)
{
    struct link link = {wko_fresh(), NO_TONE, {{0}}, 0, 0, 0, 0, 0, 0, "a. . q. aq. r. qa. as. . . . am. qa. p. aa."};
    struct log log = {{0}, {0}, 0};
    struct wko_answer answer;
    uint64_t done = 0; /* steps that count */
    int crashed = 0, as_set;
    unsigned once;
    begin(&link);
    play_start(&log);
    while (done < COUNT) {
        int sent = take_step(&link, done + 1, &answer);
        if (done + 1 == CRASH && !crashed) {
            printf("step %2d  the host crashes before it has measured, and starts again\n", CRASH);
            crashed = 1;
            done = steps_logged(&log);
            continue;
        }
        if (!measured(&link, &answer, &log))
            continue;
        done++;
        printf("step %2" PRIu64 "  symbol %u  level %d  window %u,%u,%u  sent %d\n", done, answer.symbol, (int)answer.level, answer.window[0],
               answer.window[1], answer.window[2], sent);
    }
    confirm_end(&link);
    once = met_once(&log, &as_set);
    printf("%u of %d weak orders met once%s; lost: %u of %u questions, %u of %u answers\n", once, COUNT, as_set ? "" : ", not all at their level",
           link.lost_questions, link.questions, link.lost_answers, link.answers);
    return once != COUNT || !as_set;
}
