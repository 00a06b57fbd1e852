/* The README's rules for hosts on random links: frames and answers are lost, come twice and come late, those of older rounds too; the host crashes, and
 * the device loses power or its session. Whatever happens, a log that a host completes has each weak order once. */
#include "../include/wko_frames.h"
#include "reference.h"
#include "testing.h"

enum { KEPT = 2048, SENDINGS = 12, LONGEST = 3, ROUND = 13, NO_TONE = -20000 };

/* Nothing leaves the link: whatever was sent may come at any time. */
struct link {
    struct wko_session device;
    int32_t tone;
    uint8_t frames[KEPT][40], answers[KEPT][40];
    int sent, answered;
};

struct host {
    uint8_t n, rule, number; /* of the round */
    struct wko_setting setting;
    uint8_t start[LONGEST];
    uint64_t count; /* a(n) */
    int32_t log[LONGEST - 1 + ROUND]; /* the levels that were measured; a crash leaves it */
    int sweeps;
};

static long begun, completed, crashes, again;

static void keep(uint8_t kept[KEPT][40], int *count, const uint8_t *bytes)
{
    if (*count < KEPT)
        memcpy(kept[(*count)++], bytes, 40);
}

/* The device sets the tone at each step that it accepts, first sent or again. */
static void deliver(struct link *link, const uint8_t *frame)
{
    uint8_t answer[40];
    struct wko_exchanged after = wko_exchange(link->device, frame, 40, answer, 40);
    link->device = after.session;
    if (after.number == 0 && frame[4] == 'S')
        link->tone = wko_level(link->device.rule, link->device.setting, link->device.window[link->device.n - 1]);
    keep(link->answers, &link->answered, answer);
}

/* One of the last few of so many, or any. */
static int recent(int count)
{
    int few = count < 4 ? count : 4;
    return random_below(4) ? count - 1 - (int)random_below((uint64_t)few) : (int)random_below((uint64_t)count);
}

/* What happens between two acts of the host: frames come, somebody else asks, the device loses power, or its session too. */
static void disturb(struct link *link)
{
    for (uint64_t times = random_below(4); times > 0; times--) {
        uint64_t what = random_below(1000);
        uint8_t query[40];
        if (what < 800 && link->sent > 0)
            deliver(link, link->frames[recent(link->sent)]);
        if (what >= 800 && what < 850) {
            wko_build_query(query);
            wko_set_round(query, 1);
            deliver(link, query);
        }
        if (what >= 990)
            link->tone = NO_TONE;
        if (what >= 998)
            link->device = wko_fresh();
    }
}

/* Whether an answer is the one that the host waits for. */
static int is_awaited(const struct host *host, const uint8_t *frame, const struct wko_answer *answer)
{
    if (frame[4] == 'S')
        return wko_is_step_answer(answer, host->n, host->rule, host->setting, host->number, wko_get_number(frame + 8, 8));
    return answer->refusal == 0 && answer->round == host->number && answer->symbol == 0 && answer->done == (frame[4] == 'B' ? 0 : host->count);
}

/* Sends a frame until its own answer has come, whatever else comes; 0 where it stays away. */
static int ask(struct link *link, const struct host *host, const uint8_t *frame, struct wko_answer *answer)
{
    for (int sending = 0; sending < SENDINGS; sending++) {
        if (random_below(4))
            keep(link->frames, &link->sent, frame);
        disturb(link);
        for (uint64_t come = random_below(4); come > 0 && link->answered > 0; come--)
            if (wko_read_answer(answer, link->answers[recent(link->answered)], 40) && is_awaited(host, frame, answer))
                return 1;
    }
    return 0;
}

/* Begins a round with a number of its own and an empty log, and plays the start window. */
static int begin(struct link *link, struct host *host)
{
    uint8_t frame[40];
    struct wko_answer answer;
    host->number++;
    host->sweeps = 0;
    begun++;
    /* the bench loads its table anew, since the device may have lost it */
    memcpy(link->device.held, host->setting.table, sizeof host->setting.table);
    wko_build_begin(frame, host->n, host->rule, host->setting, host->start);
    wko_set_round(frame, host->number);
    if (!ask(link, host, frame, &answer))
        return 0;
    for (int i = 1; i < host->n; i++)
        host->log[host->sweeps++] = wko_level(host->rule, host->setting, host->start[i]);
    return 1;
}

/* The step behind the last one that is in the log: sent, measured where its answer has it, and logged, unless the host crashes before that. */
static int step(struct link *link, struct host *host)
{
    uint8_t frame[40];
    struct wko_answer answer;
    wko_build_step(frame, (uint64_t)(host->sweeps - (host->n - 1)) + 1);
    wko_set_round(frame, host->number);
    if (!ask(link, host, frame, &answer))
        return 0;
    if (random_below(16) == 0) {
        crashes++;
        return 1;
    }
    disturb(link);
    if (link->tone == answer.level)
        host->log[host->sweeps++] = link->tone;
    else
        again++;
    return 1;
}

/* One try at a round: whether it is complete, and the device still in it. */
static int round_of(struct link *link, struct host *host)
{
    uint8_t query[40];
    struct wko_answer answer;
    if (!begin(link, host))
        return 0;
    while ((uint64_t)(host->sweeps - (host->n - 1)) < host->count)
        if (!step(link, host))
            return 0;
    wko_build_query(query);
    wko_set_round(query, host->number);
    return ask(link, host, query, &answer);
}

/* Each weak order once, by the ranks of the levels that were measured: the highest has rank 1. */
static int has_each_once(const struct host *host)
{
    unsigned met[ROUND] = {0};
    int n = host->n, once = 0;
    for (int at = 0; at + n <= host->sweeps; at++) {
        uint8_t ranks[LONGEST], heights[LONGEST];
        for (int i = 0; i < n; i++) {
            ranks[i] = 1;
            for (int j = 0; j < n; j++)
                ranks[i] = (uint8_t)(ranks[i] + (host->log[at + j] > host->log[at + i]));
        }
        ref_heights(ranks, n, heights);
        met[ref_place(heights, n)]++;
    }
    for (int i = 0; i < ROUND; i++)
        once += met[i] == 1;
    return (uint64_t)once == host->count && (uint64_t)(host->sweeps - (n - 1)) == host->count;
}

static void run(long seed)
{
    static struct link link;
    struct host host = {(uint8_t)(1 + seed % 3), (uint8_t)(1 + seed / 3 % 3), 0, WKO_EVEN(-1000, 100), {0}, 0, {0}, 0};
    link.device = wko_fresh();
    link.tone = NO_TONE;
    link.sent = link.answered = 0;
    host.count = ref_count(host.n);
    memset(host.start, host.rule == 1, sizeof host.start);
    if (seed % 2) { /* on a table, whose level for d = 1 is 0 */
        host.setting.top = 0;
        host.setting.spacing = 0;
        for (int d = 0; d < WKO_LEVELS; d++)
            host.setting.table[d] = (int16_t)(25 - 25 * d);
    }
    while (host.number < 250)
        if (round_of(&link, &host)) {
            completed++;
            CHECK(has_each_once(&host), "seed %ld: the log of round %d is not the weak orders of %d", seed, host.number, host.n);
            return;
        }
}

int main(void)
{
    const long runs = 20000;
    for (long seed = 0; seed < runs; seed++)
        run(seed);
    CHECK(completed > runs * 9 / 10, "only %ld rounds were completed", completed);
    CHECK(begun > runs + runs / 10 && crashes > runs / 10 && again > runs / 100, "%ld rounds, %ld crashes, %ld measured again", begun, crashes, again);
    printf("hosts: %ld rounds completed of %ld begun, %ld crashes, %ld steps measured again\n", completed, begun, crashes, again);
    return report("hosts");
}
