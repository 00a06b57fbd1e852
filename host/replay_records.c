/* Writes the test of the program `replay`: records to the first file named, and what the independent model answers to the second.
 * The two files are kept in crates/replay as stdin and stdout. */
#include "records.h"
#include "reference.h"

/* A whole round, each step sent twice, with a query in the middle and a step past the end. */
static void round_of(int round, int n, int rule, const char *window)
{
    uint64_t count = ref_count(n);
    send(in_round(round, begin(n, rule, -1000, 100, window)), 40, 40);
    for (uint64_t k = 1; k <= count; k++) {
        send(in_round(round, step(k)), 40, 40);
        send(in_round(round, step(k)), 40, 47);
        if (k == count / 2)
            send(in_round(round, query()), 40, 40);
    }
    send(in_round(round, step(count + 1)), 40, 40);
    send(in_round(round, step(count)), 40, 40);
}

static void refusals(void)
{
    send(step(1), 40, 40);                                      /* 10: nothing has begun */
    send(query(), 40, 40);                                      /* 10 */
    send(begin(2, 1, 0, 100, "11"), 40, 39);                    /* 1: nothing changes */
    send(begin(2, 1, 0, 100, "11"), 40, 0);                     /* 1 */
    send(begin(2, 1, 0, 100, "11"), 39, 40);                    /* 2 */
    send(begin(2, 1, 0, 100, "11"), 41, 40);                    /* 2 */
    send(begin(2, 1, 0, 100, "11"), 0, 255);                    /* 2 */
    send(changed(begin(2, 1, 0, 100, "11"), 3, '3'), 40, 40);   /* 3 */
    send(changed(begin(2, 1, 0, 100, "11"), 4, 'b'), 40, 40);   /* 4 */
    send(changed(begin(2, 1, 0, 100, "11"), 3, '2'), 40, 40);   /* 5: WKO2 with round number 0 */
    send(changed(begin(2, 1, 0, 100, "11"), 7, 1), 40, 40);     /* 5 */
    send(changed(begin(2, 1, 0, 100, "11"), 15, 1), 40, 40);    /* 5 */
    send(changed(begin(2, 1, 0, 100, "11"), 20, 1), 40, 40);    /* 5 */
    send(begin(0, 1, 0, 100, "11"), 40, 40);                    /* 6 */
    send(begin(17, 1, 0, 100, "11"), 40, 40);                   /* 6 */
    send(begin(2, 0, 0, 100, "11"), 40, 40);                    /* 7 */
    send(begin(2, 4, 0, 100, "11"), 40, 40);                    /* 7 */
    send(begin(3, 1, 0, 100, "112"), 40, 40);                   /* 8: no rank form */
    send(begin(3, 2, 0, 100, "111"), 40, 40);                   /* 8: no height form */
    send(begin(2, 1, 0, 100, "111"), 40, 40);                   /* 8: an unused byte */
    send(begin(2, 1, -10001, 100, "11"), 40, 40);               /* 9 */
    send(begin(2, 1, 2001, 100, "11"), 40, 40);                 /* 9 */
    send(begin(2, 1, 0, 0, "11"), 40, 40);                      /* 9 */
    send(begin(2, 1, 0, 501, "11"), 40, 40);                    /* 9 */
    send(begin(6, 2, -9501, 500, "000000"), 40, 40);            /* 9: the lowest level */
    send(begin(6, 2, -9500, 500, "000000"), 40, 40);            /* begun */
    send(step(0), 40, 40);                                      /* 11 */
    send(step(2), 40, 40);                                      /* 11 */
    send(changed(step(1), 5, 1), 40, 40);                       /* 5 */
    send(changed(step(1), 39, 1), 40, 40);                      /* 5 */
    send(changed(query(), 8, 1), 40, 40);                       /* 5 */
    send(step(1), 40, 39);                                      /* 1: not stepped */
    send(step(1), 40, 40);                                      /* stepped once */
    send(step(UINT64_MAX), 40, 40);                             /* 11 */
    send(query(), 40, 64);
}

/* WKO2 from a WKO1 round on: a begin frame sent again, and what is of another version or of another round. */
static void versions(void)
{
    send(in_round(1, query()), 40, 40);                                  /* 17: the round is WKO1 */
    send(in_round(1, step(2)), 40, 40);                                  /* 17 */
    send(in_round(1, begin(2, 1, 0, 100, "11")), 40, 39);                /* 1: nothing changes */
    send(in_round(1, begin(2, 1, 0, 100, "11")), 41, 40);                /* 2, as WKA1 */
    send(changed(in_round(1, begin(2, 1, 0, 100, "11")), 4, 0), 40, 40); /* 4 */
    send(in_round(1, begin(2, 1, 0, 100, "12")), 40, 40);                /* begun */
    send(in_round(1, begin(2, 1, 0, 100, "12")), 40, 47);                /* again */
    send(in_round(1, begin(17, 1, 0, 100, "12")), 40, 40);               /* 6 */
    send(in_round(1, begin(2, 4, 0, 100, "12")), 40, 40);                /* 7 */
    send(in_round(1, begin(2, 2, 0, 100, "12")), 40, 40);                /* 8 */
    send(in_round(1, begin(2, 1, 1, 0, "12")), 40, 40);                  /* 9 */
    send(in_round(1, begin(2, 1, 0, 101, "12")), 40, 40);                /* 19: another spacing */
    send(in_round(1, begin(2, 1, 0, 100, "11")), 40, 40);                /* 19: another start */
    send(query(), 40, 40);                                               /* 17: the round is WKO2 */
    send(step(1), 40, 40);                                               /* 17 */
    send(step(7), 40, 40);                                               /* 17 */
    send(changed(step(1), 3, '2'), 40, 40);                              /* 5: round number 0 */
    send(changed(in_round(1, query()), 7, 1), 40, 40);                   /* 5 */
    send(in_round(2, step(1)), 40, 40);                                  /* 18 */
    send(in_round(2, step(7)), 40, 40);                                  /* 18 */
    send(in_round(1, step(7)), 40, 40);                                  /* 11 */
    send(in_round(1, step(1)), 40, 40);                                  /* stepped once */
    send(in_round(1, begin(2, 1, 0, 100, "12")), 40, 40);                /* 19: a step is done */
    send(in_round(255, begin(2, 1, 0, 100, "12")), 40, 40);              /* begun: another number */
    send(in_round(1, step(1)), 40, 40);                                  /* 18: late */
    send(in_round(255, step(1)), 40, 40);                                /* stepped once */
    send(in_round(1, step(2)), 40, 40);                                  /* 18: late */
    send(in_round(1, query()), 40, 64);                                  /* one step done, round 255 */
    send(begin(2, 1, 0, 100, "12"), 40, 40);                             /* begun: WKO1 may at any time */
    send(in_round(255, step(1)), 40, 40);                                /* 17 */
    send(step(1), 40, 40);                                               /* stepped once */
    send(in_round(255, begin(2, 1, 0, 100, "12")), 40, 40);              /* begun: the number is free */
}

int main(int argc, char **argv)
{
    if (!open_files(argc, argv))
        return 2;
    refusals();
    round_of(0, 1, 1, "1");
    round_of(0, 1, 2, "0");
    round_of(0, 3, 1, "111");
    round_of(0, 3, 2, "201");
    round_of(0, 3, 3, "000");
    versions();
    round_of(1, 1, 1, "1");
    round_of(2, 3, 1, "111");
    round_of(3, 3, 2, "201");
    round_of(255, 3, 3, "000");
    for (int k = 0; k <= 19; k++)
        if (seen[k] == 0 && (k <= 12 || k >= 17)) {
            fprintf(stderr, "no frame came to %d\n", k);
            return 1;
        }
    if (seen_again == 0) {
        fprintf(stderr, "no begin frame came again\n");
        return 1;
    }
    fwrite("\050\050WKO1Q", 1, 7, records); /* a record that is cut off ends the run */
    return fclose(records) || fclose(answers);
}
