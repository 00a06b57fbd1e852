/* Writes the test of the program `replay_events`: records to the first file named, and what the independent model answers to the second.
 * The two files are kept in crates/replay_events as stdin and stdout. A record is F and a record of `replay`, or L, the length of a level file in
 * two bytes, little-endian, and the file; that is answered by one byte, 0 or 16. */
#include "records.h"
#include "reference.h"

static int seen_loads[2];

/* A frame of 40 bytes, or of another length. */
static void event(const uint8_t *f, size_t frame_len, size_t answer_len)
{
    fputc('F', records);
    send(f, frame_len, answer_len);
}

static void load(const void *file, size_t len)
{
    int number = model_load(&session, file, len);
    seen_loads[number != 0]++;
    fputc('L', records);
    fputc((int)(len % 256), records);
    fputc((int)(len / 256), records);
    fwrite(file, 1, len, records);
    fputc(number, answers);
}

/* No two have a level in common in the same place; the file of the last is as long as one can be. */
static const int16_t tables[3][WKO_LEVELS] = {
    {2000, 1975, 1000, 25, 0, -25, -100, -1000, -2500, -9975, -10000, -10500, -11000, -11500, -11950, -11975},
    {-100, -225, -350, -1000, -1025, -3000, -3025, -4000, -5000, -6000, -7000, -8000, -9000, -10025, -11025, -12000},
    {-10025, -10050, -10075, -10100, -10200, -10300, -10400, -10525, -10600, -10700, -10800, -10900, -11100, -11200, -11300, -11400}};

static void load_table(int which)
{
    char file[REF_FILE + 1];
    size_t len = ref_write_table(tables[which], file);
    load(file, len);
}

/* The file of the first table with a piece of it written otherwise, each refused. */
static void load_bad(int which)
{
    static const char *const edits[][2] = {
        {"15 -11975\n", ""},          {"15 -11975\n", "15 -11975\n16 -12000\n"}, {"15 -11975\n", "15 -11975"}, {"d level\n", ""},
        {"d level\n", "D level\n"},   {"4 0\n", "4 -0\n"},                       {"3 25\n", "3 025\n"},        {"3 25\n", "3  25\n"},
        {"3 25\n", "3 25\r\n"},       {"3 25\n", "3 0\n"},                       {"2 1000\n", "2 1005\n"},     {"0 2000\n", "0 2025\n"},
        {"0 2000\n", "0 67536\n"},    {"15 -11975\n", "15 -12025\n"},            {"3 25\n4 0\n", "4 0\n3 25\n"}};
    const char *const *edit = edits[(size_t)which % (sizeof edits / sizeof *edits)];
    char good[REF_FILE + 1], file[REF_FILE + 1], *at;
    ref_write_table(tables[0], good);
    at = strstr(good, edit[0]);
    *at = 0;
    load(file, (size_t)snprintf(file, sizeof file, "%s%s%s", good, edit[1], at + strlen(edit[0])));
}

/* The longest good file, and it again with spaces behind. */
static void lengths(void)
{
    static const size_t lens[] = {0, 157, 158, 159, 512, 513, 5000};
    char file[5000];
    memset(file, ' ', sizeof file);
    file[ref_write_table(tables[2], file)] = ' ';
    for (size_t k = 0; k < sizeof lens / sizeof *lens; k++)
        load(file, lens[k]);
}

/* A begin frame asks for a table, and there is none. */
static void none_held(void)
{
    event(query(), 40, 40);                      /* 10: nothing has begun */
    event(begin(3, 1, 0, 0, "111"), 40, 40);     /* 9 */
    load_bad(0);                                 /* 16 */
    event(begin(3, 1, 0, 0, "111"), 40, 40);     /* 9 */
    event(step(1), 40, 40);                      /* 10 */
}

/* A round on a table: each step is sent twice, with another table, or the same again, and a bad file between. Then one begins on the table that
 * was loaded last, and is left. */
static void table_round(int rule, const char *window)
{
    load_table(rule - 1);
    event(begin(3, rule, 0, 0, window), 40, 39); /* 1: nothing changes */
    event(begin(3, rule, 0, 0, window), 39, 40); /* 2 */
    event(begin(3, rule, 0, 0, window), 40, 40);
    for (int k = 1; k <= 13; k++) {
        event(step((uint64_t)k), 40, 40);
        load_table(k % 3);
        event(step((uint64_t)k), 40, 47);
        load_bad(k + rule);
        if (k == 6)
            event(query(), 40, 40);
    }
    event(begin(3, rule, 25, 0, window), 40, 40); /* 9: another top */
    event(step(14), 40, 40);                      /* 12 */
    event(step(15), 40, 40);                      /* 11 */
    event(step(13), 40, 40);
    event(begin(3, rule, 0, 0, window), 40, 40);
    event(step(1), 40, 40);
}

/* A round of even spacing keeps the table that is held, and takes no level from it. */
static void even_round(int top, int spacing)
{
    event(begin(2, 1, top, spacing, "11"), 40, 40);
    for (int k = 1; k <= 3; k++) {
        event(step((uint64_t)k), 40, 40);
        load_table(k % 3);
    }
    event(begin(2, 2, 0, 0, "00"), 40, 40); /* on the table that was loaded last */
    event(step(1), 40, 40);
}

/* A WKO2 round on a table, with the begin frame sent again when another table is loaded, and steps of the round before that come late. */
static void numbered_round(int round, int rule, const char *window)
{
    load_table(rule - 1);
    event(in_round(round, begin(3, rule, 0, 0, window)), 40, 40);
    load_table(rule % 3);
    event(in_round(round, begin(3, rule, 0, 0, window)), 40, 47);  /* again: the copy stays */
    event(in_round(round, begin(3, rule, 0, 25, window)), 40, 40); /* 19: another spacing */
    event(in_round(round, begin(3, rule, 25, 0, window)), 40, 40); /* 9: another top */
    for (int k = 1; k <= 13; k++) {
        event(in_round(round - 1, step((uint64_t)k)), 40, 40); /* 18: late */
        event(in_round(round, step((uint64_t)k)), 40, 40);
        load_table(k % 3);
        event(in_round(round, step((uint64_t)k)), 40, 47);
        load_bad(k + rule);
        event(step((uint64_t)k), 40, 40); /* 17 */
    }
    event(in_round(round, begin(3, rule, 0, 0, window)), 40, 40); /* 19: steps are done */
    event(in_round(round, step(14)), 40, 40);                     /* 12 */
    event(in_round(round, query()), 40, 40);
}

/* Whether each number that is meant to come has come, and a begin frame again. */
static int all_seen(void)
{
    static const int numbers[] = {0, 1, 2, 9, 10, 11, 12, 17, 18, 19};
    for (size_t k = 0; k < sizeof numbers / sizeof *numbers; k++)
        if (seen[numbers[k]] == 0)
            return 0;
    return seen_loads[0] > 0 && seen_loads[1] > 0 && seen_again > 0;
}

int main(int argc, char **argv)
{
    if (!open_files(argc, argv))
        return 2;
    none_held();
    lengths();
    table_round(1, "111");
    even_round(-1000, 100);
    table_round(2, "201");
    even_round(0, 25);
    numbered_round(2, 1, "111");
    numbered_round(3, 2, "201");
    table_round(3, "000");
    numbered_round(255, 3, "000");
    if (!all_seen()) {
        fprintf(stderr, "event_records: a number is missing\n");
        return 1;
    }
    fwrite("L\236", 1, 2, records); /* a record that is cut off ends the run */
    return fclose(records) || fclose(answers);
}
