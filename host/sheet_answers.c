/* Writes the test of the program `sheet_tests`: reads the list of sheets from standard input, in the form that crates/sheet_tests/src/main.rt
 * describes, and prints what document 01, "The printed round", says of each. A sheet is read by one pattern, and then its numbers are
 * judged. The list and the answers are kept in crates/sheet_tests as stdin and stdout. */
#include "reference.h"
#include <regex.h>
#include <stdio.h>
#include <stdlib.h>
#include <string.h>

enum { LONGEST_SHEET = 128, PAGE = 384, LONGEST_LINE = 128 };

#define DECIMAL "(0|[1-9][0-9]{0,5})"
#define SIGNED "(0|-?[1-9][0-9]{0,5})"
static const char two_lines[] =
    "^n rule top spacing start\n" DECIMAL " " DECIMAL " " SIGNED " " DECIMAL " (" DECIMAL "(," DECIMAL "){0,15})\n$";
static regex_t pattern;

struct sheet {
    long n, rule, top, spacing, start[16];
    int count; /* of the start's items */
};

/* Whether the text is a sheet. */
static int read_sheet(char *text, struct sheet *s)
{
    regmatch_t at[6];
    char *p;
    if (strlen(text) > LONGEST_SHEET || regexec(&pattern, text, 6, at, 0) != 0)
        return 0;
    s->n = atol(text + at[1].rm_so);
    s->rule = atol(text + at[2].rm_so);
    s->top = atol(text + at[3].rm_so);
    s->spacing = atol(text + at[4].rm_so);
    s->count = 0;
    for (p = text + at[5].rm_so - 1; *p != '\n';) /* from the space or comma in front of an item to the one behind it */
        s->start[s->count++] = strtol(p + 1, &p, 10);
    return 1;
}

/* Whether the start is a weak order of n in the rule's form, and if so the window. */
static int is_window(const struct sheet *s, uint8_t *w)
{
    if (s->count != s->n)
        return 0;
    for (int i = 0; i < s->count; i++) {
        if (s->start[i] > 255)
            return 0;
        w[i] = (uint8_t)s->start[i];
    }
    return ref_in_form((int)s->rule, w, (int)s->n);
}

/* Tests 6 to 9: 0, or the number of the first that fails. */
static int refusal(const struct sheet *s, uint8_t *w)
{
    if (s->n < 1 || s->n > 8)
        return 6;
    if (s->rule < 1 || s->rule > 3)
        return 7;
    if (!is_window(s, w))
        return 8;
    return ref_setting_ok((int)s->n, s->top, s->spacing) ? 0 : 9;
}

/* The lines of a round, as many as a page takes: one more while the longest has room. */
static void print_page(const struct sheet *s, uint8_t *w)
{
    int n = (int)s->n, rule = (int)s->rule, room = PAGE;
    for (uint64_t k = 1; k <= ref_count(n) && room >= LONGEST_LINE; k++) {
        ref_step(rule, w, n);
        room -= printf("%d %d %ld ", (int)k, w[n - 1], ref_level(rule, s->top, s->spacing, w[n - 1]));
        for (int i = 0; i < n; i++)
            room -= printf("%d%c", w[i], i < n - 1 ? ',' : '\n');
    }
}

static void answer(char *text)
{
    struct sheet s;
    uint8_t w[16];
    int number = read_sheet(text, &s) ? refusal(&s, w) : 14;
    if (number != 0) {
        printf("refused\n%d\n", number);
        return;
    }
    printf("step symbol level window\n");
    print_page(&s, w);
}

/* What stands before the next `#`, or NULL at the end. */
static char *next_part(void)
{
    char *part = NULL;
    size_t room = 0;
    ssize_t len = getdelim(&part, &room, '#', stdin);
    if (len < 1 || part[len - 1] != '#') {
        free(part);
        return NULL;
    }
    part[len - 1] = 0;
    return part;
}

int main(void)
{
    char *name, *text;
    if (regcomp(&pattern, two_lines, REG_EXTENDED) != 0)
        return 2;
    while ((name = next_part()) != NULL && (text = next_part()) != NULL) {
        printf("-- %s\n", name);
        answer(text);
        getchar(); /* the line feed behind the text's mark */
        free(name);
        free(text);
    }
    free(name);
    regfree(&pattern);
    return 0;
}
