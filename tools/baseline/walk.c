/* The walks of settle, written by hand in C: what the benchmark compares with.

       walk NAME          prints the number of winning policies, up to 1,000,000
       walk settle NAME   prints what settle prints: that number and the policy

   NAME is that of a large sheet of crates/bench, or `-` for a sheet's text on
   standard input, which has to be one that settle does not refuse. */
#include <stdbool.h>
#include <stdint.h>
#include <stdio.h>
#include <stdlib.h>
#include <string.h>

enum { MOST_POSITIONS = 24, MOST_REPORTS = 12, MOST_RULES = 256, LIMIT = 1000000 };

typedef struct {
    uint32_t named, wanted;
} rule;

typedef struct {
    const char *name;
    bool terms;
    uint32_t reports;
    int width;
} large;

static const large LARGE[] = {
    {"interleaved", false, 0x555555, 8},
    {"reports-last", false, 0xfff000, 11},
    {"replies-only", false, 0, 6},
    {"reports-first", false, 0x000fff, 16},
    {"terms", true, 0x000fff, 3},
    {"in-fours", false, 0x0f0f0f, 8},
    {"long-terms", true, 0x000fff, 14},
};

/* The sheet. */
static bool terms;
static uint32_t reports;
static int positions, rule_count;
static rule rules[MOST_RULES];

/* The policy that is searched, at a position counted from 0 and a setting's number. */
static bool policy[MOST_POSITIONS][1 << MOST_REPORTS];

static uint32_t seed = 1;

static uint32_t next_number(void)
{
    seed = seed * 1664525u + 1013904223u;
    return seed >> 16;
}

static void make_sheet(const large *l)
{
    static const uint32_t strides[8] = {1, 5, 7, 11, 13, 17, 19, 23};
    terms = l->terms;
    reports = l->reports;
    positions = MOST_POSITIONS;
    rule_count = MOST_RULES;
    for (int i = 0; i < rule_count; i++) {
        uint32_t place = next_number(), values = next_number();
        rule r = {0, 0};
        for (int k = 0; k < l->width; k++) {
            uint32_t bit = 1u << (place % 24 + k * strides[place / 24 % 8]) % 24;
            r.named |= bit;
            if (values >> k & 1)
                r.wanted |= bit;
        }
        rules[i] = r;
    }
}

static void fail(const char *message)
{
    fprintf(stderr, "%s\n", message);
    exit(1);
}

static const char *read_word(void)
{
    static char word[8];
    if (scanf("%7s", word) != 1)
        fail("the text ends too early");
    return word;
}

static int read_number(int least, int most)
{
    int number;
    if (scanf("%d", &number) != 1 || number < least || number > most)
        fail("no number within the limits where one is wanted");
    return number;
}

static void read_sheet(void)
{
    uint32_t bit_of[MOST_POSITIONS + 1] = {0};
    while (strcmp(read_word(), "c") == 0)
        for (int c = 0; c != '\n' && c != EOF;)
            c = getchar();
    terms = strcmp(read_word(), "dnf") == 0;
    positions = read_number(1, MOST_POSITIONS);
    rule_count = read_number(0, MOST_RULES);
    for (int named = 0; named < positions;) {
        bool report = strcmp(read_word(), "a") == 0;
        int variable;
        while ((variable = read_number(0, positions)) != 0) {
            uint32_t bit = 1u << named++;
            bit_of[variable] = bit;
            if (report)
                reports |= bit;
        }
    }
    for (int i = 0; i < rule_count; i++) {
        int literal;
        while ((literal = read_number(-positions, positions)) != 0) {
            uint32_t bit = bit_of[abs(literal)];
            rules[i].named |= bit;
            if (literal > 0)
                rules[i].wanted |= bit;
        }
    }
}

static bool clauses_broken(int length, uint32_t line)
{
    uint32_t decided = (1u << length) - 1;
    for (int i = 0; i < rule_count; i++)
        if ((rules[i].named & (line ^ rules[i].wanted) & decided) == rules[i].named)
            return true;
    return false;
}

static bool terms_broken(int length, uint32_t line)
{
    uint32_t decided = (1u << length) - 1;
    for (int i = 0; i < rule_count; i++)
        if ((rules[i].named & (line ^ rules[i].wanted) & decided) == 0)
            return false;
    return true;
}

static bool broken(int length, uint32_t line)
{
    return terms ? terms_broken(length, line) : clauses_broken(length, line);
}

static uint32_t cut(uint64_t count)
{
    return count > LIMIT ? LIMIT : (uint32_t)count;
}

static uint32_t count_policies(void)
{
    uint32_t cells[MOST_POSITIONS], line = 0, worth = 0;
    int length = 0;
    bool known = false;
    for (;;) {
        if (!known) {
            if (broken(length, line)) {
                worth = 0;
                known = true;
            } else if (length == positions) {
                worth = 1;
                known = true;
            } else {
                uint32_t bit = 1u << length++;
                line = reports & bit ? line & ~bit : line | bit;
            }
            continue;
        }
        if (length == 0)
            return worth;
        uint32_t bit = 1u << (length - 1);
        bool report = reports & bit;
        if (((line & bit) != 0) == report) {
            uint64_t first = cells[--length];
            worth = report ? cut(first * worth) : cut(first + worth);
        } else if (report ? worth == 0 : worth == LIMIT) {
            length--;
        } else {
            cells[length - 1] = worth;
            line = report ? line | bit : line & ~bit;
            known = false;
        }
    }
}

/* Whether some policy wins from the first `start` values of `line`. A branch that
   alters nothing by its worth is not walked, so no worth has to be kept. */
static bool winnable(int start, uint32_t line)
{
    int length = start;
    bool known = false, won = false;
    for (;;) {
        if (!known) {
            if (broken(length, line)) {
                won = false;
                known = true;
            } else if (length == positions) {
                won = true;
                known = true;
            } else {
                uint32_t bit = 1u << length++;
                line = reports & bit ? line & ~bit : line | bit;
            }
            continue;
        }
        if (length == start)
            return won;
        uint32_t bit = 1u << (length - 1);
        bool report = reports & bit, second = ((line & bit) != 0) == report;
        if (second || won != report) {
            length--;
        } else {
            line ^= bit;
            known = false;
        }
    }
}

static int reports_before(int position)
{
    return __builtin_popcount(reports & ((1u << position) - 1));
}

/* Goes through the settings of all reports in rising number. A point is met first in
   the setting where every report after it is off. */
static void search_policy(void)
{
    int report_count = reports_before(positions);
    for (uint32_t setting = 0; setting < 1u << report_count; setting++) {
        uint32_t line = 0;
        int after = report_count;
        for (int k = 0; k < positions; k++) {
            uint32_t bit = 1u << k;
            bool on;
            if (reports & bit) {
                on = setting >> --after & 1;
            } else {
                bool *value = &policy[k][setting >> after];
                if ((setting & ((1u << after) - 1)) == 0)
                    *value = winnable(k + 1, line | bit);
                on = *value;
            }
            if (on)
                line |= bit;
        }
    }
}

static void print_policy(void)
{
    for (int k = 0; k < positions; k++)
        if (!(reports & 1u << k))
            for (uint32_t setting = 0; setting < 1u << reports_before(k); setting++)
                printf("%d %u %s\n", k + 1, setting, policy[k][setting] ? "on" : "off");
}

static bool find_sheet(const char *name)
{
    if (strcmp(name, "-") == 0) {
        read_sheet();
        return true;
    }
    for (size_t i = 0; i < sizeof LARGE / sizeof LARGE[0]; i++)
        if (strcmp(name, LARGE[i].name) == 0) {
            make_sheet(&LARGE[i]);
            return true;
        }
    return false;
}

int main(int argc, char **argv)
{
    bool settle = argc == 3 && strcmp(argv[1], "settle") == 0;
    if (!(settle || argc == 2) || !find_sheet(argv[argc - 1]))
        fail("usage: walk [settle] NAME, the name of a large sheet or -");
    uint32_t count = count_policies();
    if (!settle) {
        printf("%u\n", count);
        return 0;
    }
    printf("policies %u\n", count);
    if (count > 0) {
        search_policy();
        print_policy();
    }
    return 0;
}
