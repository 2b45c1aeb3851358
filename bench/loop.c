/* A careful loop in C beside the proved selectors, on the same bytes. Each measured call has a function of its own, whose
 * instructions callgrind counts; the same calls on an empty document are to be taken off. */
#include "../c/pintleapple.h"

#include <stdio.h>
#include <string.h>

#define APART __attribute__((noinline, noclone))

enum { LIMIT = 60, TAGS = 65000, MOST_DEPTH = 50, LABELS = 3 };

/* a table as the loop has it: a target for each state and label, and yes or no for each state */
struct table {
    uint8_t labels, states, start;
    uint8_t targets[32][16];
    uint8_t accepting[32];
};

/* what a reading came to, as the places of `totals` past the first */
struct totals {
    uint32_t offered, picks, openings, all_picks, whole;
};

static const char labels[] = "labels\thold\tair\tdrum\n";
static const char below[] = "//hold//air";
static const char root[] = "/hold//air";

/* state 1 once a hold is open, state 2 at an air below it */
static const struct table below_table = {LABELS, 3, 0, {{1, 0, 0}, {1, 2, 1}, {1, 2, 1}}, {0, 0, 1}};

/* the same where the root is a hold, and else state 2 for good; state 3 at an air below it */
static const struct table root_table = {LABELS, 4, 0, {{1, 2, 2}, {1, 3, 1}, {2, 2, 2}, {1, 3, 1}}, {0, 0, 0, 1}};

static uint8_t document[TAGS + MOST_DEPTH];
static size_t document_len;
static uint8_t stack[LIMIT];
static uint32_t loop_picks[TAGS], picks[TAGS];

/* Refuses what a run refuses, with its numbers, and lists the picks as it does. */
APART static uint32_t c_loop(const struct table *table, uint32_t limit, uint8_t *levels, size_t levels_len,
                             const uint8_t *tags, size_t tags_len, uint32_t *list, size_t list_len, struct totals *totals)
{
    uint32_t depth = 0, openings = 0, picked = 0, refused = 0;
    uint8_t state = table->start, closed = 0;
    size_t i = 0;

    if (tags_len > 0 && (limit == 0 || limit > 65535 || limit > levels_len)) {
        *totals = (struct totals){1, 0, 0, 0, 0};
        return 15;
    }
    while (i < tags_len) {
        uint8_t tag = tags[i++], label = tag & 0x7f;

        if (label >= table->labels) {
            refused = 16;
            break;
        }
        if (tag < 0x80) {
            if (closed) {
                refused = 17;
                break;
            }
            if (depth == limit) {
                refused = 18;
                break;
            }
            if (openings == 1000000) {
                refused = 19;
                break;
            }
            levels[depth++] = state;
            state = table->targets[state][label];
            if (table->accepting[state]) {
                if (picked < list_len)
                    list[picked] = openings;
                picked++;
            }
            openings++;
        } else {
            if (depth == 0) {
                refused = 20;
                break;
            }
            state = levels[--depth];
            if (depth == 0)
                closed = 1;
        }
    }
    *totals = (struct totals){(uint32_t)i, picked, openings, picked, closed};
    return refused;
}

static uint32_t by_loop(const struct table *table, size_t len, struct totals *totals)
{
    return c_loop(table, LIMIT, stack, LIMIT, document, len, loop_picks, TAGS, totals);
}

static uint32_t by_selector(const char *path, uint32_t selector, size_t len, struct totals *totals)
{
    uint32_t places[PINTLEAPPLE_TOTALS_PLACES];
    uint32_t refused = pintleapple_pick_path((const uint8_t *)labels, sizeof labels - 1, (const uint8_t *)path, strlen(path),
                                             selector, LIMIT, stack, LIMIT, document, len, picks, TAGS,
                                             places, PINTLEAPPLE_TOTALS_PLACES);

    *totals = (struct totals){places[1], places[2], places[3], places[4], places[5]};
    return refused;
}

/* one function for each measure: `full` over the document, `empty` over none of it */
#define MEASURED(name, call)                                                    \
    APART uint32_t full_##name(struct totals *totals) { size_t len = document_len; return call; } \
    APART uint32_t empty_##name(struct totals *totals) { size_t len = 0; return call; }

MEASURED(below_loop, by_loop(&below_table, len, totals))
MEASURED(below_stack, by_selector(below, PINTLEAPPLE_STACK, len, totals))
MEASURED(below_stackless, by_selector(below, PINTLEAPPLE_STACKLESS, len, totals))
MEASURED(root_loop, by_loop(&root_table, len, totals))
MEASURED(root_stack, by_selector(root, PINTLEAPPLE_STACK, len, totals))
MEASURED(root_stackless, by_selector(root, PINTLEAPPLE_STACKLESS, len, totals))
MEASURED(root_registerless, by_selector(root, PINTLEAPPLE_REGISTERLESS, len, totals))

/* a document that is the same each time: openings and closings by chance, up to the depth, and at last every closing */
static void write_document(void)
{
    uint8_t names[MOST_DEPTH];
    uint32_t chance = 12345;
    int depth = 0;

    names[depth++] = document[document_len++] = 0;
    while (document_len < TAGS) {
        chance = chance * 1103515245u + 12345u;
        if (depth == 1 || (depth < MOST_DEPTH && (chance >> 16 & 1))) {
            names[depth] = (chance >> 20) % LABELS;
            document[document_len++] = names[depth++];
        } else {
            document[document_len++] = 0x80 | names[--depth];
        }
    }
    while (depth > 0)
        document[document_len++] = 0x80 | names[--depth];
}

static int same(const char *name, uint32_t a, const struct totals *x, uint32_t b, const struct totals *y)
{
    if (a == b && memcmp(x, y, sizeof *x) == 0 && memcmp(loop_picks, picks, sizeof picks) == 0)
        return 1;
    fprintf(stderr, "%s differs from the loop\n", name);
    return 0;
}

#define COMPARED(query, name)                                                   \
    memset(picks, 0, sizeof picks);                                             \
    empty_##query##_##name(&found);                                             \
    number = full_##query##_##name(&found);                                     \
    if (!same(#query " " #name, expected, &counted, number, &found))            \
        return 1;

#define EXPECTED(query)                                                         \
    memset(loop_picks, 0, sizeof loop_picks);                                   \
    empty_##query##_loop(&counted);                                             \
    expected = full_##query##_loop(&counted);

int main(void)
{
    struct totals counted, found;
    uint32_t expected, number;

    write_document();
    EXPECTED(below)
    COMPARED(below, stack)
    COMPARED(below, stackless)
    EXPECTED(root)
    COMPARED(root, stack)
    COMPARED(root, stackless)
    COMPARED(root, registerless)
    printf("%zu\t%u\t%u\n", document_len, (unsigned)expected, (unsigned)counted.picks);
    return 0;
}
