/* Prints the deepest use of the stack by each call: it runs on a stack that was painted, and what lost its paint is counted. */
#include "pintleapple.h"

#include <pthread.h>
#include <stdio.h>
#include <stdlib.h>
#include <string.h>

enum { STACK_BYTES = 1 << 20, PAINT = 0xa5 };

static uint8_t *painted;
static uint8_t levels[64];
static uint32_t answer[4], picks[64], totals[6];
static char table[8192];

/* elements in one another, with each label in turn, and their closings */
static uint8_t tags[64];

static const char labels[] = "labels\ta\tb\tc\td\te\tf\tg\th\ti\tj\tk\tl\tm\tn\to\tp\n";
static const char *query;
static uint32_t selector, refused;

static void *nothing(void *unused)
{
    return unused;
}

static void *grade_path(void *unused)
{
    refused = pintleapple_grade_path((const uint8_t *)labels, sizeof labels - 1, (const uint8_t *)query, strlen(query), answer, 4);
    return unused;
}

static void *grade_table(void *unused)
{
    refused = pintleapple_grade_table((const uint8_t *)table, strlen(table), answer, 4);
    return unused;
}

static void *pick_path(void *unused)
{
    refused = pintleapple_pick_path((const uint8_t *)labels, sizeof labels - 1, (const uint8_t *)query, strlen(query), selector, 64,
                                    levels, sizeof levels, tags, sizeof tags, picks, 64, totals, 6);
    return unused;
}

static void *pick_table(void *unused)
{
    refused = pintleapple_pick_table((const uint8_t *)table, strlen(table), selector, 64,
                                     levels, sizeof levels, tags, sizeof tags, picks, 64, totals, 6);
    return unused;
}

/* how many bytes of a painted stack a thread with this body changes */
static size_t used(void *(*body)(void *))
{
    pthread_attr_t attributes;
    pthread_t thread;
    size_t low = 0;

    memset(painted, PAINT, STACK_BYTES);
    pthread_attr_init(&attributes);
    if (pthread_attr_setstack(&attributes, painted, STACK_BYTES) || pthread_create(&thread, &attributes, body, NULL))
        exit(2);
    pthread_join(thread, NULL);
    pthread_attr_destroy(&attributes);
    while (low < STACK_BYTES && painted[low] == PAINT)
        low++;
    return STACK_BYTES - low;
}

/* the call, the query, the number returned, and the bytes */
static void report(const char *call, const char *what, void *(*body)(void *))
{
    size_t bytes = used(body) - used(nothing);

    printf("%s\t%s\t%u\t%zu\n", call, what, (unsigned)refused, bytes);
}

static void report_picks(const char *what, void *(*body)(void *))
{
    static const char *const calls[] = {"pick by the least", "pick by registerless", "pick by stackless", "pick by the stack"};

    for (selector = 0; selector < 4; selector++)
        report(calls[selector], what, body);
}

/* 32 states and 16 labels, all in one component: each label leads to another state */
static void write_table(void)
{
    char *end = table + sprintf(table, "%sstates\t32\t0\n", labels);

    for (int state = 0; state < 32; state++) {
        end += sprintf(end, "row\t%d\t%s", state, state == 31 ? "yes" : "no");
        for (int label = 0; label < 16; label++)
            end += sprintf(end, "\t%d", (state * 5 + label * 7 + 1) % 32);
        *end++ = '\n';
    }
    *end = '\0';
}

int main(void)
{
    static const char *const paths[] = {"/a//b", "//a//b", "//a/b", "//a/*/*/*/*"};

    if (posix_memalign((void **)&painted, 4096, STACK_BYTES))
        return 2;
    for (size_t i = 0; i < sizeof tags / 2; i++) {
        tags[i] = i % 16;
        tags[sizeof tags - 1 - i] = 0x80 | i % 16;
    }
    write_table();
    report("grade", "a table of 32 states", grade_table);
    report_picks("a table of 32 states", pick_table);
    for (size_t i = 0; i < sizeof paths / sizeof paths[0]; i++) {
        query = paths[i];
        report("grade", query, grade_path);
        report_picks(query, pick_path);
    }
    return 0;
}
