/* Grades //hold//air over the labels of a file, and picks its elements out of a small packed document. */
#include "pintleapple.h"

#include <stdio.h>

#define OPEN(label) (label)
#define CLOSE(label) (0x80 | (label))

/* the names of the label line, by their places */
enum { BLEND, STAGE, STEP, HOLD, AIR, DRUM, BURNER };

static const uint8_t path[] = "//hold//air";
enum { PATH_LEN = sizeof path - 1 };

/* two air in a hold, the second one step deeper, and one that is in none */
static const uint8_t roast[] = {
    OPEN(BLEND), OPEN(STAGE),
    OPEN(HOLD), OPEN(AIR), CLOSE(AIR), OPEN(STEP), OPEN(AIR), CLOSE(AIR), CLOSE(STEP), CLOSE(HOLD),
    OPEN(STEP), OPEN(AIR), CLOSE(AIR), CLOSE(STEP),
    CLOSE(STAGE), CLOSE(BLEND),
};

/* as many levels as this controller follows, and as many picks as it acts on */
static uint8_t stack[16];
static uint32_t picks[8];

static void grade(const uint8_t *labels, size_t labels_len)
{
    uint32_t answer[PINTLEAPPLE_ANSWER_PLACES];
    uint32_t refused = pintleapple_grade_path(labels, labels_len, path, PATH_LEN, answer, PINTLEAPPLE_ANSWER_PLACES);

    printf("grade\t%u\n", (unsigned)refused);
    if (refused)
        return;
    printf("  grade\t%u\n  states\t%u\n", (unsigned)answer[PINTLEAPPLE_GRADE], (unsigned)answer[PINTLEAPPLE_STATES]);
    printf("  components\t%u\n", (unsigned)answer[PINTLEAPPLE_COMPONENTS]);
    if (answer[PINTLEAPPLE_NOTES] == PINTLEAPPLE_NO_NOTES)
        printf("  notes\tnone serve\n");
    else
        printf("  notes\t%u\n", (unsigned)answer[PINTLEAPPLE_NOTES]);
}

static void pick(const char *name, const uint8_t *labels, size_t labels_len, uint32_t selector, uint32_t limit)
{
    uint32_t totals[PINTLEAPPLE_TOTALS_PLACES] = {0};
    uint32_t refused = pintleapple_pick_path(labels, labels_len, path, PATH_LEN, selector, limit, stack, sizeof stack,
                                             roast, sizeof roast, picks, sizeof picks / sizeof picks[0],
                                             totals, PINTLEAPPLE_TOTALS_PLACES);

    printf("%s\t%u\n", name, (unsigned)refused);
    if (totals[PINTLEAPPLE_SELECTOR] == 0)
        return; /* no run began */
    printf("  selector\t%u\n  offered\t%u\n", (unsigned)totals[PINTLEAPPLE_SELECTOR], (unsigned)totals[PINTLEAPPLE_OFFERED]);
    for (uint32_t i = 0; i < totals[PINTLEAPPLE_DRAIN_PICKS] && i < sizeof picks / sizeof picks[0]; i++)
        printf("  pick\t%u\n", (unsigned)picks[i]);
    printf("  openings\t%u\n  picks\t%u\n", (unsigned)totals[PINTLEAPPLE_OPENINGS], (unsigned)totals[PINTLEAPPLE_ALL_PICKS]);
    printf("  whole\t%s\n", totals[PINTLEAPPLE_WHOLE] ? "yes" : "no");
}

int main(int argc, char **argv)
{
    static uint8_t labels[256];
    FILE *file = argc == 2 ? fopen(argv[1], "rb") : NULL;
    size_t labels_len;

    if (!file) {
        fprintf(stderr, "usage: example LABELS\n");
        return 2;
    }
    labels_len = fread(labels, 1, sizeof labels, file);
    fclose(file);
    grade(labels, labels_len);
    pick("least", labels, labels_len, PINTLEAPPLE_LEAST, 16);
    pick("stack", labels, labels_len, PINTLEAPPLE_STACK, 16);
    pick("registerless", labels, labels_len, PINTLEAPPLE_REGISTERLESS, 16);
    pick("shallow", labels, labels_len, PINTLEAPPLE_LEAST, 4);
    pick("no such selector", labels, labels_len, 4, 16);
    return 0;
}
