/* Pintleapple for firmware: grades queries, and picks elements out of packed documents.
 *
 * Four functions on numbers and lent memory. They keep nothing between calls, use no heap, call nothing but memcpy and
 * memset, and return on every input. Memory is lent as a pointer and then a count: of bytes for uint8_t, of places for
 * uint32_t. What the caller owes: no pointer is null, also where the count is 0; each points at as many readable (and,
 * without `const`, writable) places; and memory that is lent without `const` overlaps nothing else that is lent.
 *
 * A query is a table text, or a label line and a path:
 *
 *     labels<TAB>hold<TAB>air<NEWLINE>      and      //hold//air
 *
 * Every function returns the number of its outcome:
 *
 *     0    all went well
 *     1    a text, or the packed document, is longer than 65,536 bytes
 *     2    the label line or the table text is empty or does not end with a newline
 *     3    the first field of the label line is not `labels`
 *     4    a name breaks the rule for names
 *     5    there is no name, or there are more than 16
 *     6    a name stands twice
 *     7    the path is empty or longer than 200 bytes
 *     8    the path is not a list of steps
 *     9    the path has more than 15 steps
 *     10   the path reaches more than 32 position sets
 *     11   the `states` line is missing or malformed, its count is not 1 to 32, or its start is not below the count
 *     12   a row is malformed, out of order, missing, left over, or has a target that is not below the count; or a line
 *          follows the label line of a path
 *     13   the registerless selector is asked for, and the query needs more
 *     14   the stackless selector is asked for, and the query needs a stack
 *     15   the limit is 0, above 65,535, or above what the selector can follow
 *     16   a tag's label is not below the number of labels
 *     17   an element opens after the root was closed
 *     18   an element opens at the depth that is the limit
 *     19   an element opens after 1,000,000 others
 *     20   an element closes where none is open
 *     254  no selector has the number that is asked for
 *     255  `answer` or `totals` has too few places
 *
 * Where several fit: 255 goes first, then 254, then 1 to 12 for the query, 13 and 14, 1 for the document, and then
 * the first tag that is refused, with 15 to 20.
 */
#ifndef PINTLEAPPLE_H
#define PINTLEAPPLE_H

#include <stddef.h>
#include <stdint.h>

#ifdef __cplusplus
extern "C" {
#endif

enum {
    PINTLEAPPLE_TOO_FEW_PLACES = 255,
    PINTLEAPPLE_NO_SUCH_SELECTOR = 254
};

/* Selectors, as they are asked for and as `totals` names them; `totals` never has 0. */
enum {
    PINTLEAPPLE_LEAST = 0,        /* the first of these three that serves the query */
    PINTLEAPPLE_REGISTERLESS = 1, /* remembers one state */
    PINTLEAPPLE_STACKLESS = 2,    /* a state, a depth, and a few notes */
    PINTLEAPPLE_STACK = 3         /* a state, and a byte of lent memory for each level */
};

/* The places of `answer`. */
enum {
    PINTLEAPPLE_GRADE = 0,      /* the least selector that serves: 1 registerless, 2 stackless, 3 neither, so the stack */
    PINTLEAPPLE_STATES = 1,     /* the states of the query's minimal table */
    PINTLEAPPLE_COMPONENTS = 2, /* its components: groups of states that lead to one another */
    PINTLEAPPLE_NOTES = 3,      /* the most notes that the stackless selector holds; at grade 3 PINTLEAPPLE_NO_NOTES */
    PINTLEAPPLE_ANSWER_PLACES = 4
};

#define PINTLEAPPLE_NO_NOTES UINT32_C(0xffffffff)

/* The places of `totals`. */
enum {
    PINTLEAPPLE_SELECTOR = 0,    /* the selector that ran: 1, 2 or 3 */
    PINTLEAPPLE_OFFERED = 1,     /* the tags that were offered to it, a refused one counted */
    PINTLEAPPLE_DRAIN_PICKS = 2, /* the picks of the reading, also those that `picks` had no place for */
    PINTLEAPPLE_OPENINGS = 3,    /* the elements that were opened */
    PINTLEAPPLE_ALL_PICKS = 4,   /* the picks of the run: one reading here, so the same number */
    PINTLEAPPLE_WHOLE = 5,       /* 1 where the root was closed, else 0 */
    PINTLEAPPLE_TOTALS_PLACES = 6
};

/* Grade a query: the table of a table text, or that of a path over the names of a label line.
 *
 * On 0 the first four places of `answer` are written, and those past them stay. On any other number `answer` is unchanged.
 */
uint32_t pintleapple_grade_table(const uint8_t *text, size_t text_len,
                                 uint32_t *answer, size_t answer_len);

uint32_t pintleapple_grade_path(const uint8_t *labels, size_t labels_len,
                                const uint8_t *path, size_t path_len,
                                uint32_t *answer, size_t answer_len);

/* Read a packed document once, and pick the elements whose path the query accepts.
 *
 * selector  what is asked for: 0 the least that serves, 1 registerless, 2 stackless, 3 stack
 * limit     the depth that no element may pass: 1 to 65,535, and with the stack selector at most `stack_len`
 * stack     scratch memory of the stack selector, a byte for each level. Its contents before do not matter, and nothing is
 *           promised of them afterwards where that selector ran. Where another ran, it is unchanged
 * tags      the document: a byte for each tag. The low seven bits are the label, by its place in the label line from 0; the
 *           high bit marks a closing
 * picks     the numbers of the picked elements, counted from 0 as they open, from the first place on, as many as fit; places
 *           past them stay
 * totals    six numbers, as above; places past the sixth stay
 *
 * On 254, 255, 1 to 14, and 1 for the document, no run began, and `stack`, `picks` and `totals` are unchanged. On 0 and on
 * 15 to 20 a run began, and `picks` and `totals` tell how far it came. They are right of every document in which each
 * closing bears the label of the element that it closes. No call tests that.
 */
uint32_t pintleapple_pick_table(const uint8_t *text, size_t text_len,
                                uint32_t selector, uint32_t limit,
                                uint8_t *stack, size_t stack_len,
                                const uint8_t *tags, size_t tags_len,
                                uint32_t *picks, size_t picks_len,
                                uint32_t *totals, size_t totals_len);

uint32_t pintleapple_pick_path(const uint8_t *labels, size_t labels_len,
                               const uint8_t *path, size_t path_len,
                               uint32_t selector, uint32_t limit,
                               uint8_t *stack, size_t stack_len,
                               const uint8_t *tags, size_t tags_len,
                               uint32_t *picks, size_t picks_len,
                               uint32_t *totals, size_t totals_len);

#ifdef __cplusplus
}
#endif

#endif
