/*
 * Reads a text from standard input, looks its first bracket up twice, annotates it by author and year, and prints its items.
 * The index that the first look-up may build is kept, with its note, for the calls after it.
 *
 *     cc -std=c99 -Iinclude examples/c/main.c target/staticlib/libexports.a -o main && ./main < examples/c/entry.txt
 *
 * Status: 0 the text is annotated; 1 the text is refused, and the number is printed (a bracket that is no group refuses only its look-up); 2 the
 * program could not work: it was given an argument, or there was no input, no memory or no output.
 */
#include <stdio.h>
#include <stdlib.h>
#include <string.h>

#include "citations.h"

/* One byte more than a text may have: a longer input is refused by the library, as 1. */
static uint8_t text[CITATIONS_TEXT_MAX + 1];
static size_t length;

/* What is lent to the calls; index, records and note stay with the text from one call to the next. */
static uint8_t note = CITATIONS_NOT_BUILT;
static uint16_t *index_area;
static citations_bracket *records;
static uint16_t *items;
static uint16_t *groups;
static uint16_t *references;
static uint8_t labels[CITATIONS_LABELS_MAX];
static size_t room; /* item records that the text can need */

enum status { ANNOTATED = 0, REFUSED = 1, FAILED = 2 };

static void fail(const char *why)
{
    fprintf(stderr, "%s\n", why);
    exit(FAILED);
}

/* An area of n elements; never null, even for n = 0. */
static void *area(size_t n, size_t element)
{
    void *p = calloc(n == 0 ? 1 : n, element);
    if (p == NULL)
        fail("no memory");
    return p;
}

static enum status refused(const char *call, uint32_t number)
{
    if (number == CITATIONS_NO_ANSWER)
        fail("an answer area is too short: the call did nothing");
    printf("%s: refused %u\n", call, (unsigned)number);
    return REFUSED;
}

/* Prints the part of `bytes` that the pair at `pair` names. */
static void part(const uint8_t *bytes, const uint16_t *pair)
{
    fwrite(bytes + pair[0], 1, pair[1], stdout);
}

static void look_up(size_t at)
{
    uint32_t answer[CITATIONS_LOOK_UP_ANSWER] = {CITATIONS_NO_ANSWER};
    unsigned given = note;

    citations_look_up(text, length, at, note, index_area, length, records, length,
                      items, CITATIONS_ITEM_RECORD * room, answer, CITATIONS_LOOK_UP_ANSWER);
    note = (uint8_t)answer[CITATIONS_LOOK_UP_NOTE]; /* of a refusal too */
    if (answer[CITATIONS_LOOK_UP_NUMBER] != CITATIONS_ACCEPTED) {
        refused("look-up", answer[CITATIONS_LOOK_UP_NUMBER]);
        return;
    }
    printf("look-up at %zu: close %u, items %u, note %u then %u\n", at, (unsigned)answer[CITATIONS_LOOK_UP_CLOSE],
           (unsigned)answer[CITATIONS_LOOK_UP_ITEMS], given, (unsigned)note);
}

static void print_item(const uint16_t *group, const uint16_t *item)
{
    static const char *const standings[] = {"definition", "undefined", "numbered"};

    printf("%u %u %s: ", (unsigned)group[CITATIONS_GROUP], (unsigned)group[CITATIONS_GROUP + 1],
           standings[group[CITATIONS_GROUP_STANDING]]);
    part(text, item + CITATIONS_ITEM_KEY);
    printf(", locator label %u, value '", (unsigned)item[CITATIONS_ITEM_LABEL_CODE]);
    part(text, item + CITATIONS_ITEM_VALUE);
    printf("', suffix '");
    part(text, item + CITATIONS_ITEM_SUFFIX);
    printf("', number %u, label '", (unsigned)item[CITATIONS_ITEM_NUMBER]);
    part(labels, item + CITATIONS_ITEM_LABEL);
    printf("'\n");
}

static enum status annotate(void)
{
    uint32_t answer[CITATIONS_ANNOTATE_ANSWER] = {CITATIONS_NO_ANSWER};
    size_t g, i;

    citations_annotate(text, length, CITATIONS_BY_AUTHOR_YEAR, text, 0 /* no pool */, note, index_area, length, records, length,
                       items, CITATIONS_ITEM_RECORD * room, groups, CITATIONS_GROUP_RECORD * room, references, room,
                       labels, CITATIONS_LABELS_MAX, answer, CITATIONS_ANNOTATE_ANSWER);
    note = (uint8_t)answer[CITATIONS_ANNOTATE_NOTE];
    if (answer[CITATIONS_ANNOTATE_NUMBER] != CITATIONS_ACCEPTED)
        return refused("annotation", answer[CITATIONS_ANNOTATE_NUMBER]);

    printf("groups %u items %u sources %u label bytes %u\n", (unsigned)answer[CITATIONS_ANNOTATE_GROUPS],
           (unsigned)answer[CITATIONS_ANNOTATE_ITEMS], (unsigned)answer[CITATIONS_ANNOTATE_SOURCES],
           (unsigned)answer[CITATIONS_ANNOTATE_LABEL_BYTES]);
    for (g = 0; g < answer[CITATIONS_ANNOTATE_GROUPS]; g++) {
        const uint16_t *group = groups + CITATIONS_GROUP_RECORD * g;
        const uint16_t *first = items + CITATIONS_ITEM_RECORD * (size_t)group[CITATIONS_GROUP_FIRST_ITEM];
        for (i = 0; i < group[CITATIONS_GROUP_ITEM_COUNT]; i++)
            print_item(group, first + CITATIONS_ITEM_RECORD * i);
    }
    printf("references:");
    for (i = 0; i < answer[CITATIONS_ANNOTATE_SOURCES]; i++)
        printf(" %u", (unsigned)references[i]);
    printf("\n");
    return ANNOTATED;
}

/* The calls on the text that was read. */
static enum status run(void)
{
    uint32_t size[CITATIONS_SIZE_ANSWER] = {CITATIONS_NO_ANSWER};
    const uint8_t *bracket;
    enum status status;

    citations_size(text, length, size, CITATIONS_SIZE_ANSWER);
    if (size[CITATIONS_SIZE_NUMBER] != CITATIONS_ACCEPTED)
        return refused("size", size[CITATIONS_SIZE_NUMBER]);
    room = size[CITATIONS_SIZE_RECORDS];

    index_area = area(length, sizeof *index_area);
    records = area(length, sizeof *records);
    items = area(CITATIONS_ITEM_RECORD * room, sizeof *items);
    groups = area(CITATIONS_GROUP_RECORD * room, sizeof *groups);
    references = area(room, sizeof *references);

    bracket = memchr(text, '[', length);
    if (bracket != NULL) {
        look_up((size_t)(bracket - text));
        look_up((size_t)(bracket - text));
    }
    status = annotate();

    free(index_area);
    free(records);
    free(items);
    free(groups);
    free(references);
    return status;
}

int main(int count, char **arguments)
{
    enum status status;

    (void)arguments;
    if (count > 1)
        fail("it takes no argument: the text comes from standard input");
    length = fread(text, 1, sizeof text, stdin);
    if (ferror(stdin))
        fail("the input cannot be read");
    status = run();
    if (fflush(stdout) != 0)
        fail("the output cannot be written");
    return status;
}
