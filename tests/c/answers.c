/*
 * The area `answer`, seen from C: a call with a shorter one does nothing, and what it has beyond its length stays as it was.
 * Valid as C99 and as C++, so that the header is linked from both. Prints one line for each failure, and `ok` where there is none.
 */
#include <stdio.h>
#include <string.h>

#include "citations.h"

/* One group of one item, whose key is defined by the pool: one item record, group record, reference, and label byte. */
static const uint8_t text[] = {'[', '@', 'a', ']'};
/* One entry, id `a`, title `T`: its source text is `T.`. */
static const uint8_t pool[] = {1, 0, 6, 0, 8, 0, 1, 1, 0, 'a', 8, 1, 0, 'T'};

#define TEXT text, sizeof text
#define POOL pool, sizeof pool
#define LONGEST 8

/* Every area of a call, so that one comparison sees all that was touched. */
static struct areas {
    uint16_t index[sizeof text];
    citations_bracket records[sizeof text];
    uint16_t items[2 * CITATIONS_ITEM_RECORD];
    uint16_t groups[2 * CITATIONS_GROUP_RECORD];
    uint16_t references[2];
    uint8_t labels[4];
    uint8_t area[4];
    uint32_t answer[LONGEST];
} lent, before;

#define AREA(name) lent.name, sizeof lent.name / sizeof lent.name[0]

static int failures;

static void expect(int holds, const char *call, size_t length, const char *what)
{
    if (!holds) {
        printf("%s, answer of %u: %s\n", call, (unsigned)length, what);
        failures++;
    }
}

static void look_up(size_t length)
{
    citations_look_up(TEXT, 0, 0, AREA(index), AREA(records), AREA(items), lent.answer, length);
}

static void annotate(size_t length)
{
    citations_annotate(TEXT, 0, POOL, 0, AREA(index), AREA(records), AREA(items), AREA(groups), AREA(references), AREA(labels),
                       lent.answer, length);
}

static void size(size_t length)
{
    citations_size(TEXT, lent.answer, length);
}

static void locator(size_t length)
{
    citations_locator(TEXT, lent.answer, length);
}

static void source_text(size_t length)
{
    citations_source_text(POOL, 0, AREA(area), lent.answer, length);
}

/* Calls with each length of `answer`; from `least` on the numbers and the values of `wanted` stand in it, and nothing behind them. */
static void with_lengths(const char *name, void (*call)(size_t), size_t least, const uint32_t *wanted)
{
    size_t length;
    for (length = 0; length <= LONGEST; length++) {
        memset(&lent, 0xA5, sizeof lent);
        before = lent;
        call(length);
        if (length < least) {
            expect(memcmp(&lent, &before, sizeof lent) == 0, name, length, "something was touched");
        } else {
            expect(memcmp(lent.answer, wanted, least * sizeof *wanted) == 0, name, length, "another answer");
            expect(memcmp(lent.answer + least, before.answer + least, (LONGEST - least) * sizeof *wanted) == 0, name, length,
                   "the rest of answer was touched");
        }
    }
}

int main(void)
{
    static const uint32_t looked_up[] = {0, 3, 1, 0};
    static const uint32_t annotated[] = {0, 1, 1, 1, 1, 0};
    static const uint32_t sized[] = {0, 1};
    static const uint32_t located[] = {0, 0, 0, 0, 0, 4};
    static const uint32_t written[] = {0, 2};

    expect(sizeof(citations_bracket) == 8, "layout", 0, "a bracket record is not four u16");
    with_lengths("look_up", look_up, CITATIONS_LOOK_UP_ANSWER, looked_up);
    with_lengths("annotate", annotate, CITATIONS_ANNOTATE_ANSWER, annotated);
    with_lengths("size", size, CITATIONS_SIZE_ANSWER, sized);
    with_lengths("locator", locator, CITATIONS_LOCATOR_ANSWER, located);
    with_lengths("source_text", source_text, CITATIONS_SOURCE_TEXT_ANSWER, written);
    expect(memcmp(lent.area, "T.\245\245", 4) == 0, "source_text", LONGEST, "another text");
    if (failures == 0)
        printf("ok\n");
    return failures != 0;
}
