/*
 * Every constant of include/citations.h, held against what the library answers: each is used in a call, or compared with an answer, so that
 * another value is seen (tests/altered-header tries that). Valid as C99 and as C++. Prints one line for each failure, and `ok` where there
 * is none.
 */
#include <stdio.h>
#include <string.h>

#include "citations.h"

/* Room for the longest text and the longest labels that are tried. Every area is set to SET before a call. */
#define BYTES 70000
#define ITEMS 1000
#define SET 0xA5

static uint8_t text[BYTES], pool[BYTES], labels[BYTES], area[BYTES];
static size_t text_length, pool_length;
static uint16_t index_area[BYTES], items[16 * ITEMS], groups[5 * ITEMS], references[ITEMS];
static citations_bracket records[BYTES];
static uint32_t answer[8];

static int failures;

static void expect(int holds, const char *what)
{
    if (!holds) {
        printf("constants: %s\n", what);
        failures++;
    }
}

/* That the library gave the constant; a failure names it. */
#define SAME(constant, got) expect((unsigned long)(constant) == (unsigned long)(got), #constant)

/* ---- texts and pools ---- */

static void put_text(const char *string)
{
    text_length = strlen(string);
    memcpy(text, string, text_length);
}

static void more_text(const char *string)
{
    size_t n = strlen(string);
    memcpy(text + text_length, string, n);
    text_length += n;
}

static void more_letters(size_t n)
{
    memset(text + text_length, 'x', n);
    text_length += n;
}

/* A pool of one entry, whose fields follow by `field`. */
static void put_pool(void)
{
    static const uint8_t head[6] = {1, 0, 6, 0, 0, 0};
    memcpy(pool, head, sizeof head);
    pool_length = sizeof head;
}

static void field(unsigned tag, const void *bytes, size_t n)
{
    pool[pool_length] = (uint8_t)tag;
    pool[pool_length + 1] = (uint8_t)(n & 255);
    pool[pool_length + 2] = (uint8_t)(n >> 8);
    memcpy(pool + pool_length + 3, bytes, n);
    pool_length += 3 + n;
    pool[4] = (uint8_t)((pool_length - 6) & 255);
    pool[5] = (uint8_t)((pool_length - 6) >> 8);
}

static void word(unsigned tag, const char *string)
{
    field(tag, string, strlen(string));
}

/* ---- calls ---- */

static void set(void)
{
    memset(index_area, SET, sizeof index_area);
    memset(records, SET, sizeof records);
    memset(items, SET, sizeof items);
    memset(groups, SET, sizeof groups);
    memset(references, SET, sizeof references);
    memset(labels, SET, sizeof labels);
    memset(area, SET, sizeof area);
    memset(answer, SET, sizeof answer);
    answer[0] = CITATIONS_NO_ANSWER;
}

static void look_up(size_t at, unsigned note)
{
    citations_look_up(text, text_length, at, (uint8_t)note, index_area, text_length, records, text_length,
                      items, CITATIONS_ITEM_RECORD * ITEMS / 2, answer, CITATIONS_LOOK_UP_ANSWER);
}

static void annotate(unsigned mode)
{
    citations_annotate(text, text_length, (uint8_t)mode, pool, pool_length, 7, index_area, text_length, records, text_length,
                       items, CITATIONS_ITEM_RECORD * ITEMS / 2, groups, CITATIONS_GROUP_RECORD * ITEMS / 2, references, ITEMS,
                       labels, BYTES, answer, CITATIONS_ANNOTATE_ANSWER);
}

static void source_text(size_t entry, size_t area_length)
{
    citations_source_text(pool, pool_length, entry, area, area_length, answer, CITATIONS_SOURCE_TEXT_ANSWER);
}

/* Whether `bytes` begin with the string. */
static int begins(const uint8_t *bytes, const char *string)
{
    return memcmp(bytes, string, strlen(string)) == 0;
}

/* ---- the constants, in the header's order ---- */

static void version(void)
{
    SAME(CITATIONS_VERSION, citations_version_needed());
}

/* An answer that is too short keeps CITATIONS_NO_ANSWER, which is no number of a call. */
static void no_answer(void)
{
    put_text("[@a]");
    set();
    citations_size(text, text_length, answer, CITATIONS_SIZE_ANSWER - 1);
    SAME(CITATIONS_NO_ANSWER, answer[0]);
    SAME(CITATIONS_NO_ANSWER, UINT32_MAX);
}

/* A year of 20 characters and no more than an empty id: the longest source text beside its pool. */
static void longest_source_text(void)
{
    static const uint8_t least_year[8] = {0, 0, 0, 0, 0, 0, 0, 0x80};
    put_pool();
    word(CITATIONS_POOL_ID, "");
    field(CITATIONS_POOL_YEAR, least_year, sizeof least_year);
    set();
    source_text(0, pool_length + CITATIONS_SOURCE_TEXT_MORE);
    SAME(CITATIONS_SOURCE_TEXT_MORE, answer[CITATIONS_SOURCE_TEXT_BYTES] - pool_length);
}

/* A pool of so many bytes, with a title that fills it. */
static uint32_t with_pool_of(size_t n)
{
    put_pool();
    word(CITATIONS_POOL_ID, "a");
    memset(text, 'x', n);
    field(CITATIONS_POOL_TITLE, text, n - pool_length - 3);
    set();
    source_text(0, BYTES);
    return answer[CITATIONS_SOURCE_TEXT_NUMBER];
}

/* Groups whose labels have n bytes: n / 256 by an author of 256 letters, and one by an author of the rest. */
static uint32_t with_labels_of(size_t n)
{
    size_t i;
    put_text("");
    for (i = 0; i < n / 256; i++)
        more_text("[@a] ");
    if (n % 256 != 0)
        more_text("[@b]");
    more_text("\n[@a]: {author=");
    more_letters(256);
    more_text("}\n[@b]: {author=");
    more_letters(n % 256);
    more_text("}");
    pool_length = 0;
    set();
    annotate(CITATIONS_BY_AUTHOR_YEAR);
    return answer[CITATIONS_ANNOTATE_NUMBER];
}

static void limits(void)
{
    text_length = 0;
    more_letters(CITATIONS_TEXT_MAX + 1);
    set();
    citations_size(text, CITATIONS_TEXT_MAX, answer, CITATIONS_SIZE_ANSWER);
    expect(answer[CITATIONS_SIZE_NUMBER] == CITATIONS_ACCEPTED, "CITATIONS_TEXT_MAX: refused");
    citations_size(text, CITATIONS_TEXT_MAX + 1, answer, CITATIONS_SIZE_ANSWER);
    expect(answer[CITATIONS_SIZE_NUMBER] == CITATIONS_TEXT_TOO_LONG, "CITATIONS_TEXT_MAX: a byte more is accepted");

    expect(with_pool_of(CITATIONS_POOL_MAX) == CITATIONS_ACCEPTED, "CITATIONS_POOL_MAX: refused");
    expect(with_pool_of(CITATIONS_POOL_MAX + 1) == CITATIONS_BAD_POOL, "CITATIONS_POOL_MAX: a byte more is accepted");

    expect(with_labels_of(CITATIONS_LABELS_MAX) == CITATIONS_ACCEPTED, "CITATIONS_LABELS_MAX: refused");
    SAME(CITATIONS_LABELS_MAX, answer[CITATIONS_ANNOTATE_LABEL_BYTES]);
    expect(with_labels_of(CITATIONS_LABELS_MAX + 1) == CITATIONS_AREA_TOO_SHORT, "CITATIONS_LABELS_MAX: a byte more is accepted");

    longest_source_text();
}

/* Each number by the example of document 01's table. */
static void numbers(void)
{
    set();
    text_length = 0;
    more_letters(65536);
    citations_size(text, text_length, answer, CITATIONS_SIZE_ANSWER);
    SAME(CITATIONS_TEXT_TOO_LONG, answer[0]);
    put_text("\377");
    citations_size(text, text_length, answer, CITATIONS_SIZE_ANSWER);
    SAME(CITATIONS_TEXT_NOT_UTF8, answer[0]);
    put_text("[@a]");
    citations_size(text, text_length, answer, CITATIONS_SIZE_ANSWER);
    SAME(CITATIONS_ACCEPTED, answer[0]);

    put_text("a");
    look_up(0, 7);
    SAME(CITATIONS_NO_BRACKET, answer[0]);
    put_text("\\[@a]");
    look_up(1, 7);
    SAME(CITATIONS_BRACKET_ESCAPED, answer[0]);
    put_text("[a]");
    look_up(0, 7);
    SAME(CITATIONS_NO_GROUP, answer[0]);

    put_text("[@a]");
    pool_length = 0;
    annotate(2);
    SAME(CITATIONS_BAD_MODE, answer[0]);
    pool[0] = 0;
    pool_length = 1;
    annotate(0);
    SAME(CITATIONS_BAD_POOL, answer[0]);
    pool_length = 0;
    source_text(0, BYTES);
    SAME(CITATIONS_NO_ENTRY, answer[0]);
    citations_look_up(text, text_length, 0, 7, index_area, 3, records, 3, items, 16, answer, CITATIONS_LOOK_UP_ANSWER);
    SAME(CITATIONS_INDEX_TOO_SHORT, answer[0]);
    citations_look_up(text, text_length, 0, 7, index_area, 4, records, 4, items, 15, answer, CITATIONS_LOOK_UP_ANSWER);
    SAME(CITATIONS_AREA_TOO_SHORT, answer[0]);
}

/* A close 64 bytes after its bracket has the index built. An index that holds 0, taken as built, has no group. */
static void notes(void)
{
    put_text("[@");
    more_letters(62);
    more_text("]");
    set();
    look_up(0, 7);
    SAME(CITATIONS_BUILT, answer[CITATIONS_LOOK_UP_NOTE]);
    put_text("[@a]");
    set();
    memset(index_area, 0, sizeof index_area);
    look_up(0, CITATIONS_NOT_BUILT);
    expect(answer[CITATIONS_LOOK_UP_NUMBER] == CITATIONS_ACCEPTED, "CITATIONS_NOT_BUILT: an index is taken as built");
    SAME(CITATIONS_NOT_BUILT, answer[CITATIONS_LOOK_UP_NOTE]);
    memset(index_area, 0, sizeof index_area);
    look_up(0, CITATIONS_BUILT);
    expect(answer[CITATIONS_LOOK_UP_NUMBER] == CITATIONS_NO_GROUP, "CITATIONS_BUILT: the index is not read");
}

static void modes(void)
{
    put_text("[@a]\n[@a]: {author=Ant year=1901}");
    pool_length = 0;
    set();
    annotate(CITATIONS_BY_NUMBER);
    expect(answer[CITATIONS_ANNOTATE_LABEL_BYTES] == 1 && begins(labels, "1"), "CITATIONS_BY_NUMBER: another label");
    set();
    annotate(CITATIONS_BY_AUTHOR_YEAR);
    expect(answer[CITATIONS_ANNOTATE_LABEL_BYTES] == 8 && begins(labels, "Ant 1901"), "CITATIONS_BY_AUTHOR_YEAR: another label");
}

/* That the elements of a record from `at` on are a pair of these. */
#define PAIR(record, at, offset, length) expect((record)[at] == (offset) && (record)[(at) + 1] == (length), #at)

/*
 * An annotation whose numbers are all different where they stand side by side: two numbered groups, an undefined one, and two definition
 * lines. The second item of the second group has every field.
 *
 *     0         1         2         3         4         5
 *     0123456789012345678901234567890123456789012345678901234567
 *     [@b; @c; @b] and [@c; see -@b, p. 345, where it is] [@nil]
 */
static void annotated(void)
{
    const uint16_t *item, *group;
    put_text("[@b; @c; @b] and [@c; see -@b, p. 345, where it is] [@nil]\n[@b]: {author=Bee year=2}\n[@c]: Cee.\n");
    put_pool();
    word(CITATIONS_POOL_ID, "d");
    set();
    annotate(CITATIONS_BY_AUTHOR_YEAR);
    SAME(CITATIONS_ACCEPTED, answer[CITATIONS_ANNOTATE_NUMBER]);
    expect(answer[CITATIONS_ANNOTATE_GROUPS] == 5, "CITATIONS_ANNOTATE_GROUPS");
    expect(answer[CITATIONS_ANNOTATE_ITEMS] == 8, "CITATIONS_ANNOTATE_ITEMS");
    expect(answer[CITATIONS_ANNOTATE_SOURCES] == 2, "CITATIONS_ANNOTATE_SOURCES");
    expect(answer[CITATIONS_ANNOTATE_LABEL_BYTES] == 13, "CITATIONS_ANNOTATE_LABEL_BYTES");
    expect(answer[CITATIONS_ANNOTATE_NOTE] == 7, "CITATIONS_ANNOTATE_NOTE");

    item = items + 4 * CITATIONS_ITEM_RECORD;
    PAIR(item, CITATIONS_ITEM_PREFIX, 22, 3);
    PAIR(item, CITATIONS_ITEM_KEY, 28, 1);
    PAIR(item, CITATIONS_ITEM_LOCATOR, 31, 19);
    PAIR(item, CITATIONS_ITEM_VALUE, 34, 3);
    PAIR(item, CITATIONS_ITEM_SUFFIX, 39, 11);
    expect(item[CITATIONS_ITEM_LABEL_CODE] == 9, "CITATIONS_ITEM_LABEL_CODE");
    expect(item[CITATIONS_ITEM_MARKS] == 1, "CITATIONS_ITEM_MARKS");
    expect(item[CITATIONS_ITEM_NUMBER] == 1, "CITATIONS_ITEM_NUMBER");
    expect(item[CITATIONS_ITEM_USE] == 3, "CITATIONS_ITEM_USE");
    PAIR(item, CITATIONS_ITEM_LABEL, 12, 1);
    expect(labels[12] == '2', "CITATIONS_ITEM_LABEL: another label");

    expect(groups[CITATIONS_GROUP_ITEM_COUNT] == 3, "CITATIONS_GROUP_ITEM_COUNT");
    group = groups + CITATIONS_GROUP_RECORD;
    PAIR(group, CITATIONS_GROUP, 17, 34);
    expect(group[CITATIONS_GROUP_FIRST_ITEM] == 3, "CITATIONS_GROUP_FIRST_ITEM");
    expect(group[CITATIONS_GROUP_ITEM_COUNT] == 2, "CITATIONS_GROUP_ITEM_COUNT");
    SAME(CITATIONS_NUMBERED, group[CITATIONS_GROUP_STANDING]);
    SAME(CITATIONS_UNDEFINED, groups[2 * CITATIONS_GROUP_RECORD + CITATIONS_GROUP_STANDING]);
    SAME(CITATIONS_IN_DEFINITION, groups[3 * CITATIONS_GROUP_RECORD + CITATIONS_GROUP_STANDING]);
}

/* The mark, no mark where the group begins with `+`, and a number that is not the marks beside it. */
static void number_and_marks(void)
{
    put_text("[@a] [@b] [+@b] [-@b]\n[@a]: Ant.\n[@b]: Bee.\n");
    pool_length = 0;
    set();
    annotate(CITATIONS_BY_NUMBER);
    expect(items[3 * CITATIONS_ITEM_RECORD + CITATIONS_ITEM_NUMBER] == 2, "CITATIONS_ITEM_NUMBER");
    expect(items[CITATIONS_ITEM_RECORD + CITATIONS_ITEM_MARKS] == 0, "CITATIONS_ITEM_MARKS");
    expect(items[2 * CITATIONS_ITEM_RECORD + CITATIONS_ITEM_MARKS] == 0, "CITATIONS_ITEM_MARKS");
    SAME(CITATIONS_SUPPRESSED, items[3 * CITATIONS_ITEM_RECORD + CITATIONS_ITEM_MARKS]);
}

/* A record of a group and of an item fits an area of just its length, and no shorter one. */
static void lengths_of_records(void)
{
    size_t less;
    put_text("[@a]");
    for (less = 0; less <= 1; less++) {
        uint32_t wanted = less == 0 ? CITATIONS_ACCEPTED : CITATIONS_AREA_TOO_SHORT;
        set();
        citations_look_up(text, text_length, 0, 7, index_area, text_length, records, text_length,
                          items, CITATIONS_ITEM_RECORD - less, answer, CITATIONS_LOOK_UP_ANSWER);
        expect(answer[0] == wanted, "CITATIONS_ITEM_RECORD");
        citations_annotate(text, text_length, 0, pool, 0, 7, index_area, text_length, records, text_length,
                           items, CITATIONS_ITEM_RECORD, groups, CITATIONS_GROUP_RECORD - less, references, 1, labels, 1,
                           answer, CITATIONS_ANNOTATE_ANSWER);
        expect(answer[0] == wanted, "CITATIONS_GROUP_RECORD");
    }
}

/* A locator that is the name of a label and a number has that label. */
static uint32_t label_code(const char *name)
{
    put_text(name);
    more_text(" 3");
    set();
    citations_locator(text, text_length, answer, CITATIONS_LOCATOR_ANSWER);
    return answer[CITATIONS_LOCATOR_LABEL_CODE];
}

static void label_codes(void)
{
    SAME(CITATIONS_LABEL_NONE, label_code("x"));
    SAME(CITATIONS_LABEL_SUB_VERBO, label_code("sub verbo"));
    SAME(CITATIONS_LABEL_PARAGRAPH, label_code("paragraph"));
    SAME(CITATIONS_LABEL_SECTION, label_code("section"));
    SAME(CITATIONS_LABEL_CHAPTER, label_code("chapter"));
    SAME(CITATIONS_LABEL_VOLUME, label_code("volume"));
    SAME(CITATIONS_LABEL_FIGURE, label_code("figure"));
    SAME(CITATIONS_LABEL_COLUMN, label_code("column"));
    SAME(CITATIONS_LABEL_VERSE, label_code("verse"));
    SAME(CITATIONS_LABEL_PAGE, label_code("page"));
    SAME(CITATIONS_LABEL_FOLIO, label_code("folio"));
    SAME(CITATIONS_LABEL_ISSUE, label_code("issue"));
    SAME(CITATIONS_LABEL_NOTE, label_code("note"));
    SAME(CITATIONS_LABEL_OPUS, label_code("opus"));
    SAME(CITATIONS_LABEL_PART, label_code("part"));
    SAME(CITATIONS_LABEL_LINE, label_code("line"));
    SAME(CITATIONS_LABEL_BOOK, label_code("book"));
}

/* The places of the answers, by calls whose values are all different. */
static void places(void)
{
    put_text("..[@ab; @cd]");
    set();
    look_up(2, 7);
    expect(answer[CITATIONS_LOOK_UP_NUMBER] == 0, "CITATIONS_LOOK_UP_NUMBER");
    expect(answer[CITATIONS_LOOK_UP_CLOSE] == 11, "CITATIONS_LOOK_UP_CLOSE");
    expect(answer[CITATIONS_LOOK_UP_ITEMS] == 2, "CITATIONS_LOOK_UP_ITEMS");
    expect(answer[CITATIONS_LOOK_UP_NOTE] == 7, "CITATIONS_LOOK_UP_NOTE");

    set();
    citations_size(text, text_length, answer, CITATIONS_SIZE_ANSWER);
    expect(answer[CITATIONS_SIZE_NUMBER] == 0, "CITATIONS_SIZE_NUMBER");
    expect(answer[CITATIONS_SIZE_RECORDS] == 4, "CITATIONS_SIZE_RECORDS");

    put_text("pp. 34-5, see");
    set();
    citations_locator(text, text_length, answer, CITATIONS_LOCATOR_ANSWER);
    expect(answer[CITATIONS_LOCATOR_NUMBER] == 0, "CITATIONS_LOCATOR_NUMBER");
    expect(answer[CITATIONS_LOCATOR_LABEL_CODE] == 9, "CITATIONS_LOCATOR_LABEL_CODE");
    PAIR(answer, CITATIONS_LOCATOR_VALUE, 4, 4);
    PAIR(answer, CITATIONS_LOCATOR_SUFFIX, 10, 3);
}

/* That a call leaves an answer of one element less as it was. */
#define LEAST(constant, call)                                \
    do {                                                     \
        size_t least = constant;                             \
        set();                                               \
        call(least - 1);                                     \
        expect(answer[0] == CITATIONS_NO_ANSWER, #constant); \
        call(least);                                         \
        expect(answer[0] == 0, #constant);                   \
    } while (0)

#define LOOK_UP(n) citations_look_up(text, text_length, 0, 7, index_area, 4, records, 4, items, 16, answer, n)
#define ANNOTATE(n) \
    citations_annotate(text, text_length, 0, pool, 0, 7, index_area, 4, records, 4, items, 16, groups, 5, references, 1, labels, 1, answer, n)
#define SIZE(n) citations_size(text, text_length, answer, n)
#define LOCATOR(n) citations_locator(text, text_length, answer, n)
#define SOURCE_TEXT(n) citations_source_text(pool, pool_length, 0, area, BYTES, answer, n)

static void lengths_of_answers(void)
{
    put_text("[@a]");
    put_pool();
    word(CITATIONS_POOL_ID, "a");
    LEAST(CITATIONS_LOOK_UP_ANSWER, LOOK_UP);
    LEAST(CITATIONS_ANNOTATE_ANSWER, ANNOTATE);
    LEAST(CITATIONS_SIZE_ANSWER, SIZE);
    LEAST(CITATIONS_LOCATOR_ANSWER, LOCATOR);
    LEAST(CITATIONS_SOURCE_TEXT_ANSWER, SOURCE_TEXT);
}

/* An entry with every field: its source text, and the same without a year, which gives way to the date. */
static void pools(void)
{
    static const uint8_t year[8] = {0x6D, 0x07, 0, 0, 0, 0, 0, 0}; /* 1901 */
    static const char text_by_year[] = "Ant, A.; The Bee (1901). Hills.", text_by_date[] = "The Bee (n.d.).";
    put_pool();
    word(CITATIONS_POOL_ID, "a");
    word(CITATIONS_POOL_NAME, "");
    word(CITATIONS_POOL_FAMILY, "Ant");
    word(CITATIONS_POOL_GIVEN, "A.");
    word(CITATIONS_POOL_NAME, "");
    word(CITATIONS_POOL_LITERAL, "The Bee");
    field(CITATIONS_POOL_YEAR, year, sizeof year);
    word(CITATIONS_POOL_DATE, "n.d.");
    word(CITATIONS_POOL_TITLE, "Hills");
    set();
    source_text(0, BYTES);
    expect(answer[CITATIONS_SOURCE_TEXT_NUMBER] == 0, "CITATIONS_SOURCE_TEXT_NUMBER, or a tag of the pool");
    expect(answer[CITATIONS_SOURCE_TEXT_BYTES] == sizeof text_by_year - 1, "CITATIONS_SOURCE_TEXT_BYTES, or a tag of the pool");
    expect(begins(area, text_by_year), "a tag of the pool: another source text");

    put_text("[@a]");
    set();
    annotate(CITATIONS_BY_NUMBER);
    expect(answer[CITATIONS_ANNOTATE_SOURCES] == 1, "CITATIONS_POOL_ID: the key is not defined");

    put_pool();
    word(CITATIONS_POOL_ID, "a");
    word(CITATIONS_POOL_NAME, "");
    word(CITATIONS_POOL_LITERAL, "The Bee");
    word(CITATIONS_POOL_DATE, "n.d.");
    set();
    source_text(0, BYTES);
    expect(answer[CITATIONS_SOURCE_TEXT_BYTES] == sizeof text_by_date - 1, "CITATIONS_SOURCE_TEXT_BYTES, or CITATIONS_POOL_DATE");
    expect(begins(area, text_by_date), "CITATIONS_POOL_DATE: another source text");
}

int main(void)
{
    version();
    no_answer();
    limits();
    numbers();
    notes();
    modes();
    annotated();
    number_and_marks();
    lengths_of_records();
    label_codes();
    places();
    lengths_of_answers();
    pools();
    if (failures == 0)
        printf("ok\n");
    return failures != 0;
}
