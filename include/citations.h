/*
 * citations.h: bracketed citations, from text to numbered sources. C99 and C++.
 *
 * Link with target/staticlib/libexports.a, which `tests/library` writes (x86-64 Linux):
 *
 *     cc -std=c99 -Iinclude program.c target/staticlib/libexports.a
 *
 * The archive has no data that changes, allocates nothing, and needs only the C library's memory functions (memset, memmove).
 *
 * A text is UTF-8 bytes. A group is a bracket such as `[see @ant, p. 3; -@bee]`: items with a key each, parted by `;`. The rules are under
 * THE INPUT.
 *
 *     citations_look_up      reads the group at one bracket
 *     citations_annotate     reads the groups of a text, numbers their sources and writes their labels
 *     citations_size         says how many item records a text can need
 *     citations_locator      reads a locator such as `p. 3`
 *     citations_source_text  writes the text of an entry of a pool
 *
 * AREAS. A call works in areas that the caller lends: a pointer and a length. A length counts ELEMENTS of the pointer's type, not bytes
 * and not records: room for two item records is a length of 2 * CITATIONS_ITEM_RECORD. The caller owns every area and may free it or use
 * it again as soon as the call has returned; the library keeps no pointer and no state.
 *   - `text` and `pool` are only read. They may be the same memory.
 *   - Any other two areas of one call must not overlap, nor overlap text or pool.
 *   - Every pointer is aligned for its type and not null, also where the length is 0: pass the address of any object then.
 *   - An area of length n has n elements that may be read and, where the pointer is not to const, written. They are set before the call,
 *     to any values (calloc or `= {0}` will do), `answer` to CITATIONS_NO_ANSWER: the library may read what it has not written.
 * Beyond these rules no argument is wrong: every call returns, with an answer or with a refusal. No two threads may use an area at the same
 * time while one of them writes it; calls on areas of their own may run at the same time.
 *
 * ANSWERS. Each call has an area `answer` of uint32_t. Its first element is the number, 0 (CITATIONS_ACCEPTED) or a refusal, and the
 * values follow at the places that are named below for each call. On a refusal all values are 0, except the note. `answer` must have at
 * least the length that is named below (CITATIONS_..._ANSWER): with a shorter one the call does nothing at all. What `answer` has beyond that
 * length stays as it was. So that a call that did nothing does not read as accepted, set the first element to CITATIONS_NO_ANSWER, which is
 * no call's number, before each call:
 *
 *     uint32_t answer[CITATIONS_LOOK_UP_ANSWER] = {CITATIONS_NO_ANSWER};
 *
 * INDEX, BRACKET RECORDS AND NOTE. Look-ups and annotations may need an index of the text's brackets. The caller lends room for it: `index`
 * and `records`, each at least as long as the text has bytes (else refusal 9, whether or not an index is needed). The note says whether
 * the index is built: CITATIONS_BUILT (1), or any other value for not built.
 *   - Begin a text with the note CITATIONS_NOT_BUILT (0), whatever index and records hold.
 *   - Take the note from each answer, accepted or refused, and give it to the next call on the SAME text with the same index.
 *   - For another text begin again with 0. An index and a note of 1 from another text give answers that are of no use, though never
 *     a write outside the areas.
 * A kept index saves time and changes no answer. It is built at most once a text: when a bracket's close is not found near it.
 *
 * A call that builds the index writes the first text-length elements of `index` (at an unescaped `[` that has a close and only good items,
 * the place of that close, else 0) and sets the first text-length bracket records to zero; it answers the note 1. Any other call leaves
 * index and records as they were and answers the note that it was given.
 *
 * THE INPUT. A byte is escaped where an odd run of backslashes stands just before it. White space is the 25 code points White_Space of
 * Unicode. What is found are the text's own bytes, backslashes too.
 *   - A group begins at an unescaped `[`. Its close is the `]` that leaves no bracket open; on the way there a backslash passes over the next
 *     byte. Right after the close stands no `(`, `[` or `{`, and all its items are good. A `+` right after the `[` is passed over.
 *   - Every `;` splits a group into items, an escaped one and one in an inner bracket too.
 *   - An item, its prefix and its locator lose white space at both ends. An item is a prefix or none, `@` and a key, then its end, or a comma
 *     and a locator (`[@a,]` has none). The first unescaped `@` that fits counts; an item with none is not good. An unescaped `-` just before
 *     that `@` suppresses the author.
 *   - A key is an ASCII letter, digit or `_`, then any of these or of `: . # $ % & + ? < > ~ / -`. Trailing marks are not of it: `[@a.]` is no
 *     group. `_` is no such mark.
 *   - A locator begins with a label from a fixed table, in any ASCII case (`p.` `pp.` `page` `pages`, `chap.`, `s.v.`, `§`, ..; the codes are
 *     enum citations_label_code), if after it the locator ends or a space, tab, digit, `§` or `¶` stands. Without one a first digit means
 *     page; anything else is all suffix. The value goes on over digits, spaces, `. , & -` and runs of ASCII letters that are all of IVXLCDM or
 *     ivxlcdm; it ends before any other run, and loses spaces and `. , & -` at its end. The rest is suffix: `p. 12 cited` has the value `12`
 *     and the suffix `cited`.
 *   - A definition line begins, at the text's start or after a line feed outside groups, with a group of one item (no prefix, no locator,
 *     not suppressed), then `:` and at least one space. It runs to the next line feed outside groups. If `{` comes right after the spaces,
 *     and then `}` before any group or line feed, its attributes stand between them: words `name=value`, parted by white space. `author` and
 *     `year` are read, the first of each, up to a word without `=`. A value ends at white space even in quotes: `author="Le Guin"` gives
 *     `Le`. All `"`, then all `'`, come off its ends.
 *   - A key is defined by its last definition line, else by the first pool entry with that id.
 *
 * REFUSALS. A refused call leaves every area but `answer` as it was, with these exceptions:
 *   - 5 and 10 keep an index that was built on the way, and answer its note: 1;
 *   - 10 from citations_annotate fills its four areas items, groups, references and labels with zeros, over their whole length.
 * An accepted call writes its records at the front of its areas and leaves all beyond them as it was.
 */
#ifndef CITATIONS_H
#define CITATIONS_H

#include <stddef.h>
#include <stdint.h>

#ifdef __cplusplus
extern "C" {
#endif

/*
 * THE VERSION of this header, N. It is raised with each change of what a call, a record, an answer or a number means. The archive has one name
 * that carries its version, citations_version_N, and every object that is compiled with this header refers to that name. So an object and an
 * archive of two versions do not link, and the linker says
 *
 *     undefined reference to `citations_version_N'
 *
 * with the object's N. Then compile it again with the archive's own header (or link the archive, where it was left out).
 */
#define CITATIONS_VERSION 2

#define CITATIONS_JOINED(name, version) name##version
#define CITATIONS_VERSIONED(name, version) CITATIONS_JOINED(name, version)

/* citations_version_N: answers N. */
uint32_t CITATIONS_VERSIONED(citations_version_, CITATIONS_VERSION)(void);

/* The reference to that name: a pointer that nothing reads, kept in each object whatever the compiler and the linker leave out. */
#if defined(__has_attribute)
#if __has_attribute(retain)
#define CITATIONS_KEPT __attribute__((used, retain))
#endif
#endif
#ifndef CITATIONS_KEPT
#define CITATIONS_KEPT __attribute__((used))
#endif
static uint32_t (*const citations_version_needed)(void) CITATIONS_KEPT = CITATIONS_VERSIONED(citations_version_, CITATIONS_VERSION);
#undef CITATIONS_KEPT
#undef CITATIONS_VERSIONED
#undef CITATIONS_JOINED

/* What the first element of `answer` is set to before a call; it stays where `answer` is too short. */
#define CITATIONS_NO_ANSWER 0xFFFFFFFFu

/*
 * Limits: a longer text is refused by 1, a longer pool by 7, labels above their limit by 10. A source text is at most three bytes longer than
 * its pool: the longest is that of an entry with no more than an empty id and the year -9223372036854775808, 23 bytes of a pool of 20.
 */
enum {
    CITATIONS_TEXT_MAX = 65535,
    CITATIONS_POOL_MAX = 32768,
    CITATIONS_LABELS_MAX = 65535,
    CITATIONS_SOURCE_TEXT_MORE = 3
};

/* The number: answer[0] of every call. Where several refusals hold, the call gives the one that comes first in its own order. */
enum citations_number {
    CITATIONS_ACCEPTED = 0,
    CITATIONS_TEXT_TOO_LONG = 1,    /* text above 65,535 bytes */
    CITATIONS_TEXT_NOT_UTF8 = 2,    /* text not UTF-8 */
    CITATIONS_NO_BRACKET = 3,       /* no `[` at the position, or past the end */
    CITATIONS_BRACKET_ESCAPED = 4,  /* an odd run of backslashes stands just before the bracket */
    CITATIONS_NO_GROUP = 5,         /* no group at this bracket */
    CITATIONS_BAD_MODE = 6,         /* mode not 0 or 1 */
    CITATIONS_BAD_POOL = 7,         /* pool breaks its layout */
    CITATIONS_NO_ENTRY = 8,         /* entry number too large, or no pool */
    CITATIONS_INDEX_TOO_SHORT = 9,  /* index or bracket records fewer than text bytes */
    CITATIONS_AREA_TOO_SHORT = 10   /* answer longer than its area, or labels above 65,535 bytes */
};

/* The note. Every value other than CITATIONS_BUILT means that the index is not built. */
enum citations_note {
    CITATIONS_NOT_BUILT = 0,
    CITATIONS_BUILT = 1
};

/* How citations_annotate labels an item. */
enum citations_mode {
    CITATIONS_BY_NUMBER = 0,     /* by the source's number; reference order by number */
    CITATIONS_BY_AUTHOR_YEAR = 1 /* by author, space, year (a suppressed item: by year), or the number where there is neither;
                                    reference order by author, or by key where no author is given */
};

/*
 * A bracket record: room in which the library keeps an open bracket while it builds an index. A caller has no use for the fields: they may
 * hold any values before a call, and are zero after a build.
 */
typedef struct citations_bracket {
    uint16_t place; /* of the bracket */
    uint16_t seen;  /* first item seen */
    uint16_t good;  /* first item good */
    uint16_t bad;   /* bad-item count */
} citations_bracket;

/*
 * PAIRS. A part of a text is a pair of two neighbouring elements: offset, then length, in bytes. A part that is missing is 0 0, and a
 * present one is never empty (the label pair apart). The places below name a pair's offset; its length is one further.
 */

/*
 * An item record: CITATIONS_ITEM_RECORD elements of `items`. The field f of item i is items[CITATIONS_ITEM_RECORD * i + f].
 * Pairs are places of the text, except the label's. In a locator `p. 3, see`: label code page, value `3`, suffix `see`.
 */
enum citations_item_field {
    CITATIONS_ITEM_PREFIX = 0,      /* pair: what stands before the key and its `@` */
    CITATIONS_ITEM_KEY = 2,         /* pair: the key, without `@`; always present */
    CITATIONS_ITEM_LOCATOR = 4,     /* pair: what stands after the key and its comma */
    CITATIONS_ITEM_VALUE = 6,       /* pair: the locator's value */
    CITATIONS_ITEM_SUFFIX = 8,      /* pair: the rest of the locator */
    CITATIONS_ITEM_LABEL_CODE = 10, /* the locator's label, an enum citations_label_code */
    CITATIONS_ITEM_MARKS = 11,      /* 0, or an enum citations_marks */
    /* The last four are 0 after a look-up, and in a group that is not numbered. */
    CITATIONS_ITEM_NUMBER = 12,     /* the source's number, from 1 */
    CITATIONS_ITEM_USE = 13,        /* which use of its source this is, from 1; 0 where there is no pool */
    CITATIONS_ITEM_LABEL = 14,      /* pair: the item's label, a place of `labels`; an empty label is its offset and length 0 */

    CITATIONS_ITEM_RECORD = 16
};

enum citations_marks {
    CITATIONS_SUPPRESSED = 1 /* `-@key`: the label leaves the author out */
};

/* A group record: CITATIONS_GROUP_RECORD elements of `groups`. */
enum citations_group_field {
    CITATIONS_GROUP = 0,            /* pair: the group in the text, with both brackets */
    CITATIONS_GROUP_FIRST_ITEM = 2, /* its first item; items count from 0 */
    CITATIONS_GROUP_ITEM_COUNT = 3, /* how many items it has, one or more */
    CITATIONS_GROUP_STANDING = 4,   /* an enum citations_standing */

    CITATIONS_GROUP_RECORD = 5
};

enum citations_standing {
    CITATIONS_IN_DEFINITION = 0, /* in a definition line: not numbered */
    CITATIONS_UNDEFINED = 1,     /* a key of the group is not defined: not numbered */
    CITATIONS_NUMBERED = 2
};

/* A locator's label. */
enum citations_label_code {
    CITATIONS_LABEL_NONE = 0,
    CITATIONS_LABEL_SUB_VERBO = 1,
    CITATIONS_LABEL_PARAGRAPH = 2,
    CITATIONS_LABEL_SECTION = 3,
    CITATIONS_LABEL_CHAPTER = 4,
    CITATIONS_LABEL_VOLUME = 5,
    CITATIONS_LABEL_FIGURE = 6,
    CITATIONS_LABEL_COLUMN = 7,
    CITATIONS_LABEL_VERSE = 8,
    CITATIONS_LABEL_PAGE = 9,
    CITATIONS_LABEL_FOLIO = 10,
    CITATIONS_LABEL_ISSUE = 11,
    CITATIONS_LABEL_NOTE = 12,
    CITATIONS_LABEL_OPUS = 13,
    CITATIONS_LABEL_PART = 14,
    CITATIONS_LABEL_LINE = 15,
    CITATIONS_LABEL_BOOK = 16
};

/* ------------------------------------------------------------------------------------------------------------------------------ */

enum citations_look_up_answer {
    CITATIONS_LOOK_UP_NUMBER = 0,
    CITATIONS_LOOK_UP_CLOSE = 1, /* the place of the group's `]` */
    CITATIONS_LOOK_UP_ITEMS = 2, /* how many items it has, one or more */
    CITATIONS_LOOK_UP_NOTE = 3,

    CITATIONS_LOOK_UP_ANSWER = 4 /* the least length of `answer` */
};

/*
 * The group at the bracket at `at`, a place of the text.
 *
 *   text                   the text; only read
 *   at                     any number
 *   note                   0 at first, then the last answer's note
 *   index, records         text_length elements or more each (else 9); kept between calls on one text
 *   items                  CITATIONS_ITEM_RECORD elements for each item of the group (else 10). Accepted: the records of the items in the
 *                          order of the text, at the front. Refused, 10 too: as it was.
 *
 * Refusals, in this order: 1, 2, 3, 4, 9, 5, 10.
 */
void citations_look_up(const uint8_t *text, size_t text_length, size_t at, uint8_t note,
                       uint16_t *index, size_t index_length,
                       citations_bracket *records, size_t records_length,
                       uint16_t *items, size_t items_length,
                       uint32_t *answer, size_t answer_length);

enum citations_annotate_answer {
    CITATIONS_ANNOTATE_NUMBER = 0,
    CITATIONS_ANNOTATE_GROUPS = 1,      /* how many groups the text has */
    CITATIONS_ANNOTATE_ITEMS = 2,       /* how many items they have */
    CITATIONS_ANNOTATE_SOURCES = 3,     /* how many sources are numbered */
    CITATIONS_ANNOTATE_LABEL_BYTES = 4, /* how many bytes the labels take */
    CITATIONS_ANNOTATE_NOTE = 5,

    CITATIONS_ANNOTATE_ANSWER = 6 /* the least length of `answer` */
};

/*
 * All groups of the text that begin inside no other, from left to right, with numbers, uses, labels and the order of the sources. Keys are
 * defined by definition lines such as `[@ant]: {author=Ant year=1901} ..`, or by the pool. A group with a key that is not defined, and one
 * in a definition line, is not numbered.
 *
 *   text                   the text; only read
 *   mode                   an enum citations_mode (else 6)
 *   pool                   the pool, in the layout below (else 7); only read. Length 0: no pool, and all uses are 0.
 *   note                   0 at first, then the last answer's note
 *   index, records         text_length elements or more each (else 9); kept between calls on one text
 *   items                  CITATIONS_ITEM_RECORD elements an item. Accepted: the records of all items in the order of the text.
 *   groups                 CITATIONS_GROUP_RECORD elements a group. Accepted: the records of all groups in the order of the text.
 *   references             one element a source. Accepted: the sources' numbers in reference order.
 *   labels                 one element a label byte. Accepted: the labels one after the other, in item order, with nothing between.
 *
 * Areas that are always long enough, with n from citations_size: items CITATIONS_ITEM_RECORD * n, groups CITATIONS_GROUP_RECORD * n,
 * references n, labels CITATIONS_LABELS_MAX; only labels above that many bytes are still refused by 10, whatever is lent. If one of the four
 * is too short the call answers 10 and fills all four with zeros, over their whole length; any other refusal leaves them as they were.
 *
 * Refusals, in this order: 1, 2, 6, 7, 9, 10.
 */
void citations_annotate(const uint8_t *text, size_t text_length, uint8_t mode,
                        const uint8_t *pool, size_t pool_length, uint8_t note,
                        uint16_t *index, size_t index_length,
                        citations_bracket *records, size_t records_length,
                        uint16_t *items, size_t items_length,
                        uint16_t *groups, size_t groups_length,
                        uint16_t *references, size_t references_length,
                        uint8_t *labels, size_t labels_length,
                        uint32_t *answer, size_t answer_length);

enum citations_size_answer {
    CITATIONS_SIZE_NUMBER = 0,
    CITATIONS_SIZE_RECORDS = 1, /* item records: at most 21,845 */

    CITATIONS_SIZE_ANSWER = 2 /* the least length of `answer` */
};

/*
 * How many item records any look-up or annotation of the text needs at most. A group has an item or more and each source an item, so that
 * no more group records and no more reference records are needed either. Refusals, in this order: 1, 2.
 */
void citations_size(const uint8_t *text, size_t text_length, uint32_t *answer, size_t answer_length);

enum citations_locator_answer {
    CITATIONS_LOCATOR_NUMBER = 0,
    CITATIONS_LOCATOR_LABEL_CODE = 1, /* an enum citations_label_code */
    CITATIONS_LOCATOR_VALUE = 2,      /* pair, a place of the text; 0 0 where there is none */
    CITATIONS_LOCATOR_SUFFIX = 4,     /* pair, a place of the text; 0 0 where there is none */

    CITATIONS_LOCATOR_ANSWER = 6 /* the least length of `answer` */
};

/* The locator that the whole text is, as it would stand after a key and its comma: `PP. 3-5, see`. Refusals, in this order: 1, 2. */
void citations_locator(const uint8_t *text, size_t text_length, uint32_t *answer, size_t answer_length);

enum citations_source_text_answer {
    CITATIONS_SOURCE_TEXT_NUMBER = 0,
    CITATIONS_SOURCE_TEXT_BYTES = 1, /* how many bytes were written */

    CITATIONS_SOURCE_TEXT_ANSWER = 2 /* the least length of `answer` */
};

/*
 * The text of the pool's entry number `entry` (from 0): names, year in parentheses, title.
 *
 *   pool                   the pool; only read. Length 0 is no pool: 8
 *   entry                  any number; 8 where the pool has no such entry
 *   area                   one element a byte of the text (else 10). Accepted: the text, with no 0 at its end. Refused, 10 too: as it was.
 *                          pool_length + CITATIONS_SOURCE_TEXT_MORE elements always suffice.
 *
 * Refusals, in this order: 7, 8, 10.
 */
void citations_source_text(const uint8_t *pool, size_t pool_length, size_t entry,
                           uint8_t *area, size_t area_length,
                           uint32_t *answer, size_t answer_length);

/*
 * THE POOL, at most 32,768 bytes. Numbers are little-endian.
 *
 *     u16 N                       how many entries there are
 *     N pairs of u16              offset from the pool's start, and length, of each entry
 *     the entries                 end to end from 2 + 4 * N to the pool's end, in the order of the pairs
 *
 * An entry is a list of fields: a tag byte, a u16 length, and that many bytes. Fields come in this order and no other:
 *
 *     1 id                        always, once; an entry whose id is empty defines no key
 *     any number of names, each   2 (length 0), then 3 family, 4 given, 5 literal, each at most once
 *     6 year (8 bytes, signed), 7 date literal, 8 title, each at most once
 *
 * Strings are UTF-8. A present field that is empty is not the same as a missing one.
 */
enum citations_pool_tag {
    CITATIONS_POOL_ID = 1,
    CITATIONS_POOL_NAME = 2,
    CITATIONS_POOL_FAMILY = 3,
    CITATIONS_POOL_GIVEN = 4,
    CITATIONS_POOL_LITERAL = 5,
    CITATIONS_POOL_YEAR = 6,
    CITATIONS_POOL_DATE = 7,
    CITATIONS_POOL_TITLE = 8
};

#ifdef __cplusplus
}
#endif

#endif
