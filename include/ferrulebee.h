/* Ferrulebee: the proved access gate, for C11 and C++17.
 *
 * Link with libferrulebee.a or libferrulebee.so (./run library). The library has no state of its own,
 * allocates nothing and keeps no pointer; of the C library it uses memcpy and memset. A slice is a
 * pointer and its length; an empty slice may have any pointer that is not null. Slices of one call
 * that are written to must not overlap its other slices.
 *
 * Every call takes any numbers and any contents. A refusal is answered by its number, given exactly
 * when its line below is met and no earlier one of that call is, and leaves the group and all buffers
 * as they were. Code 0 is no refusal. docs/LIBRARY.md says more.
 */
#ifndef FERRULEBEE_H
#define FERRULEBEE_H

#include <stddef.h>
#include <stdint.h>

#ifdef __cplusplus
#define FERRULEBEE_ASSERT(what) static_assert(what, #what)
extern "C" {
#else
#define FERRULEBEE_ASSERT(what) _Static_assert(what, #what)
#endif

/* ---- limits ---- */

enum {
    FERRULEBEE_MODELS = 64,           /* models are 0 .. 63 */
    FERRULEBEE_SHEETS = 256,          /* sheets are 0 .. 255 */
    FERRULEBEE_GROUPS = 16,           /* groups are 0 .. 15; the most in a list */
    FERRULEBEE_TICKS = 1000000,       /* ticks are 1 .. 1,000,000 */
    FERRULEBEE_EVENTS = 4096,         /* the most events in a strip, and records in a book */
    FERRULEBEE_STORE_BYTES = 1048576, /* the most bytes in a store */
    FERRULEBEE_BOOK_HEADER = 20,      /* the bytes of a book's header, and the offset of its records */
    FERRULEBEE_LONGEST_BOOK = 16404,  /* the bytes of a book of 4,096 records */
    FERRULEBEE_SET_WORDS = 4          /* words in a set of sheets, a bit a sheet */
};

/* ---- kinds of events ---- */

enum {
    FERRULEBEE_SJ, /* strict join */
    FERRULEBEE_LJ, /* liberal join */
    FERRULEBEE_SL, /* strict leave */
    FERRULEBEE_LL, /* liberal leave */
    FERRULEBEE_SA, /* strict add */
    FERRULEBEE_LA, /* liberal add */
    FERRULEBEE_SR, /* strict remove */
    FERRULEBEE_LR  /* liberal remove */
};

/* The word of an event. */
#define FERRULEBEE_WORD(tick, kind, number) \
    ((uint32_t)(tick) * 4096u + (uint32_t)(kind) * 512u + (uint32_t)(number))

/* ---- refusals, and the codes of the judge ---- */

enum {
    FERRULEBEE_BAD_KIND = 1,           /* kind above 7 */
    FERRULEBEE_BAD_NUMBER = 2,         /* model or sheet number out of range */
    FERRULEBEE_NO_TICK_LEFT = 3,       /* 1,000,000 or more ticks closed */
    FERRULEBEE_SECOND_EVENT = 4,       /* the carrier already has an accepted event in the open tick */
    FERRULEBEE_ALREADY_IN = 5,         /* join or add while in */
    FERRULEBEE_NOT_IN = 6,             /* leave or remove while out */
    FERRULEBEE_BAD_LIST = 7,           /* group list empty or longer than 16 */
    FERRULEBEE_BAD_GROUP = 9,          /* fresh group asked for with a number above 15 */
    FERRULEBEE_LATE_NOW = 10,          /* now above 1,000,000 */
    FERRULEBEE_LONG_MODEL = 11,        /* model's strip longer than 4,096 words, or not whole words */
    FERRULEBEE_LONG_SHEET = 12,        /* sheet's strip likewise */
    FERRULEBEE_BAD_MODEL = 13,         /* model's strip not good; its first bad place */
    FERRULEBEE_BAD_SHEET = 14,         /* sheet's strip likewise */
    FERRULEBEE_BAD_LENGTH = 20,        /* book below 20 or above 16,404 bytes */
    FERRULEBEE_BAD_TOTAL = 21,         /* its total field differs from its length */
    FERRULEBEE_BAD_HEADER = 22,        /* closed ticks above 1,000,000, records above 4,096, offset not 20,
                                          or group above 15 */
    FERRULEBEE_BAD_COUNT = 23,         /* 20 + 4 * records differs from the total */
    FERRULEBEE_BAD_RECORD = 24,        /* record: tick 0 or above the closed ticks, or number out of range; its place */
    FERRULEBEE_NOT_RISING = 25,        /* record: word not greater than the one before; its place */
    FERRULEBEE_ILL_FORMED = 26,        /* record: breaks well-formedness; its place */
    FERRULEBEE_SHORT_BUFFER = 27,      /* writer's buffer shorter than the book */
    FERRULEBEE_SHORT_LIST = 28,        /* reader's word list shorter than the records */
    FERRULEBEE_BAD_STORE = 31,         /* store below 8 or above 1,048,576 bytes, its total field wrong,
                                          more than 256 sheets, or a table that runs past the total */
    FERRULEBEE_NOT_IN_STORE = 32,      /* granted sheet's number not below the store's count; the sheet */
    FERRULEBEE_BAD_ENTRY = 33,         /* granted sheet's entry not good; the sheet */
    FERRULEBEE_DELIVERY_TOO_LONG = 34, /* delivery doesn't fit the buffer */
    FERRULEBEE_TOO_MANY_SPANS = 40,    /* list of numbers shorter than the pairs of the spans */

    FERRULEBEE_BY_ADD = 101,       /* granted since a moment by add; the tick of the latest moment */
    FERRULEBEE_BY_JOIN = 102,      /* granted since a moment by join; the tick of the latest moment */
    FERRULEBEE_NONE = 103,         /* denied: no moment ever */
    FERRULEBEE_STRICT_LEAVE = 104, /* denied: a strict leave of the model ended the grant; its tick */
    FERRULEBEE_STRICT_REMOVE = 105 /* denied: a strict remove of the sheet ended the grant; its tick */
};

/* ---- a group ---- */

/* One record, owned by whoever holds it. It may be copied, kept in a file of its own machine and moved;
 * no call keeps a pointer to it. Sets of sheets: sheet s is bit s % 64 of word s / 64. */
typedef struct {
    uint32_t number;  /* 0 .. 15 */
    uint32_t closed;  /* ticks closed; the open tick is closed + 1 */
    uint64_t members; /* the models that are in, a bit a model, as of the last close */
    uint64_t sj;      /* sj .. lr: the carriers with an accepted event of that kind in the open tick */
    uint64_t lj;
    uint64_t sl;
    uint64_t ll;
    uint64_t added[FERRULEBEE_SET_WORDS];   /* the sheets that are in, as of the last close */
    uint64_t liberal[FERRULEBEE_SET_WORDS]; /* those of them that are in by a liberal add */
    uint64_t sa[FERRULEBEE_SET_WORDS];
    uint64_t la[FERRULEBEE_SET_WORDS];
    uint64_t sr[FERRULEBEE_SET_WORDS];
    uint64_t lr[FERRULEBEE_SET_WORDS];
    uint64_t grants[FERRULEBEE_SHEETS]; /* a word a sheet, a bit a model, as of the last close */
} ferrulebee_group;

FERRULEBEE_ASSERT(sizeof(ferrulebee_group) == 2288);
FERRULEBEE_ASSERT(offsetof(ferrulebee_group, number) == 0);
FERRULEBEE_ASSERT(offsetof(ferrulebee_group, closed) == 4);
FERRULEBEE_ASSERT(offsetof(ferrulebee_group, members) == 8);
FERRULEBEE_ASSERT(offsetof(ferrulebee_group, sj) == 16);
FERRULEBEE_ASSERT(offsetof(ferrulebee_group, lj) == 24);
FERRULEBEE_ASSERT(offsetof(ferrulebee_group, sl) == 32);
FERRULEBEE_ASSERT(offsetof(ferrulebee_group, ll) == 40);
FERRULEBEE_ASSERT(offsetof(ferrulebee_group, added) == 48);
FERRULEBEE_ASSERT(offsetof(ferrulebee_group, liberal) == 80);
FERRULEBEE_ASSERT(offsetof(ferrulebee_group, sa) == 112);
FERRULEBEE_ASSERT(offsetof(ferrulebee_group, la) == 144);
FERRULEBEE_ASSERT(offsetof(ferrulebee_group, sr) == 176);
FERRULEBEE_ASSERT(offsetof(ferrulebee_group, lr) == 208);
FERRULEBEE_ASSERT(offsetof(ferrulebee_group, grants) == 240);

/* A refusal's number, or 0; and the group, which a refusal leaves as it was. */
typedef struct {
    uint32_t code;
    ferrulebee_group group;
} ferrulebee_answer;

FERRULEBEE_ASSERT(sizeof(ferrulebee_answer) == 2296);
FERRULEBEE_ASSERT(offsetof(ferrulebee_answer, code) == 0);
FERRULEBEE_ASSERT(offsetof(ferrulebee_answer, group) == 8);

/* ---- the running gate ---- */

/* A fresh group: no ticks closed, nobody in. Refusals: 9, which gets a fresh group 0. */
ferrulebee_answer ferrulebee_fresh(uint32_t number);

/* A request in the open tick: the carrier of a kind is model `number` (kinds 0 to 3) or sheet `number`
 * (kinds 4 to 7). Refusals, in this order: 1, 2, 3, 4, then 5 or 6. */
ferrulebee_answer ferrulebee_request(ferrulebee_group group, uint32_t kind, uint32_t number);

/* The same on a group lent and marked where it stands; the refusal's number, or 0. */
uint32_t ferrulebee_request_at(ferrulebee_group *group, uint32_t kind, uint32_t number);

/* Closes the open tick: all its accepted requests are applied together. Refusals: 3. */
ferrulebee_answer ferrulebee_close(ferrulebee_group group);

/* A refusal's number with 0; or 0 with 1 for granted and 0 for denied. */
typedef struct {
    uint32_t code;
    uint32_t granted;
} ferrulebee_read_answer;

FERRULEBEE_ASSERT(sizeof(ferrulebee_read_answer) == 8);
FERRULEBEE_ASSERT(offsetof(ferrulebee_read_answer, code) == 0);
FERRULEBEE_ASSERT(offsetof(ferrulebee_read_answer, granted) == 4);

/* May the model read the sheet, as of the last close? Refusals: 2. */
ferrulebee_read_answer ferrulebee_read(ferrulebee_group group, uint32_t model, uint32_t sheet);

/* A refusal's number with 0, or 0 with the count. */
typedef struct {
    uint32_t code;
    uint32_t count;
} ferrulebee_count_answer;

FERRULEBEE_ASSERT(sizeof(ferrulebee_count_answer) == 8);
FERRULEBEE_ASSERT(offsetof(ferrulebee_count_answer, code) == 0);
FERRULEBEE_ASSERT(offsetof(ferrulebee_count_answer, count) == 4);

/* How many models may read the sheet, as of the last close. For the keeper: it is no answer to a model.
 * Refusals: 2. */
ferrulebee_count_answer ferrulebee_models(ferrulebee_group group, uint32_t sheet);

/* A refusal's number with 0; or 0 with the positions that grant, bit 0 the first. */
typedef struct {
    uint32_t code;
    uint32_t mask;
} ferrulebee_mask_answer;

FERRULEBEE_ASSERT(sizeof(ferrulebee_mask_answer) == 8);
FERRULEBEE_ASSERT(offsetof(ferrulebee_mask_answer, code) == 0);
FERRULEBEE_ASSERT(offsetof(ferrulebee_mask_answer, mask) == 4);

/* Which of a station's groups, side by side in one list, grant the model the sheet? `groups` is how many
 * they are. Refusals: 7, then 2. */
ferrulebee_mask_answer ferrulebee_mask(const ferrulebee_group *list, size_t groups,
                                       uint32_t model, uint32_t sheet);

/* ---- the event book ---- */

/* A book: total length, closed ticks, record count, offset of the records (20), group number, then the
 * records: event words, strictly rising. All numbers are four bytes, little-endian. */

/* A refusal's number with the record's place, 0 where it has none, and a fresh group 0;
 * or 0 and 0 with the group. */
typedef struct {
    uint32_t code;
    uint32_t place;
    ferrulebee_group group;
} ferrulebee_book_read_answer;

FERRULEBEE_ASSERT(sizeof(ferrulebee_book_read_answer) == 2296);
FERRULEBEE_ASSERT(offsetof(ferrulebee_book_read_answer, code) == 0);
FERRULEBEE_ASSERT(offsetof(ferrulebee_book_read_answer, place) == 4);
FERRULEBEE_ASSERT(offsetof(ferrulebee_book_read_answer, group) == 8);

/* Reads a book: the group that its records lead to, and its words to the front of `list`, which has room
 * for `list_words`; words beyond them stay.
 * Refusals: 20, 21, 22, 23, 28, then record by record 24, 25, 26. */
ferrulebee_book_read_answer ferrulebee_book_read(const uint8_t *book, size_t book_bytes,
                                                 uint32_t *list, size_t list_words);

/* A refusal's number with the record's place, 0 where it has none, and length 0;
 * or 0 and 0 with the book's length in bytes. */
typedef struct {
    uint32_t code;
    uint32_t place;
    size_t length;
} ferrulebee_book_write_answer;

FERRULEBEE_ASSERT(sizeof(ferrulebee_book_write_answer) == 16);
FERRULEBEE_ASSERT(offsetof(ferrulebee_book_write_answer, code) == 0);
FERRULEBEE_ASSERT(offsetof(ferrulebee_book_write_answer, place) == 4);
FERRULEBEE_ASSERT(offsetof(ferrulebee_book_write_answer, length) == 8);

/* Writes the book of a group with so many closed ticks and this number from its records, in book order.
 * Bytes of `buffer` beyond the book stay.
 * Refusals: 22, 27, then record by record 24, 25, 26. */
ferrulebee_book_write_answer ferrulebee_book_write(uint32_t ticks, uint32_t number,
                                                   const uint32_t *records, size_t count,
                                                   uint8_t *buffer, size_t buffer_bytes);

/* A part of a lent list: which list, its first word from 0, how many words. */
typedef struct {
    uint32_t list;
    size_t first;
    size_t count;
} ferrulebee_part;

FERRULEBEE_ASSERT(sizeof(ferrulebee_part) == 24);
FERRULEBEE_ASSERT(offsetof(ferrulebee_part, list) == 0);
FERRULEBEE_ASSERT(offsetof(ferrulebee_part, first) == 8);
FERRULEBEE_ASSERT(offsetof(ferrulebee_part, count) == 16);

/* The records of one tick, as a part of the list (list 0). For a tick without records it is the empty part
 * where they would stand, and for a list that isn't strictly rising the empty part at the start. It refuses
 * nothing. */
ferrulebee_part ferrulebee_tick_part(const uint32_t *records, size_t count, uint32_t tick);

/* ---- deliveries ---- */

/* A refusal's number with its place, the sheet for 32 and 33 and else 0, and length 0;
 * or 0 and 0 with the delivery's total length. */
typedef struct {
    uint32_t code;
    uint32_t place;
    uint32_t length;
} ferrulebee_delivery;

FERRULEBEE_ASSERT(sizeof(ferrulebee_delivery) == 12);
FERRULEBEE_ASSERT(offsetof(ferrulebee_delivery, code) == 0);
FERRULEBEE_ASSERT(offsetof(ferrulebee_delivery, place) == 4);
FERRULEBEE_ASSERT(offsetof(ferrulebee_delivery, length) == 8);

/* Delivers to the model, from a store, the sheets that the group grants it as of the last close.
 * Store: total length, sheet count n, n pairs (offset, length), bytes. Delivery: sheet count, total
 * length, then for each granted sheet by rising number: number, length, bytes. All numbers are four
 * bytes, little-endian. Bytes of `out` beyond the delivery stay.
 * Refusals: 2, 31, then granted sheets by rising number 32, 33, then 34. */
ferrulebee_delivery ferrulebee_deliver(ferrulebee_group group, uint32_t model,
                                       const uint8_t *store, size_t store_bytes,
                                       uint8_t *out, size_t out_bytes);

/* ---- the history judge ---- */

#define FERRULEBEE_CODE(answer) ((uint32_t)((uint64_t)(answer) >> 32))
#define FERRULEBEE_VALUE(answer) ((uint32_t)((uint64_t)(answer) & 0xffffffffu))

/* Is the model granted the sheet at tick `now`? The two strips are the event words of one model and of
 * one sheet in one group, four bytes a word, little-endian, by rising tick. The answer is
 * code * 2^32 + value: 101 or 102 with the tick of the latest moment; 103 with 0; 104 or 105 with the
 * tick of the strict event that ended the grant, the earliest after the latest moment, 104 where both fall
 * in that tick; a refusal with its place, 0 where it has none. Refusals, in this order: 10, 11, 12, 13, 14.
 * Places count words from 0. Go by the code alone: earlier libraries gave 0 with 104 and 105. */
uint64_t judge(const uint8_t *model, size_t model_bytes,
               const uint8_t *sheet, size_t sheet_bytes,
               uint32_t now);

/* The lists of an evidence. */
enum {
    FERRULEBEE_MODEL_STRIP = 0,
    FERRULEBEE_SHEET_STRIP = 1
};

/* The evidence of a grant: from the add record in the sheet's strip, or from the join record in the
 * model's strip, to that strip's end. Denied, or refused as by the judge: the empty part at the start of
 * the model's strip. The strips are lists of words here. */
ferrulebee_part ferrulebee_evidence(const uint32_t *model, size_t model_words,
                                    const uint32_t *sheet, size_t sheet_words,
                                    uint32_t now);

/* ---- the spans ---- */

/* A refusal's number with its place, 0 where it has none, and count 0; or 0 and 0 with how many spans
 * there are. */
typedef struct {
    uint32_t code;
    uint32_t place;
    uint32_t count;
} ferrulebee_spans_answer;

FERRULEBEE_ASSERT(sizeof(ferrulebee_spans_answer) == 12);
FERRULEBEE_ASSERT(offsetof(ferrulebee_spans_answer, code) == 0);
FERRULEBEE_ASSERT(offsetof(ferrulebee_spans_answer, place) == 4);
FERRULEBEE_ASSERT(offsetof(ferrulebee_spans_answer, count) == 8);

/* When could the model read the sheet? The longest spans of ticks in which the grant held, up to tick
 * `now`, as pairs (first tick, last tick) to the front of `list`, which has room for `list_words` numbers:
 * rising, with at least one tick between two spans. A span that is still open ends at `now`. Numbers
 * beyond the pairs stay. The strips are lists of words, as for the evidence. A list of
 * model_words + sheet_words numbers is always enough.
 * Refusals, in this order: 10, 11, 12, 13, 14, then 40. */
ferrulebee_spans_answer ferrulebee_spans(const uint32_t *model, size_t model_words,
                                         const uint32_t *sheet, size_t sheet_words,
                                         uint32_t now, uint32_t *list, size_t list_words);

#ifdef __cplusplus
}
#endif

#undef FERRULEBEE_ASSERT

#endif
