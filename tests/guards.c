/* What a refusal leaves: for every refusal number of every call, that not a byte of the lent group and
 * buffers moved, nor of the guards on both sides of them; and that an accepted call writes its own bytes
 * and no other. Numbers that no call gave are named at the end.
 *
 *     guards [--bare]     --bare lends blocks without guards, so that a memory checker sees any step over */
#include "ferrulebee.h"
#include "words.h"

#include <inttypes.h>
#include <stdio.h>
#include <stdlib.h>
#include <string.h>

enum { GUARD = 64, BLOCKS = 4, NUMBERS = 41 };

static size_t guard = GUARD;
static unsigned checks, faults;
static unsigned seen[NUMBERS];

/* ---- lent memory ---- */

typedef struct {
    uint8_t *start, *saved;
    size_t length; /* with both guards */
} block;

static block lent[BLOCKS];
static int blocks;

/* A block of this many bytes between two guards, all of them filled with bytes that differ from place to place. */
static void *lend(size_t length)
{
    block *b = &lent[blocks++];
    b->length = length + 2 * guard;
    b->start = malloc(b->length > 0 ? b->length : 1);
    b->saved = malloc(b->length > 0 ? b->length : 1);
    if (b->start == NULL || b->saved == NULL)
        abort();
    for (size_t i = 0; i < b->length; i++)
        b->start[i] = (uint8_t)(0xa5 ^ i * 7);
    return b->start + guard;
}

static void give_back(void)
{
    while (blocks > 0) {
        free(lent[--blocks].start);
        free(lent[blocks].saved);
    }
}

static void save(void)
{
    for (int i = 0; i < blocks; i++)
        memcpy(lent[i].saved, lent[i].start, lent[i].length);
}

/* No byte of any lent block moved, but for `may` bytes from the start of block `which`. */
static int kept(int which, size_t may)
{
    for (int i = 0; i < blocks; i++) {
        size_t from = i == which ? guard : 0, skip = i == which ? may : 0;
        if (memcmp(lent[i].saved, lent[i].start, from) != 0)
            return 0;
        if (memcmp(lent[i].saved + from + skip, lent[i].start + from + skip, lent[i].length - from - skip) != 0)
            return 0;
    }
    return 1;
}

static void fault(const char *what, const char *why, uint32_t got, uint32_t expected)
{
    faults++;
    printf("%s: %s (code %" PRIu32 ", expected %" PRIu32 ")\n", what, why, got, expected);
}

/* A call that lent these blocks answered `got`; nothing moved but what an accepted call may write. */
static void answered(const char *what, uint32_t got, uint32_t expected, int which, size_t may)
{
    checks++;
    if (got != expected)
        fault(what, "another answer", got, expected);
    if (!kept(expected == 0 ? which : -1, expected == 0 ? may : 0))
        fault(what, "a byte moved", got, expected);
    if (got < NUMBERS)
        seen[got]++;
}

/* ---- groups ---- */

static ferrulebee_group fresh(uint32_t number)
{
    ferrulebee_answer a = ferrulebee_fresh(number);
    if (a.code != 0)
        fault("a fresh group", "refused", a.code, 0);
    return a.group;
}

/* A group with model 5 in, sheets 3 and 255 in, both granted to model 5, and an open join of model 9. */
static ferrulebee_group held(void)
{
    ferrulebee_group g = fresh(3);
    static const uint32_t asked[][2] = {{FERRULEBEE_SJ, 5}, {FERRULEBEE_SA, 3}, {FERRULEBEE_LA, 255}};
    for (size_t i = 0; i < sizeof asked / sizeof *asked; i++)
        g = ferrulebee_request(g, asked[i][0], asked[i][1]).group;
    g = ferrulebee_close(g).group;
    return ferrulebee_request(g, FERRULEBEE_LJ, 9).group;
}

/* By value: the caller's group is its own, and a refusal hands back an equal one. */
static void by_value(const char *what, const ferrulebee_group *g, ferrulebee_answer a, uint32_t expected)
{
    answered(what, a.code, expected, -1, 0);
    if (expected != 0 && memcmp(g, &a.group, sizeof *g) != 0)
        fault(what, "the group handed back differs", a.code, expected);
}

static void request(const char *what, const ferrulebee_group *from, uint32_t kind, uint32_t number, uint32_t expected)
{
    ferrulebee_group *g = lend(sizeof *g);
    *g = *from;
    save();
    by_value(what, g, ferrulebee_request(*g, kind, number), expected);
    uint32_t got = ferrulebee_request_at(g, kind, number);
    answered(what, got, expected, 0, sizeof *g);
    give_back();
}

static void requests(void)
{
    ferrulebee_group g = held(), late = held();
    late.closed = FERRULEBEE_TICKS;
    request("request: kind 8", &g, 8, 0, 1);
    request("request: the last kind of all", &g, UINT32_MAX, UINT32_MAX, 1);
    request("request: model 64", &g, FERRULEBEE_SJ, 64, 2);
    request("request: sheet 256", &g, FERRULEBEE_LR, 256, 2);
    request("request: no tick left", &late, FERRULEBEE_SJ, 1, 3);
    request("request: a second event", &g, FERRULEBEE_SL, 9, 4);
    request("request: a join while in", &g, FERRULEBEE_LJ, 5, 5);
    request("request: an add while in", &g, FERRULEBEE_SA, 255, 5);
    request("request: a leave while out", &g, FERRULEBEE_LL, 0, 6);
    request("request: a remove while out", &g, FERRULEBEE_SR, 0, 6);
    request("request: accepted", &g, FERRULEBEE_SL, 5, 0);
}

static void closes_and_fresh(void)
{
    ferrulebee_group *g = lend(sizeof *g), zero = fresh(0);
    *g = held();
    save();
    by_value("close: accepted", g, ferrulebee_close(*g), 0);
    g->closed = FERRULEBEE_TICKS;
    save();
    by_value("close: no tick left", g, ferrulebee_close(*g), 3);
    by_value("fresh: group 16", &zero, ferrulebee_fresh(16), 9);
    give_back();
}

static void read_of(const char *what, uint32_t model, uint32_t sheet, uint32_t expected, uint32_t granted)
{
    ferrulebee_group *g = lend(sizeof *g);
    *g = held();
    save();
    ferrulebee_read_answer r = ferrulebee_read(*g, model, sheet);
    answered(what, r.code, expected, -1, 0);
    if (r.granted != granted)
        fault(what, "another grant", r.code, expected);
    give_back();
}

static void models_of(const char *what, uint32_t sheet, uint32_t expected, uint32_t count)
{
    ferrulebee_group *g = lend(sizeof *g);
    *g = held();
    save();
    ferrulebee_count_answer n = ferrulebee_models(*g, sheet);
    answered(what, n.code, expected, -1, 0);
    if (n.count != count)
        fault(what, "another count", n.code, expected);
    give_back();
}

static void reads(void)
{
    read_of("read: model 64", 64, 0, 2, 0);
    read_of("read: sheet 256", 0, 256, 2, 0);
    read_of("read: granted", 5, 255, 0, 1);
    read_of("read: denied, its join is still open", 9, 255, 0, 0);
    models_of("models: sheet 256", 256, 2, 0);
    models_of("models: one", 3, 0, 1);
    models_of("models: none", 4, 0, 0);
}

static void mask(const char *what, size_t groups, uint32_t model, uint32_t sheet, uint32_t expected)
{
    ferrulebee_group *list = lend(groups * sizeof *list);
    for (size_t i = 0; i < groups; i++)
        list[i] = held();
    save();
    answered(what, ferrulebee_mask(list, groups, model, sheet).code, expected, -1, 0);
    give_back();
}

static void masks(void)
{
    mask("mask: no groups", 0, 0, 0, 7);
    mask("mask: seventeen groups", 17, 64, 0, 7);
    mask("mask: model 64", 1, 64, 0, 2);
    mask("mask: sheet 256", 16, 63, 256, 2);
    mask("mask: sixteen groups", 16, 63, 255, 0);
}

/* ---- the judge and the evidence ---- */

static void judged(const char *what, size_t model_bytes, uint32_t model_kind, size_t sheet_bytes, uint32_t sheet_kind, uint32_t now, uint32_t expected)
{
    uint8_t *m = lend(model_bytes), *s = lend(sheet_bytes);
    for (size_t i = 0; i + 4 <= model_bytes; i += 4)
        put(m + i, FERRULEBEE_WORD(1 + i / 4, model_kind + i / 4 % 2 * 2, 7));
    for (size_t i = 0; i + 4 <= sheet_bytes; i += 4)
        put(s + i, FERRULEBEE_WORD(1 + i / 4, sheet_kind + i / 4 % 2 * 2, 40));
    save();
    answered(what, FERRULEBEE_CODE(judge(m, model_bytes, s, sheet_bytes, now)), expected, -1, 0);
    give_back();
}

static void evidence(const char *what, size_t model_words, size_t sheet_words, uint32_t now, size_t count)
{
    uint32_t *m = lend(4 * model_words), *s = lend(4 * sheet_words);
    for (size_t i = 0; i < model_words; i++)
        m[i] = FERRULEBEE_WORD(1 + i, i % 2 == 0 ? FERRULEBEE_SJ : FERRULEBEE_LL, 7);
    for (size_t i = 0; i < sheet_words; i++)
        s[i] = FERRULEBEE_WORD(1 + i, i % 2 == 0 ? FERRULEBEE_SA : FERRULEBEE_LR, 40);
    save();
    ferrulebee_part p = ferrulebee_evidence(m, model_words, s, sheet_words, now);
    int right = p.count == count && p.first == (count == 0 ? 0 : sheet_words - count) && p.list == (count == 0 ? FERRULEBEE_MODEL_STRIP : FERRULEBEE_SHEET_STRIP);
    answered(what, right ? 0 : 1, 0, -1, 0);
    give_back();
}

static void histories(void)
{
    size_t most = 4 * FERRULEBEE_EVENTS;
    judged("judge: now too late", 4, FERRULEBEE_SJ, 4, FERRULEBEE_SA, FERRULEBEE_TICKS + 1, 10);
    judged("judge: a model's strip of 3 bytes", 3, FERRULEBEE_SJ, 4, FERRULEBEE_SA, 9, 11);
    judged("judge: a model's strip of 4,097 words", most + 4, FERRULEBEE_SJ, 4, FERRULEBEE_SA, 9999, 11);
    judged("judge: a sheet's strip of 5 bytes", 4, FERRULEBEE_SJ, 5, FERRULEBEE_SA, 9, 12);
    judged("judge: a sheet's strip of 4,097 words", 4, FERRULEBEE_SJ, most + 4, FERRULEBEE_SA, 9999, 12);
    judged("judge: a model's strip that starts with a leave", 8, FERRULEBEE_SL, 4, FERRULEBEE_SA, 9, 13);
    judged("judge: a sheet's strip that starts with a remove", 8, FERRULEBEE_SJ, 4, FERRULEBEE_SR, 9, 14);
    judged("judge: granted", most, FERRULEBEE_LJ, most, FERRULEBEE_LA, FERRULEBEE_TICKS, 101);
    judged("judge: two empty strips", 0, FERRULEBEE_SJ, 0, FERRULEBEE_SA, 0, 103);
    judged("judge: ended by a strict leave", most, FERRULEBEE_SJ, 4, FERRULEBEE_SA, FERRULEBEE_TICKS, 104);
    judged("judge: ended by a strict remove", 4, FERRULEBEE_SJ, most, FERRULEBEE_SA, FERRULEBEE_TICKS, 105);
    evidence("evidence: from the add to the end", 3, 2, 9, 2);
    evidence("evidence: denied", 0, 2, 9, 0);
    evidence("evidence: refused, now too late", 3, 2, FERRULEBEE_TICKS + 1, 0);
    evidence("evidence: refused, 4,097 words", FERRULEBEE_EVENTS + 1, 2, 9999, 0);
}

/* ---- the spans ---- */

/* A model with LJ and SL by turns from tick 1 on, whose numbers are neighbours, and a sheet that is in by LA
 * in tick 1: each odd tick is a span, and the last one is open where the model is in at the end. Other kinds
 * and a sheet of more words are for refusals. */
static void spans(const char *what, size_t model_words, uint32_t model_kind, size_t sheet_words, uint32_t sheet_kind, uint32_t now, size_t room, uint32_t expected)
{
    uint32_t *list = lend(4 * room), *m = lend(4 * model_words), *s = lend(4 * sheet_words);
    for (size_t i = 0; i < model_words; i++)
        m[i] = FERRULEBEE_WORD(1 + i, model_kind + i % 2, 7);
    for (size_t i = 0; i < sheet_words; i++)
        s[i] = FERRULEBEE_WORD(1 + i, sheet_kind + i % 2 * 2, 40);
    save();
    ferrulebee_spans_answer a = ferrulebee_spans(m, model_words, s, sheet_words, now, list, room);
    uint32_t count = expected != 0 || sheet_words == 0 ? 0 : (uint32_t)(model_words + 1) / 2;
    answered(what, a.code, expected, 0, 8 * count);
    if (a.place != 0 || a.count != count)
        fault(what, "another place or count", a.code, expected);
    for (uint32_t i = 0; i < count; i++) {
        int open = 2 * i + 1 == model_words;
        if (list[2 * i] != 2 * i + 1 || list[2 * i + 1] != (open ? now : 2 * i + 1))
            fault(what, "another span", a.code, expected);
    }
    give_back();
}

static void all_spans(void)
{
    size_t most = FERRULEBEE_EVENTS;
    uint32_t join = FERRULEBEE_LJ, add = FERRULEBEE_LA, last = FERRULEBEE_TICKS;
    spans("spans: now too late", 3, join, 1, add, last + 1, 9, 10);
    spans("spans: a model's strip of 4,097 words", most + 1, join, 1, add, last, 9, 11);
    spans("spans: a sheet's strip of 4,097 words", 3, join, most + 1, add, last, 9, 12);
    spans("spans: a model's strip that starts with a leave", 3, FERRULEBEE_SL, 1, add, last, 9, 13);
    spans("spans: a sheet's strip that starts with a remove", 3, join, 1, FERRULEBEE_SR, last, 9, 14);
    spans("spans: no list at all", 3, join, 1, add, last, 0, 40);
    spans("spans: room for a number", 3, join, 1, add, last, 1, 40);
    spans("spans: room for a span of two", 3, join, 1, add, last, 2, 40);
    spans("spans: one number short", 3, join, 1, add, last, 3, 40);
    spans("spans: one number short of many", most, join, 1, add, last, most - 1, 40);
    spans("spans: a fit", 3, join, 1, add, last, 4, 0);
    spans("spans: a number to spare", 3, join, 1, add, last, 5, 0);
    spans("spans: many numbers to spare", 3, join, 1, add, last, 2 * most, 0);
    spans("spans: a fit of many", most, join, 1, add, last, most, 0);
    spans("spans: many and a number to spare", most - 1, join, 1, add, last, most + 1, 0);
    spans("spans: none, no list at all", 3, join, 0, add, last, 0, 0);
    spans("spans: none, a list", 3, join, 0, add, last, 3, 0);
    spans("spans: two empty strips, no list at all", 0, join, 0, add, 0, 0, 0);
    spans("spans: two empty strips, a list", 0, join, 0, add, 0, 2, 0);
}

/* ---- deliveries ---- */

/* A store of `sheets` sheets of 5 bytes each; then one word of it is set, where `at` is a place in it. */
static uint8_t *store(size_t sheets, size_t *length, size_t at, uint32_t word)
{
    size_t start = 8 + 8 * sheets;
    *length = start + 5 * sheets;
    uint8_t *s = lend(*length);
    put(s, (uint32_t)*length);
    put(s + 4, (uint32_t)sheets);
    for (size_t i = 0; i < sheets; i++) {
        put(s + 8 + 8 * i, (uint32_t)(start + 5 * i));
        put(s + 12 + 8 * i, 5);
    }
    if (at + 4 <= *length)
        put(s + at, word);
    return s;
}

static void deliver(const char *what, uint32_t model, size_t sheets, size_t at, uint32_t word, size_t room, uint32_t expected, uint32_t place)
{
    size_t length;
    uint8_t *out = lend(room), *s = store(sheets, &length, at, word);
    ferrulebee_group *g = lend(sizeof *g);
    *g = held();
    save();
    ferrulebee_delivery d = ferrulebee_deliver(*g, model, s, length, out, room);
    answered(what, d.code, expected, 0, d.length);
    if (d.place != place || (d.length == 0) != (expected != 0))
        fault(what, "another place or length", d.code, expected);
    give_back();
}

static void deliveries(void)
{
    size_t none = SIZE_MAX - 4;
    deliver("deliver: model 64", 64, 256, none, 0, 100, 2, 0);
    deliver("deliver: a total that is too small", 5, 256, 0, 8, 100, 31, 0);
    deliver("deliver: more sheets than the table has room for", 5, 2, 4, 257, 100, 31, 0);
    deliver("deliver: a granted sheet beyond the store's count", 5, 255, none, 0, 100, 32, 255);
    deliver("deliver: an offset into the table", 5, 256, 8 + 8 * 3, 8, 100, 33, 3);
    deliver("deliver: a sum that would wrap", 5, 256, 12 + 8 * 255, UINT32_MAX, 100, 33, 255);
    deliver("deliver: no room at all", 5, 256, none, 0, 0, 34, 0);
    deliver("deliver: one byte short", 5, 256, none, 0, 33, 34, 0);
    deliver("deliver: a fit", 5, 256, none, 0, 34, 0, 0);
    deliver("deliver: with room to spare", 5, 256, none, 0, 100, 0, 0);
    deliver("deliver: a fault in an ungranted entry", 5, 256, 8 + 8 * 4, UINT32_MAX, 100, 0, 0);
    deliver("deliver: a model without a grant", 6, 256, none, 0, 8, 0, 0);
    uint8_t *out = lend(16), *s = lend(7);
    save();
    answered("deliver: a store of 7 bytes", ferrulebee_deliver(held(), 5, s, 7, out, 16).code, 31, -1, 0);
    give_back();
}

/* ---- the book ---- */

/* The book of RULES.md 12.1, of group 3: six ticks, eight records. */
static const uint32_t records[] = {4610, 6144, 9730, 14849, 16386, 16901, 24065, 27648};
enum { RECORDS = sizeof records / sizeof *records, BOOK = FERRULEBEE_BOOK_HEADER + 4 * RECORDS };

/* Its bytes, with one word set, read by a list of so many words. */
static void book_read(const char *what, size_t bytes, size_t at, uint32_t word, size_t room, uint32_t expected, uint32_t place)
{
    static const uint32_t header[] = {BOOK, 6, RECORDS, FERRULEBEE_BOOK_HEADER, 3};
    uint32_t *list = lend(4 * room);
    uint8_t *book = lend(bytes);
    for (size_t i = 0; i < 5 + RECORDS && 4 * i + 4 <= bytes; i++)
        put(book + 4 * i, i < 5 ? header[i] : records[i - 5]);
    if (at + 4 <= bytes)
        put(book + at, word);
    save();
    ferrulebee_book_read_answer a = ferrulebee_book_read(book, bytes, list, room);
    answered(what, a.code, expected, 0, 4 * RECORDS);
    if (a.place != place)
        fault(what, "another place", a.code, expected);
    ferrulebee_group zero = fresh(0);
    if (expected != 0 && memcmp(&a.group, &zero, sizeof zero) != 0)
        fault(what, "not a fresh group 0", a.code, expected);
    if (expected == 0 && memcmp(list, records, sizeof records) != 0)
        fault(what, "another list", a.code, expected);
    give_back();
}

static void book_reads(void)
{
    size_t none = SIZE_MAX - 4, first = FERRULEBEE_BOOK_HEADER;
    book_read("book read: 19 bytes", 19, none, 0, RECORDS, 20, 0);
    book_read("book read: 16,405 bytes", FERRULEBEE_LONGEST_BOOK + 1, none, 0, RECORDS, 20, 0);
    book_read("book read: another total", BOOK, 0, BOOK + 1, RECORDS, 21, 0);
    book_read("book read: too many ticks", BOOK, 4, FERRULEBEE_TICKS + 1, RECORDS, 22, 0);
    book_read("book read: too many records", BOOK, 8, FERRULEBEE_EVENTS + 1, RECORDS, 22, 0);
    book_read("book read: another offset", BOOK, 12, 24, RECORDS, 22, 0);
    book_read("book read: group 16", BOOK, 16, 16, RECORDS, 22, 0);
    book_read("book read: a count that doesn't fit the total", BOOK, 8, RECORDS - 1, RECORDS, 23, 0);
    book_read("book read: a list that is one short", BOOK, none, 0, RECORDS - 1, 28, 0);
    book_read("book read: no list at all", BOOK, none, 0, 0, 28, 0);
    book_read("book read: the last tick is beyond", BOOK, 4, 5, RECORDS, 24, RECORDS - 1);
    book_read("book read: a model out of range", BOOK, first, FERRULEBEE_WORD(1, FERRULEBEE_LJ, 64), RECORDS, 24, 0);
    book_read("book read: a word twice", BOOK, first + 4, 4610, RECORDS, 25, 1);
    book_read("book read: a leave while out", BOOK, first, FERRULEBEE_WORD(1, FERRULEBEE_LL, 2), RECORDS, 26, 0);
    book_read("book read: a fit", BOOK, none, 0, RECORDS, 0, 0);
    book_read("book read: with words to spare", BOOK, none, 0, FERRULEBEE_EVENTS, 0, 0);
}

/* The records with one changed, written to a buffer of so many bytes. */
static void book_write(const char *what, uint32_t ticks, uint32_t number, size_t at, uint32_t word, size_t room, uint32_t expected, uint32_t place)
{
    uint8_t *buffer = lend(room);
    uint32_t *words = lend(sizeof records);
    memcpy(words, records, sizeof records);
    if (at < RECORDS)
        words[at] = word;
    save();
    ferrulebee_book_write_answer a = ferrulebee_book_write(ticks, number, words, RECORDS, buffer, room);
    answered(what, a.code, expected, 0, BOOK);
    if (a.place != place || a.length != (expected == 0 ? (size_t)BOOK : 0))
        fault(what, "another place or length", a.code, expected);
    give_back();
}

static void book_writes(void)
{
    book_write("book write: too many ticks", FERRULEBEE_TICKS + 1, 3, RECORDS, 0, BOOK, 22, 0);
    book_write("book write: group 16", 6, 16, RECORDS, 0, BOOK, 22, 0);
    book_write("book write: one byte short", 6, 3, RECORDS, 0, BOOK - 1, 27, 0);
    book_write("book write: no buffer at all", 6, 3, RECORDS, 0, 0, 27, 0);
    book_write("book write: the last tick is beyond", 5, 3, RECORDS, 0, BOOK, 24, RECORDS - 1);
    book_write("book write: a word twice", 6, 3, 1, 4610, BOOK, 25, 1);
    book_write("book write: a leave while out", 6, 3, 0, FERRULEBEE_WORD(1, FERRULEBEE_LL, 2), BOOK, 26, 0);
    book_write("book write: a fit", 6, 3, RECORDS, 0, BOOK, 0, 0);
    book_write("book write: with bytes to spare", 6, 3, RECORDS, 0, BOOK + 9, 0, 0);
    uint8_t *buffer = lend(FERRULEBEE_LONGEST_BOOK + 4);
    uint32_t *words = lend(4 * (FERRULEBEE_EVENTS + 1));
    save();
    answered("book write: 4,097 records", ferrulebee_book_write(6, 3, words, FERRULEBEE_EVENTS + 1, buffer, FERRULEBEE_LONGEST_BOOK + 4).code, 22, -1, 0);
    give_back();
}

static void tick_part(const char *what, uint32_t tick, size_t at, uint32_t word, size_t start, size_t count)
{
    uint32_t *words = lend(sizeof records);
    memcpy(words, records, sizeof records);
    if (at < RECORDS)
        words[at] = word;
    save();
    ferrulebee_part p = ferrulebee_tick_part(words, RECORDS, tick);
    answered(what, p.list == 0 && p.first == start && p.count == count ? 0 : 1, 0, -1, 0);
    give_back();
}

static void tick_parts(void)
{
    tick_part("tick part: the first two", 1, RECORDS, 0, 0, 2);
    tick_part("tick part: two in the middle", 4, RECORDS, 0, 4, 2);
    tick_part("tick part: the last", 6, RECORDS, 0, 7, 1);
    tick_part("tick part: tick 0", 0, RECORDS, 0, 0, 0);
    tick_part("tick part: a tick without records", 5, 6, FERRULEBEE_WORD(6, 0, 0), 6, 0);
    tick_part("tick part: beyond all", UINT32_MAX, RECORDS, 0, RECORDS, 0);
    tick_part("tick part: a list that doesn't rise", 4, 7, 0, 0, 0);
}

/* ---- which numbers were reached ---- */

static void reached(void)
{
    static const int numbers[] = {1, 2, 3, 4, 5, 6, 7, 9, 10, 11, 12, 13, 14, 20, 21, 22, 23, 24, 25, 26, 27, 28, 31, 32, 33, 34, 40};
    for (size_t i = 0; i < sizeof numbers / sizeof *numbers; i++)
        if (seen[numbers[i]] == 0) {
            faults++;
            printf("refusal %d was never given\n", numbers[i]);
        }
}

int main(int count, char **words)
{
    if (count == 2 && strcmp(words[1], "--bare") == 0)
        guard = 0;
    requests();
    closes_and_fresh();
    reads();
    masks();
    histories();
    all_spans();
    deliveries();
    book_reads();
    book_writes();
    tick_parts();
    reached();
    printf("guards: %u checks, %u faults\n", checks, faults);
    return faults != 0;
}
