/* The spans from C: the histories of RULES.md 14.1 and the edges of RULES.md 7 with their spans by hand,
 * each into lists of every length from none to longer than needed; each refusal of the judge's in its
 * order; and over every short history that a tick lies in a span exactly when the judge grants there, and
 * that what the judge says of a tick is what the spans up to it say. */
#include "strips.h"

#include <inttypes.h>
#include <stdio.h>

enum {
    MOST = FERRULEBEE_EVENTS - 1, /* the most spans of two strips */
    SPARE = 2,                    /* how much longer than needed a list gets, and what is looked at beyond it */
    TICKS = 5                     /* of a short history */
};

/* What stands in a list before a call: no tick, and another at each place. */
static uint32_t filling(size_t place) { return UINT32_MAX - (uint32_t)place; }

static unsigned checks, faults;

static void fault(const char *what, size_t length, const char *why)
{
    faults++;
    printf("%s, a list of %zu: %s\n", what, length, why);
}

/* Asks with a list of this length. `pairs` are the `count` spans; a refusal has none. */
static void expect_in(size_t length, const char *what, const strip *m, const strip *s, uint32_t now, ferrulebee_spans_answer expected, const uint32_t *pairs)
{
    static uint32_t list[2 * MOST + 2 * SPARE];
    size_t room = length + SPARE;
    for (size_t i = 0; i < room; i++)
        list[i] = filling(i);
    ferrulebee_spans_answer got = ferrulebee_spans(m->words, m->count, s->words, s->count, now, list, length);
    checks++;
    if (got.code != expected.code || got.place != expected.place || got.count != expected.count) {
        fault(what, length, "another answer");
        printf("    expected %" PRIu32 " %" PRIu32 " %" PRIu32 ", got %" PRIu32 " %" PRIu32 " %" PRIu32 "\n",
               expected.code, expected.place, expected.count, got.code, got.place, got.count);
    }
    for (size_t i = 0; i < room; i++)
        if (list[i] != (i < 2 * (size_t)expected.count ? pairs[i] : filling(i))) {
            fault(what, length, "another number in the list");
            printf("    %" PRIu32 " at %zu\n", list[i], i);
            return;
        }
}

static void refused(const char *what, const strip *m, const strip *s, uint32_t now, uint32_t code, uint32_t place)
{
    ferrulebee_spans_answer expected = {code, place, 0};
    expect_in(0, what, m, s, now, expected, NULL);
    expect_in(2 * MOST, what, m, s, now, expected, NULL);
}

/* Lists of so many numbers, from `shortest` on, take the spans exactly when they have room. */
static void held(size_t shortest, const char *what, const strip *m, const strip *s, uint32_t now, const uint32_t *pairs, uint32_t count)
{
    for (size_t length = shortest; length <= 2 * (size_t)count + SPARE; length++) {
        ferrulebee_spans_answer fits = {0, 0, count}, too_many = {FERRULEBEE_TOO_MANY_SPANS, 0, 0};
        expect_in(length, what, m, s, now, length < 2 * (size_t)count ? too_many : fits, pairs);
    }
}

/* Strips and spans from text, the spans as "1-5 7-7". */
static void texts(const char *model, const char *sheet, uint32_t now, const char *spans)
{
    static strip m, s;
    uint32_t pairs[16], numbers = 0;
    write_strip(&m, model);
    write_strip(&s, sheet);
    for (const char *at = spans; *at != '\0';) {
        char *end;
        pairs[numbers++] = (uint32_t)strtoul(at, &end, 10);
        at = *end == '\0' ? end : end + 1;
    }
    char what[200];
    snprintf(what, sizeof what, "[%s] [%s] at %" PRIu32, model, sheet, now);
    held(0, what, &m, &s, now, pairs, numbers / 2);
}

static void histories(void)
{
    texts("", "", 0, "");
    texts("SJ1", "SA1", 1, "1-1");
    texts("LJ1", "LA1", 1, "1-1");
    texts("SJ2", "LA1", 2, "");
    texts("LJ2", "LA1", 2, "2-2");
    texts("LJ2", "SA1", 2, "");
    texts("LJ1 LL2", "SA2", 2, "");
    texts("LJ2", "LA1 LR2", 2, "");
    texts("SJ1 LL3", "SA2 LR4", 5, "2-5");
    texts("SJ1 SL3", "SA2 SR3", 3, "2-2");
    texts("SJ1 LL2 SJ4", "LA3", 4, "");
    texts("SJ1 SL2 LJ3", "LA1", 3, "1-1 3-3");
    texts("SJ1", "SA2 SR3 LA4", 4, "2-2 4-4");
}

static void edges(void)
{
    /* an open span ends at now, however far beyond the last event */
    texts("SJ1", "SA1", 2, "1-2");
    texts("SJ3 LL4", "LA3 LR5", 9, "3-9");
    texts("SJ1", "SA1", LAST, "1-1000000");
    /* a strict event in the tick after the moment, of either side and of both */
    texts("SJ1 SL2", "SA1", 2, "1-1");
    texts("SJ1", "SA1 SR2", 2, "1-1");
    texts("SJ1 SL2", "SA1 SR2", 9, "1-1");
    /* exactly one tick between two spans, by a leave and by a remove; three spans in five ticks */
    texts("SJ1 SL4 LJ5", "LA2", 7, "2-3 5-7");
    texts("SJ1", "SA2 SR4 SA5", 7, "2-3 5-7");
    texts("LJ1 SL2 LJ3", "LA1 SR4 LA5", 5, "1-1 3-3 5-5");
    /* more than one tick between */
    texts("LJ1 SL3 LJ7 SL8", "LA1", 9, "1-2 7-7");
    /* a grant that still holds gets a new moment: one span */
    texts("SJ1", "LA1 LR2 LA3", 5, "1-5");
    texts("LJ1 LL2 LJ3", "LA1", 3, "1-3");
    texts("LJ1 LL3 LJ4 SL6", "LA2 LR5", 8, "2-5");
    texts("SJ1 LL2 SJ3", "SA1 LR4 SA5 SR7", 8, "1-6");
    /* liberal events and a strict join end nothing; a strict join after the end starts nothing */
    texts("SJ1 LL3 SJ4", "SA2 LR5", 6, "2-6");
    texts("SJ1 SL3 SJ4", "SA2", 9, "2-2");
    texts("SJ1 SL3 LJ4", "SA2", 9, "2-2");
    /* a strict event of a carrier ends the grant also after the other's liberal one */
    texts("SJ1 LL2", "SA1 SR4", 9, "1-3");
    texts("SJ1 SL4", "SA1 LR2", 9, "1-3");
    /* strict events without a grant: before any moment, and a second one */
    texts("SJ1 SL2", "SA2", 9, "");
    texts("SJ1 SL5", "SA1 SR3", 9, "1-2");
    texts("SJ2 SL3 SJ4", "LA1 SR2 SA4", 9, "4-9");
    /* an add and a liberal leave in one tick make no moment, nor do a liberal join and a remove */
    texts("SJ1 LL2 SJ3", "LA2 LR3", 9, "");
    texts("LJ2 LL3 LJ4", "LA1 SR2 LA3 LR4", 9, "");
    /* the last tick */
    texts("SJ1000000", "SA1000000", LAST, "1000000-1000000");
    texts("SJ1 SL1000000", "SA1", LAST, "1-999999");
    texts("SJ1", "SA1 SR999999 LA1000000", LAST, "1-999998 1000000-1000000");
    /* the last numbers in range */
    texts("SJ1/63", "SA1/255", 2, "1-2");
}

static void refusals(void)
{
    static strip m, s, none, bad;
    write_strip(&bad, "LR1");
    for (size_t i = 0; i < BAD_STRIPS; i++) {
        write_strip(&m, bad_strips[i].model);
        write_strip(&s, bad_strips[i].sheet);
        char what[200];
        snprintf(what, sizeof what, "[%s] [%s] at %" PRIu32, bad_strips[i].model, bad_strips[i].sheet, bad_strips[i].now);
        refused(what, &m, &s, bad_strips[i].now, bad_strips[i].code, bad_strips[i].place);
    }
    refused("now too late", &none, &none, LAST + 1, 10, 0);
    refused("the latest now", &none, &none, UINT32_MAX, 10, 0);

    long_strip(&m, FERRULEBEE_EVENTS + 1, FERRULEBEE_SJ, FERRULEBEE_SL, 1);
    long_strip(&s, FERRULEBEE_EVENTS + 1, FERRULEBEE_SA, FERRULEBEE_SR, 1);
    refused("4,097 words of both and now too late", &m, &s, LAST + 1, 10, 0);
    refused("4,097 words of both", &m, &s, LAST, 11, 0);
    refused("4,097 words of a model, the sheet's bad", &m, &bad, LAST, 11, 0);
    refused("4,097 words of a sheet, the model's bad", &bad, &s, LAST, 12, 0);
    refused("both bad", &bad, &bad, LAST, 13, 0);

    long_strip(&m, FERRULEBEE_EVENTS, FERRULEBEE_SJ, FERRULEBEE_SL, 1);
    refused("the last of 4,096 words after now", &m, &none, FERRULEBEE_EVENTS - 1, 13, FERRULEBEE_EVENTS - 1);
}

/* Full strips, into lists of nearly the right length. */
static void limits(void)
{
    static strip m, s;
    static uint32_t pairs[2 * MOST];
    /* all in the same ticks: every odd tick is a span */
    uint32_t count = FERRULEBEE_EVENTS / 2;
    long_strip(&m, FERRULEBEE_EVENTS, FERRULEBEE_LJ, FERRULEBEE_SL, 1);
    long_strip(&s, FERRULEBEE_EVENTS, FERRULEBEE_LA, FERRULEBEE_SR, 1);
    for (uint32_t i = 0; i < count; i++)
        pairs[2 * i] = pairs[2 * i + 1] = 2 * i + 1;
    held(2 * count - 2, "4,096 words each", &m, &s, LAST, pairs, count);

    /* the most: a sheet is in from tick 1 while a model comes and goes from tick 2 on and stays, then the
     * sheet comes and goes; every other tick is a span */
    long_strip(&m, MOST, FERRULEBEE_LJ, FERRULEBEE_SL, 2);
    long_strip(&s, MOST, FERRULEBEE_LA, FERRULEBEE_SR, MOST + 1);
    s.words[0] = FERRULEBEE_WORD(1, FERRULEBEE_LA, 0);
    for (uint32_t i = 0; i < MOST; i++)
        pairs[2 * i] = pairs[2 * i + 1] = 2 * i + 2;
    pairs[2 * MOST - 1] = LAST;
    held(2 * MOST - 2, "the most spans", &m, &s, LAST, pairs, MOST);
}

/* The number of the kind in each tick, from the digits of a code to the base of 3: none, strict, liberal. */
static void coded_strip(strip *s, uint32_t code, uint32_t enters)
{
    uint32_t leaves = 0;
    s->count = 0;
    for (uint32_t tick = 1; tick <= TICKS; tick++, code /= 3)
        if (code % 3 != 0) {
            s->words[s->count++] = FERRULEBEE_WORD(tick, enters + leaves + code % 3 - 1, 0);
            leaves = 2 - leaves;
        }
}

/* The judge's answer at the tick, by the events up to it. */
static uint64_t answer(const strip *m, const strip *s, uint32_t tick)
{
    uint8_t bytes[2][4 * TICKS];
    size_t lengths[2] = {0, 0};
    const strip *strips[] = {m, s};
    for (int side = 0; side < 2; side++)
        for (size_t i = 0; i < strips[side]->count && strips[side]->words[i] / FERRULEBEE_WORD(1, 0, 0) <= tick; i++)
            for (int b = 0; b < 4; b++)
                bytes[side][lengths[side]++] = (uint8_t)(strips[side]->words[i] >> (8 * b));
    return judge(bytes[0], lengths[0], bytes[1], lengths[1], tick);
}

/* Has the carrier an event of this kind in the tick? */
static int has(const strip *s, uint32_t kind, uint32_t tick)
{
    for (size_t i = 0; i < s->count; i++)
        if (s->words[i] == FERRULEBEE_WORD(tick, kind, 0))
            return 1;
    return 0;
}

/* Is the judge's answer what the spans up to the tick say? Granted in the last of them, which the moment lies
 * in and is an add or a liberal join of; none where there is none; else the strict event of the tick right
 * after the last, the model's first. */
static int tied(uint64_t said, const strip *m, const strip *s, uint32_t tick, const uint32_t *pairs, uint32_t count)
{
    uint32_t code = FERRULEBEE_CODE(said), value = FERRULEBEE_VALUE(said);
    if (count == 0)
        return code == FERRULEBEE_NONE && value == 0;
    uint32_t first = pairs[2 * count - 2], last = pairs[2 * count - 1];
    if (last == tick && (value < first || value > tick))
        return 0;
    if (last == tick && (has(s, FERRULEBEE_SA, value) || has(s, FERRULEBEE_LA, value)))
        return code == FERRULEBEE_BY_ADD;
    if (last == tick)
        return code == FERRULEBEE_BY_JOIN && has(m, FERRULEBEE_LJ, value);
    if (has(m, FERRULEBEE_SL, last + 1))
        return code == FERRULEBEE_STRICT_LEAVE && value == last + 1;
    return code == FERRULEBEE_STRICT_REMOVE && value == last + 1 && has(s, FERRULEBEE_SR, last + 1);
}

static void untied(const char *what, uint32_t tick, uint64_t said)
{
    faults++;
    printf("%s, at tick %" PRIu32 ": the judge says %" PRIu32 " %" PRIu32 ", the spans something else\n", what, tick,
           FERRULEBEE_CODE(said), FERRULEBEE_VALUE(said));
}

/* Every well-formed history of one model and one sheet in so many ticks: the spans are the judge's, and the
 * judge's causes are the spans'. */
static void judged(void)
{
    static strip m, s;
    uint32_t codes = 1;
    for (int i = 0; i < TICKS; i++)
        codes *= 3;
    for (uint32_t code = 0; code < codes * codes; code++) {
        coded_strip(&m, code / codes, FERRULEBEE_SJ);
        coded_strip(&s, code % codes, FERRULEBEE_SA);
        char what[40];
        snprintf(what, sizeof what, "short history %" PRIu32, code);
        uint32_t pairs[2 * TICKS], count = 0;
        int before = 0;
        for (uint32_t tick = 1; tick <= TICKS; tick++) {
            uint64_t said = answer(&m, &s, tick);
            int now = FERRULEBEE_CODE(said) == FERRULEBEE_BY_ADD || FERRULEBEE_CODE(said) == FERRULEBEE_BY_JOIN;
            if (now && !before)
                pairs[2 * count++] = tick;
            if (now)
                pairs[2 * count - 1] = tick;
            before = now;
            checks++;
            if (!tied(said, &m, &s, tick, pairs, count))
                untied(what, tick, said);
        }
        ferrulebee_spans_answer expected = {0, 0, count};
        expect_in(2 * count, what, &m, &s, TICKS, expected, pairs);
    }
}

int main(void)
{
    histories();
    edges();
    refusals();
    limits();
    judged();
    printf("spans from C: %u checks, %u faults\n", checks, faults);
    return faults != 0;
}
