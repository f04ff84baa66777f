/* The judge from C: each refusal at its first and at a later place, each range at its last good
 * and its first bad value, the histories of RULES.md 14, and what ended a grant. Expected answers are
 * the rules'. */
#include "strips.h"

#include <inttypes.h>
#include <stdio.h>

static unsigned checks, faults;

/* Lends both strips as bytes, without the last `model_short` and `sheet_short` of them. */
static void expect_short(const char *what, const strip *m, size_t model_short, const strip *s, size_t sheet_short, uint32_t now, uint32_t code, uint32_t value)
{
    static uint8_t bytes[2][4 * ROOM];
    const strip *strips[] = {m, s};
    for (int side = 0; side < 2; side++)
        for (size_t i = 0; i < 4 * strips[side]->count; i++)
            bytes[side][i] = (uint8_t)(strips[side]->words[i / 4] >> (8 * (i % 4)));
    uint64_t got = judge(bytes[0], 4 * m->count - model_short, bytes[1], 4 * s->count - sheet_short, now);
    checks++;
    if (got != ((uint64_t)code << 32 | value)) {
        faults++;
        printf("%s: expected %" PRIu32 " %" PRIu32 ", got %" PRIu32 " %" PRIu32 "\n",
               what, code, value, FERRULEBEE_CODE(got), FERRULEBEE_VALUE(got));
    }
}

static void expect(const char *what, const strip *m, const strip *s, uint32_t now, uint32_t code, uint32_t value)
{
    expect_short(what, m, 0, s, 0, now, code, value);
}

static void texts(const char *model, const char *sheet, uint32_t now, uint32_t code, uint32_t value)
{
    static strip m, s;
    write_strip(&m, model);
    write_strip(&s, sheet);
    char what[200];
    snprintf(what, sizeof what, "[%s] [%s] at %" PRIu32, model, sheet, now);
    expect(what, &m, &s, now, code, value);
}

static void histories(void)
{
    texts("", "", 0, 103, 0);
    texts("SJ1", "SA1", 1, 101, 1);
    texts("LJ1", "LA1", 1, 101, 1);
    texts("SJ2", "LA1", 2, 103, 0);
    texts("LJ2", "LA1", 2, 102, 2);
    texts("LJ2", "SA1", 2, 103, 0);
    texts("LJ1 LL2", "SA2", 2, 103, 0);
    texts("LJ2", "LA1 LR2", 2, 103, 0);
    texts("SJ1 LL3", "SA2 LR4", 5, 101, 2);
    texts("SJ1 SL3", "SA2 SR3", 3, 104, 3);
    texts("SJ1 LL2 SJ4", "LA3", 4, 103, 0);
    texts("SJ1 SL2 LJ3", "LA1", 3, 102, 3);
    texts("SJ1", "SA2 SR3 LA4", 4, 101, 4);
    /* a grant that outlived a liberal leave; a later moment of it */
    texts("SJ1 LL3 SJ4", "SA2", 4, 101, 2);
    texts("LJ1 LL2 LJ3", "LA1", 3, 102, 3);
}

/* What ended the grant, and when. */
static void ended(void)
{
    /* a strict remove alone; the earlier of two strict events, of both carriers and of one */
    texts("SJ1", "SA2 SR3", 3, 105, 3);
    texts("SJ1", "SA2 SR3", 9, 105, 3);
    texts("SJ1 SL4", "SA2 SR3", 5, 105, 3);
    texts("SJ1 SL3", "SA2 SR4", 5, 104, 3);
    texts("SJ1 SL3 SJ4 SL5", "SA2", 9, 104, 3);
    texts("SJ1 LL4", "SA2 SR3 SA5 SR6", 9, 105, 3);
    /* a strict join after the end starts nothing */
    texts("SJ1 SL3 SJ4", "SA2", 9, 104, 3);
    /* both in one tick: the leave, also after a liberal remove */
    texts("SJ1 SL7", "SA2 LR3 SA4 SR7", 9, 104, 7);
    /* strict events before the first moment, and those that ended an earlier grant, are not it */
    texts("SJ1 SL2 SJ3 SL5 LJ6 SL8", "LA4 SR8 SA9 SR11", 12, 104, 8);
    texts("SJ1 SL2 SJ3 SL6 SJ7 SL8", "SA4 SR6", 8, 104, 6);
    texts("SJ1 SL2 SJ3", "SA4 SR6", 8, 105, 6);
    texts("SJ1 SL3 LJ4 SL9", "LA2", 9, 104, 9);
    texts("SJ1", "LA1 SR2 LA3 SR5", 5, 105, 5);
    texts("SJ1", "SA2 SR3 SA4 SR5", 9, 105, 5);
    /* the later of two moments counts: the strict event between them is before it */
    texts("LJ1 SL2 LJ3", "LA1 SR4", 4, 105, 4);
    /* a strict event of one carrier ends what outlived the other's liberal one */
    texts("SJ1 LL3", "SA2 SR5", 9, 105, 5);
    texts("SJ1 SL5", "SA2 LR3", 9, 104, 5);
    /* in the tick after the moment, and in the last tick */
    texts("SJ1 SL2", "SA1", 2, 104, 2);
    texts("SJ1 SL1000000", "SA1", LAST, 104, LAST);
    texts("SJ1", "SA999999 SR1000000", LAST, 105, LAST);
}

static void bad_places(void)
{
    for (size_t i = 0; i < BAD_STRIPS; i++)
        texts(bad_strips[i].model, bad_strips[i].sheet, bad_strips[i].now, bad_strips[i].code, bad_strips[i].place);
    /* the last numbers in range */
    texts("SJ1/63", "", 5, 103, 0);
    texts("", "SA1/255", 5, 103, 0);
}

static void limits(void)
{
    static strip m, s, none;
    texts("", "", LAST, 103, 0);
    texts("", "", LAST + 1, 10, 0);
    texts("", "", UINT32_MAX, 10, 0);
    texts("SJ1000000", "SA1000000", LAST, 101, LAST);
    texts("SJ1000000", "SA999999", LAST, 103, 0);

    /* around 64 words, up to which the judge works in short lists */
    for (uint32_t length = 63; length <= 65; length++) {
        long_strip(&m, length, FERRULEBEE_SJ, FERRULEBEE_LL, 1);
        long_strip(&s, length, FERRULEBEE_LA, FERRULEBEE_LR, 1);
        expect("as many words each", &m, &s, LAST, 101, (length - 1) / 2 * 2 + 1);
        expect("the last of them after now", &m, &s, length - 1, 13, length - 1);
        expect("no model's words", &none, &s, LAST, 103, 0);
        /* many grants that ended before, and the last: by a remove, and by both in one tick */
        long_strip(&m, length | 1, FERRULEBEE_LJ, FERRULEBEE_SL, 1);
        write_strip(&s, "LA1 SR70");
        expect("a remove after many leaves", &m, &s, 80, 105, 70);
        m.words[m.count++] = FERRULEBEE_WORD(70, FERRULEBEE_SL, 0);
        expect("a leave and a remove after many leaves", &m, &s, 80, 104, 70);
    }
    long_strip(&m, FERRULEBEE_EVENTS, FERRULEBEE_SJ, FERRULEBEE_LL, 1);
    long_strip(&s, FERRULEBEE_EVENTS, FERRULEBEE_LA, FERRULEBEE_LR, 1);
    expect("4,096 words each", &m, &s, LAST, 101, FERRULEBEE_EVENTS - 1);
    m.words[FERRULEBEE_EVENTS - 1] = FERRULEBEE_WORD(LAST, FERRULEBEE_SL, 0);
    expect("4,096 words each, the last a strict leave", &m, &s, LAST, 104, LAST);
    long_strip(&m, FERRULEBEE_EVENTS, FERRULEBEE_SJ, FERRULEBEE_LL, 1);
    s.words[FERRULEBEE_EVENTS - 1] = FERRULEBEE_WORD(LAST, FERRULEBEE_SR, 0);
    expect("4,096 words each, the last a strict remove", &m, &s, LAST, 105, LAST);
    long_strip(&s, FERRULEBEE_EVENTS, FERRULEBEE_LA, FERRULEBEE_LR, 1);
    expect_short("a model's strip that is not whole words", &m, 1, &s, 0, LAST, 11, 0);
    expect_short("neither strip whole words", &m, 1, &s, 2, LAST, 11, 0);
    expect_short("and now too late", &m, 1, &s, 2, LAST + 1, 10, 0);
    expect_short("a sheet's strip that is not whole words", &none, 0, &s, 2, LAST, 12, 0);
    expect("the last of 4,096 words after now", &m, &none, FERRULEBEE_EVENTS - 1, 13, FERRULEBEE_EVENTS - 1);
    m.count = 1;
    expect_short("three bytes", &m, 1, &none, 0, LAST, 11, 0);

    long_strip(&m, FERRULEBEE_EVENTS + 1, FERRULEBEE_SJ, FERRULEBEE_LL, 1);
    expect("4,097 words of a model", &m, &none, LAST, 11, 0);
    long_strip(&s, FERRULEBEE_EVENTS + 1, FERRULEBEE_LA, FERRULEBEE_LR, 1);
    expect("4,097 words of a sheet", &none, &s, LAST, 12, 0);
    expect("4,097 words of both", &m, &s, LAST, 11, 0);
}

int main(void)
{
    histories();
    ended();
    bad_places();
    limits();
    printf("judge from C: %u checks, %u faults\n", checks, faults);
    return faults != 0;
}
