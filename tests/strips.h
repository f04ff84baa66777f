/* Strips for the tests of the judge and of the spans: from text, by turns, and those that both refuse. */
#ifndef STRIPS_H
#define STRIPS_H

#include "ferrulebee.h"

#include <stdlib.h>
#include <string.h>

enum { ROOM = FERRULEBEE_EVENTS + 2, LAST = FERRULEBEE_TICKS };

typedef struct {
    uint32_t words[ROOM];
    size_t count;
} strip;

/* A strip from text: kind, tick and, after a slash, the number, as "SJ1/7 LL3/7"; number 0 if left out. */
static void write_strip(strip *s, const char *text)
{
    static const char *kinds[] = {"SJ", "LJ", "SL", "LL", "SA", "LA", "SR", "LR"};
    s->count = 0;
    while (*text != '\0') {
        uint32_t kind = 0;
        while (strncmp(kinds[kind], text, 2) != 0)
            if (++kind == 8)
                abort();
        char *end;
        uint32_t tick = (uint32_t)strtoul(text + 2, &end, 10), number = 0;
        if (*end == '/')
            number = (uint32_t)strtoul(end + 1, &end, 10);
        s->words[s->count++] = FERRULEBEE_WORD(tick, kind, number);
        text = *end == ' ' ? end + 1 : end;
    }
}

/* `count` events by turns of two kinds, at ticks first, first + 1, .. */
static void long_strip(strip *s, size_t count, uint32_t enters, uint32_t leaves, uint32_t first)
{
    s->count = count;
    for (uint32_t i = 0; i < count; i++)
        s->words[i] = FERRULEBEE_WORD(first + i, i % 2 == 0 ? enters : leaves, 0);
}

/* Strips that are refused with a place. */
static const struct {
    const char *model, *sheet;
    uint32_t now, code, place;
} bad_strips[] = {
    {"SJ1", "", 0, 13, 0},
    {"SJ1 SL1", "", 1, 13, 1},
    /* first place: tick 0 and after now, a leave, the other side's kind, a number out of range */
    {"SJ0", "", 5, 13, 0},
    {"SJ6", "", 5, 13, 0},
    {"SL1", "", 5, 13, 0},
    {"LL1", "", 5, 13, 0},
    {"SA1", "", 5, 13, 0},
    {"SJ1/64", "", 5, 13, 0},
    /* later places: tick equal, falling, after now; a second join of either kind; a second leave; another number */
    {"SJ2 LL2", "", 5, 13, 1},
    {"SJ2 LL1", "", 5, 13, 1},
    {"SJ2 LL6", "", 5, 13, 1},
    {"SJ1 SJ2", "", 5, 13, 1},
    {"SJ1 LJ2", "", 5, 13, 1},
    {"SJ1 LL2 SL3", "", 5, 13, 2},
    {"SJ1 SR2", "", 5, 13, 1},
    {"SJ1/3 LL2/4", "", 5, 13, 1},
    {"SJ1/3 LL2/3 LJ3/64", "", 5, 13, 2},
    /* the sheet's strip likewise */
    {"", "SA0", 5, 14, 0},
    {"", "SA6", 5, 14, 0},
    {"", "SR1", 5, 14, 0},
    {"", "LR1", 5, 14, 0},
    {"", "SJ1", 5, 14, 0},
    {"", "SA1/256", 5, 14, 0},
    {"", "SA1/511", 5, 14, 0},
    {"", "SA2 LR2", 5, 14, 1},
    {"", "SA2 LR1", 5, 14, 1},
    {"", "LA1 SA2", 5, 14, 1},
    {"", "SA1 LR2 SR3", 5, 14, 2},
    {"", "SA1/3 LR2/4", 5, 14, 1},
    /* the model's strip is looked at first */
    {"SJ1 SJ2", "SR1", 5, 13, 1},
};

enum { BAD_STRIPS = sizeof bad_strips / sizeof *bad_strips };

#endif
