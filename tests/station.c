/* Asks a station's list for its mask: lists of 0, 1, 16 and 17 groups, every position alone, and the refusals in their order. */
#include "ferrulebee.h"

#include <stdio.h>
#include <string.h>

static ferrulebee_group gs[17];
static int bad;

static void asked(const char *what, size_t n, uint32_t model, uint32_t sheet, uint32_t code, uint32_t expected)
{
    ferrulebee_group was[17];
    memcpy(was, gs, sizeof gs);
    ferrulebee_mask_answer a = ferrulebee_mask(gs, n, model, sheet);
    if (a.code != code || a.mask != expected || memcmp(was, gs, sizeof gs)) {
        printf("%s: code %u mask %u, expected %u %u\n", what, a.code, a.mask, code, expected);
        bad = 1;
    }
}

int main(void)
{
    asked("no groups", 0, 0, 0, 7, 0);
    asked("one group, nothing granted", 1, 0, 0, 0, 0);
    asked("sixteen groups, nothing granted", 16, 63, 255, 0, 0);
    asked("seventeen groups", 17, 0, 0, 7, 0);
    asked("seventeen groups before a bad number", 17, 64, 256, 7, 0);
    asked("no groups before a bad number", 0, 64, 256, 7, 0);
    asked("model 64", 16, 64, 0, 2, 0);
    asked("sheet 256", 16, 0, 256, 2, 0);
    for (int i = 0; i < 16; i++) {
        gs[i].grants[255] = 1ull << 63;
        asked("one position", 16, 63, 255, 0, 1u << i);
        asked("another model", 16, 62, 255, 0, 0);
        asked("another sheet", 16, 63, 254, 0, 0);
        asked("a shorter list", (size_t)i + 1, 63, 255, 0, 1u << i);
        if (i > 0)
            asked("a list that ends before it", (size_t)i, 63, 255, 0, 0);
        gs[i].grants[255] = 0;
    }
    for (int i = 0; i < 17; i++)
        gs[i].grants[0] = ~0ull;
    asked("every position", 16, 0, 0, 0, 0xffff);
    asked("the first only", 1, 0, 0, 0, 1);
    if (!bad)
        puts("station from C: ok");
    return bad;
}
