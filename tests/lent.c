/* Requests on a group lent and marked where it stands: the accepted ones set one mark, the refused ones change no byte. */
#include "ferrulebee.h"

#include <stdio.h>
#include <string.h>


static ferrulebee_group g;
static int bad;

/* the code, and which byte range may differ: none on a refusal, the one word otherwise */
static void asked(const char *what, uint32_t kind, uint32_t number, uint32_t code, uint64_t *word, uint64_t bit)
{
    ferrulebee_group expected = g;
    if (word)
        *(uint64_t *)((char *)&expected + ((char *)word - (char *)&g)) |= bit;
    uint32_t got = ferrulebee_request_at(&g, kind, number);
    if (got != code || memcmp(&expected, &g, sizeof g)) {
        printf("%s: code %u, expected %u%s\n", what, got, code, memcmp(&expected, &g, sizeof g) ? ", and the group differs" : "");
        bad = 1;
        g = expected;
    }
}

int main(void)
{
    g.number = 3;
    g.members = 1ull << 5;
    g.added[3] = 1ull << 63;
    g.grants[9] = 0x0123456789abcdefull;
    asked("kind 8", 8, 0, 1, 0, 0);
    asked("model 64", 0, 64, 2, 0, 0);
    asked("sheet 256", 7, 256, 2, 0, 0);
    asked("strict join", 0, 63, 0, &g.sj, 1ull << 63);
    asked("its second event", 1, 63, 4, 0, 0);
    asked("join while in", 1, 5, 5, 0, 0);
    asked("liberal leave", 3, 5, 0, &g.ll, 1ull << 5);
    asked("leave while out", 2, 6, 6, 0, 0);
    asked("add while in", 5, 255, 5, 0, 0);
    asked("strict remove", 6, 255, 0, &g.sr[3], 1ull << 63);
    asked("remove while out", 7, 254, 6, 0, 0);
    asked("liberal add", 5, 64, 0, &g.la[1], 1);
    g.closed = 1000000;
    asked("no tick left", 0, 1, 3, 0, 0);
    asked("no tick left before a second event", 0, 63, 3, 0, 0);
    if (!bad)
        puts("lent group from C: ok");
    return bad;
}
