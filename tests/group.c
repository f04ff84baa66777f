/* Groups through scripted calls, one line an answer: each refusal of a group, the ends of the ranges, and the
 * histories of RULES.md 14.1. What it prints is compared with tests/group.expected. */
#include "ferrulebee.h"

#include <inttypes.h>
#include <stdio.h>

/* The group at hand. The group of every answer takes its place, a refusal's too. */
static ferrulebee_group group;

/* ---- calls, each with its line ---- */

static void fresh(uint32_t number)
{
    ferrulebee_answer a = ferrulebee_fresh(number);
    group = a.group;
    printf("fresh %" PRIu32 ": %" PRIu32 ", group %" PRIu32 "\n", number, a.code, group.number);
}

static void request(uint32_t kind, uint32_t number)
{
    ferrulebee_answer a = ferrulebee_request(group, kind, number);
    group = a.group;
    printf("request %" PRIu32 " %" PRIu32 ": %" PRIu32 "\n", kind, number, a.code);
}

static void close_tick(void)
{
    ferrulebee_answer a = ferrulebee_close(group);
    group = a.group;
    printf("close: %" PRIu32 ", closed %" PRIu32 "\n", a.code, group.closed);
}

static void outcome(uint32_t model, uint32_t sheet)
{
    ferrulebee_read_answer a = ferrulebee_read(group, model, sheet);
    if (a.code == 0)
        printf(" %s\n", a.granted ? "granted" : "denied");
    else
        printf(" refused %" PRIu32 "\n", a.code);
}

static void read_sheet(uint32_t model, uint32_t sheet)
{
    printf("read %" PRIu32 " %" PRIu32 ":", model, sheet);
    outcome(model, sheet);
}

static void models(uint32_t sheet)
{
    ferrulebee_count_answer a = ferrulebee_models(group, sheet);
    printf("models %" PRIu32 ": %" PRIu32 ", count %" PRIu32 "\n", sheet, a.code, a.count);
}

/* ---- scripts ---- */

/* Kinds and numbers at the ends of their ranges, a second event in a tick, and events that don't alternate. */
static void ranges(void)
{
    fresh(15);
    request(8, 0);
    request(FERRULEBEE_SJ, 64);
    request(FERRULEBEE_SA, 256);
    request(FERRULEBEE_SJ, 63);
    request(FERRULEBEE_SA, 255);
    request(FERRULEBEE_LJ, 63);
    request(FERRULEBEE_LA, 255);
    request(FERRULEBEE_SL, 0);
    request(FERRULEBEE_LL, 1);
    request(FERRULEBEE_SR, 0);
    request(FERRULEBEE_LR, 254);
    read_sheet(63, 255);
    close_tick();
    read_sheet(63, 255);
    read_sheet(62, 255);
    read_sheet(63, 254);
    read_sheet(64, 255);
    read_sheet(63, 256);
    models(255);
    models(254);
    models(256);
    request(FERRULEBEE_LJ, 63);
    request(FERRULEBEE_LA, 255);
    request(FERRULEBEE_LL, 63);
    request(FERRULEBEE_LR, 255);
    close_tick();
    read_sheet(63, 255);
}

/* The last ticks: 3 stands after 1 and 2 and before 4, 5 and 6. */
static void last_ticks(void)
{
    fresh(16);
    group.closed = FERRULEBEE_TICKS - 1;
    request(FERRULEBEE_SJ, 0);
    request(FERRULEBEE_SJ, 0);
    close_tick();
    close_tick();
    group.closed = FERRULEBEE_TICKS - 1;
    request(FERRULEBEE_SA, 1);
    group.closed = FERRULEBEE_TICKS;
    request(8, 0);
    request(FERRULEBEE_SA, 256);
    request(FERRULEBEE_SA, 1);
    request(FERRULEBEE_SJ, 0);
    request(FERRULEBEE_SL, 1);
    close_tick();
}

/* Model 7 and sheet 7 through up to four events and `now` ticks. An event is tick * 10 + kind; 0 is none. */
enum { EVENTS = 4 };

static void history(const uint32_t *events, uint32_t now)
{
    group = ferrulebee_fresh(0).group;
    for (uint32_t tick = 1; tick <= now; tick++) {
        for (int i = 0; i < EVENTS; i++)
            if (events[i] / 10 == tick)
                group = ferrulebee_request(group, events[i] % 10, 7).group;
        group = ferrulebee_close(group).group;
    }
    printf("history:");
    outcome(7, 7);
}

static void histories(void)
{
    static const struct {
        uint32_t events[EVENTS], now;
    } told[] = {
        {{0, 0, 0, 0}, 0},
        {{10, 14, 0, 0}, 1},
        {{11, 15, 0, 0}, 1},
        {{20, 15, 0, 0}, 2},
        {{21, 15, 0, 0}, 2},
        {{21, 14, 0, 0}, 2},
        {{11, 24, 23, 0}, 2},
        {{21, 15, 27, 0}, 2},
        {{10, 33, 24, 47}, 5},
        {{10, 32, 24, 36}, 3},
        {{10, 23, 40, 35}, 4},
        {{10, 22, 31, 15}, 3},
        {{10, 24, 36, 45}, 4},
    };
    for (size_t i = 0; i < sizeof told / sizeof *told; i++)
        history(told[i].events, told[i].now);
}

int main(void)
{
    ranges();
    last_ticks();
    histories();
    return 0;
}
