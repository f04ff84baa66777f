/* What stack a call needs, its arguments and its answer with it: each call runs on a stack of its own that
 * was painted before, and the paint that is gone afterwards is counted. Inputs are the largest that are
 * taken. Fails where a call needs more than docs/LIBRARY.md says.
 *
 *     stack [--table]     --table prints the bytes of each call */
#define _XOPEN_SOURCE 700
#include "ferrulebee.h"
#include "words.h"

#include <stdio.h>
#include <stdlib.h>
#include <string.h>
#include <ucontext.h>

enum { ROOM = 1 << 20, PAINT = 0x5a };

static _Alignas(64) uint8_t painted[ROOM];
static ucontext_t here, there;

static ferrulebee_group group, list[FERRULEBEE_GROUPS];
static ferrulebee_answer answer;
static ferrulebee_book_read_answer read_answer;
static uint8_t model[4 * FERRULEBEE_EVENTS], sheet[4 * FERRULEBEE_EVENTS];
static uint32_t model_words[FERRULEBEE_EVENTS], sheet_words[FERRULEBEE_EVENTS], records[FERRULEBEE_EVENTS];
static uint32_t model_strict[FERRULEBEE_EVENTS], sheet_strict[FERRULEBEE_EVENTS], spans[FERRULEBEE_EVENTS];
static uint8_t store[FERRULEBEE_STORE_BYTES], out[2 * FERRULEBEE_STORE_BYTES];
static uint8_t book[FERRULEBEE_LONGEST_BOOK];
static uint32_t code;

/* Each call stores its refusal's number, so that it is seen to be accepted and its answer is wanted. */
static void nothing(void) { code = 0; }
static void call_fresh(void) { answer = ferrulebee_fresh(0), code = answer.code; }
static void call_request(void) { answer = ferrulebee_request(group, FERRULEBEE_SA, 9), code = answer.code; }
static void call_request_at(void) { code = ferrulebee_request_at(&group, FERRULEBEE_SA, 200); }
static void call_close(void) { answer = ferrulebee_close(group), code = answer.code; }
static void call_read(void) { code = ferrulebee_read(group, 63, 255).code; }
static void call_models(void) { code = ferrulebee_models(group, 255).code; }
static void call_mask(void) { code = ferrulebee_mask(list, FERRULEBEE_GROUPS, 63, 255).code; }
static void call_book_write(void) { code = ferrulebee_book_write(FERRULEBEE_TICKS, 0, model_words, FERRULEBEE_EVENTS, book, sizeof book).code; }
static void call_book_read(void) { read_answer = ferrulebee_book_read(book, sizeof book, records, FERRULEBEE_EVENTS), code = read_answer.code; }
static void call_tick_part(void) { code = ferrulebee_tick_part(model_words, FERRULEBEE_EVENTS, 7).count != 1; }
static void call_deliver(void) { code = ferrulebee_deliver(group, 0, store, sizeof store, out, sizeof out).code; }
static void call_judge(void) { code = FERRULEBEE_CODE(judge(model, sizeof model, sheet, sizeof sheet, FERRULEBEE_TICKS)) != FERRULEBEE_BY_ADD; }
static void call_evidence(void) { code = ferrulebee_evidence(model_words, FERRULEBEE_EVENTS, sheet_words, FERRULEBEE_EVENTS, FERRULEBEE_TICKS).count != 2; }
static void call_spans(void) { code = ferrulebee_spans(model_strict, FERRULEBEE_EVENTS, sheet_strict, FERRULEBEE_EVENTS, FERRULEBEE_TICKS, spans, FERRULEBEE_EVENTS).count != FERRULEBEE_EVENTS / 2; }

/* `most` is what docs/LIBRARY.md says. */
static const struct {
    const char *name;
    void (*call)(void);
    size_t most;
} calls[] = {
    {"ferrulebee_fresh", call_fresh, 4096},
    {"ferrulebee_request", call_request, 16384},
    {"ferrulebee_request_at", call_request_at, 16384},
    {"ferrulebee_close", call_close, 16384},
    {"ferrulebee_read", call_read, 8192},
    {"ferrulebee_models", call_models, 8192},
    {"ferrulebee_mask", call_mask, 4096},
    {"ferrulebee_book_write", call_book_write, 8192},
    {"ferrulebee_book_read", call_book_read, 40960},
    {"ferrulebee_tick_part", call_tick_part, 1024},
    {"ferrulebee_deliver", call_deliver, 8192},
    {"judge", call_judge, 40960},
    {"ferrulebee_evidence", call_evidence, 1024},
    {"ferrulebee_spans", call_spans, 1024},
};

static void fill(void)
{
    for (uint32_t i = 0; i < FERRULEBEE_EVENTS; i++) {
        model_words[i] = FERRULEBEE_WORD(i + 1, i % 2 == 0 ? FERRULEBEE_LJ : FERRULEBEE_LL, 63);
        sheet_words[i] = FERRULEBEE_WORD(i + 1, i % 2 == 0 ? FERRULEBEE_LA : FERRULEBEE_LR, 255);
        model_strict[i] = FERRULEBEE_WORD(i + 1, i % 2 == 0 ? FERRULEBEE_LJ : FERRULEBEE_SL, 63);
        sheet_strict[i] = FERRULEBEE_WORD(i + 1, i % 2 == 0 ? FERRULEBEE_LA : FERRULEBEE_SR, 255);
        put(model + 4 * i, model_words[i]);
        put(sheet + 4 * i, sheet_words[i]);
    }
    for (uint32_t i = 0; i < FERRULEBEE_SHEETS; i++) {
        group.grants[i] = UINT64_MAX;
        put(store + 8 + 8 * i, 8 + 8 * FERRULEBEE_SHEETS);
        put(store + 12 + 8 * i, 4000);
    }
    put(store, sizeof store);
    put(store + 4, FERRULEBEE_SHEETS);
    for (size_t i = 0; i < FERRULEBEE_GROUPS; i++)
        list[i] = group;
}

static size_t used(void (*call)(void))
{
    memset(painted, PAINT, ROOM);
    if (getcontext(&there) != 0)
        abort();
    there.uc_stack.ss_sp = painted;
    there.uc_stack.ss_size = ROOM;
    there.uc_link = &here;
    makecontext(&there, call, 0);
    if (swapcontext(&here, &there) != 0)
        abort();
    size_t clean = 0;
    while (clean < ROOM && painted[clean] == PAINT)
        clean++;
    return ROOM - clean;
}

int main(int count, char **words)
{
    int table = count == 2 && strcmp(words[1], "--table") == 0, faults = 0;
    fill();
    size_t before = used(nothing);
    for (size_t i = 0; i < sizeof calls / sizeof *calls; i++) {
        size_t bytes = used(calls[i].call) - before;
        if (table)
            printf("%-24s%8zu\n", calls[i].name, bytes);
        if (bytes > calls[i].most) {
            faults++;
            printf("%s needs %zu bytes of stack, more than %zu\n", calls[i].name, bytes, calls[i].most);
        }
        if (code != 0) {
            faults++;
            printf("%s: another answer\n", calls[i].name);
        }
    }
    printf("stack: %d faults\n", faults);
    return faults != 0;
}
