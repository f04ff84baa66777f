/* Deliveries from small stores, one line each: the answer, and the buffer after it. The buffer is filled with
 * 255 before each call. What it prints is compared with tests/store.expected. */
#include "ferrulebee.h"
#include "words.h"

#include <inttypes.h>
#include <stdio.h>
#include <string.h>

/* A delivery is by the grants alone: all else of these groups is 0. */
static ferrulebee_group granted(uint32_t sheet, uint64_t word)
{
    ferrulebee_group g = {0};
    g.grants[sheet] = word;
    return g;
}

static void header(uint8_t *store, uint32_t total, uint32_t sheets)
{
    put(store, total);
    put(store + 4, sheets);
}

static void entry(uint8_t *store, uint32_t sheet, uint32_t offset, uint32_t length)
{
    put(store + 8 + 8 * sheet, offset);
    put(store + 12 + 8 * sheet, length);
}

enum { SMALL = 64, ROOM = 64 };

/* The delivery from the first `length` bytes of a store into a buffer of `room` bytes. */
static void deliver(const char *name, ferrulebee_group group, uint32_t model, const uint8_t *store, size_t length, size_t room)
{
    uint8_t out[ROOM];
    memset(out, 255, sizeof out);
    ferrulebee_delivery a = ferrulebee_deliver(group, model, store, length, out, room);
    if (a.code == 0)
        printf("%s: delivered %" PRIu32 " |", name, a.length);
    else
        printf("%s: refused %" PRIu32 " at %" PRIu32 " |", name, a.code, a.place);
    for (size_t i = 0; i < room; i++)
        printf(" %d", out[i]);
    printf("\n");
}

/* One granted sheet of 5 bytes fits 21 bytes, and gets 34 at 20. */
static void five_bytes(void)
{
    ferrulebee_group group = granted(0, 8);
    uint8_t store[SMALL];
    memset(store, 7, sizeof store);
    header(store, 21, 1);
    entry(store, 0, 16, 5);
    deliver("five bytes into 21", group, 3, store, 21, 21);
    deliver("five bytes into 20", group, 3, store, 21, 20);
    deliver("five bytes into 24", group, 3, store, 21, 24);
    deliver("model 64", group, 64, store, 21, 8);
}

/* A store of 8 bytes with n 0: 32 to a model with a grant, 8 bytes of delivery to one without. */
static void no_sheets(void)
{
    ferrulebee_group group = granted(200, 1);
    uint8_t store[SMALL] = {0};
    header(store, 8, 0);
    deliver("no sheets, a grant", group, 0, store, 8, 10);
    deliver("no sheets, no grant", group, 1, store, 8, 10);
    deliver("no sheets into 7", group, 1, store, 8, 7);
}

/* 31: below 8 bytes, the total field wrong, 8 + 8n above the total. */
static void bad_headers(void)
{
    ferrulebee_group group = granted(0, 1);
    uint8_t store[SMALL] = {0};
    header(store, 7, 0);
    deliver("store of 7", group, 0, store, 7, 8);
    header(store, 9, 0);
    deliver("total above", group, 0, store, 8, 8);
    header(store, 8, 0);
    deliver("total below", group, 0, store, 9, 8);
    header(store, 23, 2);
    deliver("8 + 8n above", group, 0, store, 23, 8);
}

/* 256 sheets are taken, 257 are not, though the store has room for their entries. */
static void many_sheets(void)
{
    ferrulebee_group group = granted(255, 1);
    uint8_t store[8 + 8 * 257] = {0};
    header(store, 2056, 256);
    entry(store, 255, 2056, 0);
    deliver("256 sheets", group, 0, store, 2056, 17);
    header(store, 2064, 257);
    deliver("257 sheets", group, 0, store, 2064, 17);
}

/* 33: an entry that starts in the table, or ends behind the store; an empty one at the very end is good. */
static void bad_entries(void)
{
    ferrulebee_group group = granted(0, 1);
    uint8_t store[SMALL];
    memset(store, 9, sizeof store);
    header(store, 20, 1);
    entry(store, 0, 15, 1);
    deliver("offset 8 + 8n - 1", group, 0, store, 20, 18);
    entry(store, 0, 19, 2);
    deliver("end behind", group, 0, store, 20, 18);
    entry(store, 0, 20, 0);
    deliver("empty at the end", group, 0, store, 20, 18);
}

/* 33: sums that would pass if they wrapped at 2^32. */
static void wrapping_entries(void)
{
    ferrulebee_group group = granted(0, 1);
    uint8_t store[SMALL];
    memset(store, 9, sizeof store);
    header(store, 20, 1);
    entry(store, 0, 16, UINT32_MAX);
    deliver("length near 2^32", group, 0, store, 20, 18);
    entry(store, 0, UINT32_MAX, 4);
    deliver("offset near 2^32", group, 0, store, 20, 18);
    entry(store, 0, UINT32_MAX, UINT32_MAX);
    deliver("both near 2^32", group, 0, store, 20, 18);
}

/* Two granted sheets share two bytes. */
static void shared_bytes(void)
{
    ferrulebee_group group = granted(0, 1);
    group.grants[1] = 1;
    uint8_t store[SMALL] = {0};
    put(store + 24, 0x04030201);
    put(store + 28, 0x0605);
    header(store, 30, 2);
    entry(store, 0, 24, 4);
    entry(store, 1, 26, 4);
    deliver("shared bytes", group, 0, store, 30, 34);
}

/* Sheet 0's entry is bad and sheet 2 is not in the store, and neither is granted. */
static void ungranted_fault(void)
{
    ferrulebee_group group = granted(1, 1);
    uint8_t store[SMALL];
    memset(store, 6, sizeof store);
    header(store, 26, 2);
    entry(store, 0, 0, UINT32_MAX);
    entry(store, 1, 24, 2);
    deliver("ungranted fault", group, 0, store, 26, 19);
}

/* The first faulty granted sheet is named, whichever its fault. */
static void first_fault(void)
{
    ferrulebee_group group = granted(1, 3);
    group.grants[5] = 3;
    group.grants[0] = 1;
    uint8_t store[SMALL];
    memset(store, 6, sizeof store);
    header(store, 26, 2);
    entry(store, 0, 24, 2);
    entry(store, 1, 24, 3);
    deliver("33 before 32", group, 0, store, 26, 12);
    entry(store, 1, 24, 2);
    deliver("32 behind a good one", group, 1, store, 26, 12);
}

/* A store of 1,048,576 bytes is taken, one of a byte more is not. */
static void largest(void)
{
    static uint8_t store[FERRULEBEE_STORE_BYTES + 1];
    ferrulebee_group group = granted(0, 1);
    header(store, 1048576, 1);
    entry(store, 0, 1048575, 1);
    deliver("1048576 bytes", group, 0, store, 1048576, 18);
    header(store, 1048577, 1);
    deliver("1048577 bytes", group, 0, store, 1048577, 18);
}

int main(void)
{
    five_bytes();
    no_sheets();
    bad_headers();
    many_sheets();
    bad_entries();
    wrapping_entries();
    shared_bytes();
    ungranted_fault();
    first_fault();
    largest();
    return 0;
}
