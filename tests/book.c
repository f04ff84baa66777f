/* Books read and written, one line a call: every refusal at its first place and at later ones, the ends of the
 * lengths and of the header's ranges, and the records of a tick. Buffers and lists are filled with 9 before
 * each call, so that what stays shows. What it prints is compared with tests/book.expected. */
#include "ferrulebee.h"
#include "words.h"

#include <inttypes.h>
#include <stdio.h>
#include <string.h>

/* Group 3: LJ 2 and SA 0 in tick 1; LL 2; LA 1; SJ 2 and LJ 5; LR 1; SR 0 (RULES.md 12.1). */
static const uint32_t words[] = {4610, 6144, 9730, 14849, 16386, 16901, 24065, 27648};

enum {
    WORDS = sizeof words / sizeof *words,
    SMALL = 64,
    LARGE = FERRULEBEE_LONGEST_BOOK + 4
};

/* ---- calls, each with its line ---- */

static uint32_t list[FERRULEBEE_EVENTS];

/* The first `length` bytes, read into the first `room` words of the list. */
static ferrulebee_book_read_answer answered(const uint8_t *bytes, size_t length, size_t room)
{
    for (size_t i = 0; i < FERRULEBEE_EVENTS; i++)
        list[i] = 9;
    return ferrulebee_book_read(bytes, length, list, room);
}

/* Reads: the refusal, the group, and three words of the list. */
static void read_book(const char *name, const uint8_t *bytes, size_t length, size_t room)
{
    ferrulebee_book_read_answer a = answered(bytes, length, room);
    printf("%s: %" PRIu32 " %" PRIu32 ", group %" PRIu32 " ticks %" PRIu32 ", words %" PRIu32 " %" PRIu32 " %" PRIu32 "\n",
           name, a.code, a.place, a.group.number, a.group.closed, list[0], list[7], list[8]);
}

/* Whether a model is granted a sheet by the group of a book. */
static void grant(const uint8_t *bytes, size_t length, uint32_t model, uint32_t sheet)
{
    ferrulebee_group group = answered(bytes, length, FERRULEBEE_EVENTS).group;
    ferrulebee_read_answer a = ferrulebee_read(group, model, sheet);
    printf("model %" PRIu32 " sheet %" PRIu32 ": %s\n", model, sheet, a.code != 0 ? "refused" : a.granted ? "granted" : "denied");
}

/* Writes to a buffer of `room` bytes: the refusal, the length, and three bytes of the buffer. */
static void write_book(const char *name, uint32_t ticks, uint32_t number, const uint32_t *records, size_t count, size_t room)
{
    uint8_t buffer[LARGE];
    memset(buffer, 9, sizeof buffer);
    ferrulebee_book_write_answer a = ferrulebee_book_write(ticks, number, records, count, buffer, room);
    printf("%s: %" PRIu32 " %" PRIu32 ", length %zu, bytes %d %d %d\n", name, a.code, a.place, a.length, buffer[0], buffer[51], buffer[52]);
}

/* The words of one tick. */
static void part(const uint32_t *records, size_t count, uint32_t tick)
{
    ferrulebee_part a = ferrulebee_tick_part(records, count, tick);
    printf("tick %" PRIu32 ":", tick);
    for (size_t i = 0; i < a.count; i++)
        printf(" %" PRIu32, records[a.first + i]);
    printf("\n");
}

/* ---- scripts ---- */

/* The two books of RULES.md 12.1. */
static void listing(void)
{
    uint8_t bytes[SMALL], less[SMALL];
    memset(bytes, 9, sizeof bytes);
    ferrulebee_book_write(6, 3, words, WORDS, bytes, sizeof bytes);
    write_book("write 8", 6, 3, words, WORDS, 52);
    read_book("read 8", bytes, 52, 4096);
    grant(bytes, 52, 2, 0);
    grant(bytes, 52, 5, 1);
    memset(less, 9, sizeof less);
    ferrulebee_book_write(5, 3, words, 7, less, sizeof less);
    write_book("write 7", 5, 3, words, 7, 48);
    read_book("read 7", less, 48, 7);
    grant(less, 48, 2, 0);
    grant(less, 48, 5, 1);
    grant(less, 48, 2, 1);
}

/* 19, 20, 21, 16,404 and 16,405 bytes. */
static void lengths(void)
{
    uint8_t bytes[LARGE];
    memset(bytes, 9, sizeof bytes);
    ferrulebee_book_write(1000000, 15, words, 0, bytes, sizeof bytes);
    read_book("19 bytes", bytes, 19, 8);
    read_book("20 bytes", bytes, 20, 8);
    read_book("21 bytes, total 20", bytes, 21, 8);
    put(bytes, 21);
    read_book("21 bytes, total 21", bytes, 21, 8);

    /* a model that joins and leaves from tick to tick, as often as a book has room for */
    uint32_t many[FERRULEBEE_EVENTS];
    for (uint32_t i = 0; i < FERRULEBEE_EVENTS; i++)
        many[i] = FERRULEBEE_WORD(i + 1, i % 2 == 0 ? FERRULEBEE_SJ : FERRULEBEE_LL, 0);
    ferrulebee_book_write(4096, 0, many, FERRULEBEE_EVENTS, bytes, sizeof bytes);
    write_book("write 4096", 4096, 0, many, FERRULEBEE_EVENTS, 16404);
    read_book("16404 bytes", bytes, 16404, 4096);
    read_book("16404 bytes, 4095 words", bytes, 16404, 4095);
    read_book("16405 bytes", bytes, 16405, 4096);
    put(bytes, 16405);
    read_book("16405 bytes, total 16405", bytes, 16405, 4096);
}

/* Each field of the header at its limit and beyond it. */
static void headers(void)
{
    uint8_t bytes[SMALL];
    memset(bytes, 9, sizeof bytes);
    ferrulebee_book_write(6, 15, words, WORDS, bytes, sizeof bytes);
    read_book("list of 8", bytes, 52, 8);
    read_book("list of 7", bytes, 52, 7);
    put(bytes, 51);
    read_book("total 51", bytes, 52, 8);
    put(bytes, 52);
    put(bytes + 4, 1000000);
    read_book("T 1000000", bytes, 52, 8);
    put(bytes + 4, 1000001);
    read_book("T 1000001", bytes, 52, 8);
    put(bytes + 4, 6);
    put(bytes + 8, 4097);
    read_book("N 4097", bytes, 52, 8);
    put(bytes + 8, 4096);
    read_book("N 4096", bytes, 52, 8);
    put(bytes + 8, 7);
    read_book("N 7", bytes, 52, 8);
    put(bytes + 8, 8);
    put(bytes + 12, 19);
    read_book("offset 19", bytes, 52, 8);
    put(bytes + 12, 21);
    read_book("offset 21", bytes, 52, 8);
    put(bytes + 12, 20);
    put(bytes + 16, 16);
    read_book("group 16", bytes, 52, 8);
}

/* The first book with another word at byte `at`, where the record of place (at - 20) / 4 stands. */
static void changed(const char *name, size_t at, uint32_t word)
{
    uint8_t bytes[SMALL];
    memset(bytes, 9, sizeof bytes);
    ferrulebee_book_write(6, 3, words, WORDS, bytes, sizeof bytes);
    put(bytes + at, word);
    read_book(name, bytes, 52, 8);
}

/* 24, 25 and 26 at the first place and at later ones, and which comes first. */
static void records(void)
{
    changed("tick 0", 20, 514);
    changed("tick above T", 20, 29184);
    changed("model 64", 20, 4672);
    changed("sheet 256", 24, 6400);
    changed("tick above T at the end", 48, 31744);
    changed("equal word", 24, 4610);
    changed("smaller word", 48, 24064);
    changed("out of range and smaller", 40, 4672);
    changed("leave first", 20, 5122);
    changed("second event of a tick", 24, 5634);
    changed("join while in", 28, 8194);
    changed("remove while out", 32, 15362);
    changed("leave while out", 36, 17410);
    changed("add while in", 44, 22529);
    changed("remove of the sheet before", 48, 27649);
}

/* The writer's refusals. */
static void writers(void)
{
    write_book("T 1000001", 1000001, 3, words, WORDS, 52);
    write_book("group 16", 6, 16, words, WORDS, 52);
    write_book("buffer of 51", 6, 3, words, WORDS, 51);
    write_book("buffer of 53", 1000000, 15, words, WORDS, 53);
    write_book("T 5", 5, 3, words, WORDS, 52);
    uint32_t other[WORDS];
    memcpy(other, words, sizeof other);
    other[1] = 4610;
    write_book("equal word", 6, 3, other, WORDS, 52);
    other[1] = 5634;
    write_book("second event of a tick", 6, 3, other, WORDS, 52);
    uint32_t many[FERRULEBEE_EVENTS + 1];
    for (size_t i = 0; i < FERRULEBEE_EVENTS + 1; i++)
        many[i] = 4096;
    write_book("4097 words", 6, 3, many, FERRULEBEE_EVENTS + 1, LARGE);
}

/* The records of each tick; of a tick without records; of a list that falls. */
static void parts(void)
{
    for (uint32_t tick = 0; tick <= 7; tick++)
        part(words, WORDS, tick);
    part(words, WORDS, UINT32_MAX);
    part(words, 0, 1);
    uint32_t falls[WORDS];
    memcpy(falls, words, sizeof falls);
    falls[7] = 24065;
    part(falls, WORDS, 1);
}

int main(void)
{
    listing();
    lengths();
    headers();
    records();
    writers();
    parts();
    return 0;
}
