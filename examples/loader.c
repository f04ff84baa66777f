/* A plot loader: says in words whether a model is granted a sheet, and by which moment; or what ended the grant, and when.
 *
 *     loader MODEL-STRIP SHEET-STRIP NOW
 *     loader --book BOOK MODEL SHEET [NOW]
 *
 * The strips are two files, or are cut out of a group's book up to tick NOW.
 * Exit status: 0 granted, 1 denied, 2 refused, wrongly called, or something can't be read or written. */
#include "ferrulebee.h"

#include <inttypes.h>
#include <stdio.h>
#include <stdlib.h>
#include <string.h>

/* One byte more than the longest good strip and the longest book, so that a longer file is refused as too long. */
enum { STRIP_ROOM = 4 * FERRULEBEE_EVENTS + 1, BOOK_ROOM = FERRULEBEE_LONGEST_BOOK + 1 };

static const char usage[] = "usage: loader MODEL-STRIP SHEET-STRIP NOW, or loader --book BOOK MODEL SHEET [NOW]";

static const char help[] =
    "loader MODEL-STRIP SHEET-STRIP NOW\n"
    "loader --book BOOK MODEL SHEET [NOW]\n"
    "Says whether the model is granted the sheet at tick NOW, and by what; or what ended the grant, and when.\n"
    "A strip is a file of event words, four bytes each, little-endian: tick * 4096 + kind * 512 + number.\n"
    "Out of a book the events of MODEL and SHEET up to NOW are taken; without NOW, up to its last closed tick.\n"
    "Exit status: 0 granted, 1 denied, 2 anything else.\n";

static size_t read_file(const char *name, uint8_t *bytes, size_t room)
{
    FILE *file = fopen(name, "rb");
    if (file == NULL) {
        fprintf(stderr, "loader: can't open %s\n", name);
        exit(2);
    }
    size_t length = fread(bytes, 1, room, file);
    if (ferror(file)) {
        fprintf(stderr, "loader: can't read %s\n", name);
        exit(2);
    }
    fclose(file);
    return length;
}

static uint32_t read_number(const char *text, const char *what, unsigned long most)
{
    char *end;
    unsigned long number = strtoul(text, &end, 10);
    if (*text < '0' || *text > '9' || *end != '\0' || number > most) {
        fprintf(stderr, "loader: '%s' is no %s\n", text, what);
        exit(2);
    }
    return (uint32_t)number;
}

/* Asks the judge and says its answer in words; the exit status that goes with it. */
static int say(const uint8_t *model, size_t model_bytes, const uint8_t *sheet, size_t sheet_bytes, uint32_t now)
{
    uint64_t answer = judge(model, model_bytes, sheet, sheet_bytes, now);
    uint32_t value = FERRULEBEE_VALUE(answer);
    switch (FERRULEBEE_CODE(answer)) {
    case FERRULEBEE_BY_ADD:
        printf("granted: the sheet was added while the model was in, tick %" PRIu32 "\n", value);
        return 0;
    case FERRULEBEE_BY_JOIN:
        printf("granted: the model joined liberally a sheet added liberally, tick %" PRIu32 "\n", value);
        return 0;
    case FERRULEBEE_NONE:
        printf("denied: the model was never granted the sheet up to tick %" PRIu32 "\n", now);
        return 1;
    case FERRULEBEE_STRICT_LEAVE:
        printf("denied: a strict leave of the model ended the grant at tick %" PRIu32 "\n", value);
        return 1;
    case FERRULEBEE_STRICT_REMOVE:
        printf("denied: a strict remove of the sheet ended the grant at tick %" PRIu32 "\n", value);
        return 1;
    case FERRULEBEE_LATE_NOW:
        printf("refused 10: the tick asked about is above 1,000,000\n");
        return 2;
    case FERRULEBEE_LONG_MODEL:
        printf("refused 11: the model's strip is too long or not whole words\n");
        return 2;
    case FERRULEBEE_LONG_SHEET:
        printf("refused 12: the sheet's strip is too long or not whole words\n");
        return 2;
    case FERRULEBEE_BAD_MODEL:
        printf("refused 13: the model's strip is bad at place %" PRIu32 "\n", value);
        return 2;
    case FERRULEBEE_BAD_SHEET:
        printf("refused 14: the sheet's strip is bad at place %" PRIu32 "\n", value);
        return 2;
    }
    printf("an answer that is not of this version: %" PRIu64 "\n", answer);
    return 2;
}

static int judge_strips(char **words)
{
    static uint8_t model[STRIP_ROOM], sheet[STRIP_ROOM];
    uint32_t now = read_number(words[2], "tick", UINT32_MAX);
    size_t model_bytes = read_file(words[0], model, sizeof model);
    size_t sheet_bytes = read_file(words[1], sheet, sizeof sheet);
    return say(model, model_bytes, sheet, sheet_bytes, now);
}

/* The strip of one carrier up to a tick, out of a book's records: those with a kind of its side, which starts
 * at `side`, and with its number. Its length in bytes. */
static size_t cut(const uint32_t *records, size_t count, uint32_t side, uint32_t number, uint32_t now, uint8_t *strip)
{
    size_t length = 0;
    for (size_t i = 0; i < count && records[i] / 4096 <= now; i++) {
        uint32_t word = records[i], kind = word / 512 % 8;
        if (kind / 4 * 4 == side && word % 512 == number)
            for (int byte = 0; byte < 4; byte++)
                strip[length++] = (uint8_t)(word >> (8 * byte));
    }
    return length;
}

static int judge_book(char **words, int count)
{
    static uint8_t book[BOOK_ROOM], model[STRIP_ROOM], sheet[STRIP_ROOM];
    static uint32_t records[FERRULEBEE_EVENTS];
    uint32_t m = read_number(words[1], "model (0 to 63)", FERRULEBEE_MODELS - 1);
    uint32_t s = read_number(words[2], "sheet (0 to 255)", FERRULEBEE_SHEETS - 1);
    uint32_t now = count == 4 ? read_number(words[3], "tick", UINT32_MAX) : 0;
    size_t length = read_file(words[0], book, sizeof book);
    ferrulebee_book_read_answer answer = ferrulebee_book_read(book, length, records, FERRULEBEE_EVENTS);
    if (answer.code != 0) {
        printf("refused %" PRIu32, answer.code);
        if (answer.code >= FERRULEBEE_BAD_RECORD)
            printf(" at %" PRIu32, answer.place);
        printf(": the book is not good\n");
        return 2;
    }
    uint32_t closed = answer.group.closed;
    if (count < 4)
        now = closed;
    if (now > closed) {
        fprintf(stderr, "loader: the book ends at tick %" PRIu32 ", and nothing is known of tick %" PRIu32 "\n", closed, now);
        return 2;
    }
    size_t total = (length - FERRULEBEE_BOOK_HEADER) / 4;
    size_t model_bytes = cut(records, total, FERRULEBEE_SJ, m, now, model);
    size_t sheet_bytes = cut(records, total, FERRULEBEE_SA, s, now, sheet);
    return say(model, model_bytes, sheet, sheet_bytes, now);
}

int main(int count, char **words)
{
    int status, book = count > 1 && strcmp(words[1], "--book") == 0;
    if (count == 2 && strcmp(words[1], "--help") == 0) {
        fputs(help, stdout);
        status = 0;
    } else if (book && (count == 5 || count == 6)) {
        status = judge_book(words + 2, count - 2);
    } else if (!book && count == 4) {
        status = judge_strips(words + 1);
    } else {
        fprintf(stderr, "%s (--help says more)\n", usage);
        return 2;
    }
    if (fflush(stdout) != 0) {
        fprintf(stderr, "loader: can't write the answer\n");
        return 2;
    }
    return status;
}
