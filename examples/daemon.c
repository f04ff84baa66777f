/* A keeper's daemon: the groups of a station in memory, side by side in one list. Requests are taken on
 * them where they stand. One command a line on standard input, one line of answer each; --help lists the
 * commands. Exit status: 0, or 2 if wrongly called. */
#include "ferrulebee.h"

#include <inttypes.h>
#include <stdio.h>
#include <string.h>

static const char *const kinds[] = {"SJ", "LJ", "SL", "LL", "SA", "LA", "SR", "LR"};
enum { KINDS = sizeof kinds / sizeof *kinds };

/* The records of a group in book order: those of closed ticks, then those of the open one. One more than a
 * book can have, so that the writer refuses a longer book. */
enum { ROOM = FERRULEBEE_EVENTS + 1 };
typedef struct {
    uint32_t words[ROOM];
    size_t closed, all;
} history;

/* A station's groups and their histories: the whole state of the daemon. The library has none. */
static ferrulebee_group groups[FERRULEBEE_GROUPS];
static history histories[FERRULEBEE_GROUPS];
static uint32_t how_many;

static const char help[] =
    "daemon: a station's groups, one command a line on standard input\n"
    "  fresh NUMBER                  puts a fresh group at the end of the list\n"
    "  request POSITION KIND NUMBER  KIND is SJ LJ SL LL (a model) or SA LA SR LR (a sheet)\n"
    "  close POSITION                closes the group's open tick\n"
    "  read POSITION MODEL SHEET     may the model read the sheet?\n"
    "  models POSITION SHEET         how many models may read the sheet\n"
    "  mask MODEL SHEET              the positions whose groups grant, bit 0 the first\n"
    "  book POSITION FILE            writes the group's book, as of its last close\n"
    "  open FILE                     puts the group of a book at the end of the list\n"
    "Positions count from 0. Empty lines and lines that start with # are passed over.\n";

static void refused(uint32_t code, uint32_t place)
{
    static const char *const meanings[] = {
        [FERRULEBEE_BAD_KIND] = "no such kind",
        [FERRULEBEE_BAD_NUMBER] = "model or sheet number out of range",
        [FERRULEBEE_NO_TICK_LEFT] = "all ticks are closed",
        [FERRULEBEE_SECOND_EVENT] = "a second event in the open tick",
        [FERRULEBEE_ALREADY_IN] = "in already",
        [FERRULEBEE_NOT_IN] = "not in",
        [FERRULEBEE_BAD_LIST] = "no groups, or too many",
        [FERRULEBEE_BAD_GROUP] = "group number above 15",
        [FERRULEBEE_BAD_LENGTH] = "too short or too long for a book",
        [FERRULEBEE_BAD_TOTAL] = "the book's total is not its length",
        [FERRULEBEE_BAD_HEADER] = "a number of the book's header is out of range",
        [FERRULEBEE_BAD_COUNT] = "the book's count doesn't fit its total",
        [FERRULEBEE_BAD_RECORD] = "tick or number out of range",
        [FERRULEBEE_NOT_RISING] = "not greater than the record before",
        [FERRULEBEE_ILL_FORMED] = "breaks well-formedness",
    };
    printf("refused %" PRIu32 ": %s", code, meanings[code]);
    if (code >= FERRULEBEE_BAD_RECORD && code <= FERRULEBEE_ILL_FORMED)
        printf(" at record %" PRIu32, place);
    printf("\n");
}

/* ---- histories ---- */

/* An event of the open tick goes to its place among those: a book's records rise. */
static void remember(history *h, uint32_t word)
{
    if (h->all == ROOM)
        return;
    size_t at = h->all++;
    for (; at > h->closed && h->words[at - 1] > word; at--)
        h->words[at] = h->words[at - 1];
    h->words[at] = word;
}

/* A new group at the end of the list, if there is room. */
static void put_group(const ferrulebee_group *group, const history *h)
{
    if (how_many == FERRULEBEE_GROUPS) {
        printf("the list is full\n");
        return;
    }
    groups[how_many] = *group;
    histories[how_many] = *h;
    printf("group %" PRIu32 " at position %" PRIu32 "\n", group->number, how_many++);
}

/* ---- the commands ---- */

enum { WORDS = 5 }; /* one more than the longest command has */

/* What stands behind a command's name: its numbers by place, and the last word. */
typedef struct {
    uint32_t n[WORDS];
    const char *last;
} line;

static void put_fresh(const line *l)
{
    static const history none;
    ferrulebee_answer answer = ferrulebee_fresh(l->n[0]);
    if (answer.code == 0)
        put_group(&answer.group, &none);
    else
        refused(answer.code, 0);
}

static void request(const line *l)
{
    ferrulebee_group *group = &groups[l->n[0]];
    uint32_t code = ferrulebee_request_at(group, l->n[1], l->n[2]);
    if (code != 0) {
        refused(code, 0);
        return;
    }
    remember(&histories[l->n[0]], FERRULEBEE_WORD(group->closed + 1, l->n[1], l->n[2]));
    printf("accepted in tick %" PRIu32 "\n", group->closed + 1);
}

static void close_tick(const line *l)
{
    ferrulebee_answer answer = ferrulebee_close(groups[l->n[0]]);
    if (answer.code != 0) {
        refused(answer.code, 0);
        return;
    }
    groups[l->n[0]] = answer.group;
    histories[l->n[0]].closed = histories[l->n[0]].all;
    printf("tick %" PRIu32 " closed\n", answer.group.closed);
}

static void read_sheet(const line *l)
{
    ferrulebee_read_answer answer = ferrulebee_read(groups[l->n[0]], l->n[1], l->n[2]);
    if (answer.code == 0)
        printf("%s\n", answer.granted ? "granted" : "denied");
    else
        refused(answer.code, 0);
}

static void count_models(const line *l)
{
    ferrulebee_count_answer answer = ferrulebee_models(groups[l->n[0]], l->n[1]);
    if (answer.code == 0)
        printf("models %" PRIu32 "\n", answer.count);
    else
        refused(answer.code, 0);
}

static void mask(const line *l)
{
    ferrulebee_mask_answer answer = ferrulebee_mask(groups, how_many, l->n[0], l->n[1]);
    if (answer.code == 0)
        printf("mask %04" PRIx32 "\n", answer.mask);
    else
        refused(answer.code, 0);
}

static void write_book(const line *l)
{
    static uint8_t book[FERRULEBEE_LONGEST_BOOK];
    const ferrulebee_group *group = &groups[l->n[0]];
    const history *h = &histories[l->n[0]];
    ferrulebee_book_write_answer answer = ferrulebee_book_write(group->closed, group->number, h->words, h->closed, book, sizeof book);
    if (answer.code != 0) {
        refused(answer.code, answer.place);
        return;
    }
    FILE *file = fopen(l->last, "wb");
    size_t written = file == NULL ? 0 : fwrite(book, 1, answer.length, file);
    if (file == NULL || fclose(file) != 0 || written != answer.length)
        printf("can't write %s\n", l->last);
    else
        printf("book of %zu records, %zu bytes\n", h->closed, answer.length);
}

static void open_book(const line *l)
{
    static uint8_t book[FERRULEBEE_LONGEST_BOOK + 1]; /* one byte more, so that a longer file is refused */
    static history h;
    FILE *file = fopen(l->last, "rb");
    if (file == NULL) {
        printf("can't open %s\n", l->last);
        return;
    }
    size_t length = fread(book, 1, sizeof book, file);
    fclose(file);
    ferrulebee_book_read_answer answer = ferrulebee_book_read(book, length, h.words, FERRULEBEE_EVENTS);
    if (answer.code != 0) {
        refused(answer.code, answer.place);
        return;
    }
    h.closed = h.all = (length - FERRULEBEE_BOOK_HEADER) / 4;
    put_group(&answer.group, &h);
}

/* The form of a command's words: p a position that has a group, k a kind, n a number, f a file. */
static const struct {
    const char *name, *form;
    void (*obey)(const line *);
} commands[] = {
    {"fresh", "n", put_fresh}, {"request", "pkn", request}, {"close", "p", close_tick},
    {"read", "pnn", read_sheet}, {"models", "pn", count_models}, {"mask", "nn", mask},
    {"book", "pf", write_book}, {"open", "f", open_book},
};

/* ---- a line ---- */

static int is_number(const char *text, uint32_t *number)
{
    uint64_t value = 0;
    if (*text == '\0')
        return 0;
    for (; *text >= '0' && *text <= '9' && value <= UINT32_MAX; text++)
        value = 10 * value + (uint64_t)(*text - '0');
    *number = (uint32_t)value;
    return *text == '\0' && value <= UINT32_MAX;
}

static int is_kind(const char *text, uint32_t *number)
{
    for (uint32_t kind = 0; kind < KINDS; kind++)
        if (strcmp(text, kinds[kind]) == 0) {
            *number = kind;
            return 1;
        }
    return 0;
}

static int fits(const char *form, char **words, int count, line *l)
{
    if (count != (int)strlen(form))
        return 0;
    for (int i = 0; i < count; i++)
        if (form[i] != 'f' && !(form[i] == 'k' ? is_kind : is_number)(words[i], &l->n[i]))
            return 0;
    l->last = words[count - 1];
    return 1;
}

static void obey(char *text)
{
    char *words[WORDS];
    int count = 0;
    for (char *word = strtok(text, " \t\r\n"); word != NULL && count < WORDS; word = strtok(NULL, " \t\r\n"))
        words[count++] = word;
    if (count == 0 || words[0][0] == '#')
        return;
    for (size_t i = 0; i < sizeof commands / sizeof *commands; i++) {
        line l;
        if (strcmp(words[0], commands[i].name) != 0 || !fits(commands[i].form, words + 1, count - 1, &l))
            continue;
        if (commands[i].form[0] == 'p' && l.n[0] >= how_many)
            printf("no group at position %" PRIu32 "\n", l.n[0]);
        else
            commands[i].obey(&l);
        return;
    }
    printf("not a command: %s (--help lists them)\n", words[0]);
}

int main(int count, char **words)
{
    if (count == 2 && strcmp(words[1], "--help") == 0) {
        fputs(help, stdout);
        return 0;
    }
    if (count != 1) {
        fprintf(stderr, "usage: daemon (commands on standard input; --help lists them)\n");
        return 2;
    }
    char text[256];
    while (fgets(text, sizeof text, stdin) != NULL) {
        obey(text);
        fflush(stdout); /* whoever sent the line waits for its answer */
    }
    return 0;
}
