/*
 * The sheet program: reads a packed setup and then packed messages from
 * standard input and prints the sheet.
 *
 *   sheet        the paper's lines only, with A3's third number
 *   sheet all    then every identifier, row, mark and day figure, and what
 *                the setup is answered when it is checked (A2)
 */
#include "reference.h"

#include <inttypes.h>
#include <stdio.h>
#include <stdlib.h>
#include <string.h>

/* "The sheet program holds 16 slots". */
enum { SHEET_SLOTS = 16 };

static struct book book;

struct input {
    uint8_t *bytes;
    size_t length;
};

static void give_up(const char *why)
{
    fprintf(stderr, "sheet: %s\n", why);
    exit(2);
}

/* Standard input to its end, whatever its length. */
static struct input read_to_end(void)
{
    struct input input = {NULL, 0};
    size_t room = 0;
    size_t got;

    do {
        if (input.length == room) {
            room = room == 0 ? 4096 : room * 2;
            input.bytes = realloc(input.bytes, room);
            if (input.bytes == NULL)
                give_up("no memory for the input");
        }
        got = fread(input.bytes + input.length, 1, room - input.length, stdin);
        input.length += got;
    } while (got > 0);
    if (ferror(stdin))
        give_up("the input cannot be read");
    return input;
}

/* The place is that of notify, and 0 for a message of another kind. */
static enum answer obey(const struct message *message, unsigned *place)
{
    struct acceptance acceptance = {INITIAL, 0, 0};
    enum answer answer;

    switch (message->kind) {
    case GATE:
        answer = close_gate(&book);
        break;
    case NOTIFICATION:
        answer = notify(&book, &message->notification, &acceptance);
        break;
    default:
        answer = nullify(&book, &message->nullification);
        break;
    }
    *place = acceptance.place;
    return answer;
}

/* "m: message number from 1, answer."  A3: "The m line gains a third number
 * only there", with 10 and 11; also where that place is 0 (decided). */
static void print_message_line(unsigned long number, enum answer answer, unsigned place)
{
    printf("m %lu %d", number, (int)answer);
    if (answer == PERIODS_WRONG || answer == VOLUME_OUT_OF_RANGE)
        printf(" %u", place);
    printf("\n");
}

/* "An unreadable message prints its m line, counts in end and ends reading
 * ... Input that stops between messages prints no such line."  Gives the
 * number of messages seen. */
static unsigned long print_messages(const uint8_t *bytes, size_t length)
{
    unsigned long seen = 0;
    bool readable = true;
    size_t used;

    while (readable && length > 0) {
        struct message message;
        unsigned place = 0;
        enum answer answer = read_message(bytes, length, &message, &used);

        readable = answer == DONE;
        if (readable)
            answer = obey(&message, &place);
        seen++;
        print_message_line(seen, answer, place);
        bytes += used;
        length -= used;
    }
    return seen;
}

static unsigned day_number(unsigned day_place)
{
    return book.setup.first_day + day_place;
}

/* In a sheet every question is put about something the book has. */
static void must_be_done(enum answer answer)
{
    if (answer != DONE)
        give_up("a question about the book was refused");
}

/* "t: account, day, period, kWh, non-zero totals only, rising in that
 * order." */
static void print_totals(void)
{
    for (unsigned account = 0; account < book.setup.accounts; account++)
        for (unsigned d = 0; d < book.setup.days; d++)
            for (unsigned period = 1; period <= day_length(&book.setup, d); period++) {
                int64_t total;

                must_be_done(account_total(&book, account, day_number(d), period, &total));
                if (total != 0)
                    printf("t %u %u %u %" PRId64 "\n", account, day_number(d), period, total);
            }
}

/* ---- What "all" adds ---- */

/* A 64-bit float's bits as 16 lower-case hexadecimal digits. */
static void print_bits(double figure)
{
    uint64_t bits;

    memcpy(&bits, &figure, sizeof bits);
    printf(" %016" PRIx64, bits);
}

/* i SLOT ORIGINATOR REFERENCE */
static void print_identifiers(void)
{
    for (unsigned s = 0; s < book.slots; s++)
        if (book.slot[s].held)
            printf("i %u %u %u\n", s, book.slot[s].originator, book.slot[s].reference);
}

/* r ORIGINATOR REFERENCE SIDE DAY v1 .. vn */
static void print_row(const struct identifier *held, unsigned side, unsigned day)
{
    struct row row;

    must_be_done(ask_row(&book, held->originator, held->reference, side, day, &row));
    printf("r %u %u %u %u", held->originator, held->reference, side, day);
    for (unsigned p = 0; p < row.length; p++)
        printf(" %" PRId32, row.volume[p]);
    printf("\n");
}

static void print_rows(void)
{
    for (unsigned s = 0; s < book.slots; s++)
        for (unsigned side = 1; side <= 2; side++)
            for (unsigned d = 0; d < book.setup.days; d++)
                if (book.slot[s].held)
                    print_row(&book.slot[s], side, day_number(d));
}

/* k ORIGINATOR REFERENCE ACCOUNT DAY PERIOD CASE FIRST SECOND */
static void print_mark(const struct identifier *held, unsigned account, unsigned day,
                       unsigned period)
{
    struct mark mark;

    must_be_done(ask_mark(&book, held->originator, held->reference, account, day, period, &mark));
    if (mark.mark_case == BLANK)
        return;
    printf("k %u %u %u %u %u %d", held->originator, held->reference, account, day, period,
           (int)mark.mark_case);
    print_bits(mark.first);
    print_bits(mark.second);
    printf("\n");
}

static void print_marks_of(const struct identifier *held)
{
    const struct authorisation *pair = &book.setup.authorisation[held->originator];

    for (unsigned which = 0; which < 2; which++)
        for (unsigned d = 0; d < book.setup.days; d++)
            for (unsigned period = 1; period <= day_length(&book.setup, d); period++)
                print_mark(held, pair->account[which], day_number(d), period);
}

static void print_marks(void)
{
    for (unsigned s = 0; s < book.slots; s++)
        if (book.slot[s].held)
            print_marks_of(&book.slot[s]);
}

/* f ACCOUNT DAY SOLD BOUGHT NET */
static void print_day_figures(void)
{
    for (unsigned account = 0; account < book.setup.accounts; account++)
        for (unsigned d = 0; d < book.setup.days; d++) {
            struct day_figures figures;

            must_be_done(ask_day_figures(&book, account, day_number(d), &figures));
            printf("f %u %u", account, day_number(d));
            print_bits(figures.sold);
            print_bits(figures.bought);
            print_bits(figures.net);
            printf("\n");
        }
}

static void print_all(void)
{
    print_identifiers();
    print_rows();
    print_marks();
    print_day_figures();
}

/* c ANSWER: of the setup held against the calendar (A2), read and opened.  A
 * refused setup has the line too. */
static void print_checked(const struct input *input)
{
    static struct book checked;
    struct setup setup;
    size_t used;
    enum answer answer = read_checked_setup(input->bytes, input->length, &setup, &used);

    if (answer == DONE)
        answer = open_checked_book(&checked, &setup, SHEET_SLOTS);
    printf("c %d\n", (int)answer);
}

/* "Line 1: first day, days, accounts." ... "end: messages seen." */
static void print_sheet(const uint8_t *bytes, size_t length, bool all)
{
    printf("sheet %u %u %u\n", book.setup.first_day, book.setup.days, book.setup.accounts);

    unsigned long seen = print_messages(bytes, length);

    print_totals();
    printf("end %lu\n", seen);
    if (all)
        print_all();
}

int main(int argc, char **argv)
{
    bool all = argc == 2 && strcmp(argv[1], "all") == 0;
    struct setup setup;
    size_t used;

    if (argc != 1 && !all)
        give_up("the only argument is: all");

    struct input input = read_to_end();
    enum answer answer = read_setup(input.bytes, input.length, &setup, &used);

    if (answer == DONE)
        answer = open_book(&book, &setup, SHEET_SLOTS);
    /* "A refused setup prints only setup and the number." */
    if (answer != DONE)
        printf("setup %d\n", (int)answer);
    else
        print_sheet(input.bytes + used, input.length - used, all);
    if (all)
        print_checked(&input);
    free(input.bytes);
    return 0;
}
