/*
 * The book of the scope paper, written a second time and independently.
 * See reference.h for names and numbering.
 */
#include "reference.h"

#include <float.h>
#include <string.h>

/* "a 64-bit float", and arithmetic that keeps to it. */
_Static_assert(sizeof(double) == 8 && DBL_MANT_DIG == 53, "double is the 64-bit float");
_Static_assert(FLT_EVAL_METHOD == 0 || FLT_EVAL_METHOD == 1, "a division rounds once");

/* ======================================================================
 * Setup rules
 * ====================================================================== */

/* "per day a code of 2 bits (0, 1, 2 for 46, 48, 50)". */
enum day_code { CODE_46 = 0, CODE_48 = 1, CODE_50 = 2 };

static const unsigned length_of_code[3] = {46, 48, 50};

unsigned day_length(const struct setup *setup, unsigned day_place)
{
    return length_of_code[setup->day_code[day_place]];
}

unsigned last_day_of_book(const struct setup *setup)
{
    return setup->first_day + setup->days - 1;
}

/* "1 to 8 consecutive settlement days ..., 2 to 64 energy accounts, 1 to 64
 * authorisations". */
static bool counts_are_wrong(const struct setup *setup)
{
    return setup->days < 1 || setup->days > MOST_DAYS
        || setup->accounts < FEWEST_ACCOUNTS || setup->accounts > MOST_ACCOUNTS
        || setup->authorisations < 1 || setup->authorisations > MOST_AUTHORISATIONS;
}

/* "last day above 65,534" is wrong.  Asked only where the counts are right. */
static bool last_day_is_wrong(const struct setup *setup)
{
    return last_day_of_book(setup) > LATEST_DAY;
}

/* Code 3 is wrong. */
static bool a_day_code_is_wrong(const struct setup *setup)
{
    for (unsigned d = 0; d < setup->days; d++)
        if (setup->day_code[d] > 2)
            return true;
    return false;
}

/* "A row is wrong if an account is out of the book, the two are equal, first
 * is 65,535, last is before first, or type is above 2."  Evergreen is the
 * plain number 65,535 and so never before first (decided). */
static bool row_is_wrong(const struct setup *setup, const struct authorisation *row)
{
    return row->account[0] >= setup->accounts
        || row->account[1] >= setup->accounts
        || row->account[0] == row->account[1]
        || row->first_day == EVERGREEN
        || row->last_day < row->first_day
        || row->type > TYPE_ADDITIONAL;
}

static bool a_row_is_wrong(const struct setup *setup)
{
    for (unsigned a = 0; a < setup->authorisations; a++)
        if (row_is_wrong(setup, &setup->authorisation[a]))
            return true;
    return false;
}

/* ======================================================================
 * The settlement calendar (A2)
 * ====================================================================== */

/* "day 0 being 1 January 2000"; A2: "day 0 is a Saturday" and "from 2000 to
 * 2099".  The last day is 31 December 2099, day 36,524 (decided). */
enum { FIRST_YEAR = 2000, LAST_YEAR = 2099, YEARS = 100, CALENDAR_DAYS = 36525 };
enum { JANUARY = 1, FEBRUARY, MARCH, APRIL, JUNE = 6, SEPTEMBER = 9, OCTOBER, NOVEMBER, DECEMBER };
enum weekday { MONDAY, TUESDAY, WEDNESDAY, THURSDAY, FRIDAY, SATURDAY, SUNDAY };

/* What walking the calendar writes down: of each day its date and its code,
 * and of each date its day.  Nothing is written twice. */
static struct date date_walked[CALENDAR_DAYS];
static unsigned code_walked[CALENDAR_DAYS];
static unsigned day_walked[YEARS][12][31];

static bool is_leap_year(unsigned year)
{
    return year % 4 == 0 && (year % 100 != 0 || year % 400 == 0);
}

static unsigned days_of_month(unsigned year, unsigned month)
{
    switch (month) {
    case FEBRUARY:
        return is_leap_year(year) ? 29 : 28;
    case APRIL:
    case JUNE:
    case SEPTEMBER:
    case NOVEMBER:
        return 30;
    default:
        return 31;
    }
}

static struct date date_after(struct date date)
{
    if (date.day < days_of_month(date.year, date.month))
        return (struct date){date.year, date.month, date.day + 1};
    if (date.month < DECEMBER)
        return (struct date){date.year, date.month + 1, 1};
    return (struct date){date.year + 1, JANUARY, 1};
}

static enum weekday weekday_after(enum weekday weekday)
{
    return weekday == SUNDAY ? MONDAY : weekday + 1;
}

/* A Sunday with no later Sunday in its month. */
static bool is_last_sunday(struct date date, enum weekday weekday)
{
    return weekday == SUNDAY && date.day + 7 > days_of_month(date.year, date.month);
}

/* A2: "the last Sunday of March (46) and of October (50)". */
static enum day_code code_of(struct date date, enum weekday weekday)
{
    if (is_last_sunday(date, weekday) && date.month == MARCH)
        return CODE_46;
    if (is_last_sunday(date, weekday) && date.month == OCTOBER)
        return CODE_50;
    return CODE_48;
}

/* From Saturday 1 January 2000 forward, day by day. */
static void walk_the_calendar(void)
{
    struct date date = {FIRST_YEAR, JANUARY, 1};
    enum weekday weekday = SATURDAY;

    for (unsigned day = 0; day < CALENDAR_DAYS; day++) {
        date_walked[day] = date;
        code_walked[day] = code_of(date, weekday);
        day_walked[date.year - FIRST_YEAR][date.month - 1][date.day - 1] = day;
        date = date_after(date);
        weekday = weekday_after(weekday);
    }
}

static void have_the_calendar(void)
{
    static bool walked;

    if (!walked)
        walk_the_calendar();
    walked = true;
}

/* A2: "27 day or date not in 2000 to 2099". */
static bool day_is_in_calendar(uint32_t day)
{
    return day < CALENDAR_DAYS;
}

/* A2: "Give the length of any day". */
enum answer calendar_code(uint32_t day, unsigned *code)
{
    *code = 0;
    if (!day_is_in_calendar(day))
        return NOT_IN_THE_CALENDAR;
    have_the_calendar();
    *code = code_walked[day];
    return DONE;
}

enum answer calendar_length(uint32_t day, unsigned *periods)
{
    unsigned code;
    enum answer answer = calendar_code(day, &code);

    *periods = answer == DONE ? length_of_code[code] : 0;
    return answer;
}

/* A2: "day number from date".  A date that does not exist gives 27 (decided):
 * no day of the walk has it, so the day found for it has another. */
enum answer day_of_date(uint32_t year, uint32_t month, uint32_t day, unsigned *number)
{
    *number = 0;
    if (year < FIRST_YEAR || year > LAST_YEAR || month < 1 || month > 12 || day < 1 || day > 31)
        return NOT_IN_THE_CALENDAR;
    have_the_calendar();

    unsigned found = day_walked[year - FIRST_YEAR][month - 1][day - 1];
    struct date date = date_walked[found];

    if (date.year != year || date.month != month || date.day != day)
        return NOT_IN_THE_CALENDAR;
    *number = found;
    return DONE;
}

/* A2: "and back". */
enum answer date_of_day(uint32_t day, struct date *date)
{
    *date = (struct date){0, 0, 0};
    if (!day_is_in_calendar(day))
        return NOT_IN_THE_CALENDAR;
    have_the_calendar();
    *date = date_walked[day];
    return DONE;
}

/* What a setup of these days has wrong: "1 to 8 consecutive settlement
 * days", "last day above 65,534".  Any 32-bit numbers: the sum is taken only
 * where it cannot be cut. */
static bool days_are_wrong(uint32_t first_day, uint32_t days)
{
    return days < 1 || days > MOST_DAYS || first_day > LATEST_DAY
        || first_day + days - 1 > LATEST_DAY;
}

/* 17 where a setup of these days would have it, then 27 (decided). */
enum answer propose_codes(uint32_t first_day, uint32_t days, unsigned code[MOST_DAYS])
{
    for (unsigned d = 0; d < MOST_DAYS; d++)
        code[d] = 0;
    if (days_are_wrong(first_day, days))
        return SETUP_WRONG;
    for (unsigned d = 0; d < days; d++)
        if (!day_is_in_calendar(first_day + d))
            return NOT_IN_THE_CALENDAR;
    for (unsigned d = 0; d < days; d++)
        calendar_code(first_day + d, &code[d]);
    return DONE;
}

/* A2: "27 day or date not in 2000 to 2099; 28 code disagrees with the
 * calendar. In a checked setup 27, then 28".  27 is decided over all days of
 * the book before 28 over any (decided), and only the days of the book are
 * looked at: an authorisation may end after 2099 (decided).  Asked only where
 * 17 is not given. */
static enum answer refusal_by_calendar(const struct setup *setup)
{
    for (unsigned d = 0; d < setup->days; d++)
        if (!day_is_in_calendar(setup->first_day + d))
            return NOT_IN_THE_CALENDAR;
    for (unsigned d = 0; d < setup->days; d++) {
        unsigned code;

        calendar_code(setup->first_day + d, &code);
        if (setup->day_code[d] != code)
            return CODE_DISAGREES;
    }
    return DONE;
}

/* ======================================================================
 * Days, gates and the clock
 * ====================================================================== */

/* The periods of all days before this place in the book. */
static unsigned periods_before(const struct setup *setup, unsigned day_place)
{
    unsigned periods = 0;

    for (unsigned d = 0; d < day_place; d++)
        periods += day_length(setup, d);
    return periods;
}

static unsigned periods_of_book(const struct setup *setup)
{
    return periods_before(setup, setup->days);
}

/* "The clock is the number of gates closed, in order." */
bool gate_is_open(const struct book *book, unsigned day_place, unsigned period)
{
    return periods_before(&book->setup, day_place) + period > book->gates_closed;
}

static bool every_gate_is_closed(const struct book *book)
{
    return book->gates_closed == periods_of_book(&book->setup);
}

/* "The current day is the earliest with an open gate (000, 5.16)."  A day
 * has an open gate when its last gate is open. */
unsigned current_day_place(const struct book *book)
{
    unsigned d = 0;

    while (d < book->setup.days && !gate_is_open(book, d, day_length(&book->setup, d)))
        d++;
    return d;
}

/* Its day number; asked only where a gate is open. */
static unsigned current_day(const struct book *book)
{
    return book->setup.first_day + current_day_place(book);
}

static bool day_is_in_book(const struct setup *setup, uint32_t day)
{
    return day >= setup->first_day && day <= last_day_of_book(setup);
}

/* ======================================================================
 * Identifiers and places
 * ====================================================================== */

static bool stands(int32_t place)
{
    return place != NOTHING_STANDS;
}

static bool in_range(int32_t volume)
{
    return volume >= LOWEST_VOLUME && volume <= HIGHEST_VOLUME;
}

/* The slot that holds this identifier; the number of slots where none does.
 * Identifiers differ by originator and reference (decided). */
static unsigned slot_holding(const struct book *book, uint32_t originator, uint32_t reference)
{
    unsigned s = 0;

    while (s < book->slots
           && !(book->slot[s].held && book->slot[s].originator == originator
                && book->slot[s].reference == reference))
        s++;
    return s;
}

/* The lowest slot not held; the number of slots where every slot is held. */
static unsigned lowest_unheld_slot(const struct book *book)
{
    unsigned s = 0;

    while (s < book->slots && book->slot[s].held)
        s++;
    return s;
}

/* The authorisation that originated a held identifier: its accounts are the
 * identifier's accounts. */
static const struct authorisation *originating(const struct book *book, unsigned slot)
{
    return &book->setup.authorisation[book->slot[slot].originator];
}

/* ======================================================================
 * A sound book
 * ====================================================================== */

/* "setup rules hold; gates closed do not exceed the periods". */
static bool setup_and_clock_are_sound(const struct book *book)
{
    return !counts_are_wrong(&book->setup) && !last_day_is_wrong(&book->setup)
        && !a_day_code_is_wrong(&book->setup) && !a_row_is_wrong(&book->setup)
        && book->slots >= 1 && book->slots <= MOST_SLOTS
        && book->gates_closed <= periods_of_book(&book->setup);
}

/* "held identifiers differ and name known originators". */
static bool identifiers_are_sound(const struct book *book)
{
    for (unsigned s = 0; s < book->slots; s++) {
        const struct identifier *held = &book->slot[s];

        if (!held->held)
            continue;
        if (held->originator >= book->setup.authorisations)
            return false;
        if (slot_holding(book, held->originator, held->reference) != s)
            return false;
    }
    return true;
}

/* "each volume is in range or the mark; unheld slots and places past a day's
 * length hold the mark". */
static bool day_is_sound(const int32_t *place, bool held, unsigned length)
{
    for (unsigned p = 0; p < MOST_PERIODS; p++) {
        if (stands(place[p]) && !in_range(place[p]))
            return false;
        if (stands(place[p]) && (!held || p >= length))
            return false;
    }
    return true;
}

static bool places_are_sound(const struct book *book)
{
    for (unsigned side = 0; side < 2; side++)
        for (unsigned s = 0; s < book->slots; s++)
            for (unsigned d = 0; d < book->setup.days; d++)
                if (!day_is_sound(book->side[side][s][d], book->slot[s].held,
                                  day_length(&book->setup, d)))
                    return false;
    return true;
}

bool sound_book(const struct book *book)
{
    return setup_and_clock_are_sound(book) && identifiers_are_sound(book)
        && places_are_sound(book);
}

/* ======================================================================
 * Reading packed bytes
 * ====================================================================== */

/* "Fields are packed most significant bit first". */
struct bits {
    const uint8_t *bytes;
    size_t next; /* the next bit, from 0 */
};

static uint32_t take(struct bits *bits, unsigned width)
{
    uint32_t value = 0;

    for (unsigned i = 0; i < width; i++) {
        unsigned byte = bits->bytes[bits->next / 8];
        unsigned bit = byte >> (7 - bits->next % 8) & 1u;

        value = value << 1 | bit;
        bits->next++;
    }
    return value;
}

/* "volume 28 in two's complement". */
static int32_t take_volume(struct bits *bits)
{
    int32_t value = (int32_t)take(bits, 28);

    if (value >= INT32_C(1) << 27)
        value -= INT32_C(1) << 28;
    return value;
}

/* "zero bits fill the last byte"; "22: a padding bit is 1". */
static bool a_padding_bit_is_set(struct bits *bits)
{
    while (bits->next % 8 != 0)
        if (take(bits, 1) != 0)
            return true;
    return false;
}

static size_t bytes_for(size_t bit_count)
{
    return (bit_count + 7) / 8;
}

/* "agents 8 and 8, accounts 6 and 6, key 16, first day 16, last day 16, type
 * 2": 78 bits. */
static void take_row(struct bits *bits, struct authorisation *row)
{
    row->agent[0] = take(bits, 8);
    row->agent[1] = take(bits, 8);
    row->account[0] = take(bits, 6);
    row->account[1] = take(bits, 6);
    row->key = take(bits, 16);
    row->first_day = take(bits, 16);
    row->last_day = take(bits, 16);
    row->type = take(bits, 2);
}

/* "Setup: first day 16, days 4, accounts 7, authorisations 7": 34 bits; "per
 * day a code of 2 bits"; then the rows.
 *
 * "Setup order: under 5 bytes 19, wrong counts, last day above 65,534 or lent
 * lengths 17, short 19, code 3 17, rows 18, 22."  Lent lengths are never
 * wrong here (decided): the tables are the book's own.
 *
 * A2: "In a checked setup 27, then 28, come after 18 and before 22." */
static enum answer read_either_setup(const uint8_t *bytes, size_t length, bool checked,
                                     struct setup *setup, size_t *used)
{
    struct setup read = {0};
    struct bits bits = {bytes, 0};

    *used = 0;
    if (length < 5)
        return BYTES_END_TOO_SOON;
    read.first_day = take(&bits, 16);
    read.days = take(&bits, 4);
    read.accounts = take(&bits, 7);
    read.authorisations = take(&bits, 7);
    if (counts_are_wrong(&read) || last_day_is_wrong(&read))
        return SETUP_WRONG;

    size_t whole = bytes_for(34 + 2 * (size_t)read.days + 78 * (size_t)read.authorisations);

    if (length < whole)
        return BYTES_END_TOO_SOON;
    for (unsigned d = 0; d < read.days; d++)
        read.day_code[d] = take(&bits, 2);
    if (a_day_code_is_wrong(&read))
        return SETUP_WRONG;
    for (unsigned a = 0; a < read.authorisations; a++)
        take_row(&bits, &read.authorisation[a]);
    if (a_row_is_wrong(&read))
        return ROW_WRONG;
    if (checked && refusal_by_calendar(&read) != DONE)
        return refusal_by_calendar(&read);
    if (a_padding_bit_is_set(&bits))
        return PADDING_BIT_SET;
    *setup = read;
    *used = whole;
    return DONE;
}

enum answer read_setup(const uint8_t *bytes, size_t length, struct setup *setup, size_t *used)
{
    return read_either_setup(bytes, length, false, setup, used);
}

enum answer read_checked_setup(const uint8_t *bytes, size_t length, struct setup *setup,
                               size_t *used)
{
    *setup = (struct setup){0};
    return read_either_setup(bytes, length, true, setup, used);
}

/* "Gate: kind 0 (2 bits). One byte." */
static enum answer read_gate(struct bits *bits, size_t *used)
{
    if (a_padding_bit_is_set(bits))
        return PADDING_BIT_SET;
    *used = 1;
    return DONE;
}

/* "Notification: kind 1 (2), authorisation 6, agent 8, key 16, originator 6,
 * reference 16, first day 16, last day 16, count 6; then per entry period 6,
 * volume 28 in two's complement. 92 bits and 34 each".
 * Order: "short of the 12 ... bytes 19, 21, short of the whole 19, 22". */
static enum answer read_notification(struct bits *bits, size_t length,
                                     struct notification *notification, size_t *used)
{
    if (length < 12)
        return BYTES_END_TOO_SOON;
    notification->authorisation = take(bits, 6);
    notification->agent = take(bits, 8);
    notification->key = take(bits, 16);
    notification->originator = take(bits, 6);
    notification->reference = take(bits, 16);
    notification->first_day = take(bits, 16);
    notification->last_day = take(bits, 16);
    notification->count = take(bits, 6);
    if (notification->count > MOST_ENTRIES)
        return MORE_THAN_50_ENTRIES;

    size_t whole = bytes_for(92 + 34 * (size_t)notification->count);

    if (length < whole)
        return BYTES_END_TOO_SOON;
    for (unsigned e = 0; e < notification->count; e++) {
        notification->entry[e].period = take(bits, 6);
        notification->entry[e].volume = take_volume(bits);
    }
    if (a_padding_bit_is_set(bits))
        return PADDING_BIT_SET;
    *used = whole;
    return DONE;
}

/* "Nullification: kind 2 (2), account 6, account 6, first day 16. Four
 * bytes."  Order: "short of the ... 4 bytes 19, ... 22". */
static enum answer read_nullification(struct bits *bits, size_t length,
                                      struct nullification *nullification, size_t *used)
{
    if (length < 4)
        return BYTES_END_TOO_SOON;
    nullification->account[0] = take(bits, 6);
    nullification->account[1] = take(bits, 6);
    nullification->first_day = take(bits, 16);
    if (a_padding_bit_is_set(bits))
        return PADDING_BIT_SET;
    *used = 4;
    return DONE;
}

static enum answer read_by_kind(struct bits *bits, size_t length, struct message *message,
                                size_t *used)
{
    switch (message->kind) {
    case GATE:
        return read_gate(bits, used);
    case NOTIFICATION:
        return read_notification(bits, length, &message->notification, used);
    case NULLIFICATION:
        return read_nullification(bits, length, &message->nullification, used);
    default:
        return KIND_3;
    }
}

/* "Message order: empty 19, 20, short of the 12 or 4 bytes 19, 21, short of
 * the whole 19, 22."  "Bytes after a message belong to the next." */
enum answer read_message(const uint8_t *bytes, size_t length, struct message *message,
                         size_t *used)
{
    struct message read = {0};
    struct bits bits = {bytes, 0};

    *used = 0;
    if (length == 0)
        return BYTES_END_TOO_SOON;
    read.kind = take(&bits, 2);

    enum answer answer = read_by_kind(&bits, length, &read, used);

    if (answer == DONE)
        *message = read;
    return answer;
}

/* ======================================================================
 * Opening and gates
 * ====================================================================== */

/* Order: "opening 17, 18". */
static enum answer refusal_of_opening(const struct setup *setup, unsigned slots)
{
    if (counts_are_wrong(setup) || last_day_is_wrong(setup) || a_day_code_is_wrong(setup)
        || slots < 1 || slots > MOST_SLOTS)
        return SETUP_WRONG;
    if (a_row_is_wrong(setup))
        return ROW_WRONG;
    return DONE;
}

/* "Opening closes no gate, holds no identifier and sets every place to the
 * mark." */
enum answer open_book(struct book *book, const struct setup *setup, unsigned slots)
{
    enum answer answer = refusal_of_opening(setup, slots);

    if (answer != DONE)
        return answer;
    book->setup = *setup;
    book->slots = slots;
    book->gates_closed = 0;
    memset(book->slot, 0, sizeof book->slot);
    for (unsigned side = 0; side < 2; side++)
        for (unsigned s = 0; s < MOST_SLOTS; s++)
            for (unsigned d = 0; d < MOST_DAYS; d++)
                for (unsigned p = 0; p < MOST_PERIODS; p++)
                    book->side[side][s][d][p] = NOTHING_STANDS;
    return DONE;
}

/* A2: "In a checked setup 27, then 28, come after 18": opening a checked one
 * 17, 18, 27, 28 (decided).  The first day is held whole against the last day
 * there is. */
enum answer open_checked_book(struct book *book, const struct setup *setup, unsigned slots)
{
    if (days_are_wrong(setup->first_day, setup->days))
        return SETUP_WRONG;

    enum answer answer = refusal_of_opening(setup, slots);

    if (answer == DONE)
        answer = refusal_by_calendar(setup);
    if (answer == DONE)
        answer = open_book(book, setup, slots);
    return answer;
}

/* "One call closes the next gate."  Order: "gate 1, 2". */
enum answer close_gate(struct book *book)
{
    if (!sound_book(book))
        return NOT_A_SOUND_BOOK;
    if (every_gate_is_closed(book))
        return EVERY_GATE_CLOSED;
    book->gates_closed++;
    return DONE;
}

/* ======================================================================
 * Notification: the refusals 4 to 11
 * ====================================================================== */

/* "4: key wrong, or agent is neither of its two". */
static bool key_or_agent_is_wrong(const struct authorisation *sent_under,
                                  const struct notification *n)
{
    return n->key != sent_under->key
        || (n->agent != sent_under->agent[0] && n->agent != sent_under->agent[1]);
}

/* "5: authorisation not in force on the current day".  Evergreen, as the
 * number 65,535, is never before a day. */
static bool in_force(const struct authorisation *authorisation, unsigned day)
{
    return authorisation->first_day <= day && day <= authorisation->last_day;
}

/* Account 1 with account 1 and account 2 with account 2 (decided). */
static bool same_accounts(const struct authorisation *one, const struct authorisation *other)
{
    return one->account[0] == other->account[0] && one->account[1] == other->account[1];
}

/* "6: originator is neither this authorisation nor one whose last day is
 * before the current day with the same account 1 and account 2".  An unknown
 * originator is neither (decided); evergreen counts "as never expired". */
static bool originator_is_wrong(const struct book *book, const struct notification *n)
{
    const struct setup *setup = &book->setup;

    if (n->originator == n->authorisation)
        return false;
    if (n->originator >= setup->authorisations)
        return true;

    const struct authorisation *originator = &setup->authorisation[n->originator];
    bool expired = originator->last_day < current_day(book);

    return !(expired && same_accounts(originator, &setup->authorisation[n->authorisation]));
}

/* "First and last day equal: periods 1 to that day's length. Otherwise,
 * evergreen included: periods 1 to 48."  The otherwise is a 48-period
 * notification, however many of its days lie in the book. */
static bool is_48_period_notification(const struct notification *n)
{
    return n->first_day != n->last_day;
}

/* Asked only after 8 and 9, so that a single day is a day of the book. */
static unsigned highest_period(const struct book *book, const struct notification *n)
{
    if (is_48_period_notification(n))
        return 48;
    return day_length(&book->setup, n->first_day - book->setup.first_day);
}

/* "10: a period is 0 or too high, or periods do not strictly rise; an entry
 * past the 50th counts as too high".  Of two periods that do not rise the
 * later entry offends (decided).  An entry past the 50th is not held, so it is
 * not looked at. */
static bool period_offends(const struct notification *n, unsigned place, unsigned highest)
{
    if (place >= MOST_ENTRIES)
        return true;

    unsigned period = n->entry[place].period;

    if (period == 0 || period > highest)
        return true;
    return place > 0 && period <= n->entry[place - 1].period;
}

/* A3: "the first offending entry's place, counted from 0", under 10; the
 * count where no entry offends.  It goes no further than the 51st. */
static unsigned first_offending_period(const struct notification *n, unsigned highest)
{
    unsigned place = 0;

    while (place < n->count && !period_offends(n, place, highest))
        place++;
    return place;
}

/* The same under "11: a volume out of range".  Asked only where 10 is not
 * given, so that every entry is held. */
static unsigned first_offending_volume(const struct notification *n)
{
    unsigned place = 0;

    while (place < n->count && in_range(n->entry[place].volume))
        place++;
    return place;
}

/* ======================================================================
 * Notification: its kind
 * ====================================================================== */

/* "Equal agents mean single notification: that agent writes both sides.
 * Otherwise agent 1 writes side 1, agent 2 side 2." */
static bool writes_side(const struct authorisation *sent_under, unsigned agent, unsigned side)
{
    return agent == sent_under->agent[side];
}

/* Whether the identifier in this slot states this period on a side that the
 * notification writes.  "A place states something when it does not hold the
 * mark".  With equal agents a volume on either side is enough (decided). */
static bool states(const struct book *book, unsigned slot, unsigned day_place, unsigned period,
                   const struct notification *n)
{
    const struct authorisation *sent_under = &book->setup.authorisation[n->authorisation];

    for (unsigned side = 0; side < 2; side++)
        if (writes_side(sent_under, n->agent, side)
            && stands(book->side[side][slot][day_place][period - 1]))
            return true;
    return false;
}

/* "It is a replacement if its identifier is held and, on a side it writes,
 * states anything on the notification's first day or later."  Closed periods
 * count too (decided). */
static bool is_replacement(const struct book *book, const struct notification *n, unsigned slot)
{
    const struct setup *setup = &book->setup;

    if (slot == book->slots)
        return false;
    for (unsigned d = 0; d < setup->days; d++) {
        if (setup->first_day + d < n->first_day)
            continue;
        for (unsigned period = 1; period <= day_length(setup, d); period++)
            if (states(book, slot, d, period, n))
                return true;
    }
    return false;
}

/* Whether the identifier in this slot "states, on a side it writes, an open
 * period on one of its days".  Its days run from first to last of the new
 * notification (decided), and it "states every period of its days". */
static bool overlaps(const struct book *book, const struct notification *n, unsigned slot)
{
    const struct setup *setup = &book->setup;

    for (unsigned d = 0; d < setup->days; d++) {
        unsigned day = setup->first_day + d;

        if (day < n->first_day || day > n->last_day)
            continue;
        for (unsigned period = 1; period <= day_length(setup, d); period++)
            if (gate_is_open(book, d, period) && states(book, slot, d, period, n))
                return true;
    }
    return false;
}

/* "Otherwise it is additional if another held identifier of the same account
 * 1 and account 2 states, on a side it writes, an open period on one of its
 * days."  The accounts of the other identifier's originating authorisation
 * are compared with those of the one it is sent under (decided). */
static bool is_additional(const struct book *book, const struct notification *n, unsigned own_slot)
{
    const struct authorisation *sent_under = &book->setup.authorisation[n->authorisation];

    for (unsigned s = 0; s < book->slots; s++) {
        if (s == own_slot || !book->slot[s].held)
            continue;
        if (same_accounts(originating(book, s), sent_under) && overlaps(book, n, s))
            return true;
    }
    return false;
}

/* A held identifier that states nothing from the first day on is judged by
 * the others (decided).  "Otherwise it is initial". */
static enum notification_kind kind_of(const struct book *book, const struct notification *n,
                                      unsigned slot)
{
    if (is_replacement(book, n, slot))
        return REPLACEMENT;
    if (is_additional(book, n, slot))
        return ADDITIONAL;
    return INITIAL;
}

/* ======================================================================
 * Notification: what it does
 * ====================================================================== */

/* A1: "A 48-period notification over a 46-period day must drop its periods 3
 * and 4, and its 5 to 48 become 3 to 46. Over a 50-period day 1 to 4 stay, 3
 * and 4 are given again as 5 and 6, and 5 to 48 become 7 to 50."  The period
 * of the notification that is placed on this period of a day so long. */
static unsigned period_placed_on(unsigned period, unsigned length)
{
    if (length == 46 && period >= 3)
        return period + 2;
    if (length == 50 && period >= 5)
        return period - 2;
    return period;
}

/* "its volume, zero where a period is omitted", by the notification's own
 * periods. */
static int32_t volume_stated(const struct notification *n, unsigned period)
{
    for (unsigned e = 0; e < n->count; e++)
        if (n->entry[e].period == period)
            return n->entry[e].volume;
    return 0;
}

/* A1: ""its volume" ... means the volume so placed, and a period of the day
 * is omitted when the notification omits the period placed on it." */
static int32_t volume_placed(const struct notification *n, unsigned period, unsigned length)
{
    if (is_48_period_notification(n))
        return volume_stated(n, period_placed_on(period, length));
    return volume_stated(n, period);
}

/* What the notification puts in a place: "the mark after its last day". */
static int32_t place_for(const struct notification *n, unsigned day, unsigned period,
                         unsigned length)
{
    return day > n->last_day ? NOTHING_STANDS : volume_placed(n, period, length);
}

/* "every open place of the identifier on the written sides is rewritten";
 * "Closed places never change." */
static void rewrite_day(struct book *book, const struct notification *n, unsigned slot,
                        unsigned day_place)
{
    const struct authorisation *sent_under = &book->setup.authorisation[n->authorisation];
    unsigned day = book->setup.first_day + day_place;
    unsigned length = day_length(&book->setup, day_place);

    for (unsigned side = 0; side < 2; side++) {
        if (!writes_side(sent_under, n->agent, side))
            continue;
        for (unsigned period = 1; period <= length; period++)
            if (gate_is_open(book, day_place, period))
                book->side[side][slot][day_place][period - 1]
                    = place_for(n, day, period, length);
    }
}

/* "From the later of its first day and the current day".  Days before the
 * current day have no open place. */
static void rewrite(struct book *book, const struct notification *n, unsigned slot)
{
    for (unsigned d = current_day_place(book); d < book->setup.days; d++)
        if (book->setup.first_day + d >= n->first_day)
            rewrite_day(book, n, slot, d);
}

/* The refusals 1 to 9 in their order. */
static enum answer refusal_1_to_9(const struct book *book, const struct notification *n)
{
    if (!sound_book(book))
        return NOT_A_SOUND_BOOK;
    if (every_gate_is_closed(book))
        return EVERY_GATE_CLOSED;
    if (n->authorisation >= book->setup.authorisations)
        return AUTHORISATION_UNKNOWN;

    const struct authorisation *sent_under = &book->setup.authorisation[n->authorisation];

    if (key_or_agent_is_wrong(sent_under, n))
        return KEY_OR_AGENT_WRONG;
    if (!in_force(sent_under, current_day(book)))
        return NOT_IN_FORCE;
    if (originator_is_wrong(book, n))
        return ORIGINATOR_WRONG;
    /* "Evergreen counts as later than every day in 7 and 8": as the plain
     * number 65,535 it is. A first day 65,535 passes both and gives 9. */
    if (n->last_day < n->first_day)
        return LAST_BEFORE_FIRST;
    if (n->last_day < current_day(book))
        return LAST_BEFORE_CURRENT;
    if (n->first_day > last_day_of_book(&book->setup))
        return FIRST_AFTER_BOOK;
    return DONE;
}

/* The refusals 10 and 11, which carry a place; without them it stays as it
 * is.  A3: "10 is still decided over all entries before 11." */
static enum answer refusal_10_or_11(const struct book *book, const struct notification *n,
                                    unsigned *place)
{
    unsigned offending = first_offending_period(n, highest_period(book, n));

    if (offending < n->count) {
        *place = offending;
        return PERIODS_WRONG;
    }
    offending = first_offending_volume(n);
    if (offending < n->count) {
        *place = offending;
        return VOLUME_OUT_OF_RANGE;
    }
    return DONE;
}

/* The refusals 12 to 14 in their order.  The type is that of the
 * authorisation it is sent under (decided). */
static enum answer refusal_12_to_14(const struct book *book, const struct notification *n,
                                    enum notification_kind kind, unsigned slot)
{
    unsigned type = book->setup.authorisation[n->authorisation].type;

    if (kind == REPLACEMENT && type == TYPE_ADDITIONAL)
        return REPLACEMENT_REFUSED;
    if (kind == ADDITIONAL && type == TYPE_REPLACEMENT)
        return ADDITIONAL_REFUSED;
    if (slot == book->slots && lowest_unheld_slot(book) == book->slots)
        return EVERY_SLOT_HELD;
    return DONE;
}

/* "A new identifier takes the lowest unheld slot." */
static unsigned take_slot(struct book *book, const struct notification *n)
{
    unsigned slot = lowest_unheld_slot(book);

    book->slot[slot].held = true;
    book->slot[slot].originator = n->originator;
    book->slot[slot].reference = n->reference;
    return slot;
}

/* Order: "notification 1 to 14 as numbered".  With a refusal the kind is
 * INITIAL and the slot 0; the place is 0 but with 10 and 11 (A3). */
enum answer notify(struct book *book, const struct notification *n, struct acceptance *acceptance)
{
    *acceptance = (struct acceptance){INITIAL, 0, 0};

    enum answer answer = refusal_1_to_9(book, n);

    if (answer == DONE)
        answer = refusal_10_or_11(book, n, &acceptance->place);
    if (answer != DONE)
        return answer;

    unsigned slot = slot_holding(book, n->originator, n->reference);
    enum notification_kind kind = kind_of(book, n, slot);

    answer = refusal_12_to_14(book, n, kind, slot);
    if (answer != DONE)
        return answer;
    if (slot == book->slots)
        slot = take_slot(book, n);
    rewrite(book, n, slot);
    acceptance->kind = kind;
    acceptance->slot = slot;
    return DONE;
}

/* ======================================================================
 * Nullification
 * ====================================================================== */

/* "A nullification names two accounts, in either order". */
static bool is_between(const struct authorisation *pair, const uint32_t account[2])
{
    return (pair->account[0] == account[0] && pair->account[1] == account[1])
        || (pair->account[0] == account[1] && pair->account[1] == account[0]);
}

/* "open places from that day on become the mark", on both sides (decided). */
static void blank_from(struct book *book, unsigned slot, uint32_t first_day)
{
    for (unsigned d = 0; d < book->setup.days; d++) {
        if (book->setup.first_day + d < first_day)
            continue;
        for (unsigned period = 1; period <= day_length(&book->setup, d); period++) {
            if (!gate_is_open(book, d, period))
                continue;
            book->side[0][slot][d][period - 1] = NOTHING_STANDS;
            book->side[1][slot][d][period - 1] = NOTHING_STANDS;
        }
    }
}

/* Order: "nullification 1, 2, 15, 9".  "Nothing standing is still answer
 * 0." */
enum answer nullify(struct book *book, const struct nullification *nullification)
{
    const uint32_t *account = nullification->account;

    if (!sound_book(book))
        return NOT_A_SOUND_BOOK;
    if (every_gate_is_closed(book))
        return EVERY_GATE_CLOSED;
    /* "15: account not in the book, ... or the two equal". */
    if (account[0] >= book->setup.accounts || account[1] >= book->setup.accounts
        || account[0] == account[1])
        return ACCOUNT_WRONG;
    if (nullification->first_day > last_day_of_book(&book->setup))
        return FIRST_AFTER_BOOK;
    /* "For each identifier between them". */
    for (unsigned s = 0; s < book->slots; s++)
        if (book->slot[s].held && is_between(originating(book, s), account))
            blank_from(book, s, nullification->first_day);
    return DONE;
}

/* ======================================================================
 * One packed message
 * ====================================================================== */

static enum answer obey(struct book *book, const struct message *message,
                        struct application *application)
{
    struct acceptance acceptance;

    if (message->kind == GATE)
        return close_gate(book);
    if (message->kind == NULLIFICATION)
        return nullify(book, &message->nullification);

    enum answer answer = notify(book, &message->notification, &acceptance);

    application->place = acceptance.place;
    if (answer == DONE) {
        application->kind = 1 + (unsigned)acceptance.kind;
        application->slot = acceptance.slot;
    }
    return answer;
}

/* Every order on a book begins with 1; so 1 before reading's numbers
 * (decided), and then what the book answers.  "A refusal leaves all tables,
 * output buffers and the clock unchanged; its other results are zero", but for
 * the place that the refusals 10 and 11 carry (A3); reading's refusals, a
 * gate's and a nullification's carry none. */
enum answer apply_message(struct book *book, const uint8_t *bytes, size_t length,
                          struct application *application)
{
    struct message message;
    size_t used;

    *application = (struct application){0, 0, 0, 0};
    if (!sound_book(book))
        return NOT_A_SOUND_BOOK;

    enum answer answer = read_message(bytes, length, &message, &used);

    if (answer == DONE)
        answer = obey(book, &message, application);
    if (answer == DONE)
        application->length = used;
    return answer;
}

/* ======================================================================
 * Matching, totals, marks, rows, day figures
 * ====================================================================== */

/* "16: no such day number, period or side". */
static bool no_such_day(const struct book *book, uint32_t day)
{
    return !day_is_in_book(&book->setup, day);
}

static bool no_such_period(const struct book *book, uint32_t day, uint32_t period)
{
    return period < 1 || period > day_length(&book->setup, day - book->setup.first_day);
}

/* "A period matches when both sides stand and are equal". */
static bool matches(int32_t side_1, int32_t side_2)
{
    return stands(side_1) && stands(side_2) && side_1 == side_2;
}

/* "plus for account 1, minus for account 2"; nothing for any other. */
static int64_t signed_for(const struct authorisation *pair, uint32_t account, int32_t volume)
{
    if (account == pair->account[0])
        return volume;
    if (account == pair->account[1])
        return -(int64_t)volume;
    return 0;
}

/* One identifier's matched volume of one period, signed for the account. */
static int64_t matched_volume(const struct book *book, unsigned slot, uint32_t account,
                              unsigned day_place, unsigned period)
{
    int32_t side_1 = book->side[0][slot][day_place][period - 1];
    int32_t side_2 = book->side[1][slot][day_place][period - 1];

    if (!book->slot[slot].held || !matches(side_1, side_2))
        return 0;
    return signed_for(originating(book, slot), account, side_1);
}

/* "Totals count matched volumes only".  Order: "account total 1, 15, 16,
 * 26". */
enum answer account_total(const struct book *book, uint32_t account, uint32_t day,
                          uint32_t period, int64_t *total)
{
    int64_t sum = 0;

    *total = 0;
    if (!sound_book(book))
        return NOT_A_SOUND_BOOK;
    if (account >= book->setup.accounts)
        return ACCOUNT_WRONG;
    if (no_such_day(book, day) || no_such_period(book, day, period))
        return NO_SUCH_PLACE;
    for (unsigned s = 0; s < book->slots; s++)
        sum += matched_volume(book, s, account, day - book->setup.first_day, period);
    if (sum > HIGHEST_TOTAL || sum < -HIGHEST_TOTAL)
        return TOTAL_TOO_LARGE;
    *total = sum;
    return DONE;
}

/* "then made a 64-bit float and divided by 1000 once. Zero is positive
 * zero": a whole number zero has no sign. */
static double mwh(int64_t kwh)
{
    return (double)kwh / 1000.0;
}

/* "seen from the asking account: kWh as they stand for account 1, negated as
 * a whole number for account 2". */
static struct mark mark_of(int32_t side_1, int32_t side_2, const struct authorisation *pair,
                           uint32_t account)
{
    struct mark mark = {BLANK, 0.0, 0.0};

    if (stands(side_1) && stands(side_2) && side_1 != side_2) {
        mark.mark_case = DISAGREED;
        mark.first = mwh(signed_for(pair, account, side_1));
        mark.second = mwh(signed_for(pair, account, side_2));
    } else if (stands(side_1) && stands(side_2)) {
        mark.mark_case = AGREED;
        mark.first = mwh(signed_for(pair, account, side_1));
    } else if (stands(side_1) || stands(side_2)) {
        mark.mark_case = ONE_SIDE;
        mark.first = mwh(signed_for(pair, account, stands(side_1) ? side_1 : side_2));
    }
    return mark;
}

/* Order: "mark 1, 25, 15, 16". */
enum answer ask_mark(const struct book *book, uint32_t originator, uint32_t reference,
                     uint32_t account, uint32_t day, uint32_t period, struct mark *mark)
{
    *mark = (struct mark){BLANK, 0.0, 0.0};
    if (!sound_book(book))
        return NOT_A_SOUND_BOOK;

    unsigned slot = slot_holding(book, originator, reference);

    if (slot == book->slots)
        return IDENTIFIER_NOT_HELD;

    /* "15: account not in the book, not in the pair": every pair is in the
     * book, so the second says both. */
    const struct authorisation *pair = originating(book, slot);

    if (account != pair->account[0] && account != pair->account[1])
        return ACCOUNT_WRONG;
    if (no_such_day(book, day) || no_such_period(book, day, period))
        return NO_SUCH_PLACE;

    unsigned day_place = day - book->setup.first_day;

    *mark = mark_of(book->side[0][slot][day_place][period - 1],
                    book->side[1][slot][day_place][period - 1], pair, account);
    return DONE;
}

/* "The day's row is shown as a part of side 1's or side 2's own table, the
 * day's length long; it is empty exactly on a refusal".  Order: "row 1, 25,
 * 16". */
enum answer ask_row(const struct book *book, uint32_t originator, uint32_t reference,
                    uint32_t side, uint32_t day, struct row *row)
{
    *row = (struct row){NULL, 0};
    if (!sound_book(book))
        return NOT_A_SOUND_BOOK;

    unsigned slot = slot_holding(book, originator, reference);

    if (slot == book->slots)
        return IDENTIFIER_NOT_HELD;
    if ((side != 1 && side != 2) || no_such_day(book, day))
        return NO_SUCH_PLACE;

    unsigned day_place = day - book->setup.first_day;

    row->volume = book->side[side - 1][slot][day_place];
    row->length = day_length(&book->setup, day_place);
    return DONE;
}

/* "taking each identifier's matched volume by itself, signed for the account
 * as in totals, the whole kWh sums over the day of those above zero, of those
 * below zero negated, and their difference, each divided by 1000 once."
 * Order: "day figures 1, 15, 16". */
enum answer ask_day_figures(const struct book *book, uint32_t account, uint32_t day,
                            struct day_figures *figures)
{
    int64_t sold = 0;
    int64_t bought = 0;

    *figures = (struct day_figures){0.0, 0.0, 0.0};
    if (!sound_book(book))
        return NOT_A_SOUND_BOOK;
    if (account >= book->setup.accounts)
        return ACCOUNT_WRONG;
    if (no_such_day(book, day))
        return NO_SUCH_PLACE;

    unsigned day_place = day - book->setup.first_day;

    for (unsigned s = 0; s < book->slots; s++)
        for (unsigned period = 1; period <= day_length(&book->setup, day_place); period++) {
            int64_t volume = matched_volume(book, s, account, day_place, period);

            if (volume > 0)
                sold += volume;
            else
                bought += -volume;
        }
    figures->sold = mwh(sold);
    figures->bought = mwh(bought);
    figures->net = mwh(sold - bought);
    return DONE;
}
