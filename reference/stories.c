/*
 * Seeded stories for the sheet program.
 *
 *   stories SEED        writes one story, packed setup then packed messages
 *   stories SEED text   prints the same story in words
 *   stories SEED long BYTES END [text]
 *                       a story of so many bytes or a message more, with the
 *                       gates far apart; at its END it is "whole", its last
 *                       message is "cut", or one is "unreadable" and more
 *                       bytes follow
 *
 * A story is the same for its seed on every machine: the generator is
 * splitmix64 on whole numbers, and no two draws stand in one expression
 * whose order C leaves open.  A book is kept beside the story to steer it
 * (which day is current, what is held); it never decides an answer.
 *
 * In words, a line "placed" follows an accepted notification of several days
 * for each short or long day on which change request A1 places it, and a line
 * "fault" follows a notification for each entry at fault (change request A3):
 * its place, counted from 0, and "zero", "too-high", "equal" or "below" (the
 * period of the entry before) for its period, "volume" for its volume.  These
 * lines are said of the notification as it is sent, whatever is answered.
 *
 * The notifications that A3 adds to a story have draws of their own.  They are
 * refused as a rule, and so leave the rest of the story as it was.
 *
 * Answers that stories reach: 0; 2 to 14 for notifications; 2, 15 and 9 for
 * nullifications; 2 for gates; 17, 18, 19 and 22 for setups; 19 to 22 for
 * messages.  Answers that no sheet can give:
 *    1  the sheet's book is its own, opened and changed by the rules only;
 *   16  the sheet asks only for days, periods and sides that the book has;
 *   23, 24  a sheet writes no packed message or setup;
 *   25  the sheet asks only for identifiers that it finds held;
 *   26  16 slots of 99,999,999 kWh stay below 99,999,999,999;
 *   27, 28  the sheet's setup is not checked against the calendar.
 */
#include "packing.h"
#include "reference.h"

#include <errno.h>
#include <inttypes.h>
#include <stdarg.h>
#include <stdio.h>
#include <stdlib.h>
#include <string.h>

enum { SHEET_SLOTS = 16 };

/* ======================================================================
 * Draws
 * ====================================================================== */

static uint64_t random_state;
static uint64_t other_state; /* of the draws for A3 while they are not in use */

/* To the draws for A3, and back. */
static void change_draws(void)
{
    uint64_t state = random_state;

    random_state = other_state;
    other_state = state;
}

static uint64_t draw(void)
{
    uint64_t z = random_state += UINT64_C(0x9e3779b97f4a7c15);

    z = (z ^ z >> 30) * UINT64_C(0xbf58476d1ce4e5b9);
    z = (z ^ z >> 27) * UINT64_C(0x94d049bb133111eb);
    return z ^ z >> 31;
}

/* 0 to n - 1. */
static unsigned below(unsigned n)
{
    return (unsigned)((draw() >> 16) % n);
}

static unsigned between(unsigned low, unsigned high)
{
    return low + below(high - low + 1);
}

static bool chance(unsigned percent)
{
    return below(100) < percent;
}

/* The place of one of the weights, drawn by weight. */
static unsigned weighted(const unsigned *weight, size_t count)
{
    unsigned sum = 0;

    for (size_t i = 0; i < count; i++)
        sum += weight[i];

    unsigned left = below(sum);
    unsigned place = 0;

    while (left >= weight[place])
        left -= weight[place++];
    return place;
}

#define WEIGHTED(...)                         \
    weighted((const unsigned[]){__VA_ARGS__}, \
             sizeof((const unsigned[]){__VA_ARGS__}) / sizeof(unsigned))

/* ======================================================================
 * The story: its bytes, or its words
 * ====================================================================== */

enum plan { ORDINARY, SUCCESSION, FULL, ALL_CLOSED, LONG, WILD, SETUP_REFUSED, VERY_LONG };

static const char *const plan_name[] = {
    "ordinary", "succession", "full", "all-closed", "long", "wild", "setup-refused", "very-long",
};

static enum plan plan;
static bool in_words;
static uint8_t *story;
static size_t story_length;
static size_t story_room;
static size_t setup_length; /* the setup's part of the story */
static unsigned messages;
static struct setup setup;
static struct book book; /* kept beside, to steer */

static void say(const char *format, ...)
{
    va_list arguments;

    if (!in_words)
        return;
    va_start(arguments, format);
    vprintf(format, arguments);
    va_end(arguments);
}

static void add_bytes(const uint8_t *bytes, size_t length)
{
    while (story_length + length > story_room) {
        story_room = story_room == 0 ? 4096 : story_room * 2;
        story = realloc(story, story_room);
        if (story == NULL) {
            fprintf(stderr, "stories: no memory\n");
            exit(2);
        }
    }
    memcpy(story + story_length, bytes, length);
    story_length += length;
}

static void say_bytes(const uint8_t *bytes, size_t length)
{
    for (size_t i = 0; i < length; i++)
        say(" %02x", (unsigned)bytes[i]);
    say("\n");
}

static void say_setup(void)
{
    static const char *const length_name[4] = {"46", "48", "50", "wrong"};

    say("setup first_day=%u days=%u accounts=%u authorisations=%u\n", setup.first_day, setup.days,
        setup.accounts, setup.authorisations);
    for (unsigned d = 0; d < setup.days && d < MOST_DAYS; d++)
        say("day %u code=%u length=%s\n", setup.first_day + d, setup.day_code[d],
            length_name[setup.day_code[d]]);
    for (unsigned a = 0; a < setup.authorisations && a < MOST_AUTHORISATIONS; a++) {
        const struct authorisation *row = &setup.authorisation[a];

        say("authorisation %u agent_1=%u agent_2=%u account_1=%u account_2=%u key=%u"
            " first_day=%u last_day=%u type=%u\n",
            a, row->agent[0], row->agent[1], row->account[0], row->account[1], row->key,
            row->first_day, row->last_day, row->type);
    }
}

static void say_notification(const struct notification *n)
{
    say("notification authorisation=%u agent=%u key=%u originator=%u reference=%u"
        " first_day=%u last_day=%u count=%u",
        n->authorisation, n->agent, n->key, n->originator, n->reference, n->first_day,
        n->last_day, n->count);
    for (unsigned e = 0; e < n->count && e < MOST_ENTRIES; e++)
        say(" period=%u volume=%" PRId32, n->entry[e].period, n->entry[e].volume);
    say("\n");
}

static unsigned highest_period(const struct notification *n)
{
    bool in_book = n->first_day >= setup.first_day && n->first_day <= last_day_of_book(&setup);

    if (n->first_day == n->last_day && in_book)
        return day_length(&setup, n->first_day - setup.first_day);
    return 48;
}

/* What is wrong with the period of this entry, in a word; NULL where nothing
 * is. */
static const char *period_fault(const struct notification *n, unsigned place)
{
    unsigned period = n->entry[place].period;

    if (period == 0)
        return "zero";
    if (period > highest_period(n))
        return "too-high";
    if (place > 0 && period == n->entry[place - 1].period)
        return "equal";
    if (place > 0 && period < n->entry[place - 1].period)
        return "below";
    return NULL;
}

static bool is_out_of_range(int32_t volume)
{
    return volume < LOWEST_VOLUME || volume > HIGHEST_VOLUME;
}

/* The entries at fault, whether or not another answer comes first. */
static void say_faults(const struct notification *n)
{
    for (unsigned place = 0; place < n->count; place++) {
        const char *fault = period_fault(n, place);

        if (fault != NULL)
            say("fault %u place=%u %s\n", messages, place, fault);
        if (is_out_of_range(n->entry[place].volume))
            say("fault %u place=%u volume\n", messages, place);
    }
}

static void say_message(const struct message *message)
{
    const struct nullification *nullification = &message->nullification;

    if (message->kind == GATE) {
        say("gate\n");
    } else if (message->kind == NOTIFICATION) {
        say_notification(&message->notification);
        say_faults(&message->notification);
    } else {
        say("nullification account=%u account=%u first_day=%u\n", nullification->account[0],
            nullification->account[1], nullification->first_day);
    }
}

static bool is_clock_change_day(unsigned day_place)
{
    return day_length(&setup, day_place) != 48;
}

static unsigned periods_closed(unsigned day_place)
{
    unsigned closed = 0;

    while (closed < day_length(&setup, day_place) && !gate_is_open(&book, day_place, closed + 1))
        closed++;
    return closed;
}

/* Whether the notification is of several days, this one is among them, and
 * some period of it is open: all that a 48-period notification needs to be
 * placed on a day. */
static bool is_long_over(const struct notification *n, unsigned day_place)
{
    unsigned day = setup.first_day + day_place;

    return n->first_day != n->last_day && n->first_day <= day && day <= n->last_day
        && periods_closed(day_place) < day_length(&setup, day_place);
}

/* The clock-change days on which an accepted notification was placed by A1,
 * and how many periods of the day were closed then. */
static void say_placed(const struct notification *n)
{
    for (unsigned d = 0; d < setup.days; d++)
        if (is_clock_change_day(d) && is_long_over(n, d))
            say("placed %u %s day=%u closed=%u\n", messages,
                day_length(&setup, d) == 46 ? "short" : "long", setup.first_day + d,
                periods_closed(d));
}

static enum answer notify_book(const struct notification *n)
{
    struct acceptance acceptance;
    enum answer answer = notify(&book, n, &acceptance);

    if (answer == DONE)
        say_placed(n);
    return answer;
}

/* Adds a readable message and puts it to the book beside. */
static enum answer add_message(const struct message *message)
{
    uint8_t bytes[MOST_MESSAGE_BYTES];

    messages++;
    say("message %u ", messages);
    say_message(message);
    add_bytes(bytes, pack_message(message, bytes));
    if (message->kind == GATE)
        return close_gate(&book);
    if (message->kind == NOTIFICATION)
        return notify_book(&message->notification);
    return nullify(&book, &message->nullification);
}

/* ======================================================================
 * Setups
 * ====================================================================== */

static unsigned agent_pool[4];

static void choose_agent_pool(void)
{
    static const unsigned usual[4] = {7, 9, 0, 255};

    for (unsigned i = 0; i < 4; i++)
        agent_pool[i] = chance(70) ? usual[i] : below(256);
}

static unsigned choose_days_of_book(void)
{
    switch (plan) {
    case ALL_CLOSED:
        return chance(85) ? between(1, 2) : between(3, 8);
    case SUCCESSION:
        return between(2, 6);
    case LONG:
        return between(3, 8);
    case VERY_LONG:
        return MOST_DAYS;
    default:
        return chance(65) ? between(1, 3) : between(4, 8);
    }
}

static unsigned choose_first_day_of_book(void)
{
    unsigned latest = LATEST_DAY - setup.days + 1;

    switch (WEIGHTED(60, 12, 10, 6, 12)) {
    case 0:
        return between(1000, 9000);
    case 1:
        return 0;
    case 2:
        return latest;
    case 3:
        return latest - between(1, 4);
    default:
        return between(1, 200);
    }
}

static unsigned choose_accounts(void)
{
    switch (WEIGHTED(74, 20, 3, 3)) {
    case 0:
        return between(2, 4);
    case 1:
        return between(5, 12);
    case 2:
        return between(13, 63);
    default:
        return MOST_ACCOUNTS;
    }
}

static unsigned choose_authorisations(void)
{
    switch (WEIGHTED(76, 18, 4, 2)) {
    case 0:
        return plan == SUCCESSION ? between(3, 8) : between(1, 6);
    case 1:
        return between(7, 14);
    case 2:
        return between(15, 63);
    default:
        return MOST_AUTHORISATIONS;
    }
}

/* Often the accounts of an earlier row, in its order or the other. */
static void choose_row_accounts(struct authorisation *row, unsigned a)
{
    if (a > 0 && chance(plan == SUCCESSION ? 80 : 50)) {
        const struct authorisation *kin = &setup.authorisation[below(a)];
        unsigned other_way = chance(18) ? 1 : 0;

        row->account[0] = kin->account[other_way];
        row->account[1] = kin->account[1 - other_way];
        return;
    }
    row->account[0] = below(setup.accounts);
    row->account[1] = (row->account[0] + 1 + below(setup.accounts - 1)) % setup.accounts;
}

static void choose_row_agents(struct authorisation *row)
{
    row->agent[0] = agent_pool[WEIGHTED(40, 30, 15, 15)];
    row->agent[1] = row->agent[0];
    if (chance(72))
        row->agent[1] = agent_pool[WEIGHTED(30, 40, 15, 15)];
}

static unsigned choose_row_key(unsigned a)
{
    switch (WEIGHTED(80, 5, 5, 10)) {
    case 0:
        return below(65536);
    case 1:
        return 0;
    case 2:
        return 65535;
    default:
        return a > 0 ? setup.authorisation[a - 1].key : 500;
    }
}

/* The book's first day or a day before it. */
static unsigned day_up_to_first(void)
{
    switch (WEIGHTED(30, 40, 30)) {
    case 0:
        return 0;
    case 1:
        return setup.first_day;
    default:
        return below(setup.first_day + 1);
    }
}

static unsigned day_in_book(void)
{
    return between(setup.first_day, last_day_of_book(&setup));
}

/* In force for all of the book, or to a day in it, or from a day in it, or
 * on no day of it. */
static void choose_row_days(struct authorisation *row, unsigned a)
{
    unsigned last = last_day_of_book(&setup);
    unsigned manner = plan == SUCCESSION ? WEIGHTED(25, 12, 40, 10, 10, 3)
                                         : WEIGHTED(46, 22, 14, 9, 6, 3);

    if (a == 0 && (plan == VERY_LONG || chance(85)))
        manner = 0;
    row->first_day = day_up_to_first();
    row->last_day = EVERGREEN;
    switch (manner) {
    case 0:
        break;
    case 1:
        row->last_day = between(last, LATEST_DAY);
        if (chance(40))
            row->last_day = last;
        break;
    case 2:
        row->last_day = day_in_book();
        break;
    case 3: /* expired before the book, where there are such days */
        if (setup.first_day == 0)
            break;
        row->last_day = chance(60) ? setup.first_day - 1 : below(setup.first_day);
        row->first_day = below(row->last_day + 1);
        break;
    case 4:
        row->first_day = day_in_book();
        row->last_day = chance(50) ? EVERGREEN : between(row->first_day, last);
        break;
    default: /* from after the book, where there are such days */
        if (last < LATEST_DAY)
            row->first_day = between(last + 1, LATEST_DAY);
        break;
    }
}

static unsigned choose_row_type(void)
{
    if (plan == FULL)
        return WEIGHTED(80, 8, 12);
    return WEIGHTED(58, 20, 22);
}

static void choose_row(unsigned a)
{
    struct authorisation *row = &setup.authorisation[a];

    choose_row_accounts(row, a);
    choose_row_agents(row);
    row->key = choose_row_key(a);
    choose_row_days(row, a);
    row->type = choose_row_type();
}

/* More clock-change days than any calendar has: stories are for them too. */
static void choose_day_codes(void)
{
    unsigned manner = WEIGHTED(50, 30, 10, 10);

    for (unsigned d = 0; d < setup.days; d++)
        setup.day_code[d] = manner == 0   ? WEIGHTED(20, 60, 20)
                            : manner == 1 ? WEIGHTED(40, 20, 40)
                            : manner == 2 ? WEIGHTED(70, 30, 0)
                                          : WEIGHTED(0, 30, 70);
}

static void choose_setup(void)
{
    choose_agent_pool();
    setup.days = choose_days_of_book();
    setup.first_day = choose_first_day_of_book();
    setup.accounts = choose_accounts();
    setup.authorisations = choose_authorisations();
    choose_day_codes();
    for (unsigned a = 0; a < setup.authorisations; a++)
        choose_row(a);
}

static void add_setup(void)
{
    uint8_t bytes[MOST_SETUP_BYTES];

    say_setup();
    add_bytes(bytes, pack_setup(&setup, bytes));
    setup_length = story_length;
}

/* ======================================================================
 * Choosing a notification
 * ====================================================================== */

static unsigned reference_pool[6];
static unsigned references; /* how many of the pool this story uses */
static unsigned fresh_reference;
static unsigned story_volumes; /* how this story likes its volumes */

static void choose_reference_pool(void)
{
    references = between(2, 6);
    for (unsigned i = 0; i < 6; i++)
        reference_pool[i] = chance(70) ? i + 1 : below(65536);
    if (chance(20))
        reference_pool[0] = 0;
    if (chance(20))
        reference_pool[1] = 65535;
    fresh_reference = between(100, 60000);
}

static bool every_gate_closed(void)
{
    return current_day_place(&book) == setup.days;
}

/* The current day's number; the last day's when every gate is closed. */
static unsigned current_day(void)
{
    unsigned place = current_day_place(&book);

    return setup.first_day + (place < setup.days ? place : setup.days - 1);
}

static bool is_in_force(unsigned a)
{
    const struct authorisation *row = &setup.authorisation[a];

    return row->first_day <= current_day() && current_day() <= row->last_day;
}

/* Whether an identifier that a originated may be sent under b. */
static bool may_originate(unsigned a, unsigned b)
{
    const struct authorisation *one = &setup.authorisation[a];
    const struct authorisation *other = &setup.authorisation[b];

    return a == b
        || (one->last_day < current_day() && one->account[0] == other->account[0]
            && one->account[1] == other->account[1]);
}

/* One of the places for which the list says yes; 0 where none does. */
static unsigned pick_listed(const bool *listed, unsigned count, bool *found)
{
    unsigned yes = 0;

    for (unsigned i = 0; i < count; i++)
        if (listed[i])
            yes++;
    *found = yes > 0;
    if (yes == 0)
        return 0;

    unsigned left = below(yes);
    unsigned i = 0;

    while (!listed[i] || left > 0)
        if (listed[i++])
            left--;
    return i;
}

/* Mostly one in force; else any, or one not in force. */
static unsigned choose_authorisation(bool in_force)
{
    bool listed[MOST_AUTHORISATIONS];
    bool found;

    for (unsigned a = 0; a < setup.authorisations; a++)
        listed[a] = is_in_force(a) == in_force;

    unsigned a = pick_listed(listed, setup.authorisations, &found);

    return found ? a : below(setup.authorisations);
}

static bool choose_held_identifier(struct notification *n)
{
    bool listed[SHEET_SLOTS];
    bool found;

    for (unsigned s = 0; s < SHEET_SLOTS; s++)
        listed[s] = book.slot[s].held && may_originate(book.slot[s].originator, n->authorisation);

    unsigned s = pick_listed(listed, SHEET_SLOTS, &found);

    if (found) {
        n->originator = book.slot[s].originator;
        n->reference = book.slot[s].reference;
    }
    return found;
}

static unsigned choose_expired_originator(unsigned authorisation)
{
    bool listed[MOST_AUTHORISATIONS];
    bool found;

    for (unsigned a = 0; a < setup.authorisations; a++)
        listed[a] = a != authorisation && may_originate(a, authorisation);

    unsigned a = pick_listed(listed, setup.authorisations, &found);

    return found ? a : authorisation;
}

static void choose_identifier(struct notification *n)
{
    if (chance(plan == FULL ? 12 : 38) && choose_held_identifier(n))
        return;
    n->originator = n->authorisation;
    if (chance(plan == SUCCESSION ? 40 : 15))
        n->originator = choose_expired_originator(n->authorisation);
    n->reference = reference_pool[below(references)];
    if (plan == FULL && chance(85))
        n->reference = fresh_reference++;
}

static unsigned day_from_current(void)
{
    return between(current_day(), last_day_of_book(&setup));
}

/* A day before the current day, where there is one. */
static unsigned day_before_current(void)
{
    unsigned day = current_day();

    if (day == 0)
        return 0;
    switch (WEIGHTED(45, 25, 30)) {
    case 0:
        return day - 1;
    case 1:
        return 0;
    default:
        return below(day);
    }
}

/* A day after the book's last, at most 65,534 (or the last day itself). */
static unsigned day_after_book(void)
{
    unsigned last = last_day_of_book(&setup);

    if (last >= LATEST_DAY)
        return last;
    return chance(60) ? last + 1 : between(last + 1, LATEST_DAY);
}

/* The number of a clock-change day with an open gate, where there is one. */
static bool choose_clock_change_day(unsigned *day)
{
    bool listed[MOST_DAYS];
    bool found;

    for (unsigned d = 0; d < setup.days; d++)
        listed[d] = is_clock_change_day(d) && periods_closed(d) < day_length(&setup, d);
    *day = setup.first_day + pick_listed(listed, setup.days, &found);
    return found;
}

static unsigned day_soon_before(unsigned day)
{
    unsigned back = between(1, 3);

    return day > back ? day - back : 0;
}

static unsigned day_soon_after(unsigned day)
{
    unsigned after = day + between(1, 3);

    return after <= LATEST_DAY ? after : EVERGREEN;
}

/* Several days, this one among them; they may begin before the book and end
 * after it. */
static void choose_days_over(struct notification *n, unsigned day)
{
    n->first_day = chance(50) ? day : day_soon_before(day);
    n->last_day = chance(40) ? day : chance(50) ? day_soon_after(day) : EVERGREEN;
    if (n->first_day == n->last_day)
        n->last_day = chance(50) ? day_soon_after(day) : EVERGREEN;
}

static void choose_days(struct notification *n)
{
    unsigned clock_change_day;

    if (choose_clock_change_day(&clock_change_day) && chance(20)) {
        choose_days_over(n, clock_change_day);
        return;
    }
    n->first_day = day_from_current();
    n->last_day = n->first_day;
    switch (WEIGHTED(28, 22, 14, 6, 9, 3, 8, 10)) {
    case 0:
        break;
    case 1:
        n->last_day = between(n->first_day, last_day_of_book(&setup));
        break;
    case 2:
        n->last_day = EVERGREEN;
        break;
    case 3:
        n->first_day = day_before_current();
        n->last_day = EVERGREEN;
        break;
    case 4:
        n->first_day = day_before_current();
        n->last_day = day_from_current();
        break;
    case 5:
        n->first_day = day_before_current();
        n->last_day = day_after_book();
        break;
    case 6:
        n->last_day = day_after_book();
        break;
    default:
        n->first_day = current_day();
        n->last_day = n->first_day;
        break;
    }
}

/* The first period of the current day whose gate is open. */
static unsigned first_open_period(void)
{
    unsigned place = current_day_place(&book);
    unsigned period = 1;

    if (place == setup.days)
        return 1;
    while (!gate_is_open(&book, place, period))
        period++;
    return period;
}

enum volumes { SMALL, FEW, WIDE, LIMITS, ZEROS };

static int32_t either_way(unsigned volume)
{
    return chance(60) ? (int32_t)volume : -(int32_t)volume;
}

static int32_t choose_volume(unsigned manner)
{
    switch (manner) {
    case SMALL:
        return either_way(below(20000));
    case FEW:
        return (int32_t)(between(1, 3) * 10);
    case WIDE:
        return either_way(below(HIGHEST_VOLUME + 1));
    case LIMITS:
        return either_way(HIGHEST_VOLUME - (chance(80) ? 0 : 1));
    default:
        return chance(70) ? 0 : 1;
    }
}

static unsigned choose_volumes(void)
{
    if (chance(50))
        return story_volumes;
    return WEIGHTED(40, 25, 15, 12, 8);
}

static void add_entry(struct notification *n, unsigned period, unsigned volumes)
{
    if (n->count == MOST_ENTRIES)
        return;
    n->entry[n->count].period = period;
    n->entry[n->count].volume = choose_volume(volumes);
    n->count++;
}

/* Periods low to high, each with this chance. */
static void add_entries(struct notification *n, unsigned low, unsigned high, unsigned percent,
                        unsigned volumes)
{
    for (unsigned period = low; period <= high; period++)
        if (chance(percent))
            add_entry(n, period, volumes);
}

/* One period that is likely to matter. */
static unsigned choose_period(unsigned highest)
{
    unsigned open = first_open_period();
    unsigned period = 1;

    switch (WEIGHTED(20, 20, 20, 12, 28)) {
    case 0:
        break;
    case 1:
        period = highest;
        break;
    case 2:
        period = open;
        break;
    case 3:
        period = open > 1 ? open - 1 : 1;
        break;
    default:
        period = between(1, highest);
        break;
    }
    return period <= highest ? period : highest;
}

/* For a clock-change day: much or little, but not zero, in the periods about
 * the change and in the last two. */
static void choose_entries_over_clock_change(struct notification *n)
{
    unsigned volumes = WEIGHTED(60, 20, 12, 8); /* not ZEROS */

    n->count = 0;
    switch (WEIGHTED(35, 25, 25, 15)) {
    case 0:
        add_entries(n, 1, 48, 100, volumes);
        break;
    case 1:
        add_entries(n, 1, 48, 85, volumes);
        break;
    case 2:
        add_entries(n, 1, 6, 60, volumes);
        add_entries(n, 7, 46, 5, volumes);
        add_entries(n, 47, 48, 60, volumes);
        break;
    default: /* what a short day drops and a long day gives again */
        add_entries(n, 3, 4, 85, volumes);
        break;
    }
}

static bool is_long_over_clock_change(const struct notification *n)
{
    for (unsigned d = 0; d < setup.days; d++)
        if (is_clock_change_day(d) && is_long_over(n, d))
            return true;
    return false;
}

static void choose_entries(struct notification *n)
{
    unsigned highest = highest_period(n);
    unsigned volumes = choose_volumes();
    unsigned open = first_open_period();

    if (is_long_over_clock_change(n) && chance(40)) {
        choose_entries_over_clock_change(n);
        return;
    }
    n->count = 0;
    switch (WEIGHTED(6, 24, 30, 10, 14, 8, 8)) {
    case 0:
        break;
    case 1:
        add_entry(n, choose_period(highest), volumes);
        break;
    case 2:
        add_entries(n, 1, highest, between(5, 35), volumes);
        break;
    case 3:
        add_entries(n, 1, highest, 85, volumes);
        break;
    case 4:
        add_entries(n, 1, highest, 100, volumes);
        break;
    case 5:
        add_entries(n, 43, highest, 75, volumes);
        break;
    default: /* around the next gate */
        add_entries(n, open > 2 ? open - 2 : 1, open + 3 < highest ? open + 3 : highest, 85,
                    volumes);
        break;
    }
}

static void choose_notification(struct notification *n)
{
    memset(n, 0, sizeof *n);
    n->authorisation = choose_authorisation(true);
    n->key = setup.authorisation[n->authorisation].key;
    n->agent = setup.authorisation[n->authorisation].agent[below(2)];
    choose_identifier(n);
    choose_days(n);
    choose_entries(n);
}

/* ======================================================================
 * Spoiling a notification
 * ====================================================================== */

static void spoil_authorisation(struct notification *n)
{
    n->authorisation = below(64);
    if (chance(60) && setup.authorisations < 64)
        n->authorisation = between(setup.authorisations, 63);
    if (chance(30) && setup.authorisations < 64)
        n->authorisation = setup.authorisations;
}

static void spoil_key(struct notification *n)
{
    n->key = chance(50) ? (n->key + 1) % 65536 : n->key ^ 1u << below(16);
}

static void spoil_agent(struct notification *n)
{
    n->agent = chance(50) ? agent_pool[below(4)] : below(256);
}

static void spoil_force(struct notification *n)
{
    n->authorisation = choose_authorisation(false);
    n->key = setup.authorisation[n->authorisation].key;
    n->agent = setup.authorisation[n->authorisation].agent[below(2)];
    n->originator = n->authorisation;
}

/* Whether a is nearly an originator that may be sent under b. */
static bool nearly_originates(unsigned a, unsigned b, unsigned manner)
{
    const struct authorisation *one = &setup.authorisation[a];
    const struct authorisation *other = &setup.authorisation[b];
    bool same = one->account[0] == other->account[0] && one->account[1] == other->account[1];

    switch (manner) {
    case 0: /* the current day is its last */
        return a != b && same && one->last_day == current_day();
    case 1:
        return a != b && same && one->last_day >= current_day();
    default:
        return !same && one->last_day < current_day();
    }
}

static bool choose_near_originator(struct notification *n, unsigned manner)
{
    bool listed[MOST_AUTHORISATIONS];
    bool found;

    if (n->authorisation >= setup.authorisations)
        return false;
    for (unsigned a = 0; a < setup.authorisations; a++)
        listed[a] = nearly_originates(a, n->authorisation, manner);

    unsigned a = pick_listed(listed, setup.authorisations, &found);

    if (found)
        n->originator = a;
    return found;
}

static void spoil_originator(struct notification *n)
{
    unsigned manner = WEIGHTED(30, 20, 25, 25);

    if (manner < 3 && choose_near_originator(n, manner))
        return;
    n->originator = chance(60) ? below(setup.authorisations) : below(64);
    if (chance(20) && setup.authorisations < 64)
        n->originator = setup.authorisations;
}

/* Towards 7. */
static void spoil_order_of_days(struct notification *n)
{
    if (chance(15)) {
        n->first_day = EVERGREEN;
        n->last_day = LATEST_DAY;
    } else if (n->first_day > 0) {
        n->last_day = chance(70) ? n->first_day - 1 : below(n->first_day);
    }
}

/* Towards 8. */
static void spoil_last_day(struct notification *n)
{
    n->last_day = day_before_current();
    n->first_day = chance(60) ? n->last_day : below(n->last_day + 1);
}

/* Towards 9. */
static void spoil_first_day(struct notification *n)
{
    n->first_day = day_after_book();
    n->last_day = chance(40) ? n->first_day : EVERGREEN;
    if (chance(20))
        n->first_day = EVERGREEN;
    if (n->last_day < n->first_day)
        n->last_day = EVERGREEN;
}

static void need_entries(struct notification *n, unsigned least)
{
    unsigned highest = highest_period(n);

    if (n->count >= least)
        return;
    n->count = 0;
    for (unsigned i = 0; i < least; i++)
        add_entry(n, highest - least + 1 + i, FEW);
}

static void spoil_period(struct notification *n)
{
    need_entries(n, 2);

    struct entry *last = &n->entry[n->count - 1];
    unsigned place = between(1, n->count - 1);

    switch (WEIGHTED(20, 35, 15, 15, 15)) {
    case 0:
        n->entry[below(n->count)].period = 0;
        break;
    case 1:
        last->period = highest_period(n) + 1;
        break;
    case 2:
        last->period = between(46, 63);
        break;
    case 3:
        n->entry[place].period = n->entry[place - 1].period;
        break;
    default:
        n->entry[place].period = below(n->entry[place].period + 1);
        break;
    }
}

static int32_t choose_wrong_volume(void)
{
    static const int32_t wrong[4] = {100000000, -100000000, 134217727, -134217728};
    int32_t volume = wrong[below(4)];

    if (chance(25))
        volume = either_way(between(HIGHEST_VOLUME + 1, 134217727));
    return volume;
}

static void spoil_volume(struct notification *n)
{
    need_entries(n, 1);

    unsigned place = below(n->count);

    n->entry[place].volume = choose_wrong_volume();
}

static void spoil(struct notification *n)
{
    switch (WEIGHTED(9, 9, 9, 9, 15, 9, 9, 9, 13, 9)) {
    case 0:
        spoil_authorisation(n);
        break;
    case 1:
        spoil_key(n);
        break;
    case 2:
        spoil_agent(n);
        break;
    case 3:
        spoil_force(n);
        break;
    case 4:
        spoil_originator(n);
        break;
    case 5:
        spoil_order_of_days(n);
        break;
    case 6:
        spoil_last_day(n);
        break;
    case 7:
        spoil_first_day(n);
        break;
    case 8:
        spoil_period(n);
        break;
    default:
        spoil_volume(n);
        break;
    }
}

/* Mostly nothing; seldom two or three, so that the order shows. */
static void spoil_sometimes(struct notification *n)
{
    unsigned percent = plan == FULL ? 6 : 16;

    while (chance(percent)) {
        spoil(n);
        percent = 35;
    }
}

/* ======================================================================
 * Entries at fault (A3)
 * ====================================================================== */

/* The number of a long day with an open gate, where there is one. */
static bool choose_long_day(unsigned *day)
{
    bool listed[MOST_DAYS];
    bool found;

    for (unsigned d = 0; d < setup.days; d++)
        listed[d] = day_length(&setup, d) == 50 && periods_closed(d) < 50;
    *day = setup.first_day + pick_listed(listed, setup.days, &found);
    return found;
}

/* Only a single long day has fifty entries without a fault; where there is
 * none the entries stay as they are. */
static void choose_fifty_entries(struct notification *n)
{
    unsigned volumes = choose_volumes();
    unsigned day;

    if (!choose_long_day(&day))
        return;
    n->first_day = day;
    n->last_day = day;
    n->count = 0;
    add_entries(n, 1, 50, 100, volumes);
}

static void choose_few_entries(struct notification *n)
{
    unsigned percent = between(6, 15);
    unsigned volumes = choose_volumes();

    n->count = 0;
    add_entries(n, 1, highest_period(n), percent, volumes);
    need_entries(n, 3);
}

/* Entries that are right, one at least: as they are, or one, or few, or
 * fifty. */
static void choose_entries_for_faults(struct notification *n)
{
    switch (WEIGHTED(28, 8, 28, 36)) {
    case 0:
        break;
    case 1:
        n->count = 0;
        break;
    case 2:
        choose_few_entries(n);
        break;
    default:
        choose_fifty_entries(n);
        break;
    }
    need_entries(n, 1);
}

/* The first entry, the last, or one between. */
static unsigned choose_fault_place(const struct notification *n)
{
    switch (WEIGHTED(26, 42, 32)) {
    case 0:
        return 0;
    case 1:
        return n->count - 1;
    default:
        return n->count > 2 ? between(1, n->count - 2) : below(n->count);
    }
}

/* Below the period of the entry before: the two turned round where they rise,
 * or a lower one.  Where there is no lower one they do not rise already. */
static void put_below(struct entry *before, struct entry *entry)
{
    unsigned period = entry->period;

    if (before->period < period && (before->period <= 1 || chance(50))) {
        entry->period = before->period;
        before->period = period;
    } else if (before->period > 1) {
        entry->period = between(1, before->period - 1);
    }
}

/* The first entry has none before it. */
static void put_period_fault(struct notification *n, unsigned place)
{
    struct entry *entry = &n->entry[place];
    unsigned too_high = highest_period(n) + 1;

    switch (place == 0 ? WEIGHTED(50, 50) : WEIGHTED(22, 26, 26, 26)) {
    case 0:
        entry->period = 0;
        break;
    case 1:
        entry->period = chance(50) ? too_high : between(too_high, 63);
        break;
    case 2:
        entry->period = n->entry[place - 1].period;
        break;
    default:
        put_below(&n->entry[place - 1], entry);
        break;
    }
}

/* Mostly one, so that each can be the first; else up to four. */
static unsigned choose_number_of_faults(void)
{
    return 1 + WEIGHTED(60, 20, 12, 8);
}

/* Periods only, volumes only, or both: then 10 is answered, wherever the
 * wrong volumes stand. */
static void put_faults(struct notification *n)
{
    unsigned manner = WEIGHTED(44, 28, 28);
    unsigned periods = manner == 1 ? 0 : choose_number_of_faults();
    unsigned volumes = manner == 0 ? 0 : choose_number_of_faults();

    for (unsigned i = 0; i < periods; i++)
        put_period_fault(n, choose_fault_place(n));
    for (unsigned i = 0; i < volumes; i++) {
        unsigned place = choose_fault_place(n);

        n->entry[place].volume = choose_wrong_volume();
    }
}

/* ======================================================================
 * The steps of a story
 * ====================================================================== */

/* Accepted notifications for which the other agent has not yet spoken. */
enum { MOST_WAITING = 24 };
static struct notification waiting[MOST_WAITING];
static unsigned waiting_count;

static struct notification latest; /* the latest sent, to be repeated */
static bool latest_known;

static unsigned other_agent(const struct notification *n)
{
    const struct authorisation *row = &setup.authorisation[n->authorisation];

    return n->agent == row->agent[0] ? row->agent[1] : row->agent[0];
}

static bool send_notification(const struct notification *n)
{
    struct message message = {.kind = NOTIFICATION, .notification = *n};

    latest = *n;
    latest_known = true;
    return add_message(&message) == DONE;
}

/* "A client sends fifty entries and hears "10"" (A3), or few, or "11"; then
 * he sends what he meant.  Seldom with another fault too, so that the order
 * shows. */
static void send_at_fault_first(const struct notification *meant)
{
    struct notification n = *meant;

    change_draws();
    if (chance(plan == FULL ? 8 : 15)) {
        choose_entries_for_faults(&n);
        put_faults(&n);
        if (chance(10))
            spoil(&n);
        send_notification(&n);
    }
    change_draws();
}

static void step_notification(void)
{
    struct notification n;

    choose_notification(&n);
    send_at_fault_first(&n);
    spoil_sometimes(&n);
    if (send_notification(&n) && other_agent(&n) != n.agent && waiting_count < MOST_WAITING
        && chance(80))
        waiting[waiting_count++] = n;
}

static void change_one_volume(struct notification *n)
{
    if (n->count == 0)
        return;

    unsigned place = below(n->count);
    unsigned volumes = choose_volumes();

    n->entry[place].volume = choose_volume(volumes);
}

static void drop_one_entry(struct notification *n)
{
    if (n->count == 0)
        return;
    for (unsigned e = below(n->count); e + 1 < n->count; e++)
        n->entry[e] = n->entry[e + 1];
    n->count--;
}

static void negate_volumes(struct notification *n)
{
    for (unsigned e = 0; e < n->count; e++)
        n->entry[e].volume = -n->entry[e].volume;
}

/* The same days' worth, but over other days. */
static void change_days(struct notification *n)
{
    choose_days(n);
    while (n->count > 0 && n->entry[n->count - 1].period > highest_period(n))
        n->count--;
}

/* The other agent's word on an earlier notification: mostly the same. */
static void step_echo(void)
{
    if (waiting_count == 0) {
        step_notification();
        return;
    }

    unsigned place = below(waiting_count);
    struct notification n = waiting[place];

    waiting[place] = waiting[--waiting_count];
    n.agent = other_agent(&n);
    switch (WEIGHTED(58, 14, 8, 6, 11, 3)) {
    case 0:
        break;
    case 1:
        change_one_volume(&n);
        break;
    case 2:
        drop_one_entry(&n);
        break;
    case 3:
        negate_volumes(&n);
        break;
    case 4:
        change_days(&n);
        break;
    default:
        spoil(&n);
        break;
    }
    send_notification(&n);
}

static unsigned gates_left(void)
{
    unsigned left = 0;

    for (unsigned d = 0; d < setup.days; d++)
        left += day_length(&setup, d);
    return left - book.gates_closed;
}

static unsigned gates_left_today(void)
{
    unsigned place = current_day_place(&book);

    return place == setup.days ? 0 : day_length(&setup, place) - first_open_period() + 1;
}

static void close_gates(unsigned gates)
{
    struct message gate = {.kind = GATE};

    for (unsigned i = 0; i < gates; i++)
        add_message(&gate);
}

/* Gates that close some of the first six periods of a clock-change day, today
 * or tomorrow; one where neither is such a day. */
static unsigned gates_into_clock_change_day(void)
{
    unsigned place = current_day_place(&book);

    if (place < setup.days && is_clock_change_day(place) && periods_closed(place) < 6)
        return between(1, 6 - periods_closed(place));
    if (place + 1 < setup.days && is_clock_change_day(place + 1))
        return gates_left_today() + between(1, 6);
    return 1;
}

static void step_gates(void)
{
    unsigned today = gates_left_today();
    unsigned gates = 1;

    switch (plan == SUCCESSION ? WEIGHTED(20, 15, 35, 12, 13, 5, 8)
                               : WEIGHTED(40, 24, 14, 9, 8, 5, 8)) {
    case 0:
        break;
    case 1:
        gates = between(2, 5);
        break;
    case 2:
        gates = today;
        break;
    case 3:
        gates = today > 1 ? today - 1 : 1;
        break;
    case 4:
        gates = today + 1;
        break;
    case 5:
        gates = between(1, 60);
        break;
    default:
        gates = gates_into_clock_change_day();
        break;
    }
    /* Seldom the very last: after it every answer is 2. */
    if (gates >= gates_left() && !chance(8))
        gates = gates_left() > 1 ? below(gates_left() - 1) : 0;
    close_gates(gates);
}

static unsigned choose_nullification_day(void)
{
    switch (WEIGHTED(30, 12, 26, 8, 8, 8, 4, 4)) {
    case 0:
        return current_day();
    case 1:
        return setup.first_day;
    case 2:
        return day_in_book();
    case 3:
        return day_before_current();
    case 4:
        return last_day_of_book(&setup);
    case 5:
        return day_after_book();
    case 6:
        return EVERGREEN;
    default:
        return LATEST_DAY;
    }
}

static void step_nullification(void)
{
    struct message message = {.kind = NULLIFICATION};
    uint32_t *account = message.nullification.account;
    const struct authorisation *row = &setup.authorisation[below(setup.authorisations)];
    unsigned other_way = below(2);

    account[0] = row->account[other_way];
    account[1] = row->account[1 - other_way];
    switch (WEIGHTED(72, 10, 8, 10)) {
    case 0:
        break;
    case 1:
        account[0] = below(setup.accounts);
        account[1] = below(setup.accounts);
        break;
    case 2:
        account[1] = account[0];
        break;
    default:
        account[other_way] = below(64);
        if (chance(60) && setup.accounts < 64)
            account[other_way] = setup.accounts;
        break;
    }
    message.nullification.first_day = choose_nullification_day();
    add_message(&message);
}

static void step_repeat(void)
{
    if (latest_known)
        send_notification(&latest);
}

/* An empty notification for something held: all zero. */
static void step_withdrawal(void)
{
    struct notification n;

    choose_notification(&n);
    choose_held_identifier(&n);
    n.count = 0;
    send_notification(&n);
}

/* A readable notification with most fields drawn from all they can hold. */
static void step_wild(void)
{
    struct notification n;

    choose_notification(&n);
    if (chance(15))
        n.authorisation = below(64);
    if (chance(15))
        n.agent = below(256);
    if (chance(15))
        n.key = below(65536);
    if (chance(30))
        n.originator = below(64);
    n.reference = below(65536);
    if (chance(50))
        n.first_day = below(65536);
    if (chance(50))
        n.last_day = below(65536);
    if (chance(50))
        n.count = below(MOST_ENTRIES + 1);
    for (unsigned e = 0; e < n.count; e++)
        if (n.entry[e].period == 0 || chance(3)) {
            n.entry[e].period = below(64);
            n.entry[e].volume = (int32_t)below(268435456) - 134217728;
        }
    send_notification(&n);
}

/* Another volume for a period about the clock change or for one of the last
 * two, where there is such an entry. */
static void change_volume_about_clock_change(struct notification *n)
{
    bool listed[MOST_ENTRIES];
    bool found;

    for (unsigned e = 0; e < n->count; e++)
        listed[e] = n->entry[e].period <= 6 || n->entry[e].period >= 47;

    unsigned e = pick_listed(listed, n->count, &found);

    if (found)
        n->entry[e].volume = choose_volume(SMALL);
}

/* A word on a clock-change day, and mostly the other agent's at once: the
 * same, or different about the clock change. */
static bool send_over_clock_change(const struct notification *n)
{
    struct notification other = *n;

    if (!send_notification(n))
        return false;
    other.agent = other_agent(n);
    if (other.agent == n->agent || chance(20))
        return true;
    if (chance(35))
        change_volume_about_clock_change(&other);
    send_notification(&other);
    return true;
}

/* Several days over a clock-change day, and mostly the same identifier again,
 * often when some of the day's first periods have closed meanwhile.  In a
 * very long story the gates close at their own times. */
static void step_clock_change(void)
{
    struct notification n;
    unsigned day;

    if (!choose_clock_change_day(&day)) {
        step_notification();
        return;
    }
    choose_notification(&n);
    choose_days_over(&n, day);
    choose_entries_over_clock_change(&n);
    if (!send_over_clock_change(&n) || chance(25))
        return;
    if (plan != VERY_LONG && chance(60))
        close_gates(gates_into_clock_change_day());
    if (is_clock_change_day(current_day() - setup.first_day))
        choose_days_over(&n, current_day());
    choose_entries_over_clock_change(&n);
    send_over_clock_change(&n);
}

static void step(void)
{
    unsigned manner = plan == FULL         ? WEIGHTED(70, 16, 4, 2, 3, 1, 2, 2)
                    : plan == SUCCESSION   ? WEIGHTED(40, 19, 21, 4, 4, 2, 4, 6)
                                           : WEIGHTED(41, 22, 13, 5, 4, 3, 4, 8);

    switch (manner) {
    case 0:
        step_notification();
        break;
    case 1:
        step_echo();
        break;
    case 2:
        step_gates();
        break;
    case 3:
        step_nullification();
        break;
    case 4:
        step_repeat();
        break;
    case 5:
        step_wild();
        break;
    case 6:
        step_withdrawal();
        break;
    default:
        step_clock_change();
        break;
    }
}

/* Some steps; few more once every gate is closed. */
static void steps(unsigned count)
{
    for (unsigned i = 0; i < count; i++) {
        if (every_gate_closed() && count - i > 4)
            i = count - 4;
        step();
    }
}

static bool every_slot_held(void)
{
    for (unsigned s = 0; s < SHEET_SLOTS; s++)
        if (!book.slot[s].held)
            return false;
    return true;
}

static void steps_until_full(void)
{
    for (unsigned i = 0; i < 80 && !every_slot_held() && !every_gate_closed(); i++)
        step();
    steps(between(4, 12));
}

static void steps_until_closed(void)
{
    steps(between(3, 14));
    close_gates(gates_left());
    steps(between(1, 3));
    step_notification();
    if (chance(50))
        close_gates(1);
    if (chance(50))
        step_nullification();
}

/* ======================================================================
 * Damage
 * ====================================================================== */

/* Bytes that are no readable message, or come after one that is not. */
static void add_tail(const char *why, const uint8_t *bytes, size_t length)
{
    say("tail %s:", why);
    say_bytes(bytes, length);
    add_bytes(bytes, length);
}

static void add_random_tail(const char *why, unsigned least, unsigned most)
{
    uint8_t bytes[512];
    unsigned length = between(least, most);

    for (unsigned i = 0; i < length; i++)
        bytes[i] = (uint8_t)below(256);
    add_tail(why, bytes, length);
}

static void choose_any_message(struct message *message)
{
    memset(message, 0, sizeof *message);
    message->kind = WEIGHTED(20, 55, 25);
    if (message->kind == NOTIFICATION)
        choose_notification(&message->notification);
    if (message->kind == NULLIFICATION) {
        message->nullification.account[1] = 1;
        message->nullification.first_day = day_in_book();
    }
}

/* A message whose last byte has padding, and one of those bits is 1. */
static void tail_padding(void)
{
    struct message message;
    uint8_t bytes[MOST_MESSAGE_BYTES];

    do
        choose_any_message(&message);
    while (padding_of_message(&message) == 0);

    size_t length = pack_message(&message, bytes);

    bytes[length - 1] = (uint8_t)(bytes[length - 1] | 1u << below(padding_of_message(&message)));
    add_tail("padding bit set", bytes, length);
    if (chance(15))
        add_random_tail("after an unreadable message", 1, 40);
}

static void tail_cut(void)
{
    struct message message;
    uint8_t bytes[MOST_MESSAGE_BYTES];

    do
        choose_any_message(&message);
    while (message.kind == GATE);

    size_t length = pack_message(&message, bytes);
    size_t kept = between(1, (unsigned)length - 1);

    if (chance(25))
        kept = length - 1;
    if (chance(15) && length > 12)
        kept = 12;
    if (chance(15) && length > 12)
        kept = 11;
    add_tail("cut message", bytes, kept);
}

static void tail_kind_3(void)
{
    uint8_t byte = (uint8_t)(0xc0u | below(64));

    add_tail("kind 3", &byte, 1);
    if (chance(50))
        add_random_tail("after an unreadable message", 1, 40);
}

/* 51 to 63 entries; seldom short of the 12 bytes. */
static void tail_too_many_entries(void)
{
    struct message message = {.kind = NOTIFICATION};
    uint8_t bytes[MOST_MESSAGE_BYTES];

    choose_notification(&message.notification);
    message.notification.count = between(51, 63);

    size_t length = pack_message(&message, bytes);

    if (chance(40))
        length = 12;
    if (chance(20))
        length = between(1, 11);
    add_tail("too many entries", bytes, length);
    if (length == MOST_MESSAGE_BYTES && chance(50))
        add_random_tail("after an unreadable message", 60, 90);
}

static void tail(void)
{
    switch (WEIGHTED(28, 18, 18, 28, 8)) {
    case 0:
        tail_cut();
        break;
    case 1:
        tail_kind_3();
        break;
    case 2:
        tail_too_many_entries();
        break;
    case 3:
        tail_padding();
        break;
    default:
        add_random_tail("random bytes", 1, 60);
        break;
    }
}

static void cut_story(size_t kept)
{
    say("cut the story to its first %zu bytes\n", kept);
    story_length = kept;
}

static void turn_bit(size_t byte, unsigned bit)
{
    say("turn bit %u (most significant 0) of byte %zu (from 0)\n", bit, byte);
    story[byte] = (uint8_t)(story[byte] ^ 0x80u >> bit);
}

/* Seldom: one bit turned anywhere, or the story cut anywhere. */
static void damage_sometimes(void)
{
    if (chance(4)) {
        size_t byte = below((unsigned)story_length);

        if (chance(65) && story_length > setup_length)
            byte = setup_length + byte % (story_length - setup_length);
        turn_bit(byte, below(8));
    }
    if (chance(3))
        cut_story(below((unsigned)story_length + 1));
}

/* ======================================================================
 * Refused setups
 * ====================================================================== */

static void spoil_counts(void)
{
    switch (WEIGHTED(12, 12, 12, 12, 12, 12, 28)) {
    case 0:
        setup.days = 0;
        break;
    case 1:
        setup.days = chance(50) ? 9 : between(9, 15);
        break;
    case 2:
        setup.accounts = below(2);
        break;
    case 3:
        setup.accounts = chance(50) ? 65 : between(65, 127);
        break;
    case 4:
        setup.authorisations = 0;
        break;
    case 5:
        setup.authorisations = chance(50) ? 65 : between(65, 127);
        break;
    default: /* the last day 65,535 or beyond */
        setup.first_day = chance(50) ? 65536 - setup.days : between(65536 - setup.days, 65535);
        break;
    }
}

static void spoil_row(void)
{
    struct authorisation *row = &setup.authorisation[below(setup.authorisations)];
    unsigned which = below(2);

    switch (below(5)) {
    case 0:
        row->account[which] = setup.accounts < 64 ? setup.accounts : row->account[1 - which];
        break;
    case 1:
        row->account[which] = row->account[1 - which];
        break;
    case 2:
        row->first_day = EVERGREEN;
        row->last_day = EVERGREEN;
        break;
    case 3:
        row->first_day = between(1, LATEST_DAY);
        row->last_day = row->first_day - 1;
        break;
    default:
        row->type = 3;
        break;
    }
}

static void set_setup_padding(void)
{
    unsigned padding = padding_of_setup(&setup);

    if (padding > 0)
        turn_bit(setup_length - 1, 7 - below(padding));
}

enum setup_fault { COUNTS, CODE, ROW, PADDING, UNDER_5, SHORT, SETUP_FAULTS };

static void choose_setup_faults(bool fault[SETUP_FAULTS])
{
    static const unsigned percent[SETUP_FAULTS] = {12, 25, 40, 45, 6, 15};
    unsigned sure = WEIGHTED(28, 10, 26, 16, 8, 12);
    bool more = chance(50); /* so that the order shows */

    for (unsigned f = 0; f < SETUP_FAULTS; f++)
        fault[f] = f == sure || (more && chance(percent[f]));
}

/* Rows and codes before counts: spoilt counts may leave none of them. */
static void tell_refused_setup(void)
{
    bool fault[SETUP_FAULTS];

    choose_setup_faults(fault);
    if (fault[ROW])
        spoil_row();
    if (fault[CODE])
        setup.day_code[below(setup.days)] = 3;
    if (fault[COUNTS])
        spoil_counts();
    add_setup();
    if (fault[PADDING])
        set_setup_padding();
    if (fault[SHORT] && setup_length > 5)
        cut_story(chance(30) ? setup_length - 1 : between(5, (unsigned)setup_length - 1));
    if (fault[UNDER_5])
        cut_story(below(5));
    if (!fault[SHORT] && !fault[UNDER_5] && chance(50))
        add_random_tail("after a refused setup", 1, 20);
}

/* ======================================================================
 * Very long stories
 * ====================================================================== */

enum ending { WHOLE, CUT, UNREADABLE, ENDINGS };

static const char *const ending_name[ENDINGS] = {"whole", "cut", "unreadable"};

/* A step that closes no gate. */
static void step_between_gates(void)
{
    switch (WEIGHTED(41, 22, 5, 4, 3, 4, 7)) {
    case 0:
        step_notification();
        break;
    case 1:
        step_echo();
        break;
    case 2:
        step_nullification();
        break;
    case 3:
        step_repeat();
        break;
    case 4:
        step_wild();
        break;
    case 5:
        step_withdrawal();
        break;
    default:
        step_clock_change();
        break;
    }
}

/* To so many bytes, with a gate whenever as many bytes have gone by.  The
 * last gate of the book stays open: after it every answer would be 2. */
static void steps_to(size_t bytes, size_t between_gates)
{
    size_t next_gate = story_length + between_gates;

    while (story_length < bytes) {
        if (story_length >= next_gate && gates_left() > 1) {
            close_gates(1);
            next_gate += between_gates;
        }
        step_between_gates();
    }
}

static void tail_unreadable(void)
{
    switch (below(3)) {
    case 0:
        tail_kind_3();
        break;
    case 1:
        tail_too_many_entries();
        break;
    default:
        tail_padding();
        break;
    }
}

static void open_the_book(void)
{
    add_setup();
    if (open_book(&book, &setup, SHEET_SLOTS) != DONE) {
        fprintf(stderr, "stories: a setup meant to be right is refused\n");
        exit(3);
    }
}

/* All gates of the book over the whole story, or seven. */
static void tell_long_story(size_t bytes, enum ending ending)
{
    plan = VERY_LONG;
    story_volumes = WEIGHTED(50, 20, 14, 12, 4);
    say("story %s\n", plan_name[plan]);
    choose_setup();
    choose_reference_pool();
    open_the_book();
    steps_to(bytes, bytes / (chance(70) ? gates_left() : 8));
    if (ending == CUT)
        tail_cut();
    if (ending == UNREADABLE) {
        tail_unreadable();
        steps_to(story_length + 20000, 20000);
    }
}

/* ======================================================================
 * The plans
 * ====================================================================== */

static void tell_messages(void)
{
    switch (plan) {
    case SUCCESSION:
        steps(between(14, 40));
        break;
    case FULL:
        steps_until_full();
        break;
    case ALL_CLOSED:
        steps_until_closed();
        break;
    case LONG:
        steps(between(150, 400));
        break;
    case WILD:
        steps(below(8));
        if (chance(50))
            for (unsigned i = between(2, 12); i > 0; i--)
                step_wild();
        add_random_tail("random bytes", 1, 200);
        break;
    default:
        steps(between(4, 30));
        break;
    }
}

static void tell_story(void)
{
    plan = (enum plan)WEIGHTED(44, 17, 9, 7, 4, 4, 15);
    story_volumes = WEIGHTED(50, 20, 14, 12, 4);
    say("story %s\n", plan_name[plan]);
    choose_setup();
    choose_reference_pool();
    if (plan == SETUP_REFUSED) {
        tell_refused_setup();
        return;
    }
    open_the_book();
    tell_messages();
    if (plan != WILD && chance(30))
        tail();
    damage_sometimes();
}

static bool read_number(const char *word, uint64_t *number)
{
    char *end;

    errno = 0;
    *number = strtoull(word, &end, 10);
    return *word >= '0' && *word <= '9' && *end == '\0' && errno == 0;
}

/* The ending of this name; ENDINGS where there is none. */
static enum ending ending_named(const char *name)
{
    unsigned e = 0;

    while (e < ENDINGS && strcmp(ending_name[e], name) != 0)
        e++;
    return (enum ending)e;
}

/* SEED, or SEED long BYTES END; false where it is neither. */
static bool tell(int words, char **word)
{
    uint64_t seed;
    uint64_t bytes;

    if (words < 1 || !read_number(word[0], &seed))
        return false;
    random_state = seed * UINT64_C(0xd1342543de82ef95);
    other_state = ~random_state;
    if (words == 1) {
        tell_story();
        return true;
    }
    if (words != 4 || strcmp(word[1], "long") != 0 || !read_number(word[2], &bytes)
        || bytes < 10000 || bytes > 100000000 || ending_named(word[3]) == ENDINGS)
        return false;
    tell_long_story((size_t)bytes, ending_named(word[3]));
    return true;
}

int main(int argc, char **argv)
{
    in_words = argc > 2 && strcmp(argv[argc - 1], "text") == 0;
    if (!tell(argc - 1 - in_words, argv + 1)) {
        fprintf(stderr, "usage: stories SEED [long BYTES whole|cut|unreadable] [text]\n");
        return 2;
    }
    if (!in_words)
        fwrite(story, 1, story_length, stdout);
    free(story);
    return 0;
}
