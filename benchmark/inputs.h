/* What the benchmark is run on: books, runs of packed messages and spreadsheets, the same at every start. */
#ifndef INPUTS_H
#define INPUTS_H

#include "ghendufika.h"

/* A book of so many slots and days, with 64 accounts and 64 authorisations; small ones, of up to 16 slots, have 4 of each. */
ghendufika_setup setup_of(size_t slots, unsigned days);

/* The same with days of 48 periods only. */
ghendufika_setup plain_setup_of(size_t slots, unsigned days);

/* Packed messages, one after the other. */
typedef struct {
    uint8_t *bytes;
    size_t length, messages;
} run_of_messages;

/* First notifications by both agents for every slot of the book: what fills it. */
run_of_messages filling(const ghendufika_setup *setup, size_t slots);

/* A trading day on such a book: replacements and new notices of one to 48 periods, for one day, some days or evergreen, some of them refused; now and then
 * a nullification; a gate after every 40th message. */
run_of_messages trading(const ghendufika_setup *setup, size_t slots, size_t messages);

/* Notifications of 50 entries for the book's one day of 50 periods. */
run_of_messages full_notifications(const ghendufika_setup *setup, size_t messages);

/* The same with one entry at fault in each, by its period or by its volume: both by every entry, where there are 100 or more. */
run_of_messages refused_notifications(const ghendufika_setup *setup, size_t messages);

/* Notifications of 48 entries over two or more of the book's days, half of them evergreen. They do not depend on how long the days are. */
run_of_messages long_notifications(const ghendufika_setup *setup, size_t messages);

enum { SPREADSHEETS = 100, MOST_SPREADSHEET = 1000 }; /* bytes of one, quotes and CR LF included */

/* Spreadsheets, one after the other; each begins where the one before ends. */
typedef struct {
    uint8_t bytes[SPREADSHEETS * MOST_SPREADSHEET];
    size_t ends[SPREADSHEETS];
} spreadsheets;

/* So many entries each, as small generators send them: volumes of up to 100 MWh with none to three decimals, lines that end by LF or by CR LF, and in
 * every fourth file quotes. */
void write_spreadsheets(spreadsheets *all, unsigned entries);

/* The same with a letter in place of the last line end of each, which is refused. */
void write_refused_spreadsheets(spreadsheets *all, unsigned entries);

#endif
