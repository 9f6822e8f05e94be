/* Spreadsheets to hand in (document 02, A5): files in every spelling, damaged ones, and entries to write; and how the two programs' are compared. */
#ifndef FILES_H
#define FILES_H

#include "ghendufika.h"
#include "spreadsheet.h"

#include <stdbool.h>

/* Room for more than 50 records in their longest spelling, and for what damage adds. */
enum { MOST_FILE_BYTES = 2048 };

/* A file: any spelling of some records, now and then more than 50. The number of bytes. */
size_t some_file(uint8_t bytes[MOST_FILE_BYTES]);
/* A few bytes changed, put in, taken out or swapped, or the file cut. The number of bytes then. */
size_t damaged(uint8_t bytes[MOST_FILE_BYTES], size_t length);

/* Entries to write: one in a few has a period, a volume or a count that does not fit. What is past the count is anything. */
ghendufika_spreadsheet some_spreadsheet(void);

struct spreadsheet told_spreadsheet(const ghendufika_spreadsheet *spreadsheet);
/* All 50 entries are compared: past the count of what was read they are zero. */
bool is_as_second(const ghendufika_spreadsheet *spreadsheet, const struct spreadsheet *second);

#endif
