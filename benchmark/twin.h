/* The work of include/ghendufika.h once more, in plain C written for speed: what the proved code is measured against (bench.c). Same structs, same lent
 * tables, same arguments, same answers; beside each declaration of the header stands its twin here. */
#ifndef TWIN_H
#define TWIN_H

#include "ghendufika.h"

uint8_t twin_message_refusal(const uint8_t *bytes, size_t length);
size_t twin_message_length(const uint8_t *bytes, size_t length);
int64_t twin_message_field(const uint8_t *bytes, size_t length, uint32_t field);

ghendufika_message_read twin_read_message(const uint8_t *bytes, size_t length);

ghendufika_measured twin_day_length(uint32_t day);

ghendufika_spreadsheet_read twin_read_spreadsheet(const uint8_t *bytes, size_t length);
ghendufika_spreadsheet_written twin_write_spreadsheet(ghendufika_spreadsheet spreadsheet, uint8_t *out, size_t room);

ghendufika_opened twin_open(ghendufika_setup setup, uint32_t *held, size_t slots, int32_t *side1, size_t lent1, int32_t *side2, size_t lent2);
ghendufika_opened twin_open_checked(ghendufika_setup setup, uint32_t *held, size_t slots, int32_t *side1, size_t lent1, int32_t *side2, size_t lent2);

bool twin_is_sound(ghendufika_book book, const uint32_t *held, size_t slots, const int32_t *side1, size_t lent1, const int32_t *side2, size_t lent2);

ghendufika_applied twin_apply(ghendufika_book book, const uint8_t *bytes, size_t length, uint32_t *held, size_t slots, int32_t *side1, size_t lent1, int32_t *side2, size_t lent2);

ghendufika_applied_all twin_apply_all(ghendufika_book book, const uint8_t *bytes, size_t length, uint32_t *held, size_t slots, int32_t *side1, size_t lent1, int32_t *side2, size_t lent2, uint8_t *answers, size_t room, uint8_t *places, size_t places_room);

ghendufika_totalled twin_total(ghendufika_book book, const uint32_t *held, size_t slots, const int32_t *side1, size_t lent1, const int32_t *side2, size_t lent2, uint32_t account, uint32_t day, uint32_t period);

uint8_t twin_day_totals(ghendufika_book book, const uint32_t *held, size_t slots, const int32_t *side1, size_t lent1, const int32_t *side2, size_t lent2, uint32_t account, uint32_t day, int64_t *kwh, size_t room);

ghendufika_figured twin_figures(ghendufika_book book, const uint32_t *held, size_t slots, const int32_t *side1, size_t lent1, const int32_t *side2, size_t lent2, uint32_t account, uint32_t day);

/* How many notifications of each kind (1 initial, 2 replacement, 3 additional) were accepted since the program began: what a run is made of. It also keeps
 * the search for the kind, which the proved code makes for every notification, from being left out where the answer does not depend on it. */
extern size_t twin_accepted[4];

#endif
