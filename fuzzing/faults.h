/* Faults put before the exports on purpose, one at a time, to see that the harness catches them: `./fuzz faults`. */
#ifndef FAULTS_H
#define FAULTS_H

#include "ghendufika.h"

extern const char *fault; /* its name; "none" for none */
extern const char *const fault_names[];

uint8_t faulty_message_refusal(const uint8_t *bytes, size_t length);
size_t faulty_message_length(const uint8_t *bytes, size_t length);
int64_t faulty_message_field(const uint8_t *bytes, size_t length, uint32_t field);
ghendufika_setup_read faulty_read_setup(const uint8_t *bytes, size_t length, size_t slots, size_t lent1, size_t lent2);
ghendufika_opened faulty_open(ghendufika_setup setup, uint32_t *held, size_t slots, int32_t *side1, size_t lent1, int32_t *side2, size_t lent2);
bool faulty_is_sound(ghendufika_book book, const uint32_t *held, size_t slots, const int32_t *side1, size_t lent1, const int32_t *side2, size_t lent2);
ghendufika_gated faulty_close_gate(ghendufika_book book, const uint32_t *held, size_t slots, const int32_t *side1, size_t lent1, const int32_t *side2, size_t lent2);
ghendufika_notified faulty_notify(ghendufika_book book, ghendufika_notification notification, uint32_t *held, size_t slots, int32_t *side1, size_t lent1, int32_t *side2, size_t lent2);
uint8_t faulty_nullify(ghendufika_book book, uint32_t account, uint32_t other, uint32_t first, const uint32_t *held, size_t slots, int32_t *side1, size_t lent1, int32_t *side2, size_t lent2);
ghendufika_applied faulty_apply(ghendufika_book book, const uint8_t *bytes, size_t length, uint32_t *held, size_t slots, int32_t *side1, size_t lent1, int32_t *side2, size_t lent2);
ghendufika_applied_all faulty_apply_all(ghendufika_book book, const uint8_t *bytes, size_t length, uint32_t *held, size_t slots, int32_t *side1, size_t lent1, int32_t *side2, size_t lent2, uint8_t *answers, size_t room, uint8_t *places, size_t places_room);
ghendufika_totalled faulty_total(ghendufika_book book, const uint32_t *held, size_t slots, const int32_t *side1, size_t lent1, const int32_t *side2, size_t lent2, uint32_t account, uint32_t day, uint32_t period);
uint8_t faulty_day_totals(ghendufika_book book, const uint32_t *held, size_t slots, const int32_t *side1, size_t lent1, const int32_t *side2, size_t lent2, uint32_t account, uint32_t day, int64_t *kwh, size_t room);
ghendufika_figured faulty_figures(ghendufika_book book, const uint32_t *held, size_t slots, const int32_t *side1, size_t lent1, const int32_t *side2, size_t lent2, uint32_t account, uint32_t day);
uint8_t faulty_row_refusal(ghendufika_book book, const uint32_t *held, size_t slots, const int32_t *side1, size_t lent1, const int32_t *side2, size_t lent2, uint32_t originator, uint32_t reference, uint32_t day, uint32_t side);
uint8_t faulty_day_marks(ghendufika_book book, const uint32_t *held, size_t slots, const int32_t *side1, size_t lent1, const int32_t *side2, size_t lent2, uint32_t originator, uint32_t reference, uint32_t account, uint32_t day, uint8_t *cases, size_t case_room, double *firsts, size_t first_room, double *seconds, size_t second_room);

ghendufika_message_read faulty_read_message(const uint8_t *bytes, size_t length);
ghendufika_message_written faulty_write_message(ghendufika_message message, uint8_t *out, size_t room);
ghendufika_setup_written faulty_write_setup(ghendufika_setup setup, uint8_t *out, size_t room);
ghendufika_opened_packed faulty_open_packed(const uint8_t *bytes, size_t length, uint32_t *held, size_t slots, int32_t *side1, size_t lent1, int32_t *side2, size_t lent2);
ghendufika_marked faulty_mark(ghendufika_book book, const uint32_t *held, size_t slots, const int32_t *side1, size_t lent1, const int32_t *side2, size_t lent2, uint32_t originator, uint32_t reference, uint32_t account, uint32_t day, uint32_t period);
ghendufika_row_place faulty_row(ghendufika_book book, const uint32_t *held, size_t slots, const int32_t *side1, size_t lent1, const int32_t *side2, size_t lent2, uint32_t originator, uint32_t reference, uint32_t day, uint32_t side);

ghendufika_measured faulty_day_length(uint32_t day);
ghendufika_coded faulty_code_of_day(uint32_t day);
ghendufika_numbered faulty_day_of_date(uint32_t year, uint32_t month, uint32_t day);
ghendufika_dated faulty_date_of_day(uint32_t day);
ghendufika_proposed faulty_propose_codes(uint32_t first, uint32_t days);
ghendufika_setup_read faulty_read_setup_checked(const uint8_t *bytes, size_t length, size_t slots, size_t lent1, size_t lent2);
ghendufika_opened faulty_open_checked(ghendufika_setup setup, uint32_t *held, size_t slots, int32_t *side1, size_t lent1, int32_t *side2, size_t lent2);
ghendufika_opened_packed faulty_open_packed_checked(const uint8_t *bytes, size_t length, uint32_t *held, size_t slots, int32_t *side1, size_t lent1, int32_t *side2, size_t lent2);

ghendufika_spreadsheet_read faulty_read_spreadsheet(const uint8_t *bytes, size_t length);
ghendufika_spreadsheet_written faulty_write_spreadsheet(ghendufika_spreadsheet spreadsheet, uint8_t *out, size_t room);

#ifndef FAULTS_THEMSELVES
#define ghendufika_message_refusal faulty_message_refusal
#define ghendufika_message_length faulty_message_length
#define ghendufika_message_field faulty_message_field
#define ghendufika_read_setup faulty_read_setup
#define ghendufika_open faulty_open
#define ghendufika_is_sound faulty_is_sound
#define ghendufika_close_gate faulty_close_gate
#define ghendufika_notify faulty_notify
#define ghendufika_nullify faulty_nullify
#define ghendufika_apply faulty_apply
#define ghendufika_apply_all faulty_apply_all
#define ghendufika_total faulty_total
#define ghendufika_day_totals faulty_day_totals
#define ghendufika_figures faulty_figures
#define ghendufika_row_refusal faulty_row_refusal
#define ghendufika_day_marks faulty_day_marks
#define ghendufika_read_message faulty_read_message
#define ghendufika_write_message faulty_write_message
#define ghendufika_write_setup faulty_write_setup
#define ghendufika_open_packed faulty_open_packed
#define ghendufika_mark faulty_mark
#define ghendufika_row faulty_row
#define ghendufika_day_length faulty_day_length
#define ghendufika_code_of_day faulty_code_of_day
#define ghendufika_day_of_date faulty_day_of_date
#define ghendufika_date_of_day faulty_date_of_day
#define ghendufika_propose_codes faulty_propose_codes
#define ghendufika_read_setup_checked faulty_read_setup_checked
#define ghendufika_open_checked faulty_open_checked
#define ghendufika_open_packed_checked faulty_open_packed_checked
#define ghendufika_read_spreadsheet faulty_read_spreadsheet
#define ghendufika_write_spreadsheet faulty_write_spreadsheet
#endif

#endif
