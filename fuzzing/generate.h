/* What is handed to the exports: mostly nearly right, so that the deep paths are reached, and often with one thing wrong. */
#ifndef GENERATE_H
#define GENERATE_H

#include "tables.h"

enum { MOST_BYTES = 8192 };

/* The book that the episode has come to: sound, and not spoilt by what was tried. */
extern struct tables model;

/* The last notification that was accepted in this episode, for the other agent to repeat; its count is 255 where there is none. */
extern ghendufika_notification accepted;

ghendufika_setup right_setup(void);
void spoil_setup(ghendufika_setup *setup);
/* A right setup whose days are near the ends of the calendar, near a clock change or past the calendar. Its codes are mostly the calendar's. */
ghendufika_setup calendar_setup(void);
size_t slots_for_a_book(unsigned days);

/* One change to a copy of the model: most make it no sound book, some only another sound one. */
void spoil_tables(struct tables *tables);
/* A change after which the model is still sound: another number of closed gates, a row of volumes on both sides, a gap among held slots. */
void stir(struct tables *tables);

ghendufika_notification some_notification(const struct tables *tables);
ghendufika_nullification some_nullification(const struct tables *tables);
uint8_t some_account(const struct tables *tables);
uint16_t some_day(const struct tables *tables);
uint8_t some_period(const struct tables *tables, unsigned day);
void some_identifier(const struct tables *tables, uint32_t *originator, uint32_t *reference);
/* A day of the same sort, and a date: mostly one that exists. */
uint32_t some_calendar_day(void);
void some_date(uint32_t *year, uint32_t *month, uint32_t *day);
/* The number, or now and then one that is the same when it is cut to 8 or to 16 bits, or a far one. */
uint32_t widened(uint32_t number);

/* Packed, then often cut, changed or followed by more; the number of bytes. */
size_t some_message_bytes(const struct tables *tables, uint8_t bytes[MOST_BYTES]);
size_t some_messages_bytes(const struct tables *tables, uint8_t bytes[MOST_BYTES]);
size_t some_setup_bytes(uint8_t bytes[MOST_BYTES]);
size_t some_calendar_setup_bytes(uint8_t bytes[MOST_BYTES]);

#endif
