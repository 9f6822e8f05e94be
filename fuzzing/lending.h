/* Lending the tables, bytes and buffers to a call, between guard pages, and looking at them afterwards. */
#ifndef LENDING_H
#define LENDING_H

#include "check.h"
#include "generate.h"

struct lent_tables { struct lent held, side1, side2; };
extern struct lent_tables lent;

void make_areas(void);

/* The lent tables, read-only. */
const uint32_t *lent_held(void);
const int32_t *lent_side1(void);
const int32_t *lent_side2(void);

/* The tables as an export takes them: to change, to read, and as nullifications take them. */
#define HELD_TO_CHANGE (uint32_t *)(void *)lent.held.to_change, before.slots
#define HELD_TO_READ lent_held(), before.slots
#define SIDES_TO_CHANGE (int32_t *)(void *)lent.side1.to_change, before.lent1, (int32_t *)(void *)lent.side2.to_change, before.lent2
#define SIDES_TO_READ lent_side1(), before.lent1, lent_side2(), before.lent2
#define TABLES_TO_CHANGE HELD_TO_CHANGE, SIDES_TO_CHANGE
#define TABLES_TO_READ HELD_TO_READ, SIDES_TO_READ

/* Lends the model, now and then spoilt: `before` is what is lent, and the second program is told it. */
void lend_model(void);
/* Tables for a setup of so many days, with anything in them, lent; sometimes of wrong lengths. */
void make_tables_for(const ghendufika_setup *setup);
/* Lends `before` as it stands. */
void lend_before(void);

bool tables_as_before(void);
bool nothing_beside_tables(void);
/* Tables that were lent to change: as they were with a refusal, as the second program's otherwise; and nothing was written beside them. */
void check_tables(unsigned answer);
/* Closed places are as before (document 01, "What a notification does"). Of a book that was accepted, so sound. */
void check_closed_places(void);
/* The lent tables, with this book, become the model. */
void adopt(const ghendufika_book *book);

/* Bytes to read; fills asked.bytes and asked.length. */
void lend_bytes(const uint8_t *bytes, size_t length);

/* A buffer to fill, with chance in it; which of three it is; `kept` is a copy of what it held. */
struct filled { struct lent part; uint8_t kept[1024]; };
extern struct filled buffers[3];
void *lend_buffer(unsigned which, size_t bytes);
/* From this byte on the buffer is as it was, and nothing was written beside it. */
void check_buffer(unsigned which, size_t from);

#endif
