/* Memory to lend: pages with a page before and a page behind that nobody may touch. Every area has two views of the same pages, one to change and
 * one that is read-only, so that the harness writes what an export may only read. */
#ifndef GUARDED_H
#define GUARDED_H

#include <stdbool.h>
#include <stddef.h>
#include <stdint.h>

struct area {
    uint8_t *to_change, *to_read;
    size_t size; /* bytes between the guards */
};

/* A part of an area, flush against one of its two guards. On its other side lie bytes of the same area; those next to it are watched. */
struct lent {
    uint8_t *to_change;
    const uint8_t *to_read;
    size_t length;
    uint8_t *watched;
    size_t watched_length;
};

struct area guarded_area(size_t bytes);
struct lent lend_part(const struct area *area, size_t bytes, bool at_the_end);
bool nothing_written_beside(const struct lent *part);

#endif
