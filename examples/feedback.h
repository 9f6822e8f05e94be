/* The central agent's feedback, as a file of lines (examples/README.md has the format):
 *
 *     # identifier  side  day  period  kWh
 *     0/1           1     100  35      -5000
 */
#ifndef FEEDBACK_H
#define FEEDBACK_H

#include <stdbool.h>
#include <stddef.h>
#include <stdint.h>

/* What stands in a place: an identifier's side, day and period. Plus is sold by the first party. */
typedef struct {
    unsigned originator, reference, side, day, period;
    int32_t kwh;
    size_t line; /* of the file */
} stated;

typedef struct {
    stated *places; /* in their order, each once */
    size_t count;
} feedback;

/* Before (negative), the same place (0), or behind. */
int in_order(const stated *one, const stated *other);

/* Reads a file. False where it cannot be read, where it states nothing, or where a line is no such line: each is told with its number on standard
 * output, where the table would stand, and how many on standard error. A last line without its end is one of them, since the file may be cut there. */
bool read_feedback(const char *path, feedback *all);

#endif
