/* The bars of a view as an SVG file. */
#ifndef PICTURE_H
#define PICTURE_H

#include "view.h"

/* The view, or where there is a trouble that in its stead, so that no older picture stays. False where the file cannot be written; what was begun is
 * emptied, since half a picture is believed like a whole one. */
bool write_picture(const char *path, const view *seen, const char *trouble);

#endif
