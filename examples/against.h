/* Our book held against the central agent's feedback. */
#ifndef AGAINST_H
#define AGAINST_H

#include "feedback.h"
#include "story.h"

/* Prints, pair by pair, where they differ, and gives the status to leave with: ALL_SHOWN where our book is what the feedback says and no message is
 * missing in it. */
int hold_against(const story *told, const feedback *said);

#endif
