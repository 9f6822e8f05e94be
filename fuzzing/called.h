/* The exports as the harness calls them: the archive's own, or, in the build that shows that the harness can fail, with a fault put before them. */
#ifndef CALLED_H
#define CALLED_H

#include "ghendufika.h"
#ifdef WITH_FAULTS
#include "faults.h"
#endif

#endif
