/* Times OER in plain C. */
#include "work.h"
#include "oer_types.h"
#include "times.h"
