/* Times PER in plain C. */
#include "work.h"
#include "per_types.h"
#include "times.h"
