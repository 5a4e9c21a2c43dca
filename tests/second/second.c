/* second.c - see second.h. The second program as one unit, so that whoever builds it names this file alone, and what its parts
 * share has no name outside. */
#include "engine.c"

#include "mt515.c"
#include "pool.c"
#include "mt509.c"
