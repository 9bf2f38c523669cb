/* The driver of tests/panel with the yardstick in the library's place, so that the second program can judge it by the same sessions. */
#include "plain.h"

#define l1_load plain_load
#define l1_run plain_run
#include "../tests/panel/driver.c"
