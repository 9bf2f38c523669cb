/* Does nothing. */
#define ANSWER 0
#include "face.h"
