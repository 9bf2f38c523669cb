/* Refuses every call. */
#define ANSWER 12
#include "face.h"
