/* The functions of the header that have a body, as exports for callers that have no C compiler. */
#define FONNALICH_FORM
#include "fonnalich.h"
