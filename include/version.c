/* The version of the library that a program runs with. All other functions of blink.h come from crates/blink_c. */
#include "blink.h"

const char *blink_version(void) { return BLINK_VERSION; }
