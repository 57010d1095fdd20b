/* The constants and words of the header itself, held to what the library answers. */
#ifndef CONSTANTS_H
#define CONSTANTS_H

#include <stdbool.h>

/* Whether they are the library's; the first that is not is told. */
bool constants_hold(void);

#endif
