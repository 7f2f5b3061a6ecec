/* The calls of one layout under common names: those of the Swiss bill or, where GIROCODE is defined,
   those of the girocode. */

#ifndef LAYOUT_H
#define LAYOUT_H

#include "qrbill.h"

#ifdef GIROCODE
#define layout_read girocode_read
#define layout_line girocode_line
#define layout_places girocode_places
#define layout_write girocode_write
enum { LAST_LINE = 13 };
#else
#define layout_read qrbill_read
#define layout_line qrbill_line
#define layout_places qrbill_places
#define layout_write qrbill_write
enum { LAST_LINE = 35 };
#endif

#endif
