#ifndef INTTYPES_H
#define INTTYPES_H

#include <stdint.h>

#define PRIu32 "u"
#define PRIu64 "lu"
#define PRIx64 "lx"

#endif
