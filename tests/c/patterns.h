/* Floats that are not finite, by their bits: the compiler does not see what they are. */
#include "celestial_time.h"

#define INFINITE 0x7ff0000000000000u
#define SIGN 0x8000000000000000u
#define QUIET 0x0008000000000000u

static inline double nan_float(void) { return ct_opaque_float(INFINITE | QUIET); }
static inline double signalling_float(void) { return ct_opaque_float(INFINITE | 1); }
static inline double infinite_float(void) { return ct_opaque_float(INFINITE); }
static inline double minus_infinite_float(void) { return ct_opaque_float(SIGN | INFINITE); }
