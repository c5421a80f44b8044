/* The calls of tests/calls.txt; calls_table.h is made from it by the build. */
#include <stddef.h>

typedef struct {
    int number;
    const char *layer, *name, *arguments;
} call_row;

static const call_row CALLS[] = {
#include "calls_table.h"
};

enum { CALL_COUNT = sizeof CALLS / sizeof *CALLS };
