/* Claims that a program holds the library to: it counts those that hold, and ends with the first that does not. */
#include "usigrambal.h"

#include <stdio.h>
#include <stdlib.h>

#define HOLDS(claim) ((claim) ? (void)held++ : broken(__FILE__, __LINE__, #claim))

static int held;

static void broken(const char *file, int line, const char *claim) {
    printf("%s, line %d: %s does not hold\n", file, line, claim);
    exit(1);
}

static uint64_t number(const uint8_t *at, int bytes) {
    uint64_t value = 0;
    while (bytes-- > 0) value = value << 8 | at[bytes];
    return value;
}
