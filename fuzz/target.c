/* A libFuzzer program for one call: CALL is its name, and host/fuzz has what is compared. */
#include <stddef.h>
#include <stdint.h>

#define JOINED(a, b) a##b
#define ENTRY(call) JOINED(fuzz_, call)

int ENTRY(CALL)(const uint8_t *data, size_t len);
int LLVMFuzzerTestOneInput(const uint8_t *data, size_t len);

int LLVMFuzzerTestOneInput(const uint8_t *data, size_t len) {
    return ENTRY(CALL)(data, len);
}
