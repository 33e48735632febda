/* Lists the sections of a layout text, writes its flash map into an image in memory, and finds the map there. */
#include "usigrambal.h"

#include <inttypes.h>
#include <stdio.h>

static const char text[] = "PRINTNODE@0xff800000 8M {\n"
                           "  BOOT 2M { FMAP 4K }\n"
                           "  RW_CAL(PRESERVE)@3M 64K\n"
                           "  RW_LOG\n"
                           "}\n";

static uint8_t image[8 * 1024 * 1024], records[128 * 42];

static uint32_t number(const uint8_t *bytes, int count) {
    return count == 0 ? 0 : bytes[0] + 256 * number(bytes + 1, count - 1);
}

int main(void) {
    const uint8_t *t = (const uint8_t *)text;
    const size_t len = sizeof text - 1;
    uint8_t name[USI_IMAGE_NAME_LEN];
    uint64_t size = 0, address = 0, count = 0, position = UINT64_MAX;
    uint32_t answer = usi_fmd_read(t, len, name, sizeof name, &size, &address, &count);
    if (answer == 0)
        answer = usi_fmd_records(t, len, records, sizeof records, &count);
    if (answer != 0) {
        printf("refused %" PRIu32 "\n", answer);
        return 1;
    }
    printf("%.32s %08" PRIx64 " %016" PRIx64 "\n", (const char *)name, size, address);
    for (const uint8_t *r = records; r < records + 42 * count; r += 42)
        printf("%08" PRIx32 " %08" PRIx32 " %04" PRIx32 " %.32s\n", number(r, 4), number(r + 4, 4), number(r + 40, 2), (const char *)r + 8);
    printf("write %" PRIu32 "\n", usi_fmd_write(t, len, image, sizeof image));
    printf("find %" PRIu32, usi_fmap_find(image, sizeof image, &position));
    printf(" at %" PRIu64 "\n", position);
    printf("write %" PRIu32 "\n", usi_fmd_write(t, len, image, sizeof image - 1));
    return 0;
}
