/* Two flash images in memory: finds a map, looks an area up, and carries the old image's calibration bytes into the new one; prints each answer. */
#include "usigrambal.h"

#include <inttypes.h>
#include <stdio.h>
#include <string.h>

#define LEN 512
#define CAL_SIZE 16

static void store(uint8_t *to, uint32_t number) {
    for (int i = 0; i < 4; i++)
        to[i] = (uint8_t)(number >> 8 * i);
}

/* A map at the image's start: area FMAP, and area CAL, which is preserved. */
static void write_image(uint8_t *image, uint32_t cal) {
    uint8_t *area = image + 56;
    memset(image, 0, LEN);
    memcpy(image, "__FMAP__\1\1", 10);
    store(image + 18, LEN);
    memcpy(image + 22, "CHIP", 4);
    image[54] = 2;
    store(area + 4, 56 + 2 * 42);
    memcpy(area + 8, "FMAP", 4);
    area += 42;
    store(area, cal);
    store(area + 4, CAL_SIZE);
    memcpy(area + 8, "CAL", 3);
    area[40] = 8;
}

int main(void) {
    static uint8_t old[LEN], new[LEN];
    uint8_t area[USI_AREA_LEN];
    uint64_t position = 9, k = 9;
    write_image(old, 200);
    write_image(new, 300);
    memset(old + 200, 0x5A, CAL_SIZE);
    printf("find %" PRIu32, usi_fmap_find(old, LEN, &position));
    printf(" position %" PRIu64 "\n", position);
    printf("named %" PRIu32, usi_fmap_named(old, LEN, (const uint8_t *)"CAL", 3, &k));
    printf(" area %" PRIu64 "\n", k);
    printf("area %" PRIu32, usi_fmap_area(old, LEN, k, area, sizeof area));
    printf(" offset %u size %u\n", area[0] + 256u * area[1], area[4] + 256u * area[5]);
    printf("area %" PRIu32 "\n", usi_fmap_area(old, LEN, 2, area, sizeof area));
    printf("carry %" PRIu32, usi_fmap_carry(old, LEN, new, LEN));
    printf(" same %d\n", memcmp(old + 200, new + 300, CAL_SIZE) == 0);
    printf("carry %" PRIu32 "\n", usi_fmap_carry(old, 97, new, LEN));
    return 0;
}
