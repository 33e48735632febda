/* Formats a disk in memory, adds a partition at a multiple of 2048 blocks with attribute bit 2, and is refused a second one of the same name, one
 * with bit 3 and one that has no room; then asks which partition offends each rule of attribute bits: with blocks of 512 bytes, and with blocks of
 * 4096. Then it names a block size that is refused. Prints each answer. */
#include "usigrambal.h"

#include <inttypes.h>
#include <stdio.h>

#define N 1000000
#define ALIGNMENT 2048 /* blocks; or 1, or 8 */

static uint8_t head[USI_HEAD_LEN_MAX], tail[USI_TAIL_LEN_MAX]; /* the first and the last blocks, of either size */
static uint64_t block;

static uint32_t format(void) {
    static const uint8_t disk[USI_GUID_LEN] = {1};
    return usi_gpt_format(head, USI_HEAD_LEN(block), tail, USI_TAIL_LEN(block), N, block, disk, sizeof disk);
}

static uint32_t add(const uint8_t *unique, const uint16_t *name, uint64_t size, uint64_t attributes, uint64_t *slot, uint64_t *first) {
    uint8_t kind[USI_GUID_LEN];
    usi_type_read((const uint8_t *)"linux", 5, kind, sizeof kind);
    return usi_gpt_add(head, USI_HEAD_LEN(block), tail, USI_TAIL_LEN(block), N, block, kind, sizeof kind, unique, USI_GUID_LEN, size, ALIGNMENT,
                       attributes, USI_PRESENT_RULE, name, USI_NAME_UNITS, slot, first);
}

static void check(const char *called, uint64_t rule) {
    uint64_t slot = 0;
    printf("check %s %" PRIu32, called, usi_gpt_check(head, USI_HEAD_LEN(block), tail, USI_TAIL_LEN(block), N, block, rule, &slot));
    printf(" slot %" PRIu64 "\n", slot);
}

static void fill(void) {
    static const uint8_t one[USI_GUID_LEN] = {2}, two[USI_GUID_LEN] = {3};
    static const uint16_t data[USI_NAME_UNITS] = {'d', 'a', 't', 'a'}, logs[USI_NAME_UNITS] = {'l', 'o', 'g', 's'};
    uint64_t slot = 0, first = 0, free_blocks = 0, longest = 0;
    printf("format %" PRIu32 "\n", format());
    printf("add %" PRIu32, add(one, data, 2048, 4, &slot, &first));
    printf(" slot %" PRIu64 " first %" PRIu64 "\n", slot, first);
    printf("add %" PRIu32 "\n", add(two, data, 2048, 0, &slot, &first));
    printf("add %" PRIu32 "\n", add(two, logs, 2048, 8, &slot, &first));
    printf("add %" PRIu32 "\n", add(two, logs, N, 0, &slot, &first));
    check("present", USI_PRESENT_RULE);
    check("earlier", USI_EARLIER_RULE);
    printf("free %" PRIu32, usi_gpt_free(head, USI_HEAD_LEN(block), tail, USI_TAIL_LEN(block), N, block, &free_blocks, &longest));
    printf(" %" PRIu64 " %" PRIu64 "\n", free_blocks, longest);
}

int main(void) {
    block = 512;
    fill();
    block = 4096;
    fill();
    block = 1024;
    printf("format %" PRIu32 "\n", format());
    return 0;
}
