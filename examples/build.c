/* Builds a disk in memory from a layout string, whose second partition takes what is left, and lists what stands where: with blocks of 512 bytes,
 * and with blocks of 4096. Then it is refused a string with a blank, one whose size is not a whole number of blocks, and one whose start is in the
 * table's own blocks; the disk stays as it was. Prints each answer. */
#include "usigrambal.h"

#include <inttypes.h>
#include <stdio.h>
#include <string.h>

#define N 1000000
#define ALIGNMENT 2048 /* blocks; or 1, or 8 */

#define DISK "uuid_disk=6D8F4C1E-0B7A-4F35-9A55-1C2D3E4F5A6B;"
#define BOOT "name=boot,type=system,uuid=11111111-2222-4333-8444-555555555555"
#define ROOT "name=root,type=linux,uuid=66666666-7777-4888-8999-AAAAAAAAAAAA,size=0"

static uint8_t head[USI_HEAD_LEN_MAX], tail[USI_TAIL_LEN_MAX]; /* the first and the last blocks, of either size */
static uint64_t block;

static uint64_t number(const uint8_t *at) {
    uint64_t value = 0;
    for (int byte = 8; byte-- > 0;) value = value << 8 | at[byte];
    return value;
}

static uint32_t build(const char *string) {
    return usi_gpt_build(head, USI_HEAD_LEN(block), tail, USI_TAIL_LEN(block), N, block, ALIGNMENT, (const uint8_t *)string, strlen(string));
}

static void list(void) {
    uint64_t in_tail = 0, offset = 0;
    if (usi_gpt_table(head, USI_HEAD_LEN(block), tail, USI_TAIL_LEN(block), N, block, &in_tail, &offset) != USI_ACCEPTED)
        return;
    for (const uint8_t *entry = (in_tail ? tail : head) + offset; number(entry + USI_ENTRY_LAST) != 0; entry += USI_ENTRY_LEN) {
        printf("%" PRIu64 " to %" PRIu64 " ", number(entry + USI_ENTRY_FIRST), number(entry + USI_ENTRY_LAST));
        for (const uint8_t *unit = entry + USI_ENTRY_NAME; *unit != 0; unit += 2) putchar(*unit);
        printf(" attributes %" PRIu64 "\n", number(entry + USI_ENTRY_ATTRIBUTES));
    }
}

static void fill(uint64_t bytes) {
    block = bytes;
    printf("build %" PRIu32 "\n", build(DISK BOOT ",size=16MiB,bootable;" ROOT));
    list();
}

int main(void) {
    fill(512);
    fill(4096);
    printf("build %" PRIu32 "\n", build(DISK BOOT ", size=16MiB"));
    printf("build %" PRIu32 "\n", build(DISK BOOT ",size=1000"));
    printf("build %" PRIu32 "\n", build(DISK BOOT ",size=16MiB,start=0"));
    list();
    return 0;
}
