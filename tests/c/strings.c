/* Holds layout strings to their longest, and to their refusals in order. */
#include "holds.h"

#include <string.h>

/* A disk of the least number of blocks, at the block size in hand. */
#define HEAD head, USI_HEAD_LEN(block)
#define TAIL tail, USI_TAIL_LEN(block)
#define N USI_BLOCKS_MIN(block)

static uint64_t block;
static uint8_t head[USI_HEAD_LEN_MAX + 1], tail[USI_TAIL_LEN_MAX + 1];
static char text[USI_STRING_MAX + 2];

#define DISK "uuid_disk=01234567-89AB-4CDE-8F01-23456789ABCD;"
#define PART "name=n,uuid=76543210-89AB-4CDE-8F01-23456789ABCD,size="
#define FULL PART "4096"
#define OTHER "FEDCBA98-89AB-4CDE-8F01-23456789ABCD"
#define ZEROS "00000000-0000-0000-0000-000000000000"

static uint32_t build(uint64_t n, uint64_t alignment, const char *string) {
    return usi_gpt_build(HEAD, TAIL, n, block, alignment, (const uint8_t *)string, strlen(string));
}

/* The longest string, and one byte more. */
static void string_lengths(void) {
    const int zeros = USI_STRING_MAX - (int)strlen(DISK PART);
    uint64_t in_tail, offset, state;
    for (int more = 1; more >= 0; more--) {
        sprintf(text, DISK PART "%0*d", zeros + more, (int)block);
        HOLDS(build(N, 1, text) == (uint32_t)(more ? USI_STRING_FORM : USI_ACCEPTED));
    }
    HOLDS(strlen(text) == USI_STRING_MAX && usi_gpt_read(HEAD, TAIL, N, block, &state) == USI_ACCEPTED && state == USI_STATE_SAME);
    HOLDS(usi_gpt_table(HEAD, TAIL, N, block, &in_tail, &offset) == USI_ACCEPTED && in_tail == 0);
    HOLDS(number(head + offset + USI_ENTRY_FIRST, 8) == USI_FIRST_USABLE(block) && number(head + offset + USI_ENTRY_NAME, 2) == 'n');
    HOLDS(number(head + offset + USI_ENTRY_ATTRIBUTES, 8) == 0 && number(head + offset + USI_ENTRY_LEN, 8) == 0);
}

/* Each string has its fault and some of those behind it; the disk's usable blocks have 4096 bytes, which FULL takes. */
static void string_rows(void) {
    static const struct { uint32_t answer; uint64_t alignment; const char *string; } rows[] = {
        {USI_STRING_FORM, 3, "uuid_disk=" ZEROS ";" PART "1,start=1,"},
        {USI_NO_DISK_GUID, 3, "uuid_disk=" ZEROS ";" PART "1,start=1"},
        {USI_NOT_WHOLE_BLOCKS, 3, DISK PART "1,start=0"},
        {USI_START_TAKEN, 3, DISK PART "0,start=0,type=" ZEROS ";" PART "0"},
        {USI_NO_SIZE, 3, DISK PART "0,type=" ZEROS ";" PART "0"},
        {USI_ALIGNMENT, 3, DISK PART "0,type=" ZEROS},
        {USI_NO_TYPE, 1, DISK PART "1GiB,type=" ZEROS},
        {USI_BAD_UNIQUE_GUID, 1, DISK "name=n,size=1GiB,uuid=" ZEROS},
        {USI_NO_ROOM, 1, DISK PART "1GiB"},
        {USI_NO_ROOM, 2048, DISK PART "0"},
        {USI_START_TAKEN, 1, DISK FULL ";" PART "0,start=0"},
        {USI_BAD_UNIQUE_GUID, 1, DISK FULL ";" PART "0"},
        {USI_PARTITION_NAME_TAKEN, 1, DISK FULL ";name=n,size=0,uuid=" OTHER},
        {USI_NO_ROOM, 1, DISK FULL ";name=m,size=0,uuid=" OTHER},
    };
    static uint8_t head_before[sizeof head], tail_before[sizeof tail];
    const uint64_t n = N - 1 + 4096 / block;
    memcpy(head_before, head, sizeof head);
    memcpy(tail_before, tail, sizeof tail);
    for (size_t k = 0; k < sizeof rows / sizeof *rows; k++) HOLDS(build(n, rows[k].alignment, rows[k].string) == rows[k].answer);
    HOLDS(build(N - 1, 3, "") == USI_BLOCK_COUNT && build(USI_BLOCKS_MAX + 1, 3, "") == USI_BLOCK_COUNT && build(N, 3, "") == USI_STRING_FORM);
    HOLDS(usi_gpt_build(head, USI_HEAD_LEN(block) + 1, TAIL, 0, block, 3, NULL, 0) == USI_WRONG_LENGTH);
    HOLDS(usi_gpt_build(HEAD, tail, USI_TAIL_LEN(block) + 1, 0, block, 3, NULL, 0) == USI_WRONG_LENGTH);
    HOLDS(usi_gpt_build(HEAD, TAIL, N, block, 3, NULL, 0) == USI_STRING_FORM);
    HOLDS(memcmp(head, head_before, sizeof head) == 0 && memcmp(tail, tail_before, sizeof tail) == 0);
}

int main(void) {
    static const uint64_t blocks[] = {512, 4096};
    for (size_t k = 0; k < sizeof blocks / sizeof *blocks; k++) {
        block = blocks[k];
        string_lengths();
        string_rows();
    }
    printf("%d claims about layout strings hold\n", held);
    return 0;
}
