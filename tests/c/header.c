/* Holds the constants of the header to what the calls do: each length is the one that is not refused, each field stands where a call wrote it;
 * every disk call to its first refusal, a block size that is none; adds to the alignment of their start, adds and renames to a name of their own,
 * adds and the check to the bits that a rule wants zero; and entries to what makes them unused, their type alone. */
#include "holds.h"

#include <string.h>

#define TEXT(text) (const uint8_t *)(text), strlen(text)
/* A disk of the least number of blocks, at the block size in hand. */
#define HEAD head, USI_HEAD_LEN(block)
#define TAIL tail, USI_TAIL_LEN(block)
#define N USI_BLOCKS_MIN(block)

#if USI_HEAD_LEN(512) != 17408 || USI_TAIL_LEN(512) != 16896 || USI_FIRST_USABLE(512) != 34 || USI_BLOCKS_MIN(512) != 68
#error "the numbers of 512-byte blocks"
#endif
#if USI_HEAD_LEN(4096) != 24576 || USI_TAIL_LEN(4096) != 20480 || USI_FIRST_USABLE(4096) != 6 || USI_BLOCKS_MIN(4096) != 12
#error "the numbers of 4096-byte blocks"
#endif

static uint64_t block;
static uint8_t head[USI_HEAD_LEN_MAX + 1], other[USI_HEAD_LEN_MAX], tail[USI_TAIL_LEN_MAX + 1];
static uint8_t image[USI_IMAGE_MAX + 1], records[USI_RECORDS_LEN + 1], text[USI_TEXT_MAX + 1];
static const uint8_t one[USI_GUID_LEN + 1] = {1}, two[USI_GUID_LEN + 1] = {2};
static const uint16_t name[USI_NAME_UNITS + 1] = {'n'};

static uint32_t format(size_t head_len, size_t tail_len, uint64_t n, size_t guid_len) {
    return usi_gpt_format(head, head_len, tail, tail_len, n, block, one, guid_len);
}

static uint32_t add(size_t guid_len, size_t units) {
    uint64_t slot, first;
    return usi_gpt_add(HEAD, TAIL, N, block, two, guid_len, one, guid_len, 1, 1, 5, USI_PRESENT_RULE, name, units, &slot, &first);
}

static uint64_t state(void) {
    uint64_t found = 0;
    HOLDS(usi_gpt_read(HEAD, TAIL, N, block, &found) == USI_ACCEPTED);
    return found;
}

static void lengths(void) {
    const size_t head_len = USI_HEAD_LEN(block), tail_len = USI_TAIL_LEN(block);
    const uint64_t other_block = block == 512 ? 4096 : 512;
    HOLDS(head_len <= USI_HEAD_LEN_MAX && tail_len <= USI_TAIL_LEN_MAX);
    HOLDS(format(head_len, tail_len, USI_BLOCKS_MAX, USI_GUID_LEN) == USI_ACCEPTED);
    HOLDS(format(head_len, tail_len, USI_BLOCKS_MAX + 1, USI_GUID_LEN) == USI_BLOCK_COUNT);
    HOLDS(format(head_len, tail_len, N - 1, USI_GUID_LEN) == USI_BLOCK_COUNT);
    HOLDS(format(head_len + 1, tail_len, N, USI_GUID_LEN) == USI_WRONG_LENGTH);
    HOLDS(format(head_len, tail_len + 1, N, USI_GUID_LEN) == USI_WRONG_LENGTH);
    HOLDS(format(head_len, tail_len, N, USI_GUID_LEN + 1) == USI_WRONG_LENGTH);
    HOLDS(format(USI_HEAD_LEN(other_block), USI_TAIL_LEN(other_block), 100, USI_GUID_LEN) == USI_WRONG_LENGTH);
}

static void disk(void) {
    uint64_t in_tail, offset;
    uint8_t *entry;
    HOLDS(format(USI_HEAD_LEN(block), USI_TAIL_LEN(block), N, USI_GUID_LEN) == USI_ACCEPTED);
    HOLDS(memcmp(head + USI_DISK_GUID_IN_HEAD(block), one, USI_GUID_LEN) == 0 && memcmp(tail + USI_DISK_GUID_IN_TAIL, one, USI_GUID_LEN) == 0);
    HOLDS(number(head + block, 8) == number((const uint8_t *)"EFI PART", 8));
    HOLDS(add(USI_GUID_LEN, USI_NAME_UNITS + 1) == USI_WRONG_LENGTH && add(USI_GUID_LEN + 1, USI_NAME_UNITS) == USI_WRONG_LENGTH);
    HOLDS(add(USI_GUID_LEN, USI_NAME_UNITS) == USI_ACCEPTED);
    HOLDS(usi_gpt_table(HEAD, TAIL, N, block, &in_tail, &offset) == USI_ACCEPTED && in_tail == 0);
    HOLDS(offset + USI_ENTRIES_LEN == USI_HEAD_LEN(block) && USI_ENTRY_LEN * USI_SLOTS == USI_ENTRIES_LEN);
    entry = head + offset;
    HOLDS(memcmp(entry + USI_ENTRY_TYPE, two, USI_GUID_LEN) == 0 && memcmp(entry + USI_ENTRY_UNIQUE, one, USI_GUID_LEN) == 0);
    HOLDS(number(entry + USI_ENTRY_FIRST, 8) == USI_FIRST_USABLE(block) && number(entry + USI_ENTRY_LAST, 8) == N - USI_BEHIND_LAST_USABLE(block));
    HOLDS(number(entry + USI_ENTRY_ATTRIBUTES, 8) == 5 && number(entry + USI_ENTRY_NAME, 2) == 'n');
    HOLDS(USI_ENTRY_NAME + 2 * USI_NAME_UNITS == USI_ENTRY_LEN);
    HOLDS(usi_gpt_delete(HEAD, TAIL, N, block, USI_SLOTS) == USI_SLOT_UNUSED);
    HOLDS(usi_gpt_delete(HEAD, TAIL, N, block, USI_SLOTS + 1) == USI_NO_SUCH_SLOT);
    HOLDS(state() == USI_STATE_SAME);
    tail[USI_ENTRIES_LEN]++;
    HOLDS(state() == USI_STATE_PRIMARY_ONLY);
    tail[USI_ENTRIES_LEN]--;
    head[block]++;
    HOLDS(state() == USI_STATE_BACKUP_ONLY);
    head[block]--;
    HOLDS(usi_gpt_format(other, USI_HEAD_LEN(block), TAIL, N, block, two, USI_GUID_LEN) == USI_ACCEPTED);
    HOLDS(state() == USI_STATE_DIFFERENT);
}

static void put(uint8_t *at, uint32_t value) {
    for (int k = 0; k < 4; k++) at[k] = (uint8_t)(value >> 8 * k);
}

/* The CRCs of a copy. */
static void sum(uint8_t *header, const uint8_t *entries) {
    put(header + 88, usi_crc32(entries, USI_ENTRIES_LEN));
    put(header + 16, 0);
    put(header + 16, usi_crc32(header, 92));
}

/* Slot 1 with a zero type and FF in all its other bytes: no partition, and an add writes over all of it. */
static void unused(void) {
    uint8_t written[USI_ENTRY_LEN], *entries[2];
    uint64_t in_tail, offset;
    HOLDS(format(USI_HEAD_LEN(block), USI_TAIL_LEN(block), N, USI_GUID_LEN) == USI_ACCEPTED);
    HOLDS(add(USI_GUID_LEN, USI_NAME_UNITS) == USI_ACCEPTED);
    HOLDS(usi_gpt_table(HEAD, TAIL, N, block, &in_tail, &offset) == USI_ACCEPTED && in_tail == 0);
    entries[0] = head + offset;
    entries[1] = tail;
    memcpy(written, entries[0], USI_ENTRY_LEN);
    for (int k = 0; k < 2; k++) {
        memset(entries[k] + USI_ENTRY_TYPE, 0, USI_GUID_LEN);
        memset(entries[k] + USI_ENTRY_UNIQUE, 0xFF, USI_ENTRY_LEN - USI_ENTRY_UNIQUE);
        sum(k == 0 ? head + block : tail + USI_ENTRIES_LEN, entries[k]);
    }
    HOLDS(state() == USI_STATE_SAME);
    HOLDS(usi_gpt_delete(HEAD, TAIL, N, block, 1) == USI_SLOT_UNUSED);
    HOLDS(add(USI_GUID_LEN, USI_NAME_UNITS) == USI_ACCEPTED);
    HOLDS(memcmp(entries[0], written, USI_ENTRY_LEN) == 0 && memcmp(entries[1], written, USI_ENTRY_LEN) == 0);
}

static uint32_t add_aligned(uint64_t n, const uint8_t *kind, uint64_t size, uint64_t alignment, uint64_t *first) {
    uint64_t slot;
    return usi_gpt_add(HEAD, TAIL, n, block, kind, USI_GUID_LEN, one, USI_GUID_LEN, size, alignment, 0, USI_EARLIER_RULE, name,
                       USI_NAME_UNITS, &slot, first);
}

/* The lowest multiple of each alignment, and numbers that are none: refused after a size of 0 and before a type of zeros. */
static void alignments(void) {
    static const uint64_t taken[] = {1, 8, 2048}, none[] = {0, 2, 7, 9, 2047, 2049, (UINT64_C(1) << 32) + 8, UINT64_MAX};
    static const uint8_t zeros[USI_GUID_LEN] = {0};
    const uint64_t eight = block == 512 ? 40 : 8, lowest[] = {USI_FIRST_USABLE(block), eight, 2048}, n = 10000;
    uint64_t first = 77;
    for (size_t k = 0; k < sizeof none / sizeof *none; k++) {
        HOLDS(format(USI_HEAD_LEN(block), USI_TAIL_LEN(block), n, USI_GUID_LEN) == USI_ACCEPTED);
        HOLDS(add_aligned(n, zeros, 0, none[k], &first) == USI_NO_SIZE && add_aligned(n, zeros, 1, none[k], &first) == USI_ALIGNMENT);
        HOLDS(first == 77);
    }
    for (size_t k = 0; k < sizeof taken / sizeof *taken; k++) {
        const uint64_t most = n - USI_BEHIND_LAST_USABLE(block) - lowest[k] + 1;
        HOLDS(format(USI_HEAD_LEN(block), USI_TAIL_LEN(block), n, USI_GUID_LEN) == USI_ACCEPTED);
        HOLDS(add_aligned(n, zeros, 1, taken[k], &first) == USI_NO_TYPE);
        HOLDS(add_aligned(n, two, most + 1, taken[k], &first) == USI_NO_ROOM);
        HOLDS(add_aligned(n, two, most, taken[k], &first) == USI_ACCEPTED && first == lowest[k]);
        first = 77;
    }
}

static uint32_t add_named(const uint8_t *unique, const uint16_t *called, uint64_t size) {
    uint64_t slot, first;
    return usi_gpt_add(HEAD, TAIL, 100, block, two, USI_GUID_LEN, unique, USI_GUID_LEN, size, 1, 0, USI_EARLIER_RULE, called, USI_NAME_UNITS, &slot,
                       &first);
}

static uint32_t rename_to(uint64_t slot, const uint16_t *called) {
    return usi_gpt_rename(HEAD, TAIL, 100, block, slot, called, USI_NAME_UNITS);
}

/* Writes bytes of a slot in both copies, as no call does. */
static void poke(int slot, size_t at, const void *stored, size_t len) {
    uint8_t *entries[2];
    entries[0] = head + USI_HEAD_LEN(block) - USI_ENTRIES_LEN;
    entries[1] = tail;
    for (int k = 0; k < 2; k++) {
        memcpy(entries[k] + (slot - 1) * USI_ENTRY_LEN + at, stored, len);
        sum(k == 0 ? head + block : tail + USI_ENTRIES_LEN, entries[k]);
    }
}

/* All 72 bytes of a name are compared, with those of the other used slots; the empty one may repeat. A disk on which two have one name reads. */
static void names(void) {
    static const uint8_t uniques[4][USI_GUID_LEN] = {{11}, {12}, {13}, {14}}, zeros[USI_GUID_LEN] = {0};
    static const uint16_t empty[USI_NAME_UNITS] = {0}, behind[USI_NAME_UNITS] = {'n', 0, 'z'};
    uint16_t full[USI_NAME_UNITS], end[USI_NAME_UNITS];
    uint64_t found = 0;
    for (int unit = 0; unit < USI_NAME_UNITS; unit++) full[unit] = end[unit] = 0x6161;
    end[USI_NAME_UNITS - 1] = 0x6162;
    HOLDS(format(USI_HEAD_LEN(block), USI_TAIL_LEN(block), 100, USI_GUID_LEN) == USI_ACCEPTED);
    HOLDS(add_named(uniques[0], full, 1) == USI_ACCEPTED && add_named(uniques[1], full, 1) == USI_PARTITION_NAME_TAKEN);
    HOLDS(add_named(uniques[0], full, 1) == USI_BAD_UNIQUE_GUID && add_named(uniques[1], full, 1000) == USI_PARTITION_NAME_TAKEN);
    HOLDS(add_named(uniques[1], end, 1) == USI_ACCEPTED);
    HOLDS(add_named(uniques[2], empty, 1) == USI_ACCEPTED && add_named(uniques[3], empty, 1) == USI_ACCEPTED);
    HOLDS(rename_to(1, full) == USI_ACCEPTED && rename_to(2, full) == USI_PARTITION_NAME_TAKEN && rename_to(2, empty) == USI_ACCEPTED);
    HOLDS(rename_to(5, full) == USI_SLOT_UNUSED);
    poke(2, USI_ENTRY_NAME, behind, sizeof behind);
    HOLDS(add_named(one, behind, 1) == USI_BAD_PARTITION_NAME && rename_to(3, behind) == USI_BAD_PARTITION_NAME);
    HOLDS(rename_to(3, name) == USI_ACCEPTED);
    poke(4, USI_ENTRY_NAME, name, 2 * USI_NAME_UNITS);
    HOLDS(usi_gpt_read(HEAD, TAIL, 100, block, &found) == USI_ACCEPTED && found == USI_STATE_SAME);
    HOLDS(rename_to(3, name) == USI_PARTITION_NAME_TAKEN && rename_to(4, name) == USI_PARTITION_NAME_TAKEN);
    poke(4, USI_ENTRY_TYPE, zeros, USI_GUID_LEN);
    HOLDS(rename_to(3, name) == USI_ACCEPTED);
}

static uint32_t add_with(const uint8_t *unique, uint64_t set, uint64_t rule, uint64_t size) {
    uint64_t slot, first;
    return usi_gpt_add(HEAD, TAIL, 100, block, two, USI_GUID_LEN, unique, USI_GUID_LEN, size, 1, set, rule, name, USI_NAME_UNITS, &slot, &first);
}

static uint64_t offends(uint64_t rule) {
    uint64_t slot = USI_SLOTS + 1;
    HOLDS(usi_gpt_check(HEAD, TAIL, 100, block, rule, &slot) == USI_ACCEPTED);
    return slot;
}

/* Each bit alone under each rule, in an add, after a name that is taken and before no room, and in the check. */
static void attributes(void) {
    static const uint64_t rules[] = {USI_PRESENT_RULE, USI_EARLIER_RULE, 2, UINT64_C(1) << 32, UINT64_MAX};
    static const uint8_t zeros[USI_GUID_LEN] = {0};
    HOLDS(USI_ZERO_BITS(USI_PRESENT_RULE) == UINT64_C(0xFFFFFFFFFFF8) && USI_ZERO_BITS(USI_EARLIER_RULE) == UINT64_C(0xFFFFFFFFFFFE));
    for (size_t k = 0; k < sizeof rules / sizeof *rules; k++) {
        const uint64_t rule = rules[k];
        for (int bit = 0; bit < 64; bit++) {
            const uint64_t set = UINT64_C(1) << bit;
            const int zero = (set & USI_ZERO_BITS(rule)) != 0;
            uint8_t stored[8];
            HOLDS(format(USI_HEAD_LEN(block), USI_TAIL_LEN(block), 100, USI_GUID_LEN) == USI_ACCEPTED && offends(rule) == 0);
            HOLDS(add_with(one, set, rule, 1000) == (uint32_t)(zero ? USI_ATTRIBUTE_BITS : USI_NO_ROOM));
            HOLDS(add_with(one, set, rule, 1) == (uint32_t)(zero ? USI_ATTRIBUTE_BITS : USI_ACCEPTED) && offends(rule) == 0);
            HOLDS(!zero || add_with(one, 0, rule, 1) == USI_ACCEPTED);
            HOLDS(add_with(two, set, rule, 1) == USI_PARTITION_NAME_TAKEN);
            for (int byte = 0; byte < 8; byte++) stored[byte] = (uint8_t)(set >> 8 * byte);
            poke(1, USI_ENTRY_ATTRIBUTES, stored, sizeof stored);
            HOLDS(offends(rule) == (uint64_t)zero);
            poke(1, USI_ENTRY_TYPE, zeros, USI_GUID_LEN);
            HOLDS(offends(rule) == 0);
        }
    }
}

/* Each disk call, on the disk that is there, with the block size in hand. */
static void refused_for_its_block(size_t head_len, size_t tail_len, uint64_t n, size_t guid_len, size_t units) {
    uint64_t a = 77, b = 78;
    HOLDS(usi_gpt_format(head, head_len, tail, tail_len, n, block, one, guid_len) == USI_BLOCK_SIZE);
    HOLDS(usi_gpt_build(head, head_len, tail, tail_len, n, block, 3, NULL, 0) == USI_BLOCK_SIZE);
    HOLDS(usi_gpt_read(head, head_len, tail, tail_len, n, block, &a) == USI_BLOCK_SIZE);
    HOLDS(usi_gpt_table(head, head_len, tail, tail_len, n, block, &a, &b) == USI_BLOCK_SIZE);
    HOLDS(usi_gpt_free(head, head_len, tail, tail_len, n, block, &a, &b) == USI_BLOCK_SIZE);
    HOLDS(usi_gpt_check(head, head_len, tail, tail_len, n, block, USI_PRESENT_RULE, &a) == USI_BLOCK_SIZE);
    HOLDS(usi_gpt_add(head, head_len, tail, tail_len, n, block, two, guid_len, one, USI_GUID_LEN, 1, 1, 0, 0, name, units, &a, &b) == USI_BLOCK_SIZE);
    HOLDS(usi_gpt_add(head, head_len, tail, tail_len, n, block, two, USI_GUID_LEN, one, guid_len, 1, 1, 0, 0, name, units, &a, &b) == USI_BLOCK_SIZE);
    HOLDS(usi_gpt_delete(head, head_len, tail, tail_len, n, block, 1) == USI_BLOCK_SIZE);
    HOLDS(usi_gpt_resize(head, head_len, tail, tail_len, n, block, 1, 1) == USI_BLOCK_SIZE);
    HOLDS(usi_gpt_rename(head, head_len, tail, tail_len, n, block, 1, name, units) == USI_BLOCK_SIZE);
    HOLDS(usi_gpt_repair(head, head_len, tail, tail_len, n, block, &a) == USI_BLOCK_SIZE);
    HOLDS(a == 77 && b == 78);
}

/* Right lengths, then each of them wrong, then all, with a number of blocks that is none. */
static void block_sizes(void) {
    static const uint64_t none[] = {0, 1, 511, 513, 1024, 2048, 4095, 4097, 8192, (UINT64_C(1) << 32) + 512, (UINT64_C(1) << 32) + 4096, UINT64_MAX};
    static uint8_t head_before[sizeof head], tail_before[sizeof tail];
    const size_t head_len = USI_HEAD_LEN(block), tail_len = USI_TAIL_LEN(block);
    const uint64_t good = block;
    memcpy(head_before, head, sizeof head);
    memcpy(tail_before, tail, sizeof tail);
    for (size_t k = 0; k < sizeof none / sizeof *none; k++) {
        block = none[k];
        refused_for_its_block(head_len, tail_len, 100, USI_GUID_LEN, USI_NAME_UNITS);
        refused_for_its_block(head_len - 1, tail_len, 100, USI_GUID_LEN, USI_NAME_UNITS);
        refused_for_its_block(head_len, tail_len - 1, 100, USI_GUID_LEN, USI_NAME_UNITS);
        refused_for_its_block(head_len, tail_len, 100, USI_GUID_LEN + 1, USI_NAME_UNITS);
        refused_for_its_block(head_len, tail_len, 100, USI_GUID_LEN, USI_NAME_UNITS + 1);
        refused_for_its_block(0, 0, 0, 0, 0);
    }
    block = good;
    HOLDS(memcmp(head, head_before, sizeof head) == 0 && memcmp(tail, tail_before, sizeof tail) == 0);
}

static void guid(void) {
    uint8_t guid_text[USI_GUID_TEXT_LEN + 1];
    HOLDS(usi_guid_write(one, USI_GUID_LEN, guid_text, USI_GUID_TEXT_LEN) == USI_ACCEPTED);
    HOLDS(usi_guid_write(one, USI_GUID_LEN, guid_text, USI_GUID_TEXT_LEN + 1) == USI_WRONG_LENGTH);
}

static uint32_t find(size_t len) {
    uint64_t position;
    return usi_fmap_find(image, len, &position);
}

static uint64_t fault(size_t len, uint64_t position) {
    uint64_t rule = USI_RULE_CROSSING + 1;
    HOLDS(usi_fmap_fault(image, len, position, &rule) == USI_ACCEPTED);
    return rule;
}

static void flash(void) {
    static const char layout[] = "I 98K { A(PRESERVE)@1K 2K FMAP }";
    uint8_t area[USI_AREA_LEN + 1], image_name[USI_IMAGE_NAME_LEN + 1];
    uint64_t position = 0, size = 0, address, count;
    HOLDS(find(USI_IMAGE_MIN - 1) == USI_IMAGE_LENGTH && find(USI_IMAGE_MIN) == USI_NO_SIGNATURE);
    HOLDS(find(USI_IMAGE_MAX + 1) == USI_IMAGE_LENGTH && find(USI_IMAGE_MAX) == USI_NO_SIGNATURE);
    HOLDS(usi_fmd_read(TEXT(layout), image_name, USI_IMAGE_NAME_LEN + 1, &size, &address, &count) == USI_WRONG_LENGTH);
    HOLDS(usi_fmd_read(TEXT(layout), image_name, USI_IMAGE_NAME_LEN, &size, &address, &count) == USI_ACCEPTED);
    HOLDS(usi_fmd_write(TEXT(layout), image, size) == USI_ACCEPTED && usi_fmap_find(image, size, &position) == USI_ACCEPTED);
    HOLDS(fault(size, position) == USI_RULE_NONE && fault(size, position + 1) == USI_RULE_SIGNATURE && fault(size, UINT64_MAX) == USI_RULE_SIGNATURE);
    HOLDS(fault(size - 1, position) == USI_RULE_IMAGE_SIZE && fault(position + 50, position) == USI_RULE_HEADER_END);
    HOLDS(strcmp(usi_rule_words(fault(size - 1, position)), "the image size in the map is not the length of the image") == 0);
    HOLDS(usi_fmap_fault(image, USI_IMAGE_MIN - 1, 0, &position) == USI_IMAGE_LENGTH);
    HOLDS(usi_fmap_area(image, size, 0, area, USI_AREA_LEN + 1) == USI_WRONG_LENGTH);
    HOLDS(usi_fmap_area(image, size, 0, area, USI_AREA_LEN) == USI_ACCEPTED);
    HOLDS(memcmp(area, image + position + USI_MAP_HEADER_LEN, USI_AREA_LEN) == 0);
    HOLDS(number(area + USI_AREA_OFFSET, 4) == 1024 && number(area + USI_AREA_SIZE, 4) == 2048);
    HOLDS(area[USI_AREA_NAME] == 'A' && number(area + USI_AREA_FLAGS, 2) == USI_FLAG_PRESERVE);
    HOLDS(USI_AREA_NAME + USI_AREA_NAME_LEN == USI_AREA_FLAGS);
    HOLDS(usi_fmd_records(TEXT(layout), records, USI_RECORDS_LEN + 1, &count) == USI_WRONG_LENGTH);
    HOLDS(usi_fmd_records(TEXT(layout), records, USI_RECORDS_LEN, &count) == USI_ACCEPTED);
    HOLDS(memcmp(records, area, USI_RECORD_LEN) == 0 && USI_RECORD_LEN * USI_SECTIONS_MAX == USI_RECORDS_LEN);
}

/* So many sections, the last of them on so many levels. */
static uint32_t nested(int sections, int levels) {
    uint64_t count;
    int at = sprintf((char *)text, "I 1M { FMAP 8K ");
    for (int k = levels + 1; k < sections; k++) at += sprintf((char *)text + at, "S%d 1 ", k);
    for (int k = 1; k < levels; k++) at += sprintf((char *)text + at, "L%d { ", k);
    at += sprintf((char *)text + at, "L%d", levels);
    for (int k = 1; k <= levels; k++) at += sprintf((char *)text + at, " }");
    return usi_fmd_records(text, (size_t)at, records, USI_RECORDS_LEN, &count);
}

static void layout(void) {
    uint64_t count;
    HOLDS(nested(USI_SECTIONS_MAX, USI_LEVELS_MAX) == USI_ACCEPTED);
    HOLDS(nested(USI_SECTIONS_MAX + 1, USI_LEVELS_MAX) == USI_TOO_MANY);
    HOLDS(nested(USI_SECTIONS_MAX, USI_LEVELS_MAX + 1) == USI_TOO_MANY);
    memset(text, ' ', sizeof text);
    HOLDS(usi_fmd_records(text, USI_TEXT_MAX, records, USI_RECORDS_LEN, &count) == USI_OUT_OF_GRAMMAR);
    HOLDS(usi_fmd_records(text, USI_TEXT_MAX + 1, records, USI_RECORDS_LEN, &count) == USI_TEXT_TOO_LONG);
}

int main(void) {
    static const uint64_t blocks[] = {512, 4096};
    char version[32];
    for (size_t k = 0; k < sizeof blocks / sizeof *blocks; k++) {
        block = blocks[k];
        lengths();
        disk();
        unused();
        alignments();
        names();
        attributes();
        block_sizes();
    }
    guid();
    flash();
    layout();
    sprintf(version, "%d.%d.%d", USI_VERSION_MAJOR, USI_VERSION_MINOR, USI_VERSION_PATCH);
    HOLDS(strcmp(version, USI_VERSION) == 0);
    HOLDS(strcmp(usi_words(USI_NO_ROOM), "no room") == 0 && strcmp(usi_words(99), usi_words(100)) == 0);
    printf("%d claims about the header's constants, block sizes, alignments, names, attributes and unused entries hold\n", held);
    return 0;
}
