/* Usigrambal: flash and disk layouts. The C interface of a library whose every function is proved.
 *
 * - Every call returns 0, or the number of its refusal (usi_crc32 alone returns the CRC). No refusal has the number 0.
 * - A refusal changes no byte of any buffer, and no number behind a pointer for an answer.
 * - A buffer is a pointer and a length, in bytes or, for a name, in 16-bit units, where the pointer is aligned for uint16_t.
 *   Buffers of one call must not overlap. A buffer of length 0 may have a null pointer.
 * - A pointer for an answer must be valid, and those of one call differ from each other and point into none of its buffers.
 * - Every call answers on every input: no buffer needs to be checked before.
 * - Threads: the library keeps no state and takes no memory. Any number of threads may call at once, each with its own buffers;
 *   a buffer that is only read may be shared.
 * - Stack: usi_gpt_build runs on a thread with 64 KiB of stack, every other call on one with 24 KiB.
 *
 * To link: `make install` writes libusigrambal.a, libusigrambal.so and usigrambal.pc (pkg-config), `make archive` target/staticlib/libusigrambal.a alone. */
#ifndef USIGRAMBAL_H
#define USIGRAMBAL_H

#include <stddef.h>
#include <stdint.h>

#ifdef __cplusplus
extern "C" {
#endif

#define USI_VERSION_MAJOR 0
#define USI_VERSION_MINOR 6
#define USI_VERSION_PATCH 0
#define USI_VERSION "0.6.0"

/* What a call returns. */
enum usi_answer {
    USI_ACCEPTED = 0,
    USI_WRONG_LENGTH = 1,
    USI_BLOCK_COUNT = 2,
    USI_NO_DISK_GUID = 3,
    USI_BLOCK_SIZE = 6,
    USI_NEITHER_GOOD = 10,
    USI_NOT_THE_SAME = 11,
    USI_NO_SUCH_SLOT = 12,
    USI_SLOT_UNUSED = 13,
    USI_NO_SIZE = 20,
    USI_NO_TYPE = 21,
    USI_BAD_UNIQUE_GUID = 22,
    USI_BAD_PARTITION_NAME = 23,
    USI_NO_UNUSED_SLOT = 24,
    USI_NO_ROOM = 25,
    USI_PARTITION_NAME_TAKEN = 26,
    USI_ALIGNMENT = 27,
    USI_ATTRIBUTE_BITS = 28,
    USI_NOT_A_GUID = 30,
    USI_IMAGE_LENGTH = 40,
    USI_NO_SIGNATURE = 41,
    USI_NO_GOOD_MAP = 42,
    USI_TEXT_TOO_LONG = 50,
    USI_OUT_OF_GRAMMAR = 51,
    USI_BAD_NUMBER = 52,
    USI_BAD_NAME = 53,
    USI_NAME_TWICE = 54,
    USI_TOO_MANY = 55,
    USI_BAD_FLAG = 56,
    USI_UNDECIDED = 57,
    USI_DOES_NOT_FIT = 58,
    USI_NO_MAP_SECTION = 59,
    USI_AREA_MISSING = 60,
    USI_AREA_OTHER_SIZE = 61,
    USI_AREAS_SHARE = 62,
    USI_AREA_ON_MAP = 63,
    USI_STRING_FORM = 70,
    USI_NOT_WHOLE_BLOCKS = 71,
    USI_START_TAKEN = 72,
    USI_NO_SUCH_AREA = 255
};

/* What the number of a refusal says, for a person; of a number that no call returns, that it is none. */
static inline const char *usi_words(uint32_t number)
{
    switch (number) {
    case USI_ACCEPTED: return "accepted";
    case USI_WRONG_LENGTH: return "a lent buffer has a wrong length";
    case USI_BLOCK_COUNT: return "the number of blocks is outside its range";
    case USI_NO_DISK_GUID: return "the disk GUID is all zero";
    case USI_BLOCK_SIZE: return "the block size is neither 512 nor 4096";
    case USI_NEITHER_GOOD: return "neither GPT copy is good";
    case USI_NOT_THE_SAME: return "the GPT copies are not both good and the same";
    case USI_NO_SUCH_SLOT: return "the partition number is not 1 to 128";
    case USI_SLOT_UNUSED: return "the slot is unused";
    case USI_NO_SIZE: return "the size is zero";
    case USI_NO_TYPE: return "the type GUID is zero";
    case USI_BAD_UNIQUE_GUID: return "the unique GUID is zero or already in a used slot";
    case USI_BAD_PARTITION_NAME: return "the name has a nonzero unit after a zero one";
    case USI_NO_UNUSED_SLOT: return "no unused slot";
    case USI_NO_ROOM: return "no room";
    case USI_PARTITION_NAME_TAKEN: return "the name is already in another used slot";
    case USI_ALIGNMENT: return "the alignment is not 1, 8 or 2048 blocks";
    case USI_ATTRIBUTE_BITS: return "an attribute bit is set that the rule wants zero";
    case USI_NOT_A_GUID: return "not a GUID text";
    case USI_IMAGE_LENGTH: return "the image length is outside its range";
    case USI_NO_SIGNATURE: return "the signature of a map stands nowhere";
    case USI_NO_GOOD_MAP: return "no good map";
    case USI_TEXT_TOO_LONG: return "the layout text is too long";
    case USI_OUT_OF_GRAMMAR: return "the text is out of grammar";
    case USI_BAD_NUMBER: return "a bad number";
    case USI_BAD_NAME: return "a bad name";
    case USI_NAME_TWICE: return "a section name is used twice";
    case USI_TOO_MANY: return "too many sections or levels";
    case USI_BAD_FLAG: return "an unknown or repeated flag, or CBFS on a section with children";
    case USI_UNDECIDED: return "the size of a section is undecided";
    case USI_DOES_NOT_FIT: return "a section does not fit";
    case USI_NO_MAP_SECTION: return "no section FMAP, or it has children or is too small";
    case USI_AREA_MISSING: return "a preserved area is missing in the new map";
    case USI_AREA_OTHER_SIZE: return "a preserved area has another size in the new map";
    case USI_AREAS_SHARE: return "areas to be carried share a byte";
    case USI_AREA_ON_MAP: return "an area to be carried shares a byte with area FMAP of the new map";
    case USI_STRING_FORM: return "the layout string is out of form";
    case USI_NOT_WHOLE_BLOCKS: return "a start or a size is not a whole number of blocks";
    case USI_START_TAKEN: return "the start block is taken or not usable";
    case USI_NO_SUCH_AREA: return "the map has no such area";
    default: return "no call returns this number";
    }
}

/* The rules of a map, in the order in which they are judged; usi_fmap_fault answers the first that a map at a position breaks. */
enum usi_rule {
    USI_RULE_NONE = 0,
    USI_RULE_SIGNATURE = 1,
    USI_RULE_HEADER_END = 2,
    USI_RULE_MAJOR = 3,
    USI_RULE_MINOR = 4,
    USI_RULE_IMAGE_SIZE = 5,
    USI_RULE_NO_AREA = 6,
    USI_RULE_TOO_MANY_AREAS = 7,
    USI_RULE_MAP_END = 8,
    USI_RULE_NAME = 9,
    USI_RULE_AREA_SIZE = 10,
    USI_RULE_AREA_END = 11,
    USI_RULE_AREA_NAME = 12,
    USI_RULE_MAP_AREA = 13,
    USI_RULE_SAME_NAME = 14,
    USI_RULE_CROSSING = 15
};

/* What the number of a rule says, for a person: how it is broken. */
static inline const char *usi_rule_words(uint64_t rule)
{
    switch (rule) {
    case USI_RULE_NONE: return "a good map";
    case USI_RULE_SIGNATURE: return "the eight signature bytes do not stand there";
    case USI_RULE_HEADER_END: return "the header does not end in the image";
    case USI_RULE_MAJOR: return "the major version is not 1";
    case USI_RULE_MINOR: return "the minor version is neither 0 nor 1";
    case USI_RULE_IMAGE_SIZE: return "the image size in the map is not the length of the image";
    case USI_RULE_NO_AREA: return "the map has no area";
    case USI_RULE_TOO_MANY_AREAS: return "the map has more than 128 areas";
    case USI_RULE_MAP_END: return "the map does not end in the image";
    case USI_RULE_NAME: return "the name of the map is not 1 to 31 bytes of 21 to 7E hex and then zeros";
    case USI_RULE_AREA_SIZE: return "an area has no byte";
    case USI_RULE_AREA_END: return "an area does not end in the image";
    case USI_RULE_AREA_NAME: return "the name of an area is not 1 to 31 bytes of 21 to 7E hex and then zeros";
    case USI_RULE_MAP_AREA: return "no area FMAP starts at the map and holds all of it";
    case USI_RULE_SAME_NAME: return "two areas have one name";
    case USI_RULE_CROSSING: return "two areas share bytes, and neither lies in the other";
    default: return "no rule has this number";
    }
}

/* A GUID, as stored and as text. */
#define USI_GUID_LEN 16
#define USI_GUID_TEXT_LEN 36

/* A disk: n blocks of 512 or of 4096 bytes. The head is its first blocks, the tail its last ones;
 * usable are blocks USI_FIRST_USABLE(block) to n - USI_BEHIND_LAST_USABLE(block).
 * The macros over block are for 512 and 4096 alone; of a constant they are constants, which an array may have as its length.
 * An array of USI_HEAD_LEN_MAX bytes holds the head of either block size, one of USI_TAIL_LEN_MAX bytes the tail. */
#define USI_BLOCKS_MIN(block) (2 * USI_FIRST_USABLE(block))
#define USI_BLOCKS_MAX UINT64_C(4294967296)
#define USI_HEAD_LEN(block) (2 * (block) + USI_ENTRIES_LEN)
#define USI_TAIL_LEN(block) ((block) + USI_ENTRIES_LEN)
#define USI_HEAD_LEN_MAX USI_HEAD_LEN(4096)
#define USI_TAIL_LEN_MAX USI_TAIL_LEN(4096)
#define USI_FIRST_USABLE(block) (UINT64_C(2) + USI_ENTRIES_LEN / (block))
#define USI_BEHIND_LAST_USABLE(block) USI_FIRST_USABLE(block)

/* A table: 128 entries, one a slot; an entry whose type GUID is all zero is unused, whatever else it holds. Numbers are little-endian. */
#define USI_ENTRIES_LEN 16384
#define USI_ENTRY_LEN 128
#define USI_SLOTS 128

/* Where the fields of an entry begin: type and unique GUID (16 bytes each), first block, last block (which is the partition's own),
 * attributes (8 each), name (36 units of 2). */
#define USI_ENTRY_TYPE 0
#define USI_ENTRY_UNIQUE 16
#define USI_ENTRY_FIRST 32
#define USI_ENTRY_LAST 40
#define USI_ENTRY_ATTRIBUTES 48
#define USI_ENTRY_NAME 56
#define USI_NAME_UNITS 36

/* Where the disk GUID of the copy in use stands: in the head or in the tail, as usi_gpt_table says. */
#define USI_DISK_GUID_IN_HEAD(block) ((block) + 56)
#define USI_DISK_GUID_IN_TAIL 16440

/* The rules of attribute bits: the present one wants bits 3 to 47 zero, the earlier one bits 1 to 47; every number but 0 is the earlier one.
 * Bits 0 and 48 to 63 are free under both. attributes & USI_ZERO_BITS(rule) are the bits that offend. */
#define USI_PRESENT_RULE 0
#define USI_EARLIER_RULE 1
#define USI_ZERO_BITS(rule) ((rule) == USI_PRESENT_RULE ? UINT64_C(0x0000FFFFFFFFFFF8) : UINT64_C(0x0000FFFFFFFFFFFE))

/* The most bytes of a layout string, which usi_gpt_build takes. */
#define USI_STRING_MAX 8192

/* The states of the two copies. */
#define USI_STATE_SAME 1
#define USI_STATE_DIFFERENT 2
#define USI_STATE_PRIMARY_ONLY 3
#define USI_STATE_BACKUP_ONLY 4

/* An image, and its map: a header and then the areas. */
#define USI_IMAGE_MIN 98
#define USI_IMAGE_MAX 16777216
#define USI_MAP_HEADER_LEN 56
#define USI_AREA_LEN 42
#define USI_AREAS_MAX 128

/* Where the fields of an area begin: offset and size (4 bytes each), name (32, zeros after the name), flags (2). */
#define USI_AREA_OFFSET 0
#define USI_AREA_SIZE 4
#define USI_AREA_NAME 8
#define USI_AREA_FLAGS 40
#define USI_AREA_NAME_LEN 32

/* The flags of an area. */
#define USI_FLAG_STATIC 1
#define USI_FLAG_COMPRESSED 2
#define USI_FLAG_RO 4
#define USI_FLAG_PRESERVE 8

/* A layout text, and its list of sections: 128 records, each as an area of the map. */
#define USI_TEXT_MAX 32768
#define USI_SECTIONS_MAX 128
#define USI_LEVELS_MAX 8
#define USI_IMAGE_NAME_LEN 32
#define USI_RECORD_LEN 42
#define USI_RECORDS_LEN 5376

/* The CRC-32 of UEFI, zlib and gzip: reflected, polynomial 04C11DB7, all ones at the start, inverted at the end. */
uint32_t usi_crc32(const uint8_t *bytes, size_t bytes_len);

/* Reads a GUID text, 8-4-4-4-12 hex digits of either case, into the 16 bytes that a disk stores.
 * Refusals in order: 1 guid_len is not 16; 30 not a GUID text. On a refusal guid is as it was. */
uint32_t usi_guid_read(const uint8_t *text, size_t text_len, uint8_t *guid, size_t guid_len);

/* The same for a partition type, which may also be one of the short names system, msft, data, linux, swap (lower case only). */
uint32_t usi_type_read(const uint8_t *text, size_t text_len, uint8_t *guid, size_t guid_len);

/* Writes 16 stored bytes as a GUID text of 36 bytes in upper case; no zero byte follows it.
 * Refusal: 1 guid_len is not 16 or text_len is not 36. On a refusal text is as it was. */
uint32_t usi_guid_write(const uint8_t *guid, size_t guid_len, uint8_t *text, size_t text_len);

/* The flash map of an image of 98 to 16,777,216 bytes: the lowest good one is found.
 *
 * Refusals of finding, in order: 40 image length outside its range; 41 the eight signature bytes stand nowhere; 42 they do, but no good map.
 *
 * On a refusal every buffer and every number behind a pointer for an answer is as it was. A pointer for an answer must be valid and point into no buffer. */

/* Answers the position of the map. Refusals in order: 40, 41, 42. */
uint32_t usi_fmap_find(const uint8_t *image, size_t image_len, uint64_t *position);

/* Answers the first rule (enum usi_rule) that a map at a position breaks, 0 where a good map stands there. Any number may be asked for:
 * where the signature does not stand, and behind the image's end, it is rule 1. So of an image that usi_fmap_find refuses by 42, each signature's reason.
 * Refusal: 40. */
uint32_t usi_fmap_fault(const uint8_t *image, size_t image_len, uint64_t position, uint64_t *rule);

/* Writes the 42 bytes of area k of the map, counted from 0, as the map has them: offset (4), size (4), name (32), flags (2), numbers little-endian.
 * Refusals in order: 1 area_len is not 42; 40, 41, 42; 255 the map has no area k. */
uint32_t usi_fmap_area(const uint8_t *image, size_t image_len, uint64_t k, uint8_t *area, size_t area_len);

/* Answers the number, counted from 0, of the area with a name, given without the zeros that follow it in the map.
 * Refusals in order: 40, 41, 42; 255 no area has that name (none has a name of 0 bytes or of more than 31). */
uint32_t usi_fmap_named(const uint8_t *image, size_t image_len, const uint8_t *name, size_t name_len, uint64_t *k);

/* Carries each area that the old image's map marks PRESERVE, byte for byte, into the same-named area of the new image; every other byte of it stays.
 * Refusals in order: 40, 41, 42 of the old image, then of the new one; 60 a preserved area is missing in the new map; 61 it has another size there;
 * 62 areas to be carried share a byte in either map; 63 one shares a byte with area FMAP of the new map. */
uint32_t usi_fmap_carry(const uint8_t *old, size_t old_len, uint8_t *image, size_t image_len);

/* The GPT of a disk of n blocks, each of block bytes. The caller lends the head and the tail:
 * block 512: blocks 0 to 33 (17,408 bytes) and the last 33 blocks (16,896 bytes); n is 68 to 4,294,967,296, and blocks 34 to n - 34 are usable;
 * block 4096: blocks 0 to 5 (24,576 bytes) and the last 5 blocks (20,480 bytes); n is 12 to 4,294,967,296, and blocks 6 to n - 6 are usable.
 * A GUID is 16 stored bytes, a name 36 UTF-16 units (name_units counts units, not bytes), a slot a number from 1 to 128.
 *
 * Refusals of every call, before its own: 6 block is neither 512 nor 4096; 1 a buffer has a wrong length; 2 n is outside its range.
 * All calls but usi_gpt_format and usi_gpt_build then: 10 neither copy is good.
 * The four edits (add, delete, resize, rename) then: 11 the two copies are not both good and the same.
 *
 * On a refusal head, tail and the numbers behind the pointers for answers are as they were.
 * Pointers for answers must be valid and differ, and point into no buffer. */

/* Writes both copies with no entries, and block 0. Refusals in order: 6, 1, 2; 3 the disk GUID is all zero. */
uint32_t usi_gpt_format(uint8_t *head, size_t head_len, uint8_t *tail, size_t tail_len, uint64_t n, uint64_t block, const uint8_t *guid, size_t guid_len);

/* Builds the table that a layout string describes: writes both copies, and block 0. What head and tail held does not matter.
 *
 * The string: uuid_disk=GUID first, then one or more partitions, parted by semicolons; one semicolon may stand at the end. A partition is fields parted by
 * commas, in any order, each at most once: name=, size= and uuid= must be there, start=, type= and the bare word bootable (attribute bit 2) may be.
 * A name has 1 to 36 bytes of 21 to 7E hex without comma and semicolon. uuid_disk and uuid are GUID texts, type is as usi_type_read takes it, data without it.
 * Start and size are bytes: decimal digits, leading zeros allowed, then KiB, MiB, GiB or nothing; below 2^64 once multiplied. No blank and no line end stands
 * anywhere, and the whole has at most 8,192 bytes.
 *
 * Partition k of the string gets slot k. One with a start stands exactly there, whatever the alignment; one without is placed as by usi_gpt_add, among the
 * partitions that stand before it in the string. Size 0 in the last partition reaches from its start, or without one from the lowest free multiple of
 * alignment, to the end of that run of free blocks.
 *
 * Refusals in order: 6, 1 (of head and tail), 2; 70 the string is out of form anywhere, or longer than 8,192 bytes; 3 uuid_disk is all zero; then of the first
 * partition at fault: 71 start or size is no multiple of block; 72 the block at start is in an earlier partition or not usable; 20 size is 0, but for the last
 * partition; 27 alignment is not 1, 8 or 2048; 21 the type is all zero; 22 uuid is all zero or an earlier partition's; 26 an earlier partition has the name;
 * 24 it is the 129th; 25 no room: fewer than size free blocks from start on, or, without start, no multiple of alignment has size (for size 0: one) free
 * blocks from it on. */
uint32_t usi_gpt_build(uint8_t *head, size_t head_len, uint8_t *tail, size_t tail_len, uint64_t n, uint64_t block, uint64_t alignment, const uint8_t *text,
                       size_t text_len);

/* The state of the two copies: 1 both good with equal disk GUID and entries (every byte of them), 2 both good but different (the primary is used),
 * 3 the primary only, 4 the backup only. Refusals in order: 6, 1, 2, 10. */
uint32_t usi_gpt_read(const uint8_t *head, size_t head_len, const uint8_t *tail, size_t tail_len, uint64_t n, uint64_t block, uint64_t *state);

/* Where the 16,384 entry bytes of the copy in use begin: *in_tail is 0 (in the head) or 1 (in the tail), *offset the byte in that buffer.
 * Refusals in order: 6, 1, 2, 10. */
uint32_t usi_gpt_table(const uint8_t *head, size_t head_len, const uint8_t *tail, size_t tail_len, uint64_t n, uint64_t block, uint64_t *in_tail,
                       uint64_t *offset);

/* The number of usable blocks in no partition, and the length of the longest run of such blocks. Refusals in order: 6, 1, 2, 10. */
uint32_t usi_gpt_free(const uint8_t *head, size_t head_len, const uint8_t *tail, size_t tail_len, uint64_t n, uint64_t block, uint64_t *free,
                      uint64_t *longest);

/* Answers the first used slot whose attributes have a bit set that the rule wants zero, 0 where none has, in the copy that usi_gpt_table answers.
 * rule is USI_PRESENT_RULE or USI_EARLIER_RULE; every other number is the earlier one too. A table that passes the earlier rule passes the present one.
 * An unused entry never offends, whatever it holds. Refusals in order: 6, 1, 2, 10. */
uint32_t usi_gpt_check(const uint8_t *head, size_t head_len, const uint8_t *tail, size_t tail_len, uint64_t n, uint64_t block, uint64_t rule,
                       uint64_t *slot);

/* Adds a partition of size blocks in the lowest unused slot, at the lowest block that is a multiple of alignment (1, 8 or 2048) and has size free
 * blocks from it on; answers slot and first block. The multiple is of the block's number on the disk, whatever the first usable block is.
 * All 128 bytes of the slot are written, whatever it held. rule is as in usi_gpt_check.
 * Refusals in order: 6, 1, 2, 10, 11; 20 size is 0; 27 alignment is not 1, 8 or 2048; 21 the type is all zero;
 * 22 the unique GUID is all zero or already in a used slot; 23 the name has a unit other than zero after a zero one;
 * 26 the name is not empty and another used slot has the same 72 bytes; 28 attributes have a bit set that the rule wants zero; 24 no unused slot;
 * 25 no room: no multiple of alignment has size free blocks from it on. */
uint32_t usi_gpt_add(uint8_t *head, size_t head_len, uint8_t *tail, size_t tail_len, uint64_t n, uint64_t block, const uint8_t *kind, size_t kind_len,
                     const uint8_t *unique, size_t unique_len, uint64_t size, uint64_t alignment, uint64_t attributes, uint64_t rule,
                     const uint16_t *name, size_t name_units, uint64_t *slot, uint64_t *first);

/* Zeroes a slot. Refusals in order: 6, 1, 2, 10, 11; 12 slot is not 1 to 128; 13 the slot is unused, even if it holds other bytes than zeros. */
uint32_t usi_gpt_delete(uint8_t *head, size_t head_len, uint8_t *tail, size_t tail_len, uint64_t n, uint64_t block, uint64_t slot);

/* Sets a partition's last block alone, to size blocks. Refusals in order: 6, 1, 2, 10, 11, 12, 13; 20 size is 0;
 * 25 a block of the new range lies past the last usable one or in another partition. */
uint32_t usi_gpt_resize(uint8_t *head, size_t head_len, uint8_t *tail, size_t tail_len, uint64_t n, uint64_t block, uint64_t slot, uint64_t size);

/* Sets a partition's name alone. Refusals in order: 6, 1, 2, 10, 11, 12, 13; 23 the name has a unit other than zero after a zero one;
 * 26 the name is not empty and another used slot has the same 72 bytes. A partition may be given the name that it has, unless another one has it too. */
uint32_t usi_gpt_rename(uint8_t *head, size_t head_len, uint8_t *tail, size_t tail_len, uint64_t n, uint64_t block, uint64_t slot,
                        const uint16_t *name, size_t name_units);

/* Writes the other copy from the good one (state 2: the backup from the primary; state 1: nothing), and answers the state found, as usi_gpt_read.
 * Refusals in order: 6, 1, 2, 10. */
uint32_t usi_gpt_repair(uint8_t *head, size_t head_len, uint8_t *tail, size_t tail_len, uint64_t n, uint64_t block, uint64_t *state);

/* The layout language. A text of at most 32,768 bytes describes an image and its sections, at most 128 of them on at most 8 levels.
 *
 * Refusals of a text, in order: 50 text_len is over 32,768; then the first fault from left to right, 51 the text is out of grammar, 52 a bad number,
 * 53 a bad name, 55 too many sections or levels, 56 an unknown or repeated flag; then over all sections 54 a name is used twice,
 * 56 CBFS on a section with children, 57 a size is undecided, 58 a section does not fit, 59 no section FMAP, or it has children or is too small for the map.
 *
 * On a refusal every buffer and every number behind a pointer for an answer is as it was.
 * Pointers for answers must be valid and differ, and point into no buffer. */

/* Reads a text: the image's name (32 bytes, zeros after the name), its size, its address or 0, and how many sections it has.
 * Refusals in order: 1 name_len is not 32; then those of a text. */
uint32_t usi_fmd_read(const uint8_t *text, size_t text_len, uint8_t *name, size_t name_len, uint64_t *size, uint64_t *address, uint64_t *count);

/* Lists the sections in text order, each in 42 bytes as an area of the flash map: position in the image (4), size (4), name (32), flags (2; 8 is PRESERVE),
 * numbers little-endian; answers how many there are. The records that follow them are as they were.
 * Refusals in order: 1 records_len is not 5,376, which is 128 records; then those of a text. */
uint32_t usi_fmd_records(const uint8_t *text, size_t text_len, uint8_t *records, size_t records_len, uint64_t *count);

/* Writes the flash map of a text into an image, at the start of section FMAP; no other byte changes. usi_fmap_find finds it unless there is a lower good map.
 * Refusals in order: those of a text; 1 image_len is not the size that the text states. */
uint32_t usi_fmd_write(const uint8_t *text, size_t text_len, uint8_t *image, size_t image_len);

#ifdef __cplusplus
}
#endif

#endif
