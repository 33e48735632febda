"""The numbers that the calls of usigrambal answer, with their words: refusals, the rules of a flash map, the states of a disk."""

import enum


class _Worded(enum.IntEnum):
    """Numbers with words."""

    def __new__(cls, number, words):
        one = int.__new__(cls, number)
        one._value_ = number
        one.words = words
        return one


class Refusal(_Worded):
    """Why a call is refused; each number has its words."""

    WRONG_LENGTH = 1, "a lent buffer has a wrong length"
    BLOCK_COUNT = 2, "the number of blocks is outside its range"
    NO_DISK_GUID = 3, "the disk GUID is all zero"
    BLOCK_SIZE = 6, "the block size is neither 512 nor 4096"
    NEITHER_GOOD = 10, "neither GPT copy is good"
    NOT_THE_SAME = 11, "the GPT copies are not both good and the same"
    NO_SUCH_SLOT = 12, "the partition number is not 1 to 128"
    SLOT_UNUSED = 13, "the slot is unused"
    NO_SIZE = 20, "the size is zero"
    NO_TYPE = 21, "the type GUID is zero"
    BAD_UNIQUE_GUID = 22, "the unique GUID is zero or already in a used slot"
    BAD_PARTITION_NAME = 23, "the name has a nonzero unit after a zero one"
    NO_UNUSED_SLOT = 24, "no unused slot"
    NO_ROOM = 25, "no room"
    PARTITION_NAME_TAKEN = 26, "the name is already in another used slot"
    ALIGNMENT = 27, "the alignment is not 1, 8 or 2048 blocks"
    ATTRIBUTE_BITS = 28, "an attribute bit is set that the rule wants zero"
    NOT_A_GUID = 30, "not a GUID text"
    IMAGE_LENGTH = 40, "the image length is outside its range"
    NO_SIGNATURE = 41, "the signature of a map stands nowhere"
    NO_GOOD_MAP = 42, "no good map"
    TEXT_TOO_LONG = 50, "the layout text is too long"
    OUT_OF_GRAMMAR = 51, "the text is out of grammar"
    BAD_NUMBER = 52, "a bad number"
    BAD_NAME = 53, "a bad name"
    NAME_TWICE = 54, "a section name is used twice"
    TOO_MANY = 55, "too many sections or levels"
    BAD_FLAG = 56, "an unknown or repeated flag, or CBFS on a section with children"
    UNDECIDED = 57, "the size of a section is undecided"
    DOES_NOT_FIT = 58, "a section does not fit"
    NO_MAP_SECTION = 59, "no section FMAP, or it has children or is too small"
    AREA_MISSING = 60, "a preserved area is missing in the new map"
    AREA_OTHER_SIZE = 61, "a preserved area has another size in the new map"
    AREAS_SHARE = 62, "areas to be carried share a byte"
    AREA_ON_MAP = 63, "an area to be carried shares a byte with area FMAP of the new map"
    STRING_FORM = 70, "the layout string is out of form"
    NOT_WHOLE_BLOCKS = 71, "a start or a size is not a whole number of blocks"
    START_TAKEN = 72, "the start block is taken or not usable"
    NO_SUCH_AREA = 255, "the map has no such area"


class Rule(_Worded):
    """The rules of a flash map in the order in which they are judged; the words say how one is broken."""

    NONE = 0, "a good map"
    SIGNATURE = 1, "the eight signature bytes do not stand there"
    HEADER_END = 2, "the header does not end in the image"
    MAJOR = 3, "the major version is not 1"
    MINOR = 4, "the minor version is neither 0 nor 1"
    IMAGE_SIZE = 5, "the image size in the map is not the length of the image"
    NO_AREA = 6, "the map has no area"
    TOO_MANY_AREAS = 7, "the map has more than 128 areas"
    MAP_END = 8, "the map does not end in the image"
    NAME = 9, "the name of the map is not 1 to 31 bytes of 21 to 7E hex and then zeros"
    AREA_SIZE = 10, "an area has no byte"
    AREA_END = 11, "an area does not end in the image"
    AREA_NAME = 12, "the name of an area is not 1 to 31 bytes of 21 to 7E hex and then zeros"
    MAP_AREA = 13, "no area FMAP starts at the map and holds all of it"
    SAME_NAME = 14, "two areas have one name"
    CROSSING = 15, "two areas share bytes, and neither lies in the other"


class State(enum.IntEnum):
    """The two copies of a disk's table: both good and the same, both good but different (the primary is used), one alone."""

    SAME = 1
    DIFFERENT = 2
    PRIMARY_ONLY = 3
    BACKUP_ONLY = 4
