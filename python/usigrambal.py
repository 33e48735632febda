"""Usigrambal from Python: flash layouts (FMD), flash maps (FMAP) and GPT disks, by the shared library libusigrambal.so.3.

Standard library alone. Buffers go in as bytes (or bytearray), numbers as int. A call that changes a buffer answers the changed
one as new bytes and leaves its argument alone. A refused call raises Refused, which has the number and its words.
A disk is its head and its tail (the first and the last blocks), the number n of its blocks, and the bytes of a block, 512 or 4096.

usigrambal_words.py stands beside this module and has Refusal, Rule and State, which are names of this one too.
The library is looked for in this order: the file that the environment variable USIGRAMBAL_LIBRARY names; beside this module;
../../lib from it (as `make install` puts both) and ../target/sharedlib (as `make shared` writes it); the system's path.

    >>> import usigrambal
    >>> head, tail = bytes(usigrambal.head_len(512)), bytes(usigrambal.tail_len(512))
    >>> head, tail = usigrambal.gpt_format(head, tail, 1000000, 512, bytes([1] * 16))
    >>> usigrambal.gpt_free(head, tail, 1000000, 512)
    (999933, 999933)
"""

import ctypes
import os

from usigrambal_words import Refusal, Rule, State

__version__ = "0.6.0"

BLOCK_SIZES = (512, 4096)
ENTRIES_LEN = 16384
ENTRY_LEN = 128
GUID_LEN = 16
GUID_TEXT_LEN = 36
NAME_UNITS = 36
AREA_LEN = 42
IMAGE_NAME_LEN = 32
RECORDS_LEN = 5376
STRING_MAX = 8192
PRESERVE = 8
PRESENT_RULE = 0
EARLIER_RULE = 1


class Refused(Exception):
    """A call was refused, and nothing has changed: `number` is the refusal's number, `words` says what that means."""

    def __init__(self, number):
        self.number = number
        self.words = Refusal(number).words
        super().__init__(f"{number}: {self.words}")


def _library():
    """The shared library, with the types of its calls."""
    here = os.path.dirname(os.path.abspath(__file__))
    name = "libusigrambal.so.3"
    named = os.environ.get("USIGRAMBAL_LIBRARY")
    places = [os.path.join(here, *parts, name) for parts in ((), ("..", "..", "lib"), ("..", "target", "sharedlib"))]
    path = named or next((place for place in places if os.path.exists(place)), name)
    library = ctypes.CDLL(path)
    for call, arguments in _CALLS.items():
        function = getattr(library, call)
        function.restype = ctypes.c_uint32
        function.argtypes = [kind for argument in arguments for kind in _KINDS[argument]]
    return library


# A buffer is a pointer and a length, in bytes or of a name in 16-bit units; "number" is a number, "answer" a pointer to one.
_KINDS = {
    "buffer": (ctypes.c_void_p, ctypes.c_size_t),
    "number": (ctypes.c_uint64,),
    "answer": (ctypes.POINTER(ctypes.c_uint64),),
}

_DISK = ("buffer", "buffer", "number", "number")

_CALLS = {
    "usi_crc32": ("buffer",),
    "usi_guid_read": ("buffer", "buffer"),
    "usi_type_read": ("buffer", "buffer"),
    "usi_guid_write": ("buffer", "buffer"),
    "usi_fmap_find": ("buffer", "answer"),
    "usi_fmap_fault": ("buffer", "number", "answer"),
    "usi_fmap_area": ("buffer", "number", "buffer"),
    "usi_fmap_named": ("buffer", "buffer", "answer"),
    "usi_fmap_carry": ("buffer", "buffer"),
    "usi_gpt_format": _DISK + ("buffer",),
    "usi_gpt_build": _DISK + ("number", "buffer"),
    "usi_gpt_read": _DISK + ("answer",),
    "usi_gpt_table": _DISK + ("answer", "answer"),
    "usi_gpt_free": _DISK + ("answer", "answer"),
    "usi_gpt_check": _DISK + ("number", "answer"),
    "usi_gpt_add": _DISK + ("buffer", "buffer", "number", "number", "number", "number", "buffer", "answer", "answer"),
    "usi_gpt_delete": _DISK + ("number",),
    "usi_gpt_resize": _DISK + ("number", "number"),
    "usi_gpt_rename": _DISK + ("number", "buffer"),
    "usi_gpt_repair": _DISK + ("answer",),
    "usi_fmd_read": ("buffer", "buffer", "answer", "answer", "answer"),
    "usi_fmd_records": ("buffer", "buffer", "answer"),
    "usi_fmd_write": ("buffer", "buffer"),
}


def _copy(data):
    """A buffer of its own for a call, with the bytes of `data`."""
    data = bytes(data)
    return (ctypes.c_uint8 * len(data)).from_buffer_copy(data)


def _name(name):
    """A partition's name as units: of a text those that it has in UTF-16, then zeros up to 36; anything else is taken as a list of units."""
    if isinstance(name, str):
        stored = name.encode("utf-16-le", "surrogatepass")
        units = [int.from_bytes(stored[at : at + 2], "little") for at in range(0, len(stored), 2)]
        units += [0] * (NAME_UNITS - len(units))
    else:
        units = list(name)
    return (ctypes.c_uint16 * len(units))(*units)


def _number(value):
    """A number of 64 bits; ctypes would cut another one silently."""
    if not 0 <= value < 1 << 64:
        raise OverflowError(f"{value} is not a number of 64 bits")
    return value


def _call(name, *arguments):
    """Calls the library; the answer of every call but usi_crc32 is 0 or the number of its refusal."""
    passed = []
    for kind, argument in zip(_CALLS[name], arguments):
        if kind == "buffer":
            passed += [argument, len(argument)]
        else:
            passed.append(_number(argument) if kind == "number" else ctypes.byref(argument))
    return getattr(_LIBRARY, name)(*passed)


def _accepted(name, *arguments):
    """Calls the library, and raises Refused if it refuses."""
    answer = _call(name, *arguments)
    if answer:
        raise Refused(answer)


def _numbers(count, name, *arguments):
    """So many numbers that a call answers, behind its other arguments."""
    answers = [ctypes.c_uint64() for _ in range(count)]
    _accepted(name, *arguments, *answers)
    return tuple(answer.value for answer in answers)


def crc32(data):
    """The CRC-32 of UEFI, zlib and gzip."""
    return _call("usi_crc32", _copy(data))


def guid_read(text):
    """The 16 stored bytes of a GUID text. Refused: 30."""
    guid = _copy(bytes(GUID_LEN))
    _accepted("usi_guid_read", _text(text), guid)
    return bytes(guid)


def type_read(text):
    """The same for a partition type, which may also be system, msft, data, linux or swap. Refused: 30."""
    guid = _copy(bytes(GUID_LEN))
    _accepted("usi_type_read", _text(text), guid)
    return bytes(guid)


def guid_write(guid):
    """16 stored bytes as a GUID text in upper case. Refused: 1."""
    text = _copy(bytes(GUID_TEXT_LEN))
    _accepted("usi_guid_write", _copy(guid), text)
    return bytes(text).decode("ascii")


def fmap_find(image):
    """The position of the lowest good map of an image. Refused: 40, 41, 42."""
    return _numbers(1, "usi_fmap_find", _copy(image))[0]


def fmap_fault(image, position):
    """The first Rule that a map at a position breaks, Rule.NONE where a good map stands there. Refused: 40."""
    return Rule(*_numbers(1, "usi_fmap_fault", _copy(image), position))


def fmap_area(image, k):
    """Area k of the map, counted from 0: offset, size, name (bytes), flags. Refused: 40, 41, 42, 255."""
    area = _copy(bytes(AREA_LEN))
    _accepted("usi_fmap_area", _copy(image), k, area)
    return _record(bytes(area))


def fmap_named(image, name):
    """The number of the area with a name, counted from 0. Refused: 40, 41, 42, 255."""
    return _numbers(1, "usi_fmap_named", _copy(image), _text(name))[0]


def fmap_carry(old, new):
    """The new image with each area that the old map preserves, byte for byte. Refused: 40, 41, 42 of either image, 60 to 63."""
    image = _copy(new)
    _accepted("usi_fmap_carry", _copy(old), image)
    return bytes(image)


def head_len(block):
    """The bytes of a disk's head, its first blocks, where a block has so many bytes. Refused: 6."""
    return 2 * _block_size(block) + ENTRIES_LEN


def tail_len(block):
    """The bytes of a disk's tail, its last blocks, where a block has so many bytes. Refused: 6."""
    return _block_size(block) + ENTRIES_LEN


def _block_size(block):
    if block not in BLOCK_SIZES:
        raise Refused(Refusal.BLOCK_SIZE.value)
    return block


def gpt_format(head, tail, n, block, guid):
    """Head and tail of a disk of n blocks, each of `block` bytes, with an empty table, and block 0. Refused: 6, 1, 2, 3."""
    return _edited("usi_gpt_format", head, tail, n, block, _copy(guid))


def gpt_build(head, tail, n, block, text, *, alignment=2048):
    """Head and tail with the table that a layout string describes, and block 0, whatever they held: "uuid_disk=GUID;name=boot,size=16MiB,uuid=GUID".
    usigrambal.h tells its form. A partition without start goes to a multiple of `alignment`, as in gpt_add.
    Refused: 6, 1, 2, 70, 3, then of the first partition at fault 71, 72, 20, 27, 21, 22, 26, 24, 25."""
    return _edited("usi_gpt_build", head, tail, n, block, alignment, _text(text))


def gpt_read(head, tail, n, block):
    """The State of the two copies. Refused: 6, 1, 2, 10."""
    return State(*_numbers(1, "usi_gpt_read", _copy(head), _copy(tail), n, block))


def gpt_table(head, tail, n, block):
    """Whether the entries in use stand in the tail, and at which byte of it or of the head. Refused: 6, 1, 2, 10."""
    in_tail, offset = _numbers(2, "usi_gpt_table", _copy(head), _copy(tail), n, block)
    return in_tail != 0, offset


def gpt_entries(head, tail, n, block):
    """The 16,384 entry bytes of the copy in use: 128 a slot, unused where the first 16, its type GUID, are zero. Refused: 6, 1, 2, 10."""
    in_tail, offset = gpt_table(head, tail, n, block)
    return bytes(tail if in_tail else head)[offset : offset + ENTRIES_LEN]


def gpt_free(head, tail, n, block):
    """How many usable blocks are in no partition, and the longest run of them. Refused: 6, 1, 2, 10."""
    return _numbers(2, "usi_gpt_free", _copy(head), _copy(tail), n, block)


def gpt_check(head, tail, n, block, rule=PRESENT_RULE):
    """The first used slot whose attributes have a bit set that the rule wants zero, 0 where none has: bits 3 to 47 by PRESENT_RULE,
    bits 1 to 47 by EARLIER_RULE and by every other number. Refused: 6, 1, 2, 10."""
    return _numbers(1, "usi_gpt_check", _copy(head), _copy(tail), n, block, rule)[0]


def gpt_add(head, tail, n, block, kind, unique, size, attributes=0, name="", *, alignment=2048, rule=PRESENT_RULE):
    """Head and tail with a new partition of `size` blocks, then its slot and its first block: the lowest multiple of `alignment` (1, 8 or
    2048 blocks) with room. The name is a text or a list of 36 units; the rule is as in gpt_check.
    Refused: 6, 1, 2, 10, 11, 20, 27, 21 to 23, 26, 28, 24, 25."""
    more = (_copy(kind), _copy(unique), size, alignment, attributes, rule, _name(name))
    return _edited("usi_gpt_add", head, tail, n, block, *more, answers=2)


def gpt_delete(head, tail, n, block, slot):
    """Head and tail without the partition in a slot. Refused: 6, 1, 2, 10 to 13."""
    return _edited("usi_gpt_delete", head, tail, n, block, slot)


def gpt_resize(head, tail, n, block, slot, size):
    """Head and tail with another size of a partition. Refused: 6, 1, 2, 10 to 13, 20, 25."""
    return _edited("usi_gpt_resize", head, tail, n, block, slot, size)


def gpt_rename(head, tail, n, block, slot, name):
    """Head and tail with another name of a partition. Refused: 6, 1, 2, 10 to 13, 23, 26."""
    return _edited("usi_gpt_rename", head, tail, n, block, slot, _name(name))


def gpt_repair(head, tail, n, block):
    """Head and tail with both copies good and the same, then the State that was found. Refused: 6, 1, 2, 10."""
    head, tail, state = _edited("usi_gpt_repair", head, tail, n, block, answers=1)
    return head, tail, State(state)


def _edited(call, head, tail, *more, answers=0):
    """Head and tail as the call leaves them, then so many numbers that it answers."""
    head, tail = _copy(head), _copy(tail)
    numbers = _numbers(answers, call, head, tail, *more)
    return (bytes(head), bytes(tail), *numbers)


def fmd_read(text):
    """What a layout text says of its image: name (bytes), size, address or 0, number of sections. Refused: 50 to 59."""
    name = _copy(bytes(IMAGE_NAME_LEN))
    numbers = _numbers(3, "usi_fmd_read", _text(text), name)
    return (bytes(name).rstrip(b"\0"), *numbers)


def fmd_records(text):
    """The sections of a layout text in its order: position in the image, size, name (bytes), flags. Refused: 50 to 59."""
    records = _copy(bytes(RECORDS_LEN))
    (count,) = _numbers(1, "usi_fmd_records", _text(text), records)
    stored = bytes(records)
    return [_record(stored[at : at + AREA_LEN]) for at in range(0, AREA_LEN * count, AREA_LEN)]


def fmd_write(text, image):
    """The image with the map of a layout text at the start of section FMAP. Refused: 50 to 59, 1."""
    written = _copy(image)
    _accepted("usi_fmd_write", _text(text), written)
    return bytes(written)


def _text(text):
    return _copy(text.encode() if isinstance(text, str) else text)


def _record(stored):
    """An area's 42 bytes as offset, size, name, flags."""
    number = lambda at, length: int.from_bytes(stored[at : at + length], "little")
    return number(0, 4), number(4, 4), stored[8:40].rstrip(b"\0"), number(40, 2)


_LIBRARY = _library()
