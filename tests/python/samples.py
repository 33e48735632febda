"""python/usigrambal.py: its names are those of the header, the samples of the rules come out, and a refusal changes nothing."""

import collections
import ctypes
import re
import unittest
from pathlib import Path

import usigrambal as usi
from usigrambal import Refused, State

HEADER = Path("include/usigrambal.h").read_text()
DATA = "EBD0A0A2-B9E5-4433-87C0-68B6B72699C7"
ONE, TWO = bytes([1] * 16), bytes([2] * 16)
LAYOUT = Path("examples/sample10.fmd").read_text()
SECTIONS = [
    (0, 0x200000, b"BOOT", 0),
    (0, 0x1000, b"FMAP", 0),
    (0x300000, 0x10000, b"RW_CAL", 8),
    (0x310000, 0x4F0000, b"RW_LOG", 0),
]

# 004: fields in any order, a last semicolon; two partitions with sizes of their own, and one that takes what is left.
STRING = (
    "uuid_disk=6d8f4c1e-0b7a-4f35-9a55-1c2d3e4f5a6b;name=u-boot,size=0064KiB,uuid=11111111-2222-4333-8444-555555555555;"
    "bootable,uuid=22222222-3333-4444-8555-666666666666,type=linux,start=128KiB,size=4096,name=ker=nel;"
    "name=rootfs,size=0,uuid=33333333-4444-4555-8666-777777777777;"
)


# The block size, the lengths of head and tail, the first usable block.
Shape = collections.namedtuple("Shape", "block head tail first")
SHAPES = [Shape(512, 17408, 16896, 34), Shape(4096, 24576, 20480, 6)]
NO_BLOCK_SIZES = [0, 511, 513, 1024, 4095, 4097, (1 << 32) + 512, (1 << 64) - 1]


def formatted(n, block):
    return usi.gpt_format(bytes(usi.head_len(block)), bytes(usi.tail_len(block)), n, block, ONE)


def replaced(part, at, stored):
    return part[:at] + stored + part[at + len(stored) :]


def summed(head, tail, block):
    """Head and tail with the CRCs that belong to them."""

    def header(stored, entries):
        crc = lambda part: usi.crc32(part).to_bytes(4, "little")
        stored = replaced(replaced(stored, 88, crc(entries)), 16, bytes(4))
        return replaced(stored, 16, crc(stored[:92]))

    entries = usi.ENTRIES_LEN
    return head[:block] + header(head[block : 2 * block], head[2 * block :]) + head[2 * block :], tail[:entries] + header(tail[entries:], tail[:entries])


def poked(head, tail, block, slot, at, stored):
    """Head and tail with other bytes from a place of a slot on, in both copies, and the CRCs that belong to them."""
    place = usi.ENTRY_LEN * (slot - 1) + at
    return summed(replaced(head, 2 * block + place, stored), replaced(tail, place, stored), block)


class Names(unittest.TestCase):
    def test_refusals_and_rules(self):
        numbers = {name: int(number) for name, number in re.findall(r"^    USI_(\w+) = (\d+)", HEADER, re.M)}
        words = dict(re.findall(r'case USI_(\w+): return "(.*)";', HEADER))
        self.assertEqual(numbers.pop("ACCEPTED"), 0)
        self.assertEqual(words.pop("ACCEPTED"), "accepted")
        named = [(one.name, one) for one in usi.Refusal] + [("RULE_" + one.name, one) for one in usi.Rule]
        self.assertEqual(numbers, {name: int(one) for name, one in named})
        self.assertEqual(words, {name: one.words for name, one in named})

    def test_constants(self):
        names = ["ENTRIES_LEN", "ENTRY_LEN", "GUID_LEN", "GUID_TEXT_LEN", "NAME_UNITS", "AREA_LEN", "IMAGE_NAME_LEN", "RECORDS_LEN"]
        for name in names + ["STRING_MAX", "PRESENT_RULE", "EARLIER_RULE"]:
            self.assertIn(f"#define USI_{name} {getattr(usi, name)}\n", HEADER)
        self.assertIn(f"#define USI_FLAG_PRESERVE {usi.PRESERVE}\n", HEADER)
        self.assertIn(f'#define USI_VERSION "{usi.__version__}"\n', HEADER)
        for state in State:
            self.assertIn(f"#define USI_STATE_{state.name} {int(state)}\n", HEADER)

    def test_lengths(self):
        """What the header's macros over the block size say, too."""
        macros = dict(re.findall(r"#define USI_(\w+)\(block\) (.*)", HEADER))
        self.assertEqual(usi.BLOCK_SIZES, tuple(shape.block for shape in SHAPES))
        for shape in SHAPES:
            self.assertEqual((usi.head_len(shape.block), usi.tail_len(shape.block)), (shape.head, shape.tail))
            numbers = {"block": shape.block, "USI_ENTRIES_LEN": usi.ENTRIES_LEN}
            self.assertEqual(eval(macros["HEAD_LEN"], numbers), shape.head)
            self.assertEqual(eval(macros["TAIL_LEN"], numbers), shape.tail)
        for block in NO_BLOCK_SIZES:
            for length in (usi.head_len, usi.tail_len):
                with self.assertRaisesRegex(Refused, "^6: the block size is neither 512 nor 4096$"):
                    length(block)

    def test_calls(self):
        """Every prototype of the header, with its parameters as the module passes them."""
        kinds = {"size_t": ctypes.c_size_t, "uint64_t": ctypes.c_uint64, "uint64_t *": ctypes.POINTER(ctypes.c_uint64)}
        prototypes = re.findall(r"^uint32_t (usi_\w+)\(([^)]*)\);", HEADER, re.M)
        for name, parameters in prototypes:
            types = [re.sub(r"\w+$", "", one.strip()).strip() for one in parameters.split(",")]
            expected = [kinds.get(one, ctypes.c_void_p) for one in types]
            self.assertEqual(getattr(usi._LIBRARY, name).argtypes, expected, name)
            self.assertTrue(getattr(usi, name.replace("usi_", "")).__doc__)
        self.assertEqual({name for name, _ in prototypes}, set(usi._CALLS))


class Samples(unittest.TestCase):
    def refused(self, number, call, *arguments, **more):
        """The call is refused with that number, and its arguments are as they were."""
        lent = [bytearray(one) if isinstance(one, bytes) else one for one in arguments]
        with self.assertRaises(Refused) as caught:
            call(*lent, **more)
        self.assertEqual(caught.exception.number, number)
        self.assertEqual(str(caught.exception), f"{number}: {usi.Refusal(number).words}")
        self.assertEqual(lent, list(arguments))

    def test_1_and_2(self):
        for block, head_len, tail_len, least in SHAPES:
            n = 2 * least
            self.refused(2, usi.gpt_format, bytes(head_len), bytes(tail_len), n - 1, block, ONE)
            head, tail = formatted(n, block)
            head, tail, slot, first = usi.gpt_add(head, tail, n, block, TWO, ONE, 1, alignment=1)
            self.assertEqual((slot, first, usi.gpt_free(head, tail, n, block)), (1, least, (0, 0)))
            self.refused(25, usi.gpt_add, head, tail, n, block, TWO, TWO, 1, alignment=1)

    def test_3(self):
        number = lambda part, at: int.from_bytes(part[at : at + 8], "little")
        for block, last, entries in [(512, 66, 67), (4096, 94, 95)]:
            head, tail = formatted(100, block)
            # last usable, the backup header's block, its first block of entries
            stored = number(head, block + 48), number(head, block + 32), number(tail, 16384 + 72)
            self.assertEqual(stored, (last, 99, entries))

    def test_4_and_5(self):
        """A disk with 33 usable blocks; with blocks of 512 bytes it has 100."""
        for block, _, _, least in SHAPES:
            n = 2 * least + 32
            head, tail = formatted(n, block)
            placed = []
            for unique, size in [(1, 10), (2, 5), (None, 1), (3, 11), (4, 10)]:
                if unique is None:
                    head, tail = usi.gpt_delete(head, tail, n, block, size)
                else:
                    head, tail, slot, first = usi.gpt_add(head, tail, n, block, TWO, bytes([unique] * 16), size, alignment=1)
                    placed.append((slot, first))
            self.assertEqual(placed, [(1, least), (2, least + 10), (1, least + 15), (3, least)])
            self.assertEqual(usi.gpt_free(head, tail, n, block), (7, 7))
            self.refused(25, usi.gpt_resize, head, tail, n, block, 1, 19)
            head, tail = usi.gpt_resize(head, tail, n, block, 1, 18)
            self.assertEqual(usi.gpt_free(head, tail, n, block), (0, 0))
            self.refused(25, usi.gpt_add, head, tail, n, block, TWO, bytes([5] * 16), 2**64 - 1, alignment=1)  # sample 9
            self.refused(13, usi.gpt_delete, head, tail, n, block, 4)
            self.refused(12, usi.gpt_delete, head, tail, n, block, 129)

    def test_alignment(self):
        """2048 blocks where nothing is said; another number than the three is 27, after 20 and before 21."""
        for shape, lowest in zip(SHAPES, ({1: 34, 8: 40}, {1: 6, 8: 8})):
            size = 10000, shape.block
            empty = formatted(*size)
            for alignment, first in {**lowest, 2048: 2048}.items():
                *disk, _, placed = usi.gpt_add(*empty, *size, TWO, ONE, 9, alignment=alignment)
                self.assertEqual(placed, first)
                *_, second = usi.gpt_add(*disk, *size, TWO, TWO, 9, alignment=alignment)
                self.assertEqual(second, first + {1: 9, 8: 16, 2048: 2048}[alignment])
            self.assertEqual(usi.gpt_add(*empty, *size, TWO, ONE, 9)[-1], 2048)
            # From 2048 on there are as many blocks as up to the last usable one.
            most = size[0] - shape.first - 2047
            self.refused(25, usi.gpt_add, *empty, *size, TWO, ONE, most + 1)
            self.assertEqual(usi.gpt_add(*empty, *size, TWO, ONE, most)[-1], 2048)
            for alignment in (0, 2, 3, 7, 9, 2047, 2049, (1 << 32) + 8, (1 << 64) - 1):
                self.refused(27, usi.gpt_add, *empty, *size, bytes(16), ONE, 1, alignment=alignment)
                self.refused(20, usi.gpt_add, *empty, *size, bytes(16), ONE, 0, alignment=alignment)
            self.refused(21, usi.gpt_add, *empty, *size, bytes(16), ONE, 1, alignment=8)

    def test_block_sizes(self):
        """Another block size is refused before all else; one disk by the other block size has wrong lengths."""
        for shape in SHAPES:
            head, tail = formatted(100, shape.block)
            for block in NO_BLOCK_SIZES:
                self.every_disk_call_refuses(6, head, tail, 100, block)
                self.every_disk_call_refuses(6, b"", b"", 0, block, guid=bytes(15), name=[0])
            for other in usi.BLOCK_SIZES:
                if other != shape.block:
                    self.every_disk_call_refuses(1, head, tail, 100, other)

    def every_disk_call_refuses(self, number, head, tail, n, block, guid=TWO, name=""):
        disk = head, tail, n, block
        self.refused(number, usi.gpt_format, *disk, guid)
        self.refused(number, usi.gpt_build, *disk, b"", alignment=3)
        for call in (usi.gpt_read, usi.gpt_table, usi.gpt_entries, usi.gpt_free, usi.gpt_check, usi.gpt_repair):
            self.refused(number, call, *disk)
        self.refused(number, usi.gpt_add, *disk, guid, ONE, 1, 0, name)
        self.refused(number, usi.gpt_add, *disk, ONE, guid, 1, 0, name)
        self.refused(number, usi.gpt_delete, *disk, 1)
        self.refused(number, usi.gpt_resize, *disk, 1, 1)
        self.refused(number, usi.gpt_rename, *disk, 1, name)

    def test_6(self):
        stored = bytes.fromhex("A2A0D0EBE5B9334487C068B6B72699C7")
        self.assertEqual((usi.type_read("data"), usi.guid_read(DATA.lower()), usi.guid_write(stored)), (stored, stored, DATA))
        self.refused(30, usi.type_read, b"Data")
        self.refused(30, usi.guid_read, b"data")
        self.refused(1, usi.guid_write, bytes(15))

    def test_7_and_8(self):
        sections = usi.fmd_records("I 1K { FMAP 512 A 10 K 9 }")
        self.assertEqual([(size, name) for _, size, name, _ in sections], [(512, b"FMAP"), (10, b"A"), (9, b"K")])
        self.refused(52, usi.fmd_read, b"I 1K { FMAP 512 A 010 }")
        self.assertEqual(usi.fmd_records("I 1K { FMAP 512 A 0x10 }")[1][1], 16)

    def test_10(self):
        self.assertEqual(usi.fmd_read(LAYOUT), (b"PRINTNODE", 0x800000, 0xFF800000, 4))
        self.assertEqual(usi.fmd_records(LAYOUT), SECTIONS)
        old = bytearray(usi.fmd_write(LAYOUT, bytes(0x800000)))
        self.assertEqual((usi.fmap_find(old), usi.fmap_named(old, "RW_CAL"), usi.fmap_area(old, 2)), (0, 2, SECTIONS[2]))
        self.assertEqual((usi.fmap_fault(old, 0), usi.fmap_fault(old, 1)), (usi.Rule.NONE, usi.Rule.SIGNATURE))
        old[0x300000:0x300003] = b"cal"
        new = usi.fmd_write(Path("examples/update.fmd").read_text(), bytes(0x800000))
        carried = bytearray(new)
        carried[0x500000:0x500003] = b"cal"
        self.assertEqual(usi.fmap_carry(old, new), carried)
        self.refused(1, usi.fmd_write, LAYOUT.encode(), bytes(98))
        self.refused(255, usi.fmap_area, bytes(old), 4)
        self.refused(255, usi.fmap_named, bytes(old), b"RW")
        self.refused(41, usi.fmap_carry, bytes(98), new)
        self.refused(40, usi.fmap_find, bytes(97))

    def test_copies_and_names(self):
        for block in usi.BLOCK_SIZES:
            size = 1 << 32, block
            head, tail = formatted(*size)
            head, tail, slot, _ = usi.gpt_add(head, tail, *size, TWO, ONE, 7, attributes=1 << 63, name="Größe")
            entry = usi.gpt_entries(head, tail, *size)[: usi.ENTRY_LEN]
            self.assertEqual((entry[:16], entry[16:32], entry[48:56]), (TWO, ONE, (1 << 63).to_bytes(8, "little")))
            self.assertEqual(entry[56:].decode("utf-16-le").rstrip("\0"), "Größe")
            head, tail = usi.gpt_rename(head, tail, *size, slot, [ord("b")] + [0] * 35)
            self.assertEqual(usi.gpt_entries(head, tail, *size)[56:60], b"b\0\0\0")
            self.refused(23, usi.gpt_rename, head, tail, *size, 1, [0, 1] + [0] * 34)
            self.refused(1, usi.gpt_rename, head, tail, *size, 1, "x" * 37)
            self.assertEqual((usi.gpt_read(head, tail, *size), usi.gpt_table(head, tail, *size)), (State.SAME, (False, 2 * block)))
            lost = bytes(2 * block) + head[2 * block :]
            self.assertEqual((usi.gpt_read(lost, tail, *size), usi.gpt_table(lost, tail, *size)), (State.BACKUP_ONLY, (True, 0)))
            self.refused(11, usi.gpt_delete, lost, tail, *size, 1)
            repaired = usi.gpt_repair(lost, tail, *size)
            self.assertEqual((repaired[0][block:], repaired[1:]), (head[block:], (tail, State.BACKUP_ONLY)))
            for number in (-1, 1 << 64):
                with self.assertRaises(OverflowError):
                    usi.gpt_read(head, tail, number, block)
                with self.assertRaises(OverflowError):
                    usi.gpt_read(head, tail, 1 << 32, number)

    def test_names(self):
        """A name that another used slot has is 26, after 23 and before 24 and 25, in a rename last; all 72 bytes count, and '' may repeat."""
        for block in usi.BLOCK_SIZES:
            size = 100, block
            guid = lambda number: bytes([number] * 16)
            add = lambda disk, number, name: usi.gpt_add(*disk, *size, TWO, guid(number), 1, name=name, alignment=1)[:2]
            disk = add(add(add(formatted(*size), 1, "scratch"), 2, ""), 3, "")
            for blocks in (1, 1000):
                self.refused(26, usi.gpt_add, *disk, *size, TWO, guid(4), blocks, name="scratch", alignment=1)
            self.refused(22, usi.gpt_add, *disk, *size, TWO, guid(3), 1, name="scratch", alignment=1)
            self.assertEqual(usi.gpt_rename(*disk, *size, 1, "scratch"), disk)
            self.refused(26, usi.gpt_rename, *disk, *size, 2, "scratch")
            self.refused(13, usi.gpt_rename, *disk, *size, 4, "scratch")
            self.refused(26, usi.gpt_rename, *add(usi.gpt_rename(*disk, *size, 2, "x" * 36), 4, "x" * 35 + "y"), *size, 3, "x" * 36)
            # By no call: a unit behind the name and a zero, the name twice, and the second without a type.
            called = "scratch".encode("utf-16-le")
            foreign = poked(*disk, block, 3, 56, called + bytes(2) + b"z")
            self.assertEqual(usi.gpt_rename(*foreign, *size, 1, "scratch"), foreign)
            units = [*b"scratch", 0, ord("z")] + [0] * 27
            self.refused(23, usi.gpt_add, *foreign, *size, TWO, guid(4), 1, name=units, alignment=1)
            self.refused(23, usi.gpt_rename, *foreign, *size, 2, units)
            double = poked(*disk, block, 3, 56, called)
            self.assertEqual(usi.gpt_read(*double, *size), State.SAME)
            self.refused(26, usi.gpt_rename, *double, *size, 1, "scratch")
            self.refused(26, usi.gpt_rename, *double, *size, 3, "scratch")
            self.assertEqual(usi.gpt_rename(*double, *size, 3, ""), disk)
            unused = poked(*double, block, 3, 0, bytes(16))
            self.assertEqual(usi.gpt_rename(*unused, *size, 1, "scratch"), unused)

    def test_attributes(self):
        """A bit that the rule wants zero is 28, after 26 and before 25; the check answers the first used slot that has one, or 0."""
        for block in usi.BLOCK_SIZES:
            size = 100, block
            *empty, slot, _ = usi.gpt_add(*formatted(*size), *size, TWO, ONE, 1, name="a", alignment=1, rule=usi.EARLIER_RULE)
            new = *empty, *size, TWO, TWO
            self.assertEqual((slot, usi.gpt_check(*empty, *size), usi.gpt_check(*empty, *size, usi.EARLIER_RULE)), (1, 0, 0))
            for bit in range(64):
                present, earlier = 3 <= bit < 48, 1 <= bit < 48
                for rule, offends in [(usi.PRESENT_RULE, present), (usi.EARLIER_RULE, earlier), (1 << 32, earlier), ((1 << 64) - 1, earlier)]:
                    if offends:
                        self.refused(28, usi.gpt_add, *new, 1, attributes=1 << bit, alignment=1, rule=rule)
                        self.refused(28, usi.gpt_add, *new, 1000, attributes=1 << bit, alignment=1, rule=rule)
                        self.refused(26, usi.gpt_add, *new, 1, attributes=1 << bit, name="a", alignment=1, rule=rule)
                    else:
                        *added, slot, _ = usi.gpt_add(*new, 1, attributes=1 << bit, alignment=1, rule=rule)
                        self.assertEqual((slot, usi.gpt_check(*added, *size, rule=rule)), (2, 0))
                        self.refused(25, usi.gpt_add, *new, 1000, attributes=1 << bit, alignment=1, rule=rule)
                    # By no call: the same bit in a slot that is there, and then in one without a type.
                    foreign = poked(*empty, block, 1, 48, (1 << bit).to_bytes(8, "little"))
                    self.assertEqual(usi.gpt_check(*foreign, *size, rule), int(offends))
                    self.assertEqual(usi.gpt_check(*poked(*foreign, block, 1, 0, bytes(16)), *size, rule), 0)
            self.refused(28, usi.gpt_add, *new, 1, 8, alignment=1)
            self.refused(10, usi.gpt_check, bytes(len(empty[0])), bytes(len(empty[1])), *size)

    def test_strings(self):
        """Partition k gets slot k; one with a start stands there, one without at the lowest multiple, size 0 to the end of its run."""
        field = lambda entry, at: int.from_bytes(entry[at : at + 8], "little")
        for shape, n, places in zip(
            SHAPES, (1000, 120), ([(40, 167, 0), (256, 263, 4), (168, 255, 0)], [(8, 23, 0), (32, 32, 4), (24, 31, 0)])
        ):
            disk = bytes([165] * shape.head), bytes([165] * shape.tail), n, shape.block
            built = usi.gpt_build(*disk, STRING, alignment=8)
            self.assertEqual(usi.gpt_read(*built, *disk[2:]), State.SAME)
            entries = usi.gpt_entries(*built, *disk[2:])
            self.assertEqual(entries[usi.ENTRY_LEN * 3 :], bytes(usi.ENTRY_LEN * 125))
            entries = [entries[at : at + usi.ENTRY_LEN] for at in range(0, usi.ENTRY_LEN * 3, usi.ENTRY_LEN)]
            self.assertEqual([(field(one, 32), field(one, 40), field(one, 48)) for one in entries], places)
            self.assertEqual([one[56:].decode("utf-16-le").rstrip("\0") for one in entries], ["u-boot", "ker=nel", "rootfs"])
            self.assertEqual([one[:16] for one in entries], [usi.type_read(kind) for kind in ("data", "linux", "data")])
            self.assertEqual(entries[1][16:32], usi.guid_read("22222222-3333-4444-8555-666666666666"))
            self.assertEqual(usi.gpt_build(*built, *disk[2:], STRING.rstrip(";"), alignment=8), built)
            first, third = "11111111-2222-4333-8444-555555555555", "33333333-4444-4555-8666-777777777777"
            zeros = usi.guid_write(bytes(16))
            for number, old, new in [
                (70, "0064KiB", "64Kib"), (70, "bootable", "bootable="), (70, ",size=0,", ",size=0, "), (70, ",size=4096", ""),
                (3, "6d8f4c1e-0b7a-4f35-9a55-1c2d3e4f5a6b", zeros), (71, "4096", "4097"), (72, "128KiB", "0"), (20, "0064KiB", "0"),
                (21, "=linux", f"={zeros}"), (22, third, first), (26, "=rootfs", "=u-boot"), (25, "4096", "1GiB"),
            ]:
                self.refused(number, usi.gpt_build, *disk, STRING.replace(old, new).encode(), alignment=8)
            self.refused(27, usi.gpt_build, *disk, STRING.encode(), alignment=9)
            self.refused(25, usi.gpt_build, *disk, STRING.encode())
            # The limit counts every byte, those of leading zeros too.
            long = STRING.replace("0064KiB", "64KiB".rjust(7 + usi.STRING_MAX - len(STRING), "0"))
            self.assertEqual((len(long), usi.gpt_build(*disk, long, alignment=8)), (usi.STRING_MAX, built))
            self.refused(70, usi.gpt_build, *disk, long.replace("=00", "=000").encode(), alignment=8)

    def test_stale_bytes(self):
        """A zero type GUID alone makes a slot unused, and an add writes all of it."""
        for block in usi.BLOCK_SIZES:
            size = 100, block
            empty = formatted(*size)
            new = {"attributes": 5, "name": "a", "alignment": 8}
            *added, slot, first = usi.gpt_add(*empty, *size, TWO, ONE, 3, **new)
            stale = summed(*(replaced(part, at, bytes(16) + bytes([255] * 112)) for part, at in zip(added, (2 * block, 0))), block)
            self.assertEqual(usi.gpt_entries(*stale, *size)[16:128], bytes([255] * 112))
            self.assertEqual((usi.gpt_read(*stale, *size), usi.gpt_free(*stale, *size)), (State.SAME, usi.gpt_free(*empty, *size)))
            self.refused(13, usi.gpt_delete, *stale, *size, slot)
            self.assertEqual(usi.gpt_add(*stale, *size, TWO, ONE, 3, **new), (*added, slot, first))

    def test_crc32(self):
        self.assertEqual((usi.crc32(b"123456789"), usi.crc32(b"")), (0xCBF43926, 0))

    def test_a_refusal_changes_no_lent_byte(self):
        """Below the module's own copies: buffers full of a pattern are as they were."""
        patterned = lambda size: usi._copy(bytes(k * 7 % 256 for k in range(size)))
        guid, answer, other = patterned(16), ctypes.c_uint64(77), ctypes.c_uint64(78)
        calls = [
            ("usi_guid_read", guid, patterned(16)),
            ("usi_fmap_carry", patterned(98), patterned(98)),
            ("usi_fmd_records", guid, patterned(usi.RECORDS_LEN), answer),
        ]
        for block, head_len, tail_len, least in SHAPES:
            head, tail = patterned(head_len), patterned(tail_len)
            calls += [
                ("usi_gpt_format", head, tail, 2 * least - 1, block, guid),
                ("usi_gpt_format", head, tail, 100, block + 1, guid),
                ("usi_gpt_build", head, tail, 100, block, 1, usi._copy(STRING.encode() + b" ")),
                ("usi_gpt_build", head, tail, 100, block, 2048, usi._copy(STRING.encode())),
                ("usi_gpt_read", head, tail, 100, block, answer),
                ("usi_gpt_check", head, tail, 100, block, 0, answer),
                ("usi_gpt_add", head, tail, 100, block, guid, guid, 1, 8, 0, 1, usi._name("n"), answer, other),
                ("usi_gpt_repair", head, tail, 100, block, answer),
            ]
        for name, *arguments in calls:
            lent = [bytes(one) for one in arguments if not isinstance(one, (int, ctypes.c_uint64))]
            self.assertNotEqual(usi._call(name, *arguments), 0, name)
            self.assertEqual([bytes(one) for one in arguments if not isinstance(one, (int, ctypes.c_uint64))], lent, name)
            self.assertEqual((answer.value, other.value), (77, 78), name)


if __name__ == "__main__":
    unittest.main()
