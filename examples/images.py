"""Reads heap images by the rules of docs/images.md and its neighbours, on its own, and compares what
the two say: of the image of a run, byte for byte, and of what becomes of that file where single bytes are changed, where its end is cut
off, and where a byte follows.

usage: images.py EXTERM FOLDER, where FOLDER is an empty folder to work in

A line for each check, and the last one is 'N passed, M failed'.
"""
import re
import struct
import subprocess
import sys
from collections import Counter, namedtuple

HEAP, HEAP_END = 0x40000000, 0x7FE00000
LARGEST, LARGEST_FRONT = 1 << 20, 1 << 16
END = (1 << 64) - 1
STATES = ["owned", "deferred", "released", "spoiled", "bad"]
OWNED, DEFERRED, BAD = 0, 1, 4

Image = namedtuple("Image", "tag seed place clock patches classes rows contents broken")
Row = namedtuple("Row", "addr state object size front site free_site freed")


class Refused(Exception):
    """Why bytes are no image, in the words of the program's line."""


# ---- where slots lie, and what free ones hold


def canary_of(seed):
    """Word 0 of the seed's PCG32 on stream 0, with bit 0 set."""
    state = (seed + 1) * 6364136223846793005 + 1 & END
    return rotated((state >> 45 ^ state >> 27) & 0xFFFFFFFF, state >> 59) | 1


def rotated(word, right):
    return (word >> right | word << (32 - right)) & 0xFFFFFFFF


class Slots:
    """The slots of miniheaps, from their classes in order of creation."""

    def __init__(self):
        self.minis, self.end, self.counts = [], HEAP, {}

    def grow(self, size_class):
        """Whether the next miniheap of a class still fits, which is appended then."""
        first = max(4, 1 << max(0, 16 - size_class))
        count = first << self.counts.get(size_class, 0)
        if self.end + (count << size_class) > HEAP_END:
            return False
        self.minis.append((self.end, size_class, count))
        self.counts[size_class] = self.counts.get(size_class, 0) + 1
        self.end += count << size_class
        return True

    def at(self, addr):
        """Where the slot round an address begins, and how many bytes it has; none outside of the miniheaps."""
        for base, size_class, count in self.minis:
            if base <= addr < base + (count << size_class):
                return base + (addr - base >> size_class << size_class), 1 << size_class
        return None


# ---- patch text


ENTRY = {
    "pad": (rb"pad ([0-9a-f]{8}) (0|[1-9][0-9]*)", 1, 1 << 20, 1),
    "front": (rb"front ([0-9a-f]{8}) (0|[1-9][0-9]*)", 16, LARGEST_FRONT, 16),
    "defer": (rb"defer ([0-9a-f]{8} [0-9a-f]{8}) (0|[1-9][0-9]*)", 1, (1 << 32) - 1, 1),
}


def is_patch_text(text, version):
    """Whether it is a patch text of a version: its first line, then entries of each kind by rising key."""
    first = b"exterm-patches %d\n" % version
    if not text.startswith(first) or not text.endswith(b"\n"):
        return False
    kinds = ["pad", "defer"] if version == 1 else ["pad", "front", "defer"]
    last = (-1, b"")
    for line in text[len(first) :].split(b"\n")[:-1]:
        entry = entry_of(line, kinds)
        if entry is None or entry <= last:
            return False
        last = entry
    return True


def entry_of(line, kinds):
    """A line's place in the order, where it is an entry with its number in range."""
    for order, kind in enumerate(kinds):
        form, least, most, step = ENTRY[kind]
        parts = re.fullmatch(form, line)
        if parts and least <= int(parts[2]) <= most and int(parts[2]) % step == 0:
            return order, parts[1]
    return None


# ---- bytes to an image, field by field


class Fields:
    """The bytes from the front on. `begins` is where the last field began."""

    def __init__(self, data):
        self.data, self.place, self.begins = data, 0, 0

    def bytes(self, count):
        self.begins = self.place
        if self.place + count > len(self.data):
            raise Refused("short")
        self.place += count
        return self.data[self.begins : self.place]

    def number(self, width):
        return int.from_bytes(self.bytes(width), "little")

    def keeps(self, rule):
        if not rule:
            raise Refused(f"bad at {self.begins}")


def image_in(data):
    version = {b"EXIMAGE1": 1, b"EXIMAGE2": 2}.get(data[:8])
    if version is None:
        raise Refused("head")
    fields = Fields(data)
    fields.bytes(8)
    tag, seed, place, clock = [fields.number(8) for _ in range(4)]
    patches = patches_in(fields, version)
    slots, classes = miniheaps_in(fields, version)
    rows = rows_in(fields, version, slots, clock)
    contents = fields.bytes(sum(slots.at(row.addr)[1] for row in rows if row.state <= DEFERRED))
    broken = broken_in(fields, slots, rows, canary_of(seed))
    if fields.place < len(data):
        raise Refused("tail")
    return Image(tag, seed, place, clock, patches, classes, rows, contents, broken)


def patches_in(fields, version):
    """The entries of the patch text, without its first line. The text is one field; where it has no bytes it is bad at its place."""
    text = fields.bytes(fields.number(4))
    fields.keeps(is_patch_text(text, version))
    return text.split(b"\n", 1)[1]


def miniheaps_in(fields, version):
    slots, classes = Slots(), []
    for _ in range(fields.number(4)):
        size_class = fields.number(4)
        fields.keeps(4 <= size_class <= (21 if version == 1 else 22) and slots.grow(size_class))
        classes.append(size_class)
    return slots, classes


def rows_in(fields, version, slots, clock):
    rows, objects, last = [], set(), -1
    for _ in range(fields.number(4)):
        row = row_in(fields, version, slots, clock, objects, last)
        if row.state != BAD:
            objects.add(row.object)
        last = row.addr
        rows.append(row)
    return rows


def row_in(fields, version, slots, clock, objects, last):
    addr = fields.number(4)
    slot = slots.at(addr)
    fields.keeps(slot is not None and slot[0] == addr and addr > last)
    state = fields.number(1)
    fields.keeps(state <= BAD)
    is_bad, is_owned = state == BAD, state == OWNED
    number = fields.number(8)
    fields.keeps(number == 0 if is_bad else number < clock and number not in objects)
    size = fields.number(4)
    fields.keeps(size == 0 if is_bad else size <= LARGEST and size <= slot[1])
    front = 0
    if version == 2:
        front = fields.number(4)
        fits = front <= LARGEST_FRONT and front % 16 == 0 and front + max(size, 1) <= slot[1]
        fields.keeps(front == 0 if is_bad else fits)
    site = fields.number(4)
    fields.keeps(site == 0 or not is_bad)
    free_site = fields.number(4)
    fields.keeps(free_site == 0 or not (is_bad or is_owned))
    freed = fields.number(8)
    fields.keeps(freed == 0 if is_bad or is_owned else number < freed <= clock)
    return Row(addr, state, number, size, front, site, free_site, freed)


def broken_in(fields, slots, rows, canary):
    held = {row.addr for row in rows if row.state <= DEFERRED}
    broken, last = [], -1
    for _ in range(fields.number(4)):
        addr = fields.number(4)
        slot = slots.at(addr)
        fields.keeps(slot is not None and slot[0] not in held and addr > last)
        byte = fields.number(1)
        fields.keeps(byte != canary >> addr % 4 * 8 & 0xFF)
        broken.append((addr, byte))
        last = addr
    return broken


# ---- an image's bytes and text


def spelled(image, version):
    """The bytes of an image in a version. Version 1 has no fronts."""
    text = b"exterm-patches %d\n" % version + image.patches
    parts = [b"EXIMAGE%d" % version, struct.pack("<QQQQI", image.tag, image.seed, image.place, image.clock, len(text)), text]
    parts += [struct.pack("<I", len(image.classes))] + [struct.pack("<I", each) for each in image.classes]
    parts += [struct.pack("<I", len(image.rows))]
    for row in image.rows:
        front = [row.front] if version == 2 else []
        parts.append(struct.pack("<IBQ", *row[:3]))
        parts += [struct.pack("<I", each) for each in [row.size, *front, row.site, row.free_site]]
        parts.append(struct.pack("<Q", row.freed))
    parts += [image.contents, struct.pack("<I", len(image.broken))]
    parts += [struct.pack("<IB", *each) for each in image.broken]
    return b"".join(parts)


def shown(image):
    place = "end" if image.place == END else image.place
    lines = [
        f"image seed {image.seed} place {place} clock {image.clock} miniheaps {len(image.classes)}"
        f" rows {len(image.rows)} broken {len(image.broken)}"
    ]
    slots = Slots()
    for size_class in image.classes:
        slots.grow(size_class)
    for number, (base, size_class, count) in enumerate(slots.minis):
        lines.append(f"mini {number} class {size_class} base 0x{base:08x} slots {count}")
    for row in image.rows:
        if row.state == BAD:
            lines.append(f"slot 0x{row.addr:08x} bad")
        else:
            lines.append(
                f"slot 0x{row.addr:08x} {STATES[row.state]} object {row.object} size {row.size} front {row.front}"
                f" site {row.site:08x} free {row.free_site:08x} freed {row.freed}"
            )
    lines += [f"break 0x{addr:08x} {byte:02x}" for addr, byte in image.broken]
    return "".join(line + "\n" for line in lines)


# ---- a guest that stores past the end of its object


def register_immediate(opcode, kind, target, source, immediate):
    return (immediate & 0xFFF) << 20 | source << 15 | kind << 12 | target << 7 | opcode


def addi(target, source, immediate):
    return register_immediate(0x13, 0, target, source, immediate)


def store_byte(value, offset, base):
    return offset >> 5 << 25 | value << 20 | base << 15 | (offset & 31) << 7 | 0x23


def jump_and_link(distance):
    bits = distance & 0x1FFFFF
    return bits >> 20 << 31 | (bits >> 1 & 0x3FF) << 21 | (bits >> 11 & 1) << 20 | (bits >> 12 & 0xFF) << 12 | 1 << 7 | 0x6F


MALLOC, FREE, ENTRY_POINT = 0x10000, 0x10004, 0x10010
ECALL = 0x73


def guest():
    """An ELF file: it asks for 16 bytes, stores a zero behind them, frees them, and prints 'o'."""
    words = [addi(10, 0, 16), None, store_byte(0, 16, 10), addi(10, 10, 0), None, 0x200437, addi(5, 0, 111), store_byte(5, 0, 8)]
    words += [addi(11, 8, 0), addi(10, 0, 1), addi(12, 0, 1), addi(17, 0, 64), ECALL, addi(10, 0, 0), addi(17, 0, 93), ECALL]
    words[1] = jump_and_link(MALLOC - ENTRY_POINT - 4)
    words[4] = jump_and_link(FREE - ENTRY_POINT - 16)
    code = struct.pack("<4I", *[0x00100073] * 4) + b"".join(struct.pack("<I", word) for word in words)
    tables = 116 + len(code)
    ident = bytes([0x7F, 0x45, 0x4C, 0x46, 1, 1, 1]) + bytes(9)
    header = struct.pack("<HHIIIIIHHHHHH", 2, 243, 1, ENTRY_POINT, 52, tables + 108, 0, 52, 32, 2, 40, 3, 0)
    segments = struct.pack("<8I", 1, 116, 0x10000, 0x10000, len(code), len(code), 5, 4)
    segments += struct.pack("<8I", 1, 0, 0x200000, 0x200000, 0, 4096, 6, 4)
    symbols = bytes(16)
    for name, address in [(1, 0x10000), (8, 0x10004), (13, 0x10008), (20, 0x1000C)]:
        symbols += struct.pack("<IIIBBH", name, address, 4, 0x12, 0, 0xFFF1)
    strings = b"\0malloc\0free\0calloc\0realloc\0"
    sections = bytes(40) + struct.pack("<10I", 0, 2, 0, 0, tables, 80, 2, 1, 4, 16)
    sections += struct.pack("<10I", 0, 3, 0, 0, tables + 80, 28, 0, 0, 1, 0)
    return ident + header + segments + code + symbols + strings + sections


def image_of_guest(elf):
    """Its image under seed 1: the slot of its object was drawn by the seed's word 1, 0x01112f35, among 4,096 of 16 bytes. Its sites are
    those of the return addresses 0x10018 and 0x10024."""
    tag = 5381
    for byte in elf:
        tag = tag * 33 + byte & END
    addr = HEAP + 16 * (0x01112F35 % 4096)
    site, free_site = [5381 * 33**5 + back * 33**4 & 0xFFFFFFFF for back in [0x10018, 0x10024]]
    rows = [Row(addr, 2, 0, 16, 0, site, free_site, 1), Row(addr + 16, BAD, 0, 0, 0, 0, 0, 0)]
    return Image(tag, 1, 2, 1, b"", [4], rows, b"", [(addr + 16, 0)])


# ---- what the two say


def said_here(data):
    try:
        return 0, shown(image_in(data)), ""
    except Refused as why:
        return 119, "", f"exterm: image 1 {why}\n"


class Checks:
    def __init__(self, exterm, folder):
        self.exterm, self.folder = exterm, folder
        self.passed = self.failed = 0
        self.refusals = Counter()

    def count(self, name, wrong):
        """Counts a check as failed where something is wrong."""
        print(f"images: {name}: {wrong[0]}" if wrong else f"images: {name}")
        if wrong:
            self.failed += 1
        else:
            self.passed += 1

    def call(self, *words):
        done = subprocess.run([self.exterm, *words], stdin=subprocess.DEVNULL, capture_output=True, check=False)
        return done.returncode, done.stdout.decode("latin-1"), done.stderr.decode("latin-1")

    def path(self, name, data=None):
        path = f"{self.folder}/{name}"
        if data is not None:
            with open(path, "wb") as file:
                file.write(data)
        return path

    def image_of_run(self, elf, *options):
        """What a run of a guest says, and the bytes of its image."""
        said = self.call("run", *options, "--image", self.path("image"), self.path("guest.elf", elf))
        with open(self.path("image"), "rb") as file:
            return said, file.read()

    def difference(self, name, data):
        """What `show` says otherwise than this reader, if anything."""
        here, there = said_here(data), self.call("show", self.path("shown", data))
        self.refusals[here[2].split()[3] if here[2] else "accepted"] += 1
        return [] if here == there else [f"{name}: {there} where it is to be {here}"]

    def same(self, name, files):
        wrong, count = [], 0
        for where, data in files:
            wrong += self.difference(where, data)
            count += 1
        self.count(f"{name}: {count} files, the same as the second reader", wrong)


def changed(data):
    """Each byte as each of eight values: the bounds of a byte and its sign, states and classes that are in range and that aren't, and
    the next value."""
    for at, old in enumerate(data):
        for value in [0, 1, 2, 5, 0x7F, 0x80, 0xFF, (old + 1) % 256]:
            yield f"byte {at} as {value}", data[:at] + bytes([value]) + data[at + 1 :]


def cut_and_more(data):
    for end in range(len(data) + 1):
        yield f"cut at {end}", data[:end]
    for more in [0, 1, 0xFF]:
        yield f"{more} behind the end", data + bytes([more])


PATCHES = b"pad 00000001 4\npad 00000002 1048576\nfront 00000001 16\nfront 00000003 65536\ndefer 00000001 00000002 4294967295\n"


def main():
    checks = Checks(sys.argv[1], sys.argv[2])
    elf = guest()
    image = image_of_guest(elf)
    report = "exterm: heap allocations 1 frees 1 signals 1\nexterm: exit 0 after 18 steps\n"
    said, data = checks.image_of_run(elf)
    checks.count("a run with a byte stored past an object", [] if said == (0, "o", report) else [said])
    checks.count("its image, byte for byte", [] if data == spelled(image, 2) else [data.hex()])
    for version in [2, 1]:
        whole = spelled(image, version)
        checks.same(f"version {version}, {len(whole)} bytes, each as each of eight values", changed(whole))
        checks.same(f"version {version}, cut at each place, and a byte more", cut_and_more(whole))
    patched = image._replace(patches=PATCHES)
    _, data = checks.image_of_run(elf, "--patches", checks.path("patches", b"exterm-patches 2\n" + PATCHES))
    checks.count("an image with patches, byte for byte", [] if data == spelled(patched, 2) else [data.hex()])
    text = range(44, 44 + len(PATCHES) + 17)
    files = [(name, each) for name, each in changed(spelled(patched, 2)) if int(name.split()[1]) in text]
    checks.same("each byte of its patch text as each of eight values", files)
    unseen = {"accepted", "head", "short", "bad", "tail"} - set(checks.refusals)
    checks.count(f"answers seen: {dict(sorted(checks.refusals.items()))}", sorted(unseen))
    print(f"{checks.passed} passed, {checks.failed} failed")


if __name__ == "__main__":
    main()
