"""Measurements of listed layouts, against the records hashed here."""
import hashlib
import os
import random
import struct

from harness import put, same, tool

PAGE = 4096
CHUNK = 256
TYPES = {"tcs": 1, "reg": 2}


class Page:
    """A page with its fields, and the bytes that are measured of it, where any are."""

    def __init__(self, offset, permissions, kind, measured, source, content):
        self.offset, self.permissions, self.kind = offset, permissions, kind
        self.measured, self.source, self.content = measured, source, content

    def line(self):
        extent = "measured" if self.measured else "bare"
        return f"page {self.offset:#x} {self.permissions} {self.kind} {extent} {self.source}"

    def records(self):
        bits = sum(1 << place for place, letter in enumerate("rwx") if letter in self.permissions)
        flags = bits | TYPES[self.kind] << 8
        yield b"EADD" + bytes(4) + struct.pack("<QQ", self.offset, flags) + bytes(40)
        if self.measured:
            content = self.content.ljust(PAGE, b"\0")
            for place in range(0, PAGE, CHUNK):
                yield b"EEXTEND\0" + struct.pack("<Q", self.offset + place) + bytes(48) + content[place : place + CHUNK]


def measurement(size, frame, pages):
    digest = hashlib.sha256(b"ECREATE\0" + struct.pack("<IQ", frame, size) + bytes(44))
    for page in pages:
        for record in page.records():
            digest.update(record)
    return digest.hexdigest()


def random_page(source, offset, files):
    if source.random() < 0.2:
        return Page(offset, "---", "tcs", source.random() < 0.5, "zero", b"")
    permissions = source.choice(["---", "r--", "rw-", "r-x", "rwx", "--x"])
    measured = source.random() < 0.7
    if source.random() < 0.3:
        return Page(offset, permissions, "reg", measured, "zero", b"")
    if not measured and source.random() < 0.5:
        return Page(offset, permissions, "reg", False, "file absent 7", b"")
    name = source.choice(sorted(files))
    at = source.choice([0, 1, PAGE, len(files[name]), source.randrange(20_000)])
    return Page(offset, permissions, "reg", measured, f"file {name} {at}", files[name][at : at + PAGE])


def test_random_layouts_are_measured():
    source = random.Random(7)
    files = {name: source.randbytes(size) for name, size in (("empty", 0), ("short", 5), ("long", 10_000))}
    for name, content in files.items():
        put(name, content)
    for _ in range(20):
        size = 1 << source.randrange(16, 41)
        offsets = source.sample(range(size // PAGE), source.randrange(12))
        pages = [random_page(source, PAGE * k, files) for k in offsets]
        frame = source.randrange(1 << 32)
        lines = ["# a layout", "", f"enclave {size:#x} {frame}", *(page.line() for page in pages)]
        put("layout", "\n".join(lines).encode() + source.choice([b"", b"\n", b"\n\n# end"]))
        ran = tool("measure", "layout")
        same((ran.status, ran.out, ran.log), (0, measurement(size, frame, pages).encode() + b"\n", ""), str(ran))


def test_two_layouts_have_these_measurements():
    put("a", bytes((7 * i + i // 256) % 256 for i in range(5000)))
    put("short", b"abc")
    for text, said in (
        (
            "enclave 0x2000 1\npage 0x0 r-x reg measured zero\npage 0x1000 --- tcs bare zero",
            b"fdd7687eb1f86ca6016dadadfcfb7f4c356da5edc0e1e14bb33eb3c3f9d0e007\n",
        ),
        (
            "# pages\nenclave 0x10000 3\n\npage 0x3000 rw- reg measured file a 0\npage 0x0 r-- reg measured file a 4096\n"
            "page 0x1000 r-x reg measured file a 5000\npage 0x4000 --- tcs measured file short 0\npage 0x5000 rwx reg bare file absent 1\n",
            b"3d189b43667780e5bd4065cc5473a83dbc33be8087b282565824663464eab499\n",
        ),
    ):
        put("layout", text.encode())
        ran = tool("measure", "layout")
        same((ran.status, ran.out, ran.log), (0, said, ""), text)


# Texts, and what is said of their first bad line; nothing where they are layouts.
LINES = {
    "": "1",
    "# none\n": "2",
    "\n# enclave 0x2000 1\n": "3",
    "\n# enclave 0x2000 1": "3",
    "page 0x0 r-x reg measured zero\n": "1",
    "enclave  0x2000 1": "1",
    "enclave 0x2000 1 ": "1",
    "enclave 0x2000 01": "1",
    "enclave 0x2000 4294967296": "1",
    "enclave 0x02000 1": "1",
    "enclave 0X2000 1": "1",
    "enclave 0x0 0": "1 size",
    "#\nenclave 0x3000 1\npage": "2 size",
    "enclave 0x800 1": "1 size",
    "enclave 0x1800 1": "1 size",
    "enclave 0x20000000000 1": "1 size",
    "enclave 0x10000000000 4294967295": "",
    "enclave 0x1000 1\nenclave 0x1000 1": "2",
    "enclave 0x1000 1\n\npage 0x1000 r-- reg bare zero": "3 out of range",
    "enclave 0x1000 1\npage 0x0 r-- reg measured file absent 0\npage": "3",
}
# Third lines, behind those of an enclave of two pages and its first page.
PAGES = {
    "page 0x1000 --- tcs bare zero": "",
    "page 0x2000 --- tcs bare zero": "3 out of range",
    "page 0xfffffffffffff000 --- tcs bare zero": "3 out of range",
    "page 0x10000000000000000 --- tcs bare zero": "3",
    "page 0x0 --- tcs bare zero": "3 repeated",
    "page 0x1800 --- reg bare zero": "3",
    "page 0x1000 r-- tcs bare zero": "3",
    "page 0x1000 -w- reg bare zero": "3",
    "page 0x1000 xwr reg bare zero": "3",
    "page 0x1000 rwx REG bare zero": "3",
    "page 0x1000 rwx reg zero": "3",
    "page 0x1000 rwx reg bare zero 0": "3",
    "page 0x1000 rwx reg bare file  0": "3",
    "page 0x1000 rwx reg bare file a -1": "3",
    "page 0x1000 rwx reg bare file a 0 0": "3",
    "page 0x1000 --x reg bare file a 4294967295": "",
}


def says(text, said):
    put("layout", text.encode())
    ran = tool("measure", "layout")
    if said:
        same((ran.status, ran.out, ran.log), (3, b"", f"refused layout line {said}\n"), f"{text[-60:]!r}: {ran}")
    else:
        same((ran.status, len(ran.out), ran.log), (0, 65, ""), f"{text[-60:]!r}: {ran}")


def test_layouts_are_read_or_refused_by_their_first_bad_line():
    for text, said in LINES.items():
        says(text, said)
    for page, said in PAGES.items():
        says(f"enclave 0x2000 1\npage 0x0 r-x reg measured zero\n{page}", said)
    many = "".join(f"page {PAGE * i:#x} --- reg bare zero\n" for i in range(1, 100_001))
    says(f"enclave 0x10000000000 1\n{many}", "")
    says(f"enclave 0x10000000000 1\n{many}page 0x1000 --- reg bare zero", "100002 repeated")


def test_a_layout_has_a_limit_and_files():
    put("layout", b"#" * 4_194_304)
    same(tool("measure", "layout").log, "refused layout line 2\n", "the longest layout")
    put("layout", b"#" * 4_194_305)
    same(tool("measure", "layout").log, "refused too large\n", "a long layout")
    put("a", b"abc")
    os.mkdir("folder")
    pages = [f"page {PAGE * k:#x} r-- reg measured file {name} 0" for k, name in enumerate(("a", "absent", "later", "folder", "absent"))]
    put("layout", "\n".join(["enclave 0x8000 1", *pages]).encode())
    same(tool("measure", "layout").log, "refused not found absent\n", "two absent files")
    put("layout", "\n".join(["enclave 0x8000 1", pages[0], *pages[3:]]).encode())
    ran = tool("measure", "layout")
    same((ran.status, ran.out, ran.log), (4, b"", "host fault\n"), "a folder before an absent file")
    put("layout", b"enclave 0x1000 1\npage 0x0 r-- reg bare file absent 0")
    same(tool("measure", "layout").status, 0, "an absent file of a page that is not measured")
    same(tool("measure", "absent").log, "refused not found absent\n", "an absent layout")
