"""Sums of the files that manifests trust, against the sums made here."""
import hashlib
import os
import random
import shutil

from harness import Skip, got, put, run, same, tool

try:
    import tomllib as reader
except ImportError:
    try:
        import toml as reader
    except ImportError:
        reader = None


def digits(content):
    return hashlib.sha256(content).hexdigest()


def random_tree(source, folder):
    """Files of many sizes in folders, by their names."""
    files = {}
    for k in range(source.randrange(1, 12)):
        parts = [folder, *(source.choice("abc") for _ in range(source.randrange(3))), f"file{k}"]
        size = source.choice([0, 1, 16_383, 16_384, 16_385, 32_768, source.randrange(100_000)])
        files["/".join(parts)] = source.randbytes(size)
    for name, content in files.items():
        os.makedirs(os.path.dirname(name), exist_ok=True)
        put(name, content)
    return files


def item(source, name, content, listed):
    """An item of the list of trusted files, maybe with its sum in digits of either case."""
    uri = f"file:{source.choice(['', './'])}{name}"
    if not listed:
        return uri, f'"{uri}"' if source.random() < 0.5 else f'{{ uri = "{uri}" }}'
    return uri, f'{{ uri = "{uri}", sha256 = "{source.choice([str.upper, str.lower])(digits(content))}" }}'


def read(text):
    if reader is None:
        raise Skip("neither tomllib nor toml is there")
    return reader.loads(text.decode())


def test_random_trees_are_summed():
    source = random.Random(11)
    tables = []
    for round_ in range(15):
        files = random_tree(source, f"tree{round_}")
        listed = {name for name in files if source.random() < 0.3}
        items = [(name, *item(source, name, files[name], name in listed)) for name in files]
        for name in listed:
            if source.random() < 0.5:
                os.remove(name)
        names = ",\n  ".join(text for _, _, text in items)
        put("m", f'# a manifest\nsgx.debug = true\nfs.root.type = "chroot"\nsgx.trusted_files = [\n  {names},\n]\n'.encode())
        lines = "".join(f"{digits(files[name])}  {uri}\n" for name, uri, _ in items).encode()
        ran = tool("sums", "m")
        same((ran.status, ran.out, ran.log), (0, lines, ""), str(ran))
        ran = tool("sums", "-o", "m2", "m")
        same((ran.status, ran.out, ran.log), (0, lines, ""), str(ran))
        for name in files:
            if os.path.exists(name):
                os.remove(name)
        ran = tool("sums", "m2")
        same((ran.status, ran.out, ran.log), (0, lines, ""), str(ran))
        tables.append((got("m"), got("m2"), [{"uri": uri, "sha256": digits(files[name])} for name, uri, _ in items]))
    for text, text_with_sums, files in tables:
        before, after = read(text), read(text_with_sums)
        same(after["sgx"].pop("trusted_files"), files, "the list")
        before["sgx"].pop("trusted_files")
        same(after, before, "the rest of the table")


def test_sums_are_those_of_sha256sum():
    if not shutil.which("sha256sum"):
        raise Skip("sha256sum is not there")
    put("a", random.Random(3).randbytes(1_000_000))
    put("b", b"")
    put("m", b'sgx.trusted_files = ["file:a", "file:b"]')
    same(tool("sums", "m").out.replace(b"file:", b""), run(["sha256sum", "a", "b"]).out, "two files")


def test_sums_are_those_of_the_standard():
    """Published examples, and files of many equal bytes."""
    for content, said in (
        (b"abc", "ba7816bf8f01cfea414140de5dae2223b00361a396177a9cb410ff61f20015ad"),
        (b"", "e3b0c44298fc1c149afbf4c8996fb92427ae41e4649b934ca495991b7852b855"),
        (b"abcdbcdecdefdefgefghfghighijhijkijkljklmklmnlmnomnopnopq", "248d6a61d20638b8e5c026930c3e6039a33ce45964ff2167f6ecedd419db06c1"),
        (b"a" * 1_000_000, "cdc76e5c9914fb9281a1c7e284d73e67f1809a48a497200e046d39ccc7112cd0"),
        (b"a" * 16_384, "f3336bea752b5a28743033dd2c844a4a63fba08871aaee2586a2bf2d69be83a2"),
        (bytes(32_768), "c35020473aed1b4642cd726cad727b63fff2824ad68cedd7ffb73c7cbd890479"),
    ):
        put("a", content)
        put("m", b'sgx.trusted_files = ["file:a"]')
        ran = tool("sums", "m")
        same((ran.status, ran.out, ran.log), (0, said.encode() + b"  file:a\n", ""), content[:60])


def test_manifests_with_absent_files_are_refused():
    put("a", b"abc")
    put("m", b'sgx.trusted_files = ["file:a", "file:b", "file:c"]')
    put("m2", b"old")
    ran = tool("sums", "-o", "m2", "m")
    same((ran.status, ran.out, ran.log), (3, b"", "refused not found b\n"), str(ran))
    same(got("m2"), b"old", "OUT")
    os.mkdir("folder")
    put("m", b'sgx.trusted_files = ["file:a", "file:folder", "file:b"]')
    ran = tool("sums", "-o", "m2", "m")
    same((ran.status, ran.out, ran.log), (4, b"", "host fault\n"), "a folder before an absent file")
    same(got("m2"), b"old", "OUT")
    same(tool("sums", "absent").log, "refused not found absent\n", "an absent manifest")
    same(tool("sums", "-o", "m.new", "m").log, "refused bad name\n", "OUT")
    put("m", b"#" * 4_194_305)
    same(tool("sums", "m").log, "refused too large\n", "a long manifest")
    put("m", b'sgx.trusted_files = [ "file:b/../a", "file:d/../c", "file:d" ]')
    same(tool("sums", "m").log, "refused not found c\n", "a file by its normal name")
    put("m", b"a = 1.5")
    same(tool("sums", "m").log, "refused manifest field a\n", "no manifest")
    same(tool("sums", "-o", "m").status, 2, "no manifest is named")


def test_a_manifest_gets_its_own_sums():
    put("a", b"abc")
    put("m", b'sgx.trusted_files = ["file:a"]\nsgx.debug = false', 0o640)
    ran = tool("sums", "-o", "m", "m")
    same((ran.status, ran.out), (0, digits(b"abc").encode() + b"  file:a\n"), str(ran))
    same(read(got("m")), {"sgx": {"debug": False, "trusted_files": [{"uri": "file:a", "sha256": digits(b"abc")}]}}, "OUT")
    same((os.stat("m").st_mode & 0o777, os.path.exists("m.new")), (0o640, False), "the file")
    put("m", b"sgx.debug = false")
    ran = tool("sums", "-o", "m", "m")
    same((ran.status, ran.out, read(got("m"))["sgx"]["debug"]), (0, b"", False), "no trusted file")
