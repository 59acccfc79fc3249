"""Each status of the program, with its line."""
import os
import resource
import shutil
import subprocess

from harness import PROGRAM, Skip, TOP, can_trace, decrypt, encrypt, got, holds, put, run, same, tool, traced


def ends(ran, status, line=""):
    same((ran.status, ran.log, ran.out), (status, line + "\n" if line else "", b""), str(ran))


def changed(node, place, byte):
    return node[:place] + bytes([byte]) + node[place + 1 :]


def test_status_0_the_example_is_decrypted():
    example = os.path.join(TOP, "examples/hello")
    ran = tool("decrypt", "-w", f"{example}.key", "-i", f"{example}.pf")
    same((ran.status, ran.out, ran.log), (0, b"hello", ""), str(ran))


def test_status_0_what_was_encrypted_is_decrypted():
    for size in (0, 1, 3071, 3072, 3073):
        put("in", os.urandom(size))
        ends(encrypt(), 0)
        holds(got("in"))


def test_status_0_a_template_is_rendered():
    words = ["manifest", "-D", "gramine.libos=/a", "-Dgramine.libos=/b", os.path.join(TOP, "examples/hello.template")]
    text = b'# hello\nloader.entrypoint = "file:/b"\n'
    ran = tool(*words)
    same((ran.status, ran.out, ran.log), (0, text, ""), str(ran))
    put("m", b"old", 0o644)
    ends(tool(*words, "m"), 0)
    same((got("m"), os.stat("m").st_mode & 0o777, os.path.exists("m.new")), (text, 0o644, False), "OUT")
    put("t", b"a {{ x }}")
    ends(tool("manifest", "t", "m"), 3, "refused template unknown x at 2")
    same(got("m"), text, "OUT")


def test_status_1_damage():
    encrypt()
    node = got("out.pf")
    put("out.pf", node[:4095])
    ends(decrypt(), 1, "damaged node 0 short")
    put("out.pf", node[:8])
    ends(decrypt(), 1, "damaged node 0 short")
    put("out.pf", changed(node, 100, node[100] ^ 1))
    ends(decrypt(), 1, "damaged node 0 tag")
    put("out.pf", node)
    put("key", bytes(16))
    ends(decrypt(), 1, "damaged node 0 tag")


def test_status_2_words_that_are_no_command():
    put("t", b"")
    lines = ["", "decode", "decrypt -w key", "encrypt -w key -i in"]
    lines += ["manifest", "manifest -D", "manifest -D t", "manifest -D =a t", "manifest -D1=a t", "manifest -x t", "manifest t -Da=b"]
    lines += ["manifest t m more", "manifest -D a=b", "measure", "measure -l", "measure t t"]
    lines += ["sums", "sums -m", "sums t t", "sums -o t", "sums t -o t", "sums -o t -t"]
    for words in [*map(str.split, lines), [b"\xff"]]:
        ends(tool(*words), 2, "usage: unbuilt words")
    same(sorted(os.listdir(".")), ["in", "key", "t"], "files")


def test_status_3_refusals():
    ends(decrypt("none"), 3, "refused not found none")
    ends(decrypt(key="none"), 3, "refused not found none")
    ends(encrypt(source="none"), 3, "refused not found none")
    ends(tool("measure", "-"), 3, "refused not found -")
    encrypt()
    node = got("out.pf")
    # Versions to come, and an update that is pending.
    for place, byte, line in ((8, 2, "refused version 2.0"), (9, 7, "refused version 1.7"), (58, 1, "refused unbuilt")):
        put("out.pf", changed(node, place, byte))
        ends(decrypt(), 3, line)
    for size in (3073, 4096):
        put("in", bytes(size))
        ends(decrypt("in"), 3, "refused not protected")
    put("in", node[:7])
    ends(decrypt("in"), 3, "refused not protected")
    for size in (0, 15, 17):
        put("key", bytes(size))
        ends(decrypt(), 3, f"refused key file {size}")


def test_status_3_bad_names_are_refused_first():
    put("x.new", b"plain")
    rows = [["decrypt", "-w", "", "-i", "none"], ["decrypt", "-w", "key", "-i", "none.new"], ["encrypt", "-w", "", "-i", "none", "-o", "out.pf"]]
    rows += [["encrypt", "-w", "key", "-i", "none", "-o", name] for name in ("", "folder/", ".", "..", "a.new", "a.recovery")]
    rows += [["encrypt", "-w", "key", "-i", name, "-o", "x"] for name in ("x.new", "x.new.recovery")]
    rows += [["manifest", ""], ["manifest", "none", "m.new"], ["measure", ""], ["sums", ""], ["sums", "-o", "m.new", "none"]]
    for words in rows:
        ends(tool(*words), 3, "refused bad name")
    same((got("x.new"), sorted(os.listdir("."))), (b"plain", ["in", "key", "x.new"]), "files")


def test_status_4_a_folder_is_a_host_fault():
    os.mkdir("folder")
    ends(decrypt("folder"), 4, "host fault")
    ends(encrypt(out="none/out.pf"), 4, "host fault")


# The least address space in which the program starts has none left for its words.
def test_status_5_want_of_memory():
    found = set()
    for limit in range(1 << 20, 8 << 20, 4096):
        ran = encrypt(preexec_fn=lambda: resource.setrlimit(resource.RLIMIT_AS, (limit, limit)))
        found.add(ran.status)
        if ran.status in (0, 5):
            break
    if 5 not in found:
        raise Skip(f"no limit of the address space gives it: statuses {sorted(found)}")


def test_status_6_no_random_device():
    if can_trace():
        raise Skip(can_trace())
    for call in ("openat", "read"):
        ran, _ = traced([PROGRAM, "encrypt", "-w", "key", "-i", "in", "-o", "out.pf"], "-P", "/dev/urandom", "-e", f"inject={call}:error=EIO")
        ends(ran, 6, "random fault")
        same(os.path.exists("out.pf"), False, "out.pf")


def chrooted(device):
    """The program run where /dev/urandom is what `device` makes."""
    if os.geteuid():
        raise Skip("only root may change its root folder")
    os.makedirs("room/dev")
    ran = subprocess.run(["ldd", PROGRAM], stdout=subprocess.PIPE, text=True)
    for word in ran.stdout.split():
        if word.startswith("/"):
            os.makedirs("room" + os.path.dirname(word), exist_ok=True)
            shutil.copy(word, "room" + word)
    shutil.copy(PROGRAM, "room/pf_tool")
    for name in ("key", "in"):
        shutil.copy(name, "room")
    try:
        device("room/dev/urandom")
        with open("room/dev/urandom", "rb") as file:
            file.read(1)
    except OSError as why:
        raise Skip(f"the device cannot be made here: {why}")
    room = os.path.abspath("room")

    def enter():
        os.chroot(room)
        os.chdir("/")

    return run(["/pf_tool", "encrypt", "-w", "key", "-i", "in", "-o", "out.pf"], preexec_fn=enter)


def test_status_6_a_plain_file_is_no_random_device():
    ends(chrooted(lambda name: put(name, os.urandom(4096))), 6, "random fault")


def test_status_6_a_device_that_repeats_itself():
    ends(chrooted(lambda name: os.mknod(name, 0o20666, os.makedev(1, 5))), 6, "random fault")


def test_status_7_streams_that_fail():
    encrypt()
    if not os.path.exists("/dev/full"):
        raise Skip("there is no /dev/full")
    with open("/dev/full", "wb") as full:
        same(decrypt(stdout=full).status, 7, "full output")
        same(tool(stderr=full).status, 7, "full log")
    closed = "exec {}; exec \"$@\"".format
    words = [PROGRAM, "decrypt", "-w", "key", "-i", "out.pf"]
    same(run(["sh", "-c", closed(">&-"), "sh", *words]).status, 7, "closed output")
    same(run(["sh", "-c", closed("2>&-"), "sh", PROGRAM]).status, 7, "closed log")
