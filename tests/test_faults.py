"""Each call of a command may fail: that is told, and what was made by then is whole or as it was."""
import os
import random

from harness import PROGRAM, decrypt, encrypt, got, holds, of_program, put, same, traced

CALLS = "openat statx fstat read pread64 pwrite64 write fsync ftruncate flock link rename unlink fchmod close getrandom".split()


def failing(words, prepare=lambda: None, **how):
    """Runs of a command, each with another one of its calls failing, and what to say of each; but for calls of the system's loader."""
    _, lines = traced(words, **how)
    for call in CALLS:
        for at in range(1, of_program(lines, call) + 1):
            prepare()
            ran, _ = traced(words, "-e", f"inject={call}:error=EIO:when={at}", **how)
            if ran.status != 127:
                yield ran, f"error {at} of {call}"


def each_fault(words, out, made=None):
    """At status 0 all is done; else what was put out is a front of it, and what was to be made is absent or whole."""
    ran, _ = traced(words)
    same((ran.status, ran.out, ran.log), (0, out, ""), str(ran))
    whole = got(made) if made else None
    ends = set()
    for ran, about in failing(words, lambda: os.remove(made) if made and os.path.exists(made) else None):
        there = got(made) if made and os.path.exists(made) else None
        ends.add(ran.status)
        if ran.status == 0:
            same((ran.out, there, ran.log), (out, whole, ""), about)
            continue
        same((ran.status in (4, 6, 7), out.startswith(ran.out), there in (None, whole)), (True, True, True), f"{about}: {ran}")
        same(ran.log in ("", {4: "host fault\n", 6: "random fault\n", 7: "stream fault\n"}[ran.status]), True, f"{about}: {ran}")
    same(ends >= {4, 7}, True, f"statuses {ends}")


def test_each_call_of_decrypt_may_fail():
    put("in", bytes(70000))
    same(encrypt().status, 0, "encrypt")
    each_fault([PROGRAM, "decrypt", "-w", "key", "-i", "out.pf"], bytes(70000))


def test_each_call_of_manifest_may_fail():
    put("t", b"# {# note #}{{ x }}\n" + b"#" * 40000)
    text = b"# 1\n" + b"#" * 40000
    each_fault([PROGRAM, "manifest", "-D", "x=1", "t"], text)
    words = [PROGRAM, "manifest", "-D", "x=1", "t", "m"]
    same(traced(words)[0].status, 0, "to a file")
    for ran, about in failing(words, lambda: os.remove("m") if os.path.exists("m") else None):
        there = got("m") if os.path.exists("m") else None
        same((there in (None, text), ran.status in (4, 7) or ran.status == 0 and there == text), (True, True), f"{about}: {ran}")


def test_each_call_of_sums_may_fail():
    put("m", b'sgx.trusted_files = ["file:in"]\n')
    ran, _ = traced([PROGRAM, "sums", "m"])
    same(ran.status, 0, str(ran))
    each_fault([PROGRAM, "sums", "-o", "m2", "m"], ran.out, "m2")


def test_each_call_of_measure_may_fail():
    put("in", bytes(5000))
    put("layout", b"enclave 0x10000 1\npage 0x0 r-x reg measured file in 0\npage 0x1000 rw- reg measured zero\n")
    ran, _ = traced([PROGRAM, "measure", "layout"])
    same(ran.status, 0, str(ran))
    each_fault([PROGRAM, "measure", "layout"], ran.out)


def test_each_call_of_a_session_may_fail():
    """What was acknowledged is there, or what a later line was sealing; no other seat is lost."""
    dice = random.Random(10)
    old, new, other = (dice.randbytes(9000) for _ in range(3))
    put("in", old)
    same(encrypt(out="a.pf").status, 0, "encrypt")
    sealed = got("a.pf")
    script = f"open 0 a.pf\nwrite 0 0 {new.hex()}\nflush 0\nmove 0 b.pf\ncreate 1 c.pf\nwrite 1 0 {other.hex()}\nflush 1\nclose 0\nclose 1\n".encode()
    words = [PROGRAM, "session", "-w", "key"]

    def prepare():
        for name in {"a.pf", "b.pf", "c.pf"} & set(os.listdir(".")):
            os.remove(name)
        put("a.pf", sealed)

    for ran, about in failing(words, prepare, stdin=None, input=script):
        replies = ran.out.splitlines()
        there = {name: decrypt(name) for name in ("a.pf", "b.pf") if os.path.exists(name)}
        same(there != {}, True, f"{about}: {ran}")
        for name, opened in there.items():
            contents = [new] if b"ok flush" in replies[:3] or b"ok move" in replies else [old, new]
            same((opened.status, opened.out in contents), (0, True), f"{name} after {about}: {ran}")
        if replies[6:7] == [b"ok flush"]:
            holds(other, "c.pf")
