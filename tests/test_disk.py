"""What real disks and other runs do beside the program."""
import itertools
import os
import random
import signal
import socket
import subprocess
import time

from harness import PROGRAM, Skip, can_trace, decrypt, encrypt, got, holds, mode_of, of_program, put, same, start, traced

ENCRYPT = [PROGRAM, "encrypt", "-w", "key", "-i", "in", "-o", "out.pf"]
PAIRS = int(os.environ.get("PAIRS", "60"))


def host_fault(ran):
    same((ran.status, ran.log), (4, "host fault\n"), str(ran))


def kept(names):
    return {name: got(name) for name in names}


# One writer.


def test_of_two_runs_on_one_out_one_makes_it():
    contents = {"a": b"a" * 1000, "b": b"b" * 3000}
    for name, content in contents.items():
        put(name, content)
    for pair in range(PAIRS):
        if pair % 2:
            put("out.pf", b"old")
        runs = {name: start("encrypt", "-w", "key", "-i", name, "-o", "out.pf") for name in contents}
        ended = {name: run.wait(60) for name, run in runs.items()}
        done = [name for name, status in ended.items() if status == 0]
        if not done or any(status not in (0, 4) for status in ended.values()):
            raise AssertionError(f"pair {pair}: statuses {ended}")
        out = decrypt()
        if out.status or out.out not in [contents[name] for name in done]:
            raise AssertionError(f"pair {pair}: {done} made it, and it holds {out.out[:1]!r} ({out})")
        # A run that fails may leave its side file.
        left = {"out.pf.new"} if 4 in ended.values() else set()
        same(set(os.listdir(".")) - left, {"a", "b", "in", "key", "out.pf"}, f"pair {pair}")
        os.remove("out.pf")


def test_two_runs_over_their_input_lose_nothing():
    content = b"document" * 100
    for pair in range(PAIRS):
        put("doc", content)
        runs = [start("encrypt", "-w", "key", "-i", "doc", "-o", "doc") for _ in range(2)]
        ended = [run.wait(60) for run in runs]
        # A run that comes late protects the protected file once more. Where both read before one writes, none does.
        if any(status not in (0, 4) for status in ended):
            raise AssertionError(f"pair {pair}: statuses {ended}")
        if ended == [0, 0]:
            put("doc", decrypt("doc").out)
        if 0 in ended:
            holds(content, "doc")
        else:
            same(got("doc"), content, f"pair {pair}, {ended}")


def test_a_reader_never_takes_a_write_for_damage():
    encrypt()
    for _ in range(PAIRS):
        writer = start(*ENCRYPT[1:])
        ran = decrypt()
        if (ran.status, ran.out) != (0, b"content") and ran.status != 4:
            raise AssertionError(ran)
        if writer.wait(60) not in (0, 4):
            raise AssertionError(f"the writer ended with {writer.returncode}")


def test_two_spellings_of_one_file_are_one():
    for source, out in (("./in", "in"), ("in", "./in"), ("in", os.path.abspath("in"))):
        put("in", b"content")
        same(encrypt(source, out).status, 0, f"{source} {out}")
        holds(b"content", "in")


def test_a_killed_run_stops_no_later_one():
    put("out.pf", b"old")
    for _ in range(PAIRS):
        killed = start(*ENCRYPT[1:])
        time.sleep(random.random() * 0.004)
        killed.send_signal(signal.SIGKILL)
        killed.wait(60)
        if got("out.pf") != b"old":
            holds(b"content")
        ran = encrypt()
        same((ran.status, ran.log), (0, ""), str(ran))
        holds(b"content")
        put("out.pf", b"old")


# Errors that come late or in another handle.

CALLS = "openat statx read pread64 pwrite64 fsync ftruncate flock link rename unlink fchmod close getrandom".split()


def test_after_any_error_status_0_means_that_it_is_made():
    _, lines = traced(ENCRYPT)
    for call in CALLS:
        for at in range(1, of_program(lines, call) + 1):
            for old in (None, b"old"):
                if os.path.exists("out.pf"):
                    os.remove("out.pf")
                if old:
                    put("out.pf", old)
                ran, _ = traced(ENCRYPT, "-e", f"inject={call}:error=EIO:when={at}")
                about = f"error {at} of {call} {'over a file' if old else ''}: {ran}"
                if ran.status == 0 and (not os.path.exists("out.pf") or got("out.pf") == old):
                    raise AssertionError(f"nothing was made by {about}")
                if os.path.exists("out.pf") and got("out.pf") != old:
                    holds(b"content")
                if call in ("fsync", "pwrite64"):
                    same(ran.status, 4, about)


def test_a_file_is_written_and_synced_through_one_handle():
    _, lines = traced(ENCRYPT, "-y")
    unsynced, written = set(), 0
    for line in lines:
        call, handle = line.split("(")[0], line[line.find("(") + 1 :].split("<")[0]
        if call == "pwrite64":
            unsynced.add(handle)
            written += 1
        elif call == "fsync":
            unsynced.discard(handle)
        elif call in ("close", "rename") and (handle in unsynced or call == "rename" and unsynced):
            raise AssertionError(f"not synced before: {line}")
    same((written, unsynced), (2, set()), "writes")


def test_a_file_gets_no_closed_streams_number():
    closed = ["sh", "-c", 'exec <&- >&- 2>&-; exec "$@"', "sh", *ENCRYPT]
    ran, lines = traced(closed)
    same((ran.status, decrypt().out), (0, b"content"), str(ran))
    calls = [line for line in lines if line.startswith(("flock(", "pwrite64("))]
    low = [line for line in calls if int(line.split("(")[1].split(",")[0]) < 3]
    same((len(calls) >= 4, low), (True, []), "calls on files")


def test_a_file_system_without_locks_or_hard_links_serves():
    for old in (None, b"old"):
        for call, error in (("flock", "EOPNOTSUPP"), ("flock", "ENOLCK"), ("link", "EPERM"), ("link", "EOPNOTSUPP")):
            if os.path.exists("out.pf"):
                os.remove("out.pf")
            if old:
                put("out.pf", old)
            ran, _ = traced(ENCRYPT, "-e", f"inject={call}:error={error}")
            same((ran.status, ran.log), (0, ""), f"{call} {error}: {ran}")
            holds(b"content")
    same(sorted(os.listdir(".")), ["in", "key", "out.pf"], "what is left")


# Names at which nothing stands, or no plain file.


def test_a_side_file_that_is_removed_is_a_fault():
    if can_trace():
        raise Skip(can_trace())
    # A sync that takes its time: the second is the one of the first node, the third that of the content.
    for at, old in itertools.product((3, 4), (None, b"old")):
        if old:
            put("out.pf", old)
        elif os.path.exists("out.pf"):
            os.remove("out.pf")
        words = ["strace", "-qq", "-o", "trace", "-e", f"inject=fsync:delay_enter=700000:when={at}", *ENCRYPT]
        ran = subprocess.Popen(words, stdin=subprocess.DEVNULL, stderr=subprocess.PIPE)
        for _ in range(500):
            if os.path.exists("out.pf.new") and os.path.getsize("out.pf.new"):
                os.remove("out.pf.new")
                break
            time.sleep(0.001)
        same((ran.wait(60), ran.stderr.read()), (4, b"host fault\n"), f"sync {at}")
        ran.stderr.close()
        same(os.path.exists("out.pf"), bool(old), "out.pf")
        if old:
            same(got("out.pf"), old, "out.pf")


def test_what_is_no_plain_file_is_a_fault_and_never_waited_for():
    def listening(name):
        with socket.socket(socket.AF_UNIX) as made:
            made.bind(name)

    for make in (os.mkfifo, os.mkdir, listening):
        for name, ask in (("key", decrypt), ("out.pf", decrypt), ("key", encrypt), ("in", encrypt), ("out.pf", encrypt), ("out.pf.new", encrypt)):
            put("key", bytes(range(16)))
            put("in", b"content")
            if os.path.exists(name):
                os.remove(name)
            make(name)
            host_fault(ask(timeout=10))
            same(os.path.isfile(name), False, name)
            os.rmdir(name) if os.path.isdir(name) else os.remove(name)
            for left in ("out.pf", "out.pf.new"):
                if os.path.exists(left):
                    os.remove(left)


def test_symlinks_are_read_and_not_changed():
    os.rename("key", "kept-key")
    os.rename("in", "kept-in")
    os.symlink("kept-key", "key")
    os.symlink("kept-in", "in")
    same(encrypt().status, 0, "links to KEY and IN")
    holds(b"content")
    os.rename("out.pf", "kept.pf")
    os.symlink("kept.pf", "out.pf")
    holds(b"content")
    before = kept(["kept-key", "kept-in", "kept.pf"])
    host_fault(encrypt())
    os.remove("out.pf.new")
    host_fault(encrypt("in", "in"))
    os.remove("in.new")
    os.symlink("kept.pf", "other.pf.new")
    host_fault(encrypt(out="other.pf"))
    os.symlink("absent", "third.pf.new")
    host_fault(encrypt(out="third.pf"))
    same(kept(before), before, "what the links name")
    same([os.path.islink(it) for it in ("in", "out.pf", "other.pf.new", "third.pf.new")], [True] * 4, "links")
    same(os.path.exists("absent"), False, "absent")


def test_hard_links_are_read_and_not_changed():
    os.link("key", "kept-key")
    os.link("in", "kept-in")
    same(encrypt().status, 0, "links to KEY and IN")
    os.link("out.pf", "kept.pf")
    holds(b"content")
    before = kept(["kept-key", "kept-in", "kept.pf", "in", "out.pf"])
    host_fault(encrypt())
    os.remove("out.pf.new")
    host_fault(encrypt("in", "in"))
    os.remove("in.new")
    os.link("kept.pf", "other.pf.new")
    host_fault(encrypt(out="other.pf"))
    same(kept(before), before, "what the links name")
    same(os.stat("kept.pf").st_nlink, 3, "links of kept.pf")


# Modes and lines.


def test_a_new_file_is_the_owners_alone():
    put("out.pf.new", b"of somebody else", 0o666)
    same((encrypt().status, mode_of("out.pf")), (0, 0o600), "mode")
    for mode in (0o640, 0o444, 0o666):
        os.chmod("out.pf", mode)
        ran = encrypt()
        if mode == 0o444 and os.geteuid():
            host_fault(ran)
        else:
            same((ran.status, mode_of("out.pf")), (0, mode), str(ran))
        os.path.exists("out.pf.new") and os.remove("out.pf.new")


def test_a_new_file_gets_the_owner_of_the_old_one():
    if os.geteuid():
        raise Skip("only root may give files away")
    encrypt()
    os.chown("out.pf", 65534, 65533)
    same(encrypt().status, 0, "encrypt")
    at = os.stat("out.pf")
    same((at.st_uid, at.st_gid), (65534, 65533), "owner and group")


def test_lines_of_several_runs_do_not_mix():
    name = "n" * 200
    ends, begins = os.pipe()
    runs = [start("decrypt", "-w", name, "-i", "in", stderr=begins) for _ in range(40)]
    os.close(begins)
    with open(ends, "rb") as log:
        lines = log.read().splitlines()
    same([run.wait(60) for run in runs], [3] * 40, "statuses")
    same(lines, [f"refused not found {name}".encode()] * 40, "lines")


def test_a_line_is_one_write():
    for words in (["decrypt", "-w", "none", "-i", "in"], ["decrypt", "-w", "in", "-i", "in"], []):
        ran, lines = traced([PROGRAM, *words], "-e", "trace=write")
        same(sum(line.startswith("write(2,") for line in lines), 1, str(ran))
