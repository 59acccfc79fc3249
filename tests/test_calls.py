"""Calls of real files by several hosts, which the program disk_calls makes one by one."""
import contextlib
import os
import subprocess

from harness import CALLS, Skip, can_trace, got, mode_of, of_program, put, same

FAULT, DONE, ABSENT = "Err(HostFault)", "Ok(())", "Ok(None)"


class Driver:
    """A running disk_calls."""

    def __init__(self, program):
        self.program = program

    def ask(self, line):
        self.program.stdin.write(f"{line}\n".encode())
        self.program.stdin.flush()
        return self.program.stdout.readline().decode().rstrip("\n")

    def said(self, answers):
        """Each line gets its answer."""
        for line, answer in answers:
            same(self.ask(line), answer, line)

    def opened(self, host, name, content):
        self.said([(f"{host} len {name}", length(len(content))), (f"{host} read {name} 0 {len(content) + 2}", reading(content, 2))])

    def refuses(self, host, name):
        """Each call on the name is a fault."""
        self.said((f"{host} {call}", FAULT) for call in (f"len {name}", f"read {name} 0 4", f"sync {name}"))
        self.refuses_changes(host, name)

    def refuses_changes(self, host, name):
        """Each call that changes the name is a fault."""
        calls = (f"write {name} 0 x", f"cut {name} 0", f"make {name}", f"swap {name} none", f"remove {name}")
        self.said((f"{host} {call}", FAULT) for call in calls)


def length(count):
    return f"Ok(Some({count}))"


def reading(content, left=0):
    """The answer to a read of this content, with so many bytes of the buffer left."""
    return f"Ok({len(content)}) {(content + bytes([9]) * left).hex()}"


@contextlib.contextmanager
def driver(*before):
    """A running disk_calls, which ends well at the end of its input. Words `before` run it, as those of strace."""
    if not os.access(CALLS, os.X_OK):
        raise AssertionError(f"no built program stands at {CALLS}: run rt ci first")
    with subprocess.Popen([*before, CALLS], stdin=subprocess.PIPE, stdout=subprocess.PIPE) as program:
        yield Driver(program)
        program.stdin.close()
        same(program.wait(60), 0, "status of disk_calls")


def test_real_files_are_read():
    put("a", b"newer")
    os.mkdir("folder")
    with driver() as host:
        host.said([("0 read a 0 4", reading(b"newe")), ("0 read a 3 4", reading(b"er", 2))])
        for at in (5, 1 << 62, (1 << 63) - 1, 1 << 63, (1 << 64) - 1):
            host.said([(f"0 read a {at} 4", reading(b"", 4))])
        for absent in ("b", "b/c", "a/b"):
            host.said([(f"0 len {absent}", ABSENT), (f"0 read {absent} 0 4", reading(b"", 4))])
        host.said([("0 len folder", FAULT), ("0 read folder 0 4", FAULT)])


def test_more_files_are_read_in_turn_than_stay_open():
    names = [f"file{k}" for k in range(70)]
    for name in names:
        put(name, name.encode())
    with driver() as host:
        for _ in range(3):
            for name in names:
                host.opened(0, name, name.encode())
        os.remove(names[-1])
        host.said([(f"0 len {names[-1]}", ABSENT)])


def test_each_call_changes_a_file():
    with driver() as host:
        host.said([("0 make a", DONE), ("0 len a", length(0)), ("0 write a 2 xyz", DONE), ("0 write a 1 w", DONE)])
        host.said([("0 cut a 9", DONE)])
        host.opened(0, "a", b"\0wxyz")
        host.said([("0 cut a 3", DONE), ("0 sync a", DONE), ("0 make b", DONE), ("0 swap a b", DONE), ("0 len a", ABSENT)])
        same(got("b"), b"\0wx", "the file")
        host.said([("0 swap b b", DONE)])
        host.opened(0, "b", b"\0wx")
        host.said([("0 make b", DONE), ("0 len b", length(0)), ("0 remove b", DONE), ("0 len b", ABSENT)])
    same(os.path.exists("b"), False, "the file is there")


def test_pieces_are_written_and_read():
    piece = 32_768
    with driver() as host:
        host.said([("0 make a", DONE), (f"0 write a 0 {'x' * piece}", DONE), (f"0 write a {piece} {'y' * 7_232}", DONE)])
        host.said([(f"0 read a 1 {piece}", reading(b"x" * (piece - 1) + b"y")), (f"0 read a {piece} {piece}", reading(b"y" * 7_232, piece - 7_232))])
    same(got("a"), b"x" * piece + b"y" * 7_232, "the file")


def test_changes_of_absent_names_are_faults():
    with driver() as host:
        for name in ("a", "none/b"):
            host.said([(f"0 write {name} 0 x", FAULT), (f"0 cut {name} 0", FAULT), (f"0 swap {name} a", FAULT)])
            host.said([(f"0 sync {name}", DONE), (f"0 len {name}", ABSENT)])
        host.said([("0 remove a", DONE), ("0 remove none/b", FAULT), ("0 make none/b", FAULT)])
        host.said([("0 make a", DONE), ("0 swap a none/b", FAULT), ("0 len a", length(0))])
        host.said([(f"0 write a {(1 << 64) - 1} x", FAULT)])


def test_what_is_no_plain_file_is_a_fault_of_each_call():
    os.mkdir("folder")
    with driver() as host:
        for name in ("folder", "/dev/null"):
            host.refuses(0, name)


def test_links_are_read_and_not_changed_by_any_call():
    put("a", b"abcd")
    os.symlink("a", "soft")
    with driver() as host:
        host.opened(0, "soft", b"abcd")
        host.refuses_changes(0, "soft")
        os.link("a", "hard")
        host.opened(0, "hard", b"abcd")
        host.refuses_changes(0, "hard")
        host.refuses_changes(0, "a")
    same(got("a"), b"abcd", "a")


def test_a_changed_file_is_held_to_the_end():
    with driver() as host:
        host.said([("0 make a", DONE), ("0 write a 0 abcd", DONE)])
        host.refuses(1, "a")
        host.said([("0 swap a b", DONE)])
        host.refuses(1, "b")
        host.said([("1 make a", DONE), ("1 swap a b", FAULT), ("0 drop", DONE)])
        host.opened(1, "b", b"abcd")
        host.said([("1 swap a b", DONE), ("1 len b", length(0))])


def test_a_file_that_is_read_is_not_changed():
    put("a", b"abcd")
    with driver() as host:
        host.opened(0, "./a", b"abcd")
        host.opened(1, "a", b"abcd")
        host.refuses_changes(0, "a")
        host.said([("1 drop", DONE), ("0 write a 0 x", DONE)])
        host.opened(0, "./a", b"xbcd")


def test_a_name_with_another_file_than_before_is_a_fault():
    put("a", b"abcd")
    put("b", b"abcd")
    with driver() as host:
        host.said([("0 write a 0 x", DONE), ("0 read b 0 4", reading(b"abcd"))])
        os.rename("b", "a")
        put("b", b"ef")
        host.said([("0 len a", FAULT), ("0 sync a", FAULT)])
        host.refuses_changes(0, "a")
        host.refuses_changes(0, "b")
        host.said([("0 sync b", DONE)])
        host.opened(0, "b", b"ef")
        os.remove("a")
        host.said([("0 len a", FAULT), ("0 write a 0 x", FAULT)])


def failed_syncs(host):
    """Makes, writes and syncs the file a, and syncs the file read, which exists; answers which of the calls failed."""
    failed = set()
    if host.ask("0 make a") != DONE:
        failed.add("make")
    else:
        for _ in range(2):
            host.said([("0 write a 0 abcd", DONE)])
            if host.ask("0 sync a") != DONE:
                host.refuses_changes(0, "a")
                failed.add("sync a")
                break
    if host.ask("0 sync read") != DONE:
        failed.add("sync read")
    return failed


def is_lost(host, others):
    """The file read, of which a sync failed, is only read from then on, also where many others were opened since."""
    for name in others:
        host.said([(f"0 len {name}", length(1))])
    host.said([("0 sync read", FAULT)])
    host.refuses_changes(0, "read")
    host.opened(0, "read", b"abcd")
    os.remove("read")
    host.refuses_changes(0, "read")


def test_after_a_failed_sync_a_file_is_not_changed():
    if can_trace():
        raise Skip(can_trace())
    put("read", b"abcd")
    others = [f"other{k}" for k in range(70)]
    for name in others:
        put(name, b"x")
    traced = ["strace", "-qq", "-o", "trace"]
    with driver(*traced) as host:
        same(failed_syncs(host), set(), "calls that failed")
    synced = of_program(got("trace").decode().splitlines(), "fsync")
    found = set()
    for at in range(1, synced + 1):
        os.remove("a") if os.path.exists("a") else None
        put("read", b"abcd")
        with driver(*traced, "-e", f"inject=fsync:error=EIO:when={at}") as host:
            failed = failed_syncs(host)
            same(len(failed), 1, f"calls that failed at sync {at}")
            if "sync read" in failed:
                is_lost(host, others)
            found |= failed
    same(found, {"make", "sync a", "sync read"}, "calls that failed")


def test_a_sync_needs_no_right_to_change():
    put("a", b"abcd", 0o400)
    os.symlink("a", "soft")
    os.link("a", "hard")
    with driver() as host:
        for number, name in enumerate(("a", "soft", "hard")):
            host.said([(f"{number} sync {name}", DONE)])
            host.opened(number, name, b"abcd")
            host.said([(f"{number} sync {name}", DONE)])


def test_two_hosts_sync_and_read_one_file():
    put("a", b"abcd")
    with driver() as host:
        host.said([("0 sync a", DONE), ("1 sync a", DONE)])
        host.opened(0, "a", b"abcd")
        host.opened(1, "a", b"abcd")
        host.said([("0 write a 0 x", FAULT), ("1 drop", DONE), ("0 write a 0 x", DONE), ("0 sync a", DONE), ("2 sync a", FAULT)])


def test_a_made_file_is_the_owners_alone():
    for name in ("a", "b"):
        put(name, b"abcd", 0o646)
    with driver() as host:
        host.said([("0 make a", DONE)])
        same(mode_of("a"), 0o600, "mode of a")
        host.said([("0 swap a b", DONE)])
        same(mode_of("b"), 0o646, "mode of b")
        host.said([("0 make a", DONE)])
        same(mode_of("a"), 0o600, "mode of a")


def test_what_a_run_left_in_making_a_file_is_removed():
    put(".pf_tool-0", b"")
    os.link(".pf_tool-0", "a")
    put(".pf_tool-1", b"x")
    with driver() as host:
        host.said([("0 make a", DONE), ("0 len .pf_tool-0", ABSENT), ("0 len .pf_tool-1", length(1))])
    same(os.stat("a").st_nlink, 1, "links of a")
