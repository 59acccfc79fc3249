"""Sessions: a script on standard input, each line of which is answered before the next is read."""
import array
import fcntl
import os
import random
import signal
import subprocess
import termios
import time

from harness import KEY, PROGRAM, TOP, decrypt, encrypt, got, holds, put, run, same, traced
from protected import NODE

SESSION = [PROGRAM, "session", "-w", "key"]
LONGEST = 131072
PIECE = 32768

# the calls by which the program may change a disk
CHANGES = ("openat", "pwrite64", "write", "ftruncate", "fsync", "fchmod", "fchown", "link", "rename", "unlink")


def led(script, **how):
    """A session on this script."""
    return run(SESSION, stdin=None, input=script, **how)


def answers(script, out, status=0, log=""):
    ran = led(script)
    same((ran.out, ran.status, ran.log), (out, status, log), script[:60])


def test_session_of_no_lines():
    answers(b"", b"end\n")
    answers(b"\n# a comment\n", b"end\n")
    same(sorted(os.listdir(".")), ["in", "key"], "no file is made")


def test_session_of_the_example():
    with open(f"{TOP}/examples/notes.script", "rb") as script, open(f"{TOP}/examples/notes.replies", "rb") as replies:
        answers(script.read(), replies.read(), 3)
    same(os.path.exists("notes.pf"), False, "the old name")
    holds(b"hell", "kept.pf")


def test_session_writes_and_reads():
    answers(
        b"create 0 c.pf\nwrite 0 0 68656c6c6f\nwrite 0 5 21\nwrite 0 7 00\nfill 0 0 32769 00\nwrite 0 0 " + b"00" * 32769 + b"\nwrite 0 4294967296 00\n"
        b"read 0 0 32769\nread 0 0 10\nread 0 6 1\nflush 0\nclose 0\n",
        b"ok create\nok write 5\nok write 1\nrefused past end 6\nrefused too long\nrefused too long\nrefused too large\nrefused too long\n"
        b"ok read 6 68656c6c6f21\nok read 0\nok flush\nok close\nend\n",
        3,
    )
    holds(b"hello!", "c.pf")


def test_session_a_shrink_leaves_no_old_bytes():
    answers(
        b"create 0 d.pf\nfill 0 0 5000 ff\nsize 0 100\nsize 0 5000\nread 0 98 4\nread 0 4996 4\nclose 0\n",
        b"ok create\nok write 5000\nok size 100\nok size 5000\nok read 4 ffff0000\nok read 4 00000000\nok close\nend\n",
    )
    same(os.path.getsize("d.pf"), 12288, "length")
    holds(b"\xff" * 100 + bytes(4900), "d.pf")


def test_session_flushes_where_too_many_nodes_are_dirty():
    places = range(0, 6 * 32768, 32768)
    script = b"create 0 e.pf\n" + b"".join(b"fill 0 %d 32768 61\n" % at for at in places)
    answers(script, b"ok create\n" + 5 * b"ok write 32768\n" + b"ok write 32768 flushed\nend\n")
    holds(b"a" * 6 * 32768, "e.pf")


def test_session_edits_a_large_file():
    content = random.Random(5).randbytes(396289)
    put("in", content)
    same(encrypt().status, 0, "encrypt")
    answers(b"open 0 out.pf\nwrite 0 396288 7a\nflush 0\nclose 0\n", b"ok open 396289\nok write 1\nok flush\nok close\nend\n")
    holds(content[:-1] + b"z")


def test_session_an_older_node_put_back_is_damage():
    content = random.Random(6).randbytes(396289)
    pieces = [content[at : at + PIECE] for at in range(0, len(content), PIECE)]
    script = b"".join(b"write 0 %d %s\nflush 0\n" % (PIECE * i, piece.hex().encode()) for i, piece in enumerate(pieces))
    replies = b"".join(b"ok write %d\nok flush\n" % len(piece) for piece in pieces)
    answers(b"create 0 out.pf\n" + script + b"close 0\n", b"ok create\n" + replies + b"ok close\nend\n")
    flushed = []
    for byte in b"yz":
        answers(b"open 0 out.pf\nwrite 0 396288 %02x\nflush 0\nclose 0\n" % byte, b"ok open 396289\nok write 1\nok flush\nok close\nend\n")
        holds(content[:-1] + bytes([byte]))
        flushed.append(got("out.pf"))
    older, newer = flushed
    same((len(older), len(newer)), (409600, 409600), "lengths")
    same(older[99 * NODE :] == newer[99 * NODE :], False, "node 99 of both flushes")
    put("out.pf", newer[: 99 * NODE] + older[99 * NODE :])
    ran = decrypt()
    same((ran.status, ran.log, len(ran.out)), (1, "damaged node 99 tag\n", 393216), "node 99 put back")
    same(ran.out == content[:393216], True, "the pieces before node 99")


def test_session_an_older_file_put_back_is_opened():
    """Nothing in the file itself tells that it is not the newest."""
    answers(b"create 0 out.pf\nwrite 0 0 %s\nflush 0\nclose 0\n" % b"one".hex().encode(), b"ok create\nok write 3\nok flush\nok close\nend\n")
    older = got("out.pf")
    answers(b"open 0 out.pf\nwrite 0 0 %s\nflush 0\nclose 0\n" % b"two".hex().encode(), b"ok open 3\nok write 3\nok flush\nok close\nend\n")
    holds(b"two")
    put("out.pf", older)
    holds(b"one")
    answers(b"open 0 out.pf\nread 0 0 9\nclose 0\n", b"ok open 3\nok read 3 6f6e65\nok close\nend\n")


def test_session_names_and_seats():
    answers(b"create 0 a.pf\n", b"ok create\nend\n")
    with open("a.pf", "rb") as file:
        put("b.pf", file.read())
    answers(b"open 0 b.pf\n", b"refused wrong path a.pf\nend\n", 3)
    answers(b"create 0 a.pf\ncreate 0 x.new\nopen 0 none\n", b"refused exists a.pf\nrefused bad name\nrefused not found none\nend\n", 3)
    answers(b"open 0 a.pf\nopen 0 b.pf\nopen 1 a.pf\nflush 7\n", b"ok open 0\nrefused seat busy\nrefused name busy\nrefused seat empty\nend\n", 3)


def test_session_moves():
    answers(b"create 0 f.pf\nwrite 0 0 6869\nmove 0 g.pf\nmove 0 g.pf\n", b"ok create\nok write 2\nok move\nrefused target exists\nend\n", 3)
    same(os.path.exists("f.pf"), False, "the old name")
    holds(b"hi", "g.pf")


def test_session_lines_of_each_form():
    script = [
        ("", ""),
        ("#", ""),
        ("# create 0 a", ""),
        ("create 7  a b ", "ok create"),
        ("write 7 0 0aFf", "ok write 2"),
        ("read 7 0 2", "ok read 2 0aff"),
        ("fill 7 0 3 fF", "ok write 3"),
        ("read 7 1 9", "ok read 2 ffff"),
        ("write 7 4294967296 0aFf", "refused too large"),
        ("size 7 18446744073709551615", "refused too large"),
        ("size 7 5", "ok size 5"),
        ("flush 7", "ok flush"),
        ("move 7 d\u00e9.pf", "ok move"),
        ("close 7", "ok close"),
        ("open 1 d\u00e9.pf", "ok open 5"),
        ("view 0 /app/hello", "refused no manifest"),
        ("read 1 0 9", "ok read 5 ffffff0000"),
    ]
    answers("".join(f"{line}\n" for line, _ in script).encode(), "".join(f"{reply}\n" for _, reply in script if reply).encode() + b"end\n", 3)
    same(sorted(os.listdir(".")), ["d\u00e9.pf", "in", "key"], "files")
    ran = led("open 1 d\u00e9.pf\ndraw 1\ndraw 1\n".encode())
    opened, first, second, end = ran.out.split(b"\n")[:4]
    same((opened, first == second, len(first), end), (b"ok open 5", True, len("ok draw ") + 64, b"end"), f"draw ({ran.out})")


def test_session_other_lines_are_bad():
    lines = [b" ", b" # a", b"create", b"create ", b"create 0", b"create 0 ", b"create 8 a", b"create 00 a", b"create  0 a", b" create 0 a"]
    lines += [b"Create 0 a", b"create\t0 a", b"create 0 \xff", b"create 0 a\xc3", b"created 0 a", b"view 0", b"view 0 "]
    lines += [b"read 0 0", b"read 0 00 1", b"read 0 0 1 ", b"read 0  0 1", b"read 0 +1 1", b"size 0", b"size 0 18446744073709551616"]
    lines += [b"write 0 0 ", b"write 0 0 6", b"write 0 0 6g", b"write 0 0 61 ", b"write 0 4294967296 0aF", b"fill 0 0 1 0", b"fill 0 0 1 000", b"fill 0 0 00"]
    lines += [b"flush", b"flush 8", b"flush 0 ", b" flush 0", b"draw -1", b"close 0\r", b"end"]
    answers(b"\n".join(lines), len(lines) * b"refused bad line\n" + b"end\n", 3)
    same(sorted(os.listdir(".")), ["in", "key"], "no file is made")


def test_session_lines_up_to_the_limit():
    """A longer line is skipped to its end, and lines are the same where they come in pieces."""
    bad = b"refused bad line\n"
    for count, behind, replies in [
        (LONGEST, b"\nflush", bad),
        (LONGEST, b"\nflush\n", bad),
        (LONGEST, b"", b""),
        (LONGEST + 1, b"\nflush\n", bad + bad),
        (LONGEST + 1, b"", bad),
        (3 * LONGEST, b"\nflush 0\n", bad + b"refused seat empty\n"),
    ]:
        script = b"#" * count + behind
        answers(script, replies + b"end\n", 3 if replies else 0)
        for size in (1000, 65537):
            same(in_pieces(script, size), replies + b"end\n", f"{count} {behind} in pieces of {size}")
    script = b"create 0 a.pf\n\nwrite 0 0 %s\r\n#\nwrite 0 0 %s\nread 0 32765 9\nread 0 0 32768" % (b"61" * 9, b"61" * 32768)
    replies = b"ok create\n" + bad + b"ok write 32768\nok read 3 616161\nok read 32768 " + b"61" * 32768 + b"\nend\n"
    same(in_pieces(script[:47], 1), b"ok create\n" + bad + b"end\n", "byte by byte")
    os.remove("a.pf")
    same(in_pieces(script, 997), replies, "in pieces")


def in_pieces(script, size):
    """What a session answers to a script that comes in pieces, each once the one before it was read."""
    with subprocess.Popen(SESSION, stdin=subprocess.PIPE, stdout=subprocess.PIPE, bufsize=0) as session:
        for at in range(0, len(script), size):
            session.stdin.write(script[at : at + size])
            until_read(session.stdin)
        session.stdin.close()
        replies = session.stdout.read()
        session.wait(60)
        return replies


def until_read(pipe):
    """Waits until all that was written is read."""
    unread, end = array.array("i", [1]), time.monotonic() + 60
    while unread[0]:
        same(time.monotonic() < end, True, "the session reads")
        fcntl.ioctl(pipe, termios.FIONREAD, unread)


def test_session_the_first_failed_reply_gives_the_status():
    put("d.pf", b"GRPFTOOL" + bytes(100))
    answers(b"open 0 d.pf\nflush 0\n", b"damaged node 0 short\nrefused seat empty\nend\n", 1)
    answers(b"flush 0\nopen 0 d.pf\n", b"refused seat empty\ndamaged node 0 short\nend\n", 3)


def test_session_key_is_read_first():
    put("key", KEY[:15])
    answers(b"create 0 a.pf\n", b"", 3, "refused key file 15\n")
    same(os.path.exists("a.pf"), False, "a.pf")


def test_session_answers_line_by_line():
    """Each reply is there before the next line is written."""
    script = [(b"create 0 a.pf\n", b"ok create\n"), (b"write 0 0 6162\n", b"ok write 2\n"), (b"read 0 0 9\n", b"ok read 2 6162\n"), (b"flush 0\n", b"ok flush\n")]
    with subprocess.Popen(SESSION, stdin=subprocess.PIPE, stdout=subprocess.PIPE, bufsize=0) as session:
        for line, reply in script:
            session.stdin.write(line)
            same(session.stdout.readline(), reply, line)
        session.stdin.close()
        same(session.stdout.read(), b"end\n", "end")
        same(session.wait(60), 0, "status")
    holds(b"ab", "a.pf")


def test_session_streams_that_fail():
    with open("/dev/full", "wb") as full:
        same(led(b"create 0 a.pf\n", stdout=full).status, 7, "full output")
    ran = run(["sh", "-c", "exec <&-; exec \"$@\"", "sh", *SESSION])
    same((ran.status, ran.out, ran.log), (7, b"", "stream fault\n"), "closed input")


def test_session_killed_at_any_moment():
    """What a kill leaves opens, as one of the contents that were flushed."""
    answers(b"create 0 a.pf\n", b"ok create\nend\n")
    dice = random.Random(7)
    contents = {b""}
    for turn in range(12):
        byte = b"%02x" % turn
        script = b"open 0 a.pf\n" + b"".join(b"fill 0 %d 32768 %s\n" % (at, byte) for at in range(0, 131072, 32768)) + b"flush 0\nfill 0 0 9 00\nflush 0\n"
        whole = bytes([turn]) * 131072
        contents |= {whole, bytes(9) + whole[9:]}
        with subprocess.Popen(SESSION, stdin=subprocess.PIPE, stdout=subprocess.DEVNULL) as session:
            session.stdin.write(script)
            session.stdin.flush()
            time.sleep(dice.random() * 0.05)
            session.send_signal(signal.SIGKILL)
        ran = run([PROGRAM, "decrypt", "-w", "key", "-i", "a.pf"])
        same((ran.status, ran.out in contents), (0, True), f"after kill {turn} ({ran})")


def moments(trace):
    """Each call of the program that may change a disk, as its name and how often it was made until then."""
    made = {}
    for line in trace:
        call = line.split("(")[0]
        if call in CHANGES:
            made[call] = made.get(call, 0) + 1
            yield call, made[call]


def test_session_killed_at_each_call():
    """A kill before any call that may change the disk leaves what was acknowledged last, or what was being flushed or moved."""
    dice = random.Random(8)
    old, first, second = (dice.randbytes(9000) for _ in range(3))
    put("in", old)
    same(encrypt(out="a.pf").status, 0, "encrypt")
    sealed = got("a.pf")
    script = f"open 0 a.pf\nwrite 0 0 {first.hex()}\nflush 0\nwrite 0 0 {second.hex()}\nmove 0 b.pf\nclose 0\n".encode()
    choose = ("-e", f"trace={','.join(CHANGES)}")
    ran, lines = traced(SESSION, *choose, stdin=None, input=script)
    same((ran.status, ran.out.splitlines()[-1]), (0, b"end"), f"whole run ({ran})")
    kills = list(moments(lines))
    for call, count in kills:
        for name in set(os.listdir(".")) - {"in", "key"}:
            os.remove(name)
        put("a.pf", sealed)
        ran, _ = traced(SESSION, *choose, "-e", f"inject={call}:signal=KILL:when={count}", stdin=None, input=script)
        replies = ran.out.splitlines()
        if b"ok move" in replies:
            contents = [second]
        elif b"ok flush" in replies:
            contents = [first, second]
        else:
            contents = [old, first]
        there = {name: decrypt(name) for name in ("a.pf", "b.pf") if os.path.exists(name)}
        same(there != {}, True, f"a name is there after a kill at {call} {count}")
        for name, opened in there.items():
            same((opened.status, opened.out in contents), (0, True), f"{name} after a kill at {call} {count} ({opened})")


def asked(session, line):
    """The reply to a line of a session that is led through pipes."""
    session.stdin.write(line.encode() + b"\n")
    return session.stdout.readline().decode().rstrip("\n")


def test_session_over_a_live_host():
    """A host that changes the file between two lines is answered by the version that was opened, or by a damage of the node."""
    dice = random.Random(9)
    versions = []
    for _ in range(2):
        put("in", dice.randbytes(300000))
        same(encrypt(out="a.pf").status, 0, "encrypt")
        versions.append((got("in"), got("a.pf")))
    (_, older), (content, newer) = versions
    damaged, given = 0, 0
    with subprocess.Popen(SESSION, stdin=subprocess.PIPE, stdout=subprocess.PIPE, bufsize=0) as session:
        same(asked(session, "open 0 a.pf"), "ok open 300000", "open")
        for turn in range(200):
            at = dice.randrange(300000 - 100)
            cut = dice.randrange(len(newer))
            put("a.pf", [newer, older, newer[:cut], newer[:cut] + older[cut:], older[:cut] + newer[cut:]][turn % 5])
            reply = asked(session, f"read 0 {at} 100")
            if reply.startswith("damaged node "):
                damaged += 1
                continue
            given += 1
            same(reply, f"ok read 100 {content[at : at + 100].hex()}", f"turn {turn}")
        put("a.pf", newer)
        session.stdin.write(b"read 0 299900 100\n")
        same(session.stdout.readline(), f"ok read 100 {content[299900:].hex()}\n".encode(), "the file that was opened")
        session.stdin.close()
        same(session.stdout.read(), b"end\n", "end")
    same((damaged > 0, given > 0), (True, True), f"{damaged} damaged, {given} given")


def test_session_a_live_host_stops_a_change():
    """A change that meets a damage breaks its seat and no other; what was sealed stays."""
    put("in", bytes(300000))
    same(encrypt(out="a.pf").status, 0, "encrypt")
    sealed = got("a.pf")
    with subprocess.Popen(SESSION, stdin=subprocess.PIPE, stdout=subprocess.PIPE, bufsize=0) as session:
        same([asked(session, line) for line in ("open 0 a.pf", "create 1 b.pf", "write 1 0 6162")], ["ok open 300000", "ok create", "ok write 2"], "begin")
        put("a.pf", sealed[: 50 * NODE] + bytes(NODE) + sealed[51 * NODE :])
        same(asked(session, f"write 0 {3072 + 48 * NODE + 5} 61"), "damaged node 50 tag", "a write into the node")
        same([asked(session, line) for line in ("flush 0", "close 0", "flush 1", "read 1 0 9")], ["refused broken", "ok close lost", "ok flush", "ok read 2 6162"], "the seats after it")
        put("a.pf", sealed)
        same([asked(session, line) for line in ("open 0 a.pf", "write 0 0 61")], ["ok open 300000", "ok write 1"], "opened again")
        put("a.pf", sealed[: 60 * NODE])
        same([asked(session, line) for line in ("flush 0", "flush 1")], ["damaged node 60 short", "ok flush"], "a node to be copied is short")
        put("a.pf", sealed)
        same([asked(session, line) for line in ("close 0", "open 0 a.pf", "write 0 0 61")], ["ok close lost", "ok open 300000", "ok write 1"], "opened once more")
        put("a.pf", sealed[: 60 * NODE])
        same([asked(session, line) for line in ("close 0", "flush 0")], ["damaged node 60 short", "refused seat empty"], "so it is in a closing")
        same([asked(session, line) for line in ("open 2 a.pf", "write 2 0 62")], ["ok open 300000", "ok write 1"], "its first node is whole")
        session.stdin.close()
        same((session.stdout.read(), session.wait(60)), (b"damaged node 60 short\nend\n", 1), "the closings behind the last line")
    holds(b"ab", "b.pf")
