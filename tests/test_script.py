"""The script pf_tool at the top: which program it runs, and what it does where none is proved."""
import os
import shutil
import time

from harness import Skip, TOP, holds, put, run, same

NONE = "pf_tool: no proved program stands (rt ci proves and keeps it)"
UNPROVED = f"{NONE}, so an unproved build runs, in some 20 seconds\n"
FAKE_PROGRAM = b"""#!/bin/sh
printf '%s|' proved "$@"
exit 3
"""
FAKE_RT = b"""#!/bin/sh
printf '%s|' "$@"
echo said >&2
echo checked: ended status=5 >&2
echo run=ended status=5 runners=1 proved=no >&2
exit 5
"""
FAILED_RT = b"""#!/bin/sh
echo it does not compile >&2
echo run=none proved=no >&2
exit 1
"""


def at_age(name, seconds):
    then = time.time() - seconds
    os.utime(name, (then, then))


def clone(rt=FAKE_RT):
    """A small repository with the script, a program that a gate left, and an rt, none of them real."""
    for folder in ("repo/crates/pf_tool/src", "repo/crates/pf_tool/out", "repo/.git", "bin"):
        os.makedirs(folder)
    shutil.copy(os.path.join(TOP, "pf_tool"), "repo/pf_tool")
    put("repo/crates.txt", b"pf_tool:\n")
    put("repo/crates/pf_tool/src/main.rt", b"")
    put("repo/.git/rt-ci.lock", b"")
    put("repo/crates/pf_tool/out/pf_tool", FAKE_PROGRAM, 0o755)
    if rt:
        put("bin/rt", rt, 0o755)
    for name in ("repo/crates.txt", "repo/crates/pf_tool/src/main.rt", "repo/crates/pf_tool/src"):
        at_age(name, 30)
    at_age("repo/.git/rt-ci.lock", 20)
    at_age("repo/crates/pf_tool/out/pf_tool", 10)


def script(*words, name="repo/pf_tool", **how):
    path = f"{os.path.abspath('bin')}:/usr/bin:/bin"
    return run([name, *words], env={"PATH": path, "TMPDIR": os.path.abspath(".")}, **how)


def is_proved(ran, words="a|"):
    same((ran.status, ran.out.decode(), ran.log), (3, f"proved|{words}", ""), "proved")


def is_tried(ran, words="a|"):
    same((ran.status, ran.out.decode(), ran.log), (5, f"try|--|{words}", f"{UNPROVED}said\n"), "tried")


def test_script_runs_the_proved_program_with_its_words_and_status():
    clone()
    is_proved(script("a"))
    is_proved(script("", "a b", "*", "-o", "c\nd"), "|a b|*|-o|c\nd|")


def test_script_tries_where_none_is_proved():
    clone()
    os.remove("repo/crates/pf_tool/out/pf_tool")
    is_tried(script("a"))


def test_script_sees_an_edit_during_the_build():
    clone()
    at_age("repo/crates/pf_tool/src/main.rt", 15)
    is_tried(script("a"))


def test_script_sees_a_gate_that_built_nothing():
    clone()
    at_age("repo/.git/rt-ci.lock", 5)
    is_tried(script("a"))


def test_script_goes_without_a_lock():
    clone()
    shutil.rmtree("repo/.git")
    put("repo/.git", b"gitdir: elsewhere\n")
    is_proved(script("a"))
    at_age("repo/crates/pf_tool/src/main.rt", 5)
    is_tried(script("a"))


def test_script_is_called_through_a_link():
    clone()
    os.symlink("../repo/pf_tool", "bin/pf_tool")
    is_proved(script("a", name="bin/pf_tool"))
    os.mkdir("elsewhere")
    is_proved(run(["sh", "-c", "cd elsewhere && pf_tool a"], env={"PATH": f"{os.path.abspath('bin')}:/usr/bin:/bin"}))


def test_script_gives_an_unproved_build_whole_names():
    clone()
    os.remove("repo/crates/pf_tool/out/pf_tool")
    here = os.getcwd()
    is_tried(script("decrypt", "-w", "key", "-i", "/in"), f"decrypt|-w|{here}/key|-i|/in|")
    is_tried(script("encrypt", "-w", "", "-i", "a b", "-o", "/out"), f"encrypt|-w||-i|{here}/a b|-o|/out|")
    is_tried(script("manifest", "-D", "a=b", "-Dc=d", "t"), f"manifest|-D|a=b|-Dc=d|{here}/t|")
    is_tried(script("manifest", "", "/out"), "manifest||/out|")
    for words in (("encrypt", "-w", "key", "-i", "in", "-o", "out"), ("manifest", "t", "out")):
        ran = script(*words)
        same((ran.status, ran.out, ran.log), (126, b"", f"{NONE}, and an unproved build takes no OUT that does not begin with /\n"), "OUT")
    for command in ("sums", "measure", "session"):
        ran = script(command, "m")
        same((ran.status, ran.out, ran.log), (126, b"", f"{NONE}, and an unproved build does no {command}\n"), command)


def test_script_says_that_a_build_failed():
    clone(FAILED_RT)
    os.remove("repo/crates/pf_tool/out/pf_tool")
    ran = script("a")
    same((ran.status, ran.out), (126, b""), "failed build")
    same(ran.log, f"{UNPROVED}it does not compile\nrun=none proved=no\npf_tool: the unproved build did not run to its end\n", "log")
    os.remove("bin/rt")
    ran = script("a")
    same((ran.status, ran.log.splitlines()[-1]), (126, "pf_tool: the unproved build did not run to its end"), "no rt")
    same([it for it in os.listdir(".") if it.startswith("tmp")], [], "what is left")


def test_script_runs_at_once_in_a_clone_that_may_not_be_written():
    if not shutil.which("rt"):
        raise Skip("rt is not on the PATH")
    shutil.copytree(os.path.join(TOP, "crates"), "copy/crates", ignore=shutil.ignore_patterns("out"))
    for name in ("crates.txt", "pf_tool", "HANDLES"):
        shutil.copy(os.path.join(TOP, name), "copy")
    for at, folders, files in os.walk("copy"):
        for name in [at, *(f"{at}/{it}" for it in files)]:
            os.chmod(name, os.stat(name).st_mode & 0o555)
    os.mkdir("free")
    free = os.path.abspath("free")
    how = {"env": {**os.environ, "TMPDIR": free}, "timeout": 600}
    if not os.geteuid():
        # Nothing is closed to root.
        os.chmod(free, 0o777)
        how["preexec_fn"] = lambda: (os.setgid(65534), os.setuid(65534))
        how["env"]["HOME"] = free
    ran = run(["copy/pf_tool", "encrypt", "-w", "key", "-i", "in", "-o", f"{free}/out.pf"], **how)
    same((ran.status, ran.out, ran.log.strip()), (0, b"", UNPROVED.strip()), "a build of the copy")
    holds(b"content", f"{free}/out.pf")
