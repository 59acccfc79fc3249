"""What the tests of the built program share."""
import functools
import os
import shutil
import subprocess
import tempfile

TOP = os.path.dirname(os.path.dirname(os.path.abspath(__file__)))
PROGRAM = os.path.join(TOP, "crates/pf_tool/out/pf_tool")
CALLS = os.path.join(TOP, "crates/disk_calls/out/disk_calls")
KEY = bytes(range(16))


class Skip(Exception):
    """Why a test cannot be made on this machine."""


class Run:
    """A run of a program that has ended."""

    def __init__(self, words, ran):
        self.words, self.status = words, ran.returncode
        self.out, self.log = ran.stdout or b"", (ran.stderr or b"").decode(errors="replace")

    def __repr__(self):
        return f"{' '.join(map(str, self.words))}: status {self.status}, log {self.log!r}"


def run(words, **how):
    how = {"stdin": subprocess.DEVNULL, "stdout": subprocess.PIPE, "stderr": subprocess.PIPE, "timeout": 60, **how}
    return Run(words, subprocess.run(words, **how))


def tool(*words, **how):
    return run([PROGRAM, *words], **how)


def encrypt(source="in", out="out.pf", key="key", **how):
    return tool("encrypt", "-w", key, "-i", source, "-o", out, **how)


def decrypt(name="out.pf", key="key", **how):
    return tool("decrypt", "-w", key, "-i", name, **how)


def start(*words, **how):
    how = {"stdin": subprocess.DEVNULL, "stdout": subprocess.DEVNULL, "stderr": subprocess.DEVNULL, **how}
    return subprocess.Popen([PROGRAM, *words], **how)


def put(name, data, mode=None):
    with open(name, "wb") as file:
        file.write(data)
    if mode is not None:
        os.chmod(name, mode)


def got(name):
    with open(name, "rb") as file:
        return file.read()


def mode_of(name):
    return os.stat(name).st_mode & 0o7777


def same(found, wanted, about=""):
    if found != wanted:
        raise AssertionError(f"{about}: {found!r}"[:300] + f", and not {wanted!r}"[:300])


def holds(content, name="out.pf"):
    """The protected file opens, to this content."""
    ran = decrypt(name)
    same((ran.status, ran.out), (0, content), f"{name} ({ran})")


@functools.lru_cache(maxsize=None)
def can_trace():
    strace = shutil.which("strace")
    if not strace:
        return "strace is not installed"
    ran = subprocess.run([strace, "-qq", "-e", "inject=close:error=EIO:when=9999", "true"], stderr=subprocess.PIPE)
    return "" if ran.returncode == 0 else f"strace does not run here: {ran.stderr.decode(errors='replace').strip()[:200]}"


def traced(words, *options, **how):
    """A run under strace, and the lines that strace wrote."""
    if can_trace():
        raise Skip(can_trace())
    with tempfile.NamedTemporaryFile(prefix="pf_tool-trace-") as trace:
        ran = run(["strace", "-qq", "-o", trace.name, *options, *words], **how)
        return ran, trace.read().decode(errors="replace").splitlines()


def of_program(lines, call):
    """How often the program made the call, from its own start on."""
    return sum(line.startswith(f"{call}(") for line in lines)
