"""What the tests of the command ncl share: one test, one run of the command, and files for it. tests/shell/cli and tests/shell/tools use it."""
import os
import pty
import signal
import subprocess
import sys
import tempfile
import time
from pathlib import Path

root = Path(__file__).resolve().parent.parent.parent
program = root / "target/cli/release/ncl"
stored = root / "tests/cli"
examples = sorted(stage.parent.name for stage in root.glob("examples/*/stage.ncl"))
texts = sorted(text.parent.name for text in root.glob("examples/text/*/stage.txt"))
pipelines = sorted(f"pipelines/{stage.parent.name}" for stage in root.glob("examples/pipelines/*/stage.ncl"))
top = Path(tempfile.mkdtemp())
top.chmod(0o755)
os.environ.pop("NO_COLOR", None)
os.environ["TERM"] = "xterm"
counted = {"passed": 0, "failed": 0}
watching = []  # functions that are told each run of the command: its words, its folder, what it was given, and the run


def same(about, expected, got):
    """one test: two values are alike"""
    alike = expected == got
    counted["passed" if alike else "failed"] += 1
    if not alike:
        print(f"{about}: {got!r:.600} in place of {expected!r:.600}")


def holds(about, true, got=""):
    same(about, True, bool(true)) if true else same(about, "so", got)


class Ran:
    """what a run of the command gave"""

    def __init__(self, *words, cwd=None, given=b"", before=(), env=None, out=subprocess.PIPE):
        words = [word if isinstance(word, bytes) else str(word) for word in words]
        done = subprocess.run([*before, str(program), *words], cwd=cwd or root, input=given, stdout=out, stderr=subprocess.PIPE,
                              env={**os.environ, **(env or {})}, timeout=120)
        self.status = done.returncode
        self.out = (done.stdout or b"").decode("utf-8", "replace")
        self.err = done.stderr.decode("utf-8", "replace")
        for told in watching:
            told(words, Path(cwd or root), given, self)


def tried(about, status, out, says, *words, **how):
    """one run: its exit status, standard output, and a part of standard error, or nothing there"""
    ran = Ran(*words, **how)
    same(f"{about}, exit status", status, ran.status)
    same(f"{about}, standard output", out, ran.out)
    if says:
        holds(f"{about}, standard error", says in ran.err, ran.err)
    else:
        same(f"{about}, standard error", "", ran.err)
    same(f"{about}, no panic", False, "panicked" in ran.err)


def folder(**files):
    """a new folder with files of these bytes, each named with .ncl behind it"""
    new = Path(tempfile.mkdtemp(dir=top))
    new.chmod(0o755)
    for name, data in files.items():
        (new / f"{name}.ncl").write_bytes(data if isinstance(data, bytes) else bytes.fromhex(data))
    return new


def spelt(text, **files):
    """a new folder with a text as stage.txt, and files"""
    new = folder(**files)
    (new / "stage.txt").write_bytes(text if isinstance(text, bytes) else text.encode())
    return new


def pair_of(example):
    return [f"examples/{example}/stage.ncl", f"examples/{example}/reference.ncl"]


def compared(about, file, text):
    """a text against a stored one, part by part; --store writes it anew"""
    if "--store" in sys.argv[1:]:
        file.write_text(text)
    was = file.read_text().split("== ") if file.exists() else []
    now = text.split("== ")
    same(f"{about}, how many", len(was), len(now))
    for before, after in zip(was, now):
        same(f"{about} of {after.splitlines()[0] if after else ''}", before, after)


def on_a_terminal(*words, env=None, held=0):
    """what the command prints on a terminal, standard error too, and its exit status; soon after it began it is held for some seconds"""
    inside, outside = pty.openpty()
    done = subprocess.Popen([str(program), *words], cwd=root, stdin=outside, stdout=outside, stderr=outside, env={**os.environ, **(env or {})})
    os.close(outside)
    if held:
        time.sleep(0.2)
        done.send_signal(signal.SIGSTOP)
        time.sleep(held)
        done.send_signal(signal.SIGCONT)
    text = b""
    while True:
        try:
            more = os.read(inside, 65536)
        except OSError:
            break
        if not more:
            break
        text += more
    os.close(inside)
    return text.decode().replace("\r\n", "\n"), done.wait()


def counts():
    """the last line, and the exit status"""
    print(f"{counted['passed']} passed, {counted['failed']} failed")
    return 1 if counted["failed"] else 0


WIRE, WIRE_REFERENCE = "01 01 03 00 00 01 00 00", "01 01 12 00 00 00"
SWAPPED = "01 01 03 01 00 00 00 00"
AND_REFERENCE, OR_REFERENCE = "01 02 11 02 00 00 01 00 12 02 00 00", "01 02 11 03 00 00 01 00 12 02 00 00"
AND_TEXT = "a,b\nz\nTH22 a_1,b_1 z_1\nTHand0 a_0,b_0,a_1,b_1 z_0\n"
FIRST = "01 01 03 00 00 00 00 00"
LAST = "01 02 02 02 05 00 05 00 FF FF FF FF 02 02 03 00 03 00 FF FF FF FF 03 05 00 05 00 00"
GATE = "02 02 00 00 01 00 FF FF FF FF "
ACCEPTED = "0 0 0 0\n"
