"""Counts the instructions of a processor that the program takes for each command of a session, whatever else the machine does. It wants valgrind, whose
callgrind counts those of the program and of the C library, and none of the kernel."""
import glob
import os
import re
import subprocess
import sys
import tempfile
import time


def instructions(program: str, head: str, commands: "list[str]") -> "list[int]":
    """What each command behind the first takes, up to its reply, of a session over the depot of the current folder; a command may have its blocks in front.

    The script comes through a pipe, which the program reads when the depot is open. Only then the counting begins, which makes it some fifty times slower, and
    the script is written: the opening isn't counted. The session is ended behind the last reply."""
    os.mkfifo("counted")
    pipe = os.open("counted", os.O_RDWR)
    with tempfile.TemporaryDirectory() as folder:
        told = os.path.join(folder, "told")
        count = ["valgrind", "-q", "--tool=callgrind", f"--callgrind-out-file={told}", "--instr-atstart=no", "--dump-before=write"]
        child = subprocess.Popen([*count, program, "serve", "counted"], stdout=subprocess.DEVNULL)
        wait_for_read(child, os.path.realpath("counted"))
        subprocess.run(["callgrind_control", "--instr=on", str(child.pid)], check=True, stdout=subprocess.DEVNULL, stderr=subprocess.DEVNULL)
        with os.fdopen(pipe, "w", encoding="utf-8") as script:
            script.write("\n".join([head, *commands]) + "\n")
        wait_for_end(child, b"... end %d\n\n" % len(commands))
        child.kill()
        child.wait()
        os.remove("counted")
        counts = [total(it) for it in sorted(glob.glob(f"{told}.*"), key=number)[: len(commands)]]
    if len(counts) != len(commands):
        sys.exit(f"{len(counts)} writes of {len(commands)} replies")
    return counts[1:]


def wait_for_read(child: subprocess.Popen, path: str) -> None:
    """Waits until a thread of a program waits for what comes through a pipe."""
    while child.poll() is None:
        for task in glob.glob(f"/proc/{child.pid}/task/*"):
            with open(f"{task}/syscall", encoding="ascii") as file:
                words = file.read().split()
            handle = f"/proc/{child.pid}/fd/{int(words[1], 16)}" if len(words) > 1 else ""
            if os.path.islink(handle) and os.readlink(handle) == path:
                return
        time.sleep(0.05)
    sys.exit(f"the session isn't run: status {child.returncode}")


def wait_for_end(child: subprocess.Popen, end: bytes) -> None:
    """Waits until the replies end so, or the program has ended."""
    with open("counted.out", "rb") as replies:
        tail = b""
        while not tail.endswith(end) and child.poll() is None:
            tail = (tail + replies.read())[-len(end) :]
            time.sleep(0.01)


def number(name: str) -> int:
    """That of a file of counts, of which there is one a write."""
    return int(name.rpartition(".")[2])


def total(file: str) -> int:
    """How many instructions were counted up to a write, from the one before."""
    with open(file, encoding="utf-8", errors="replace") as text:
        return int(re.search(r"^totals: (\d+)", text.read(), re.MULTILINE)[1])


def of_run(program: str, *words: str) -> int:
    """What a whole run takes, the opening with it."""
    with tempfile.TemporaryDirectory() as folder:
        told = os.path.join(folder, "told")
        count = ["valgrind", "-q", "--tool=callgrind", f"--callgrind-out-file={told}"]
        subprocess.run([*count, program, *words], check=True, stdout=subprocess.DEVNULL)
        return total(told)
