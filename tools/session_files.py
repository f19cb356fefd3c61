"""Files of a folder, and the script that grows of them: what the tools share that bring a folder into a depot."""

from __future__ import annotations

import os
import re
import stat
import sys
from typing import Iterator, Optional

sys.dont_write_bytecode = True
from session_text import MAX_BLOCK, MAX_LINE, MAX_SCRIPT, MAX_WORDS, Stop, escaped, is_utf8, path_fault, printable, quoted, read_file

MAX_FILES = 10000  # files that one submit changes


# ---- folders


def files_of(folder: str, listed: Optional[str]) -> Iterator[str]:
    """The paths of the files of a folder, from there: those of a list, or all."""
    if not os.path.isdir(folder):
        raise Stop(f"{folder}: there is no such folder")
    return files_listed(listed) if listed else files_below(folder)


def files_below(folder: str) -> Iterator[str]:
    """The paths of all files below a folder but for those of .git, in the order of their names."""
    for at, folders, names in os.walk(folder, onerror=fails):
        folders[:] = sorted(it for it in folders if it != ".git")
        links = [it for it in folders if os.path.islink(os.path.join(at, it))]
        for name in sorted(names + links):
            yield os.path.relpath(os.path.join(at, name), folder)


def fails(error: OSError) -> None:
    """A folder that can't be read isn't passed over."""
    raise error


def files_listed(name: str) -> Iterator[str]:
    """The paths of a list: one a line, or a zero byte behind each."""
    text = sys.stdin.buffer.read() if name == "-" else read_file(name)
    paths = text.split(b"\0" if b"\0" in text else b"\n")
    yield from dict.fromkeys(os.path.normpath(os.fsdecode(it)) for it in paths if it)


class File:
    """A file of a folder."""

    def __init__(self, folder: str, file: str) -> None:
        whole = os.path.join(folder, file)
        self.content = read_file(whole, MAX_BLOCK + 1)
        if len(self.content) > MAX_BLOCK:
            raise Stop(f"{printable(file)}: more than {MAX_BLOCK} bytes (8 MiB): leave it out with --list")
        self.is_executable = bool(os.stat(whole).st_mode & stat.S_IXUSR)

    @property
    def type(self) -> str:
        return ("binary" if b"\0" in self.content else "text") + ("+x" if self.is_executable else "")


def is_file(folder: str, file: str) -> bool:
    """Whether a file stands there. A link, or what else is none, is passed over, and said."""
    if stat.S_ISREG(os.lstat(os.path.join(folder, file)).st_mode):
        return True
    print(f"{os.path.basename(sys.argv[0])}: {printable(file)}: passed over, since it is no file", file=sys.stderr)
    return False


def client_path(client: str, file: str, depot: Optional[str] = None) -> str:
    """The path of a file in the client's syntax. Stop says why it has none, or none below its place in the depot."""
    tail = escaped(file)
    faults = [path_fault(os.fsencode(f"{top}/{tail}")) for top in (f"//{client}", depot) if top]
    fault = next(filter(None, faults), None) or ('"' in tail and "no path in a script holds a double quote")
    if fault:
        raise Stop(f"{printable(file)}: {fault}: rename it, or leave it out with --list")
    return f"//{client}/{tail}"


# ---- scripts


class Script:
    """A script that grows, up to its greatest length, and submits the files that it opens."""

    def __init__(self, head: str, text: str) -> None:
        if re.search(r'[\x00-\x1f\x7f"]', text) or not is_utf8(os.fsencode(text)):
            raise Stop("the text of the change holds a double quote, a control byte or what isn't UTF-8: write it without")
        self.text = text
        self.pieces: list[bytes] = []
        self.size = 0
        self.opened: dict[str, list[str]] = {}  # paths that aren't submitted yet, by the command that opens them
        self.had: list[str] = []  # those of them that the client is to have at a revision, with it
        self.count = 0  # of all paths
        self.line(head)

    def line(self, text: str) -> None:
        data = text.encode()
        if len(data) > MAX_LINE:
            raise Stop(f"a line has {len(data)} bytes, and {MAX_LINE} are taken: shorten the text of the change")
        self.put(data + b"\n")

    def block(self, words: str, content: bytes) -> None:
        self.line(f"{words} {len(content)}")
        self.put(content + b"\n")

    def put(self, piece: bytes) -> None:
        self.pieces.append(piece)
        self.size += len(piece)
        if self.size > MAX_SCRIPT:
            raise Stop("the script would be longer than 64 MiB: take the files in several sessions, with --list, one after another")

    def command(self, start: str, arguments: list[str]) -> None:
        """A command with arguments, in lines that aren't too long."""
        words = start.split(" ")
        line, count = start, len(words)
        for argument in map(quoted, arguments):
            if count == MAX_WORDS or len(f"{line} {argument}".encode()) > MAX_LINE:
                self.line(line)
                line, count = start, len(words)
            line, count = f"{line} {argument}", count + 1
        self.line(line)

    def open(self, command: str, path: str, content: Optional[bytes] = None, revision: Optional[str] = None) -> None:
        """Opens a path by a command, with the content that it gets, at the revision that the client is to have."""
        if content is not None:
            self.block(f"file {path}", content)
        if revision is not None:
            self.had.append(f"{path}#{revision}")
        self.opened.setdefault(command, []).append(path)
        self.count += 1
        if self.count % MAX_FILES == 0:
            self.submit()

    def submit(self) -> None:
        if self.had:
            self.command("p4 sync", self.had)
        for command in sorted(self.opened):
            self.command(command, self.opened[command])
        self.line(f'p4 submit -d "{self.text}"')
        self.opened, self.had = {}, []

    def write(self) -> None:
        """Ends the script, and writes it to standard output."""
        if self.opened:
            self.submit()
        if self.count > MAX_FILES:
            changes = -(-self.count // MAX_FILES)
            tool = os.path.basename(sys.argv[0])
            print(f"{tool}: {self.count} files in {changes} changes, since a submit takes {MAX_FILES}", file=sys.stderr)
        sys.stdout.buffer.writelines(self.pieces)
