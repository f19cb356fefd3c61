"""Scripts of sessions and their replies: the one reader that the tools here share.

The form of both is that of docs/scripts.md, to the byte. A script is read as the program reads it, with the same
faults at the same places.
"""

from __future__ import annotations

import os
import re
import signal
import sys
from typing import Callable, NamedTuple, Optional

MAX_LINE = 8192  # bytes of a line, without its line feed
MAX_WORDS = 64  # words of a command line
MAX_BLOCK = 8 << 20  # bytes of a content or a form
MAX_SCRIPT = 64 << 20  # bytes of a script
MAX_PATH = 1024  # bytes of a path
MAX_PATTERNS = 60  # patterns of a replica's head

BAD_HEAD, LONG_LINE, BAD_DATA, CUT, LONG_DATA = 1, 2, 3, 4, 5

ESCAPES = {"@": "%40", "#": "%23", "*": "%2A", "%": "%25"}


# ---- what the tools share as programs


class Stop(Exception):
    """Bad input of a tool: one line that says what to do."""


def run(main: Callable[[], int]) -> int:
    """Runs a tool and gives its status, 2 with one line on standard error for bad input."""
    signal.signal(signal.SIGPIPE, signal.SIG_DFL)
    for stream in (sys.stdout, sys.stderr):
        stream.reconfigure(encoding="utf-8", errors="backslashreplace")
    tool = os.path.basename(sys.argv[0])
    try:
        return main()
    except Stop as stop:
        print(f"{tool}: {stop}", file=sys.stderr)
    except OSError as error:
        print(f"{tool}: {printable(str(error.filename))}: {error.strerror}", file=sys.stderr)
    except KeyboardInterrupt:
        print(f"{tool}: stopped", file=sys.stderr)
    return 2


def read_file(path: str, most: int = -1) -> bytes:
    """The bytes of a file, no more of them than are asked for."""
    with open(path, "rb") as file:
        return file.read(most)


def printable(text: str) -> str:
    """The text with the control characters, by which a terminal does more than show it, written out."""
    return re.sub(r"[\x00-\x1f\x7f-\x9f]", lambda it: f"\\x{ord(it[0]):02x}", text)


def replies_name(script: str) -> str:
    return script + ".out"


# ---- names, paths, words


def is_name(text: bytes) -> bool:
    """The text is a name, as users, clients, hosts and the sessions of a run have them."""
    return (
        1 <= len(text) <= 128
        and not text.startswith(b"-")
        and not re.search(rb'[\x00-\x20\x7f/@#*%"]', text)
        and not re.fullmatch(rb"[0-9]+", text)
        and is_utf8(text)
    )


def is_utf8(text: bytes) -> bool:
    try:
        text.decode()
    except UnicodeDecodeError:
        return False
    return True


def escaped(name: str) -> str:
    """The name of a file, or its path below a folder, as a path of a depot spells it."""
    return re.sub(r"[@#*%]", lambda it: ESCAPES[it[0]], name)


def unescaped(path: str) -> str:
    return re.sub(r"%(40|23|2[Aa]|25)", lambda it: chr(int(it[1], 16)), path)


def path_fault(path: bytes) -> Optional[str]:
    """Why the text is no path of a depot or a client, None where it is one."""
    if not path.startswith(b"//") or path[2:].count(b"/") < 1:
        return "a path is // and at least two names with / between them"
    if b"..." in path:
        return "no name in a path holds three dots"
    if b"*" in path:
        return "a * in a name is written %2A"
    return pattern_fault(path)


def pattern_fault(pattern: bytes) -> Optional[str]:
    """Why the text is no pattern of paths, None where it is one."""
    names = pattern[2:].split(b"/")
    if len(pattern) > MAX_PATH:
        return f"a path has at most {MAX_PATH} bytes"
    if not pattern.startswith(b"//"):
        return "a path begins with //"
    if b"" in names:
        return "no name in a path is empty"
    if re.search(rb"%(?!40|23|2[Aa]|25)", pattern):
        return "a % in a name is written %25"
    if re.search(rb"[@#]", pattern):
        return "in a name @ is written %40 and # is written %23"
    if re.search(rb"[\x00-\x1f\x7f]", pattern) or not is_utf8(pattern):
        return "a path is UTF-8 without control bytes"
    if b"." in names or b".." in names:
        return "no name in a path is . or .."
    return None


def words_of(line: bytes) -> list[bytes]:
    """The words of a command line. Stop says why it is no list of words."""
    if not is_utf8(line):
        raise Stop("the line isn't UTF-8")
    if re.search(rb"[\x00-\x1f\x7f]", line):
        raise Stop("the line holds a control byte (a tab or the CR of a CR LF, perhaps)")
    words = re.findall(rb'"([^"]*)"(?= |\Z)|([^ "]+)(?= |\Z)|([^ ])', line)
    if any(rest for _, _, rest in words):
        raise Stop("a quote isn't closed, or stands inside a word: a word with spaces stands as a whole in quotes")
    if len(words) > MAX_WORDS:
        raise Stop(f"the line has {len(words)} words, and {MAX_WORDS} at most are taken")
    return [plain or quoted for quoted, plain, _ in words]


def quoted(word: str) -> str:
    """A word of a command line, in quotes where it needs them. It holds no quote itself."""
    return f'"{word}"' if " " in word or not word else word


# ---- scripts


class Fault(NamedTuple):
    """What ends a script before its end."""

    code: int
    place: int  # the byte that the program tells
    line: int  # the line that it begins with, from 1
    reason: str


class Command(NamedTuple):
    number: int
    line: int  # the line of the script, from 1
    text: bytes

    def words(self) -> list[bytes]:
        """Its words, none where it is no list of words."""
        try:
            return words_of(self.text)
        except Stop:
            return []


class Script(NamedTuple):
    commands: list[Command]
    fault: Optional[Fault]


class _Bad(Exception):
    """A fault, by its number and reason."""


def read_script(text: bytes) -> Script:
    """The commands of a script before its first fault, and the fault."""
    reader = _Reader(text[:MAX_SCRIPT])
    reader.read()
    fault = reader.fault
    if len(text) > MAX_SCRIPT and (fault is None or fault.code == CUT):
        reason = "a script has at most 64 MiB: part it into several sessions"
        fault = Fault(LONG_DATA, MAX_SCRIPT, reader.line, reason)
    return Script(reader.commands, fault)


class _Reader:
    """Reads a script line by line."""

    def __init__(self, text: bytes) -> None:
        self.text = text
        self.at = 0  # the first byte that isn't read
        self.place = 0  # the first byte of the line
        self.line = 1  # its number
        self.client = b""
        self.waits = False  # an input waits for its command
        self.commands: list[Command] = []
        self.fault: Optional[Fault] = None

    def read(self) -> None:
        try:
            self.client = client_of(self.next_line())
            while self.at < len(self.text):
                self.line += self.text.count(b"\n", self.place, self.at)
                self.place = self.at
                self.take(self.next_line())
            if self.waits:
                raise _Bad(CUT, "the script ends where an `input` waits for its command")
        except _Bad as bad:
            code, reason = bad.args
            self.fault = Fault(code, len(self.text) if code == CUT else self.place, self.line, reason)

    def next_line(self) -> bytes:
        end = self.text.find(b"\n", self.at)
        line = self.text[self.at : end if end >= 0 else len(self.text)]
        if len(line) > MAX_LINE:
            raise _Bad(LONG_LINE, f"the line has {len(line)} bytes, and {MAX_LINE} at most are taken")
        if end < 0:
            raise _Bad(CUT, "the script ends inside a line: a line feed ends each" if line else "the script is empty")
        self.at = end + 1
        return line

    def take(self, line: bytes) -> None:
        word, _, rest = line.partition(b" ")
        if not line or line.startswith(b"#"):
            return
        if word == b"file":
            self.take_file(rest)
        elif word == b"clear":
            self.check_path(rest)
        elif word == b"input":
            if self.waits:
                raise _Bad(BAD_DATA, "an `input` stands here, and another waits for its command already")
            self.pass_block(rest)
            self.waits = True
        else:
            self.commands.append(Command(len(self.commands) + 1, self.line, line))
            self.waits = False

    def take_file(self, rest: bytes) -> None:
        path, space, length = rest.rpartition(b" ")
        if not space:
            raise _Bad(BAD_DATA, "`file` wants a path, a space and the number of bytes of the content")
        self.check_path(path)
        self.pass_block(length)

    def check_path(self, path: bytes) -> None:
        why = path_fault(path)
        if why is None and path[2:].partition(b"/")[0] != self.client:
            why = f"the path must begin with //{self.client.decode()}/, the session's client"
        if why is not None:
            raise _Bad(BAD_DATA, f"{path.decode(errors='backslashreplace')}: {why}")

    def pass_block(self, length: bytes) -> None:
        if not re.fullmatch(rb"[0-9]+", length):
            raise _Bad(BAD_DATA, "the line must end with the number of bytes of its block")
        digits = length.lstrip(b"0") or b"0"
        if len(digits) > 7 or int(digits) > MAX_BLOCK:
            raise _Bad(LONG_DATA, f"a block has at most {MAX_BLOCK} bytes (8 MiB)")
        size = int(digits)
        end = self.at + size
        if end >= len(self.text):
            raise _Bad(CUT, f"the script ends inside a block of {size} bytes, or before the line feed behind it")
        if self.text[end] != 0x0A:
            raise _Bad(BAD_DATA, f"behind the {size} bytes of the block stands no line feed{self.hint(end)}")
        self.at = end + 1

    def hint(self, end: int) -> str:
        """How long the block would be, were it to end with the next line."""
        feed = self.text.find(b"\n", end)
        return "" if feed < 0 else f" (one stands behind {feed - self.at})"


def client_of(head: bytes) -> bytes:
    """The client that the first line of a script names."""
    words = head.split(b" ")
    kind, names, patterns = words[0], words[1:4], words[4:]
    if head.endswith(b"\r"):
        raise _Bad(BAD_HEAD, "the first line ends with CR LF: a line ends with LF alone")
    if kind not in (b"session", b"replica"):
        forms = "`session USER CLIENT HOST` or `replica CLIENT USER HOST PATTERN..`"
        raise _Bad(BAD_HEAD, f"the first line isn't {forms}")
    if len(names) < 3 or not all(map(is_name, names)):
        raise _Bad(BAD_HEAD, f"behind `{kind.decode()}` stand three names with one space between")
    if kind == b"session":
        if patterns:
            raise _Bad(BAD_HEAD, "behind `session` stand three names and nothing else")
        return names[1]
    if not 1 <= len(patterns) <= MAX_PATTERNS:
        raise _Bad(BAD_HEAD, f"a replica has 1 to {MAX_PATTERNS} patterns")
    for pattern in patterns:
        why = pattern_fault(pattern[1:] if pattern.startswith(b"-") else pattern)
        if why is not None:
            raise _Bad(BAD_HEAD, f"{pattern.decode(errors='backslashreplace')}: {why}")
    return names[0]


def head_of(name: str) -> tuple[str, str]:
    """The first line of the script of a session, and the client that it names. Stop says that there is no such line."""
    head = read_file(name, MAX_LINE + 1).partition(b"\n")[0]
    try:
        client = client_of(head)
    except _Bad as bad:
        raise Stop(f"{name}: {bad.args[1]}")
    if head.startswith(b"replica "):
        raise Stop(f"{name}: a replica changes nothing: take a session of your own client")
    return head.decode(), client.decode()


# ---- replies


class Row(NamedTuple):
    """A row of a reply: its fields in order, and the content behind it where there is one."""

    fields: list[tuple[str, str]]
    content: Optional[bytes]

    def get(self, field: str) -> Optional[str]:
        return dict(self.fields).get(field)

    @property
    def is_refusal(self) -> bool:
        return [name for name, _ in self.fields[:1]] == ["code"]


class Reply(NamedTuple):
    command: Command
    rows: list[Row]


class Replies(NamedTuple):
    replies: list[Reply]
    fault: Optional[str]  # why not every command of the script has one


def read_replies(commands: list[Command], text: bytes) -> Replies:
    """The replies to the commands of a script, as far as they go."""
    replies: list[Reply] = []
    at = 0
    for command in commands:
        reader = _ReplyReader(command, text, at)
        if not reader.read():
            what = "ends in the middle" if at < len(text) else "isn't there"
            return Replies(replies, f"the reply to command {command.number} {what}, and none is behind it")
        replies.append(Reply(command, reader.rows))
        at = reader.at
    is_over = at < len(text)
    return Replies(replies, "behind the last reply stands more: are these the replies to it?" if is_over else None)


def read_session(name: str) -> tuple[Script, Replies]:
    """The script in the file of a name, and the replies beside it."""
    script = read_script(read_file(name, MAX_SCRIPT + 1))
    if not os.path.exists(replies_name(name)):
        raise Stop(f"{replies_name(name)}: no replies are there: run the session first, as ./laitsjop serve {name}")
    return script, read_replies(script.commands, read_file(replies_name(name)))


class Printed(NamedTuple):
    """A file whose content a session printed."""

    row: Row  # the last one with a content
    path: Optional[str]  # in the client, where a reply of the session tells it

    @property
    def is_executable(self) -> bool:
        return "x" in (self.row.get("type") or "").partition("+")[2]


def printed_files(name: str) -> dict[str, Printed]:
    """The files that a session printed, by their paths in the depot. Stop says that its replies aren't whole."""
    _, (replies, fault) = read_session(name)
    if fault:
        raise Stop(f"{name}: {fault}: nothing is written")
    rows = [(row.get("depotFile"), row) for reply in replies for row in reply.rows]
    paths = {file: row.get("clientFile") for file, row in rows if file and row.get("clientFile")}
    return {file: Printed(row, paths.get(file)) for file, row in rows if file and row.content is not None}


class _ReplyReader:
    """Reads the reply to one command."""

    def __init__(self, command: Command, text: bytes, at: int) -> None:
        self.words = command.words()
        self.end = b"... end %d\n\n" % command.number
        self.text = text
        self.at = at  # the first byte that isn't read
        self.rows: list[Row] = []

    def read(self) -> bool:
        """Reads the reply to its end; says no where the text ends before."""
        while not self.text.startswith(self.end, self.at):
            if self.text.startswith(b"\n", self.at):  # a row without a field
                self.rows.append(Row([], None))
                self.at += 1
                continue
            stop = self.text.find(b"\n\n", self.at)
            if stop < 0 or not self.text.startswith(b"... ", self.at):
                return False
            row = Row(_fields(self.text[self.at : stop]), None)
            self.at = stop + 2
            behind = self.content_end(row)
            if behind is not None:
                row = Row(row.fields, self.text[self.at : behind])
                self.at = behind + 1
            self.rows.append(row)
        self.at += len(self.end)
        return True

    def content_end(self, row: Row) -> Optional[int]:
        """The place behind the content of a row; None where it has none."""
        name = self.words[1:2]
        if name == [b"print"]:
            size = row.get("fileSize")
            return None if size is None else self.at + int(size)
        if name == [b"unshelve"] and not row.is_refusal and row.get("fromFile") is None:
            return self.unshelved_end()
        return None

    def unshelved_end(self) -> Optional[int]:
        """The same of a row of `unshelve`, which doesn't tell the size of its content.

        The content goes up to the next row or to the last end of this reply. So it is read for certain where the
        command names one file and stands last in its script.
        """
        stop = self.text.rfind(b"\n" + self.end, self.at - 1)
        files = [it for it in self.words if it.startswith(b"//")]
        if len(files) != 1 or b"*" in files[0] or b"..." in files[0]:
            row = re.compile(rb"\n\.\.\. (depotFile //|code )").search(self.text, self.at - 1, max(stop, 0))
            stop = row.start() if row else stop
        return stop if stop >= self.at else None


def _fields(text: bytes) -> list[tuple[str, str]]:
    """The fields of a row: a line `... FIELD VALUE` each, and behind a tab the further lines of a value."""
    fields = []
    for line in re.split("\n(?!\t)", text.decode(errors="surrogateescape")):
        name, _, value = line[len("... ") :].partition(" ")
        fields.append((name, value.replace("\n\t", "\n")))
    return fields
