"""What strace tells of a run's calls, and what a machine whose power fails between two of them may leave of the files of a depot."""
import os
import random
import re
from pathlib import Path
from typing import Dict, List, NamedTuple, Optional, Tuple, Union

# Files by their names in a folder, and folders, which have no bytes.
Left = Dict[str, Optional[bytes]]
# How files are left: the names that are missing, what becomes of each write, and of the one of this number.
Choice = Tuple[Tuple[str, ...], str, int, str]
# How a write may be torn: so many eighths of it are there, or all behind a half, or its length alone, or any bytes.
TORN = ("front 0", "front 1", "front 3", "front 5", "front 7", "back 4", "length 0", "noise 1", "noise 2")


class Call(NamedTuple):
    """A call and its answer, the lines of the trace on which it began and ended, and how many of its kind its thread had made with it."""

    name: str
    path: str
    data: bytes
    at: int
    makes: bool
    answer: int
    begun: int
    ended: int
    number: int


def calls_of(folder: Path) -> List[Call]:
    """The calls that ended of a run in a folder, whose file `trace` strace made with -f, -xx and -y."""
    calls, waiting, counts = [], {}, {}
    bytes_of = lambda text: bytes.fromhex(text.replace("\\x", ""))
    for line, said in enumerate((folder / "trace").read_text(encoding="latin-1").splitlines()):
        (thread, said), begun = said.split(None, 1), line
        if said.startswith("<..."):
            begun, front = waiting.pop(thread)
            said = front + said.partition(" resumed>")[2]
        if said.endswith("<unfinished ...>"):
            waiting[thread] = begun, said[: -len("<unfinished ...>")].rstrip()
            continue
        found = re.match(r"(\w+)\((.*)\) += (-?\d+)", said)
        if found:
            name, words, answer = found.groups()
            counts[thread, name] = counts.get((thread, name), 0) + 1
            texts = [bytes_of(it) for it in re.findall(r'"((?:\\x..)*)"', words)]
            places = [os.fsdecode(bytes_of(it)) for it in re.findall(r"<((?:\\x..)*)>", words)]
            path = os.path.join(folder, *places[:1], os.fsdecode(texts[0])) if name in ("openat", "mkdir") else places[0]
            at = re.search(r", (\d+)$", words)
            calls.append(Call(name, path, b"".join(texts), int(at[1]) if at else 0, "O_CREAT" in words, int(answer), begun, line, counts[thread, name]))
    return calls


class Write:
    """Bytes that were put into a file at a place, or without bytes a cut there."""

    def __init__(self, call: Call) -> None:
        self.at, self.data = call.at, call.data[: call.answer if call.answer >= 0 else None] if call.name == "pwrite64" else None
        self.is_synced, self.is_lost = False, call.answer < 0

    def put(self, into: bytearray, how: str) -> None:
        if how == "missing":
            return
        if self.data is None:
            del into[self.at :]
            return
        data, (tear, number) = self.data, how.split() if " " in how else (how, 0)
        place = max(1, len(data) * int(number) // 8)
        if tear == "front":
            data = data[:place]
        elif tear == "back":
            data = bytes(place) + data[place:]
        elif tear == "length":
            data = bytes(len(data))
        elif tear == "noise":
            data = bytes(random.Random(how).choices(range(256), k=len(data)))
        into.extend(bytes(max(0, self.at - len(into))))
        into[self.at : self.at + len(data)] = data


class Device:
    """What a machine has of the files of a depot. What was written when a sync failed stays in doubt, whatever a later sync answers."""

    def __init__(self, folder: Path, kind: str, left: Left) -> None:
        self.folder, self.kind, self.start = folder, kind, {it.replace("depot", kind): data for it, data in left.items()}
        self.writes: Dict[str, List[Write]] = {it: [] for it in self.start}
        self.unsynced: List[str] = []

    def begin(self, call: Call) -> List[Union[str, Write]]:
        """Takes the beginning of a call, and answers the names and the writes that it syncs."""
        name = os.path.relpath(call.path, self.folder)
        if call.name in ("fsync", "fdatasync"):
            return [*self.writes.get(name, []), *(it for it in self.unsynced if (os.path.dirname(it) or ".") == name)]
        if not name.startswith(self.kind):
            return []
        if call.name in ("pwrite64", "ftruncate"):
            self.writes[name].append(Write(call))
        elif (call.makes or call.name == "mkdir") and call.answer >= 0 and name not in self.start:
            self.start[name], self.writes[name] = None if call.name == "mkdir" else b"", []
            self.unsynced.append(name)
        return []

    def end(self, call: Call, synced: List[Union[str, Write]]) -> None:
        for it in synced:
            if isinstance(it, Write):
                it.is_lost = it.is_lost or (call.answer < 0 and not it.is_synced)
                it.is_synced = not it.is_lost
            elif call.answer == 0 and it in self.unsynced:
                self.unsynced.remove(it)

    def in_doubt(self) -> List[Write]:
        return [write for writes in self.writes.values() for write in writes if not write.is_synced]

    def choices(self) -> List[Choice]:
        hows = [("there", -1, ""), ("missing", -1, "")]
        for number in range(len(self.in_doubt())):
            hows += [(rest, number, how) for rest, other in (("there", "missing"), ("missing", "there")) for how in (other, *TORN)]
        return [(missing, *how) for missing in sorted({(), tuple(self.unsynced), *((it,) for it in self.unsynced)}) for how in hows]

    def image(self, choice: Choice) -> Left:
        missing, rest, number, how = choice
        hows = {it: how if n == number else rest for n, it in enumerate(self.in_doubt())}
        left: Left = {}
        for name, start in self.start.items():
            if name not in missing and os.path.dirname(name) not in missing:
                into = bytearray(start or b"")
                for write in self.writes[name]:
                    write.put(into, hows.get(write, "there"))
                left[name.replace(self.kind, "depot")] = None if start is None else bytes(into)
        return left


def left_in(folder: Path, kind: str = "depot") -> Left:
    """The files of a depot, or of a node as those of a depot, in a folder."""
    found = sorted(folder.glob(f"{kind}.*")) + sorted(folder.glob(f"{kind}.*/*"))
    return {it.relative_to(folder).as_posix().replace(kind, "depot"): None if it.is_dir() else it.read_bytes() for it in found}


def folder_with(left: Left, folder: Path) -> Path:
    """Puts these files into a folder."""
    for name, data in sorted(left.items()):
        if data is None:
            (folder / name).mkdir()
        else:
            (folder / name).write_bytes(data)
    return folder
