"""Look-ups in projects of finite-state morphology, through the library of include/morph.h.

    from morph import Project

    with Project("examples/english") as project:
        print(project.up("Noun", "mice"))
        for word, analyses in project.analyses("Noun", open("text.txt")):
            print(word, analyses)

`Project` reads a folder and opens the project in it; its methods look words up. `Saved` opens a network that was saved as AT&T text, and looks
words up in that. What goes wrong is an exception, each with a class of its own below `MorphError`. The library is `libmorph.so` beside this
file, or what the environment's `MORPH_LIBRARY` names.

A `Project` or a `Saved` is for one thread at a time. `share` gives another thread one of its own, over the same networks.
"""

from __future__ import annotations

import ctypes
import os
import re
from pathlib import Path
from typing import Iterable, Iterator, List, Mapping, Optional, Tuple, TypeVar, Union

__all__ = [
    "Project", "Saved", "MorphError", "NoMemory", "WrongState", "BadText", "Refused", "NoSymbol", "NoNet", "TooMany", "Endless",
]

OK, NO_ROOM, NO_MEMORY, STATE, NOT_UTF8, LONG, NEWLINE, REFUSED, NO_SYMBOL = range(9)


class MorphError(Exception):
    """What goes wrong in a call."""


class NoMemory(MorphError):
    """There was no memory. The project is as it was."""


class WrongState(MorphError):
    """The project or the network isn't open, or is closed."""


class BadText(MorphError):
    """A name, a word or a text has a newline or more than 4,096 bytes of UTF-8, or is no UTF-8."""


class Refused(MorphError):
    """The files have a fault: the first one, in the line `line` of the file `file` (0: of the file as a whole), for `reason`."""

    def __init__(self, file: str, line: int, reason: str) -> None:
        super().__init__(f"{file}:{line}: {reason}")
        self.file, self.line, self.reason = file, line, reason


class NoSymbol(MorphError):
    """No symbol of the project, or of the text, begins at the character `place` of `word`, counted from 1."""

    def __init__(self, word: str, place: int) -> None:
        super().__init__(f"no symbol begins at character {place} of {word!r}")
        self.word, self.place = word, place


class NoNet(MorphError):
    """The project has no such name."""


class TooMany(MorphError):
    """A word has more than 4,096 answers, and not endlessly many."""


class Endless(MorphError):
    """A word has endlessly many answers: `before`, then `round` any number of times, then `after` is always one of them."""

    def __init__(self, word: str, before: str, round: str, after: str) -> None:
        super().__init__(f"{word!r} has endlessly many answers")
        self.word, self.before, self.round, self.after = word, before, round, after


class _Slot(ctypes.Structure):
    _fields_ = [("at", ctypes.c_void_p)]


class _Handle(ctypes.Structure):
    _fields_ = [("is_there", ctypes.c_bool), ("slot", _Slot)]


class _Reply(ctypes.Structure):
    _fields_ = [("len", ctypes.c_size_t), ("at", ctypes.c_size_t), ("count", ctypes.c_size_t), ("place", ctypes.c_uint32)]


def _load() -> ctypes.CDLL:
    path = os.environ.get("MORPH_LIBRARY") or Path(__file__).with_name("libmorph.so")
    library = ctypes.CDLL(str(path))
    handle, reply, size = ctypes.POINTER(_Handle), ctypes.POINTER(_Reply), ctypes.c_size_t
    text, buffer = [ctypes.c_char_p, size], [ctypes.POINTER(ctypes.c_char), size]
    library.morph_put.argtypes = [handle, *text, *text]
    library.morph_open.argtypes = [handle]
    library.morph_open_att.argtypes = [handle, *text]
    library.morph_share.argtypes = [handle, handle]
    library.morph_close.argtypes = [handle]
    library.morph_close.restype = None
    library.morph_up.argtypes = library.morph_down.argtypes = library.morph_gloss.argtypes = [handle, *text, *text, *buffer, reply]
    library.morph_cut.argtypes = library.morph_att_up.argtypes = [handle, *text, *buffer, reply]
    library.morph_names.argtypes = library.morph_fault.argtypes = [handle, *buffer, reply]
    for call in ("put", "open", "open_att", "share", "up", "down", "att_up", "gloss", "cut", "names", "fault"):
        getattr(library, f"morph_{call}").restype = ctypes.c_uint32
    return library


_library: Optional[ctypes.CDLL] = None


def _files(folder: Path) -> Iterator[Tuple[str, bytes]]:
    """The manifest of a folder, and the files that it names: the last word of each line of a kind that names a file."""
    manifest = (folder / "project").read_bytes()
    yield "project", manifest
    seen = {"project"}
    for line in manifest.decode("utf-8", "replace").splitlines():
        words = line.split()
        if len(words) < 2 or words[0] not in ("xfst", "lexc", "twolc", "gloss"):
            continue
        name = words[-1]
        if name not in seen and (folder / name).is_file():
            seen.add(name)
            yield name, (folder / name).read_bytes()


_Self = TypeVar("_Self", bound="_Open")


class _Open:
    """What the library holds, with a buffer for its replies."""

    _handle: Optional[_Handle] = None

    def _begin(self) -> None:
        global _library
        if _library is None:
            _library = _load()
        self._handle = _Handle()
        self._reply = _Reply()
        self._buffer = ctypes.create_string_buffer(4096)

    def close(self) -> None:
        """Lets go of the networks. A second call does nothing."""
        if _library is not None and self._handle is not None:
            _library.morph_close(self._handle)

    def __enter__(self: _Self) -> _Self:
        return self

    def __exit__(self, *what: object) -> None:
        self.close()

    def __del__(self) -> None:
        self.close()

    def share(self: _Self) -> _Self:
        """Another owner of the same networks, for another thread. Nothing is copied."""
        other = type(self).__new__(type(self))
        other._begin()
        self._check(_library.morph_share(self._handle, other._handle))
        return other

    def _put(self, name: Union[str, bytes], content: Union[str, bytes]) -> None:
        data = content.encode("utf-8") if isinstance(content, str) else content
        key = os.fsencode(name)
        self._check(_library.morph_put(self._handle, key, len(key), data, len(data)))

    def _opened(self, status: int) -> None:
        if status == REFUSED:
            raise self._fault()
        self._check(status)

    def _answers(self, word: str, lines: List[str]) -> List[str]:
        kind = lines[0].split(" ", 2)[1]
        if kind == "symbol":
            raise NoSymbol(word, int(lines[0].split(" ", 3)[2]))
        if kind == "more":
            raise TooMany(word)
        if kind == "loop":
            raise Endless(word, *lines[1:4])
        return lines[1:]

    def _lines(self, call, *texts: str) -> List[str]:
        words: list = []
        for text in texts:
            try:
                data = text.encode("utf-8")
            except UnicodeEncodeError as error:
                raise BadText(str(error)) from None
            words += [data, len(data)]
        while True:
            status = call(self._handle, *words, self._buffer, len(self._buffer), self._reply)
            if status != NO_ROOM:
                break
            self._buffer = ctypes.create_string_buffer(self._reply.len)
        if status == NO_SYMBOL:
            raise NoSymbol(texts[-1], self._reply.place)
        self._check(status)
        return self._buffer[: self._reply.len].decode("utf-8").split("\n")[:-1]

    def _fault(self) -> Refused:
        line = self._lines(_library.morph_fault)[0]
        file, number, reason = line[len("refused "):].rsplit(" ", 2)
        return Refused(file, int(number), reason)

    @staticmethod
    def _check(status: int) -> None:
        if status == NO_MEMORY:
            raise NoMemory()
        if status == STATE:
            raise WrongState("it isn't open")
        if status in (NOT_UTF8, LONG, NEWLINE):
            raise BadText({NOT_UTF8: "not UTF-8", LONG: "more than 4,096 bytes", NEWLINE: "a newline"}[status])
        if status != OK:
            raise MorphError(f"status {status}")


class Project(_Open):
    """The project in a folder, or of files in memory, which is opened at once.

    :param files: the folder, or the content of each file by its name; one of them is called `project`.
    :raises Refused: the files have a fault.
    :raises OSError: the folder or its file `project` can't be read.
    """

    def __init__(self, files: Union[str, "os.PathLike[str]", Mapping[str, Union[str, bytes]]]) -> None:
        self._begin()
        pairs = files.items() if isinstance(files, Mapping) else _files(Path(files))
        try:
            for name, content in pairs:
                self._put(name, content)
            self._opened(_library.morph_open(self._handle))
        except BaseException:
            self.close()
            raise

    def up(self, net: str, word: str) -> List[str]:
        """The upper words of a word in a name, which are its analyses, in the order of their bytes.

        :raises NoNet: the project has no such name.
        :raises NoSymbol: no symbol of the project begins at a character of the word.
        :raises TooMany: there are more than 4,096.
        :raises Endless: there are endlessly many.
        :raises BadText: the word isn't one line of at most 4,096 bytes.
        """
        return self._words(_library.morph_up, net, word)

    def down(self, net: str, word: str) -> List[str]:
        """The lower words of a word in a name, which are its forms. It raises what `up` does."""
        return self._words(_library.morph_down, net, word)

    def knows(self, net: str, word: str) -> bool:
        """Whether a word has an analysis in a name. A word with a character that no symbol begins at has none."""
        try:
            return bool(self.up(net, word))
        except NoSymbol:
            return False
        except (TooMany, Endless):
            return True

    def gloss(self, net: str, text: str) -> str:
        """The words of a line of text in columns, above their analyses and glosses: three lines.

        :raises NoNet: the project has no such name.
        """
        lines = self._lines(_library.morph_gloss, net, text)
        if lines[0].split(" ", 2)[1] == "net":
            raise NoNet(net)
        return "\n".join(lines[1:])

    def cut(self, word: str) -> List[str]:
        """The symbols into which the project's alphabet cuts a word, from left to right and the longest first.

        :raises NoSymbol: none begins at a character of the word.
        """
        return self._lines(_library.morph_cut, word)[1:]

    def names(self) -> List[str]:
        """The names of the project, in the order of their bytes."""
        return self._lines(_library.morph_names)[1:]

    def analyses(self, net: str, lines: Iterable[str]) -> Iterator[Tuple[str, List[str]]]:
        """Each word of a text with its analyses, where a word is a run of letters, digits, marks, hyphens and apostrophes. A word that `up`
        has no list for, other than for a name that isn't there, has none.
        """
        for line in lines:
            for word in re.findall(r"[\w'’-]+", line):
                try:
                    yield word, self.up(net, word)
                except (NoSymbol, TooMany, Endless, BadText):
                    yield word, []

    def _words(self, call, net: str, word: str) -> List[str]:
        lines = self._lines(call, net, word)
        if lines[0].split(" ", 2)[1] == "net":
            raise NoNet(net)
        return self._answers(word, lines)


class Saved(_Open):
    """A network that was saved as AT&T text, in a file or in memory, which is opened at once.

    :param content_or_path: the text as bytes, or the path of its file.
    :raises Refused: the text has a fault.
    :raises OSError: the file can't be read.
    """

    def __init__(self, content_or_path: Union[bytes, str, "os.PathLike[str]"]) -> None:
        self._begin()
        if isinstance(content_or_path, bytes):
            name, content = "text", content_or_path
        else:
            path = Path(content_or_path)
            name, content = path.name, path.read_bytes()
        try:
            self._put(name, content)
            key = os.fsencode(name)
            self._opened(_library.morph_open_att(self._handle, key, len(key)))
        except BaseException:
            self.close()
            raise

    def up(self, word: str) -> List[str]:
        """The upper words of a word, in the order of their bytes.

        :raises NoSymbol: no symbol of the text begins at a character of the word.
        :raises TooMany: there are more than 4,096.
        :raises Endless: there are endlessly many.
        :raises BadText: the word isn't one line of at most 4,096 bytes.
        """
        return self._answers(word, self._lines(_library.morph_att_up, word))
