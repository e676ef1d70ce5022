"""Files read as text, and written whole or not at all; rows as CSV."""

import codecs
import contextlib
import os
import re
import signal
from collections.abc import Iterable, Iterator, Mapping, Sequence

from .errors import Mistake


# What files of spreadsheets, which are archives, begin with: those of today, and of old.
_WORKBOOKS = (b"PK\x03\x04", b"\xd0\xcf\x11\xe0")


def _reason(error: OSError) -> str:
    return error.strerror or str(error)


def read(path: str) -> str:
    """A file of UTF-8, with or without the mark that some editors put in front, or of UTF-16 with its own mark."""
    try:
        with open(path, "rb") as file:
            data = file.read()
    except OSError as error:
        raise Mistake(path, _reason(error)) from error
    except ValueError as error:
        raise Mistake(repr(path), str(error)) from error
    if data.startswith(_WORKBOOKS):
        raise Mistake(path, "is a spreadsheet's own file, or an archive: save the sheet as CSV UTF-8")
    # Spreadsheets write "Unicode text" so.
    kind = "utf-16" if data.startswith((codecs.BOM_UTF16_LE, codecs.BOM_UTF16_BE)) else "utf-8-sig"
    try:
        return data.decode(kind)
    except UnicodeDecodeError as error:
        # The mark is left out of the count of the error's place, but it ends no line.
        line = data.count(b"\n", 0, error.start) + 1
        raise Mistake(f"{path}: line {line}", "is not UTF-8; a spreadsheet can save it as CSV UTF-8") from error


def csv_text(rows: Iterable[Sequence[str]], delimiter: str = ",") -> str:
    """Rows as CSV. Python's own writer leaves a lone carriage return without quotes, and no reader takes that."""
    special = re.compile(f'[{delimiter}"\r\n]').search

    def field(text: str) -> str:
        return '"' + text.replace('"', '""') + '"' if special(text) else text

    # Most rows have nothing to quote: they are looked at as a whole.
    return "".join(delimiter.join(map(field, row) if special("".join(row)) else row) + "\n" for row in rows)


def _destination(path: str) -> str:
    """The file that a name stands for. A rename would put a device or a folder aside, and a file that is read-only:
    none is taken."""
    real = os.path.realpath(path)
    if not os.path.exists(real):
        return real
    if not os.path.isfile(real):
        raise Mistake(path, "is no file")
    # Its owner may have made it so; root may write to any.
    if not (os.stat(real).st_mode & 0o222 and os.access(real, os.W_OK)):
        raise Mistake(path, "is read-only, and is not written over")
    return real


def _write_beside(path: str, text: str) -> str:
    """Writes the text under a name of its own in the same folder, so that the rename stays on one disk."""
    beside = f"{path}.{os.getpid()}.new"
    with open(beside, "x", encoding="utf-8", errors="replace", newline="") as file:
        try:
            file.write(text)
            file.flush()
            os.fsync(file.fileno())
        except BaseException:
            os.unlink(beside)
            raise
    return beside


@contextlib.contextmanager
def _uninterrupted() -> Iterator[None]:
    """Signals that end the command wait, so that no file stays under the name that it has while it is written."""
    before = signal.pthread_sigmask(signal.SIG_BLOCK, {signal.SIGINT, signal.SIGTERM, signal.SIGHUP})
    try:
        yield
    finally:
        signal.pthread_sigmask(signal.SIG_SETMASK, before)


def write_all(texts: Mapping[str, str], sources: Iterable[str] = ()) -> None:
    """Writes each text to its path. No path is touched before all texts lie on the disk, and none of the sources is."""
    kept = {os.path.realpath(source) for source in sources}
    with _uninterrupted():
        _write_all(texts, kept)


def _write_all(texts: Mapping[str, str], kept: set[str]) -> None:
    written: list[tuple[str, str]] = []
    try:
        for path, text in texts.items():
            real = _destination(path)
            if real in kept:
                raise Mistake(path, "was read, and is not written over")
            if real in [other for _, other in written]:
                raise Mistake(path, "is named for two files")
            written.append((_write_beside(real, text), real))
        while written:
            beside, path = written[0]
            os.replace(beside, path)
            written.pop(0)
    except OSError as error:
        raise Mistake(path, _reason(error)) from error
    except ValueError as error:
        raise Mistake(repr(path), str(error)) from error
    finally:
        for beside, _ in written:
            with contextlib.suppress(OSError):
                os.unlink(beside)
