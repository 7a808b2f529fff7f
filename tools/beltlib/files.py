"""Files and the standard streams, which are named -."""

import os
import sys

from beltlib.errors import BadInput

CHUNK = 1 << 16


def display_name(path: str) -> str:
    """How messages name an input."""
    return "standard input" if path == "-" else path


def is_same(path: str, other: str) -> bool:
    """Whether two paths name one file that would be lost if it were written over."""
    try:
        return "-" not in (path, other) and os.path.isfile(path) and os.path.samefile(path, other)
    except OSError:
        return False


def read_text(path: str, most: int, too_long: BadInput) -> str:
    """The text of a file, its line ends as they are; one of too many bytes is not read on."""
    name = display_name(path)
    try:
        raw = read_bytes(path, most + 1)
    except OSError as error:
        raise BadInput(f"cannot be read: {error.strerror}").at(name) from None
    if len(raw) > most:
        raise too_long.at(name)
    return decoded(name, raw)


def decoded(name: str, raw: bytes) -> str:
    """The text that bytes are in UTF-8."""
    try:
        return raw.decode("utf-8")
    except UnicodeDecodeError as error:
        line = raw[: error.start].count(b"\n") + 1
        raise BadInput("not text in UTF-8").at(f"{name}:{line}") from None


def read_bytes(path: str, most: int) -> bytes:
    """The bytes of a file, at most so many."""
    if path != "-":
        with open(path, "rb", buffering=0) as file:
            return read_all(file.fileno(), most)
    if sys.stdin is None:
        raise BadInput("cannot be read: it is closed").at(display_name(path))
    return read_all(sys.stdin.fileno(), most)


def read_all(descriptor: int, most: int) -> bytes:
    """The bytes up to the end, at most so many."""
    raw = bytearray()
    while len(raw) < most and (part := os.read(descriptor, min(CHUNK, most - len(raw)))):
        raw += part
    return bytes(raw)


def write_text(path: str, text: str) -> None:
    """Writes a whole text at once, so that bad input leaves no half file behind."""
    name = "standard output" if path == "-" else path
    raw = text.encode("utf-8", "backslashreplace")
    try:
        if path != "-":
            with open(path, "wb", buffering=0) as file:
                write_all(file.fileno(), raw)
        elif sys.stdout is None:
            raise BadInput("cannot be written: it is closed").at(name)
        else:
            write_all(sys.stdout.fileno(), raw)
    except BrokenPipeError:
        # Whoever reads has seen enough.
        pass
    except OSError as error:
        raise BadInput(f"cannot be written: {error.strerror}").at(name) from None


def write_all(descriptor: int, raw: bytes) -> None:
    """Writes all bytes, however few go at a time."""
    rest = memoryview(raw)
    while rest:
        rest = rest[os.write(descriptor, rest) :]


def tell(message: str) -> None:
    """Says something on standard error, if it can be said there."""
    if sys.stderr is not None:
        try:
            write_all(sys.stderr.fileno(), message.encode("utf-8", "backslashreplace"))
        except OSError:
            pass
