"""Lines as beltbeam reads and prints them: each is ended by a line feed alone."""

from typing import Iterator

from beltlib.errors import BadInput


def ended_lines(name: str, text: str) -> Iterator[tuple[int, str]]:
    """The lines of a text by their numbers from 1."""
    *ended, rest = text.split("\n")
    for number, line in enumerate(ended, start=1):
        if line.endswith("\r"):
            wrong = BadInput("the line ends in CR LF, expected a line feed (LF) alone")
            raise wrong.at(f"{name}:{number}")
        yield number, line
    if rest:
        wrong = BadInput("the last line is not ended by a line feed (LF)")
        raise wrong.at(f"{name}:{len(ended) + 1}")
