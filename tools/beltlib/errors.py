"""The one way in which bad input is told."""


class BadInput(Exception):
    """What is wrong with an input and what was expected, in plain words."""

    status = 2

    def at(self, place: str) -> "BadInput":
        """The same with its place in front."""
        return type(self)(f"{place}: {self}")


class Refused(BadInput):
    """An input that can be read and that beltbeam would refuse by a number."""

    status = 1


def quoted(text: str) -> str:
    """A piece of the input as a message shows it, cut short where it is long."""
    return ascii(text if len(text) <= 40 else text[:37] + "...")
