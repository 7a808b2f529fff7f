"""Numbers as English writes them in a row or in an order."""

ENDINGS = {1: "st", 2: "nd", 3: "rd"}


def ordinal(number: int) -> str:
    """1st, 2nd, 3rd, 4th and so on."""
    teen = number % 100 in (11, 12, 13)
    return f"{number}{'th' if teen else ENDINGS.get(number % 10, 'th')}"


def ranges(numbers: list[int]) -> str:
    """Ascending numbers, three and more in a row from the first to the last."""
    runs: list[list[int]] = []
    for number in numbers:
        if runs and number == runs[-1][-1] + 1:
            runs[-1].append(number)
        else:
            runs.append([number])
    parts: list[str] = []
    for run in runs:
        parts += [f"{run[0]} to {run[-1]}"] if len(run) > 2 else map(str, run)
    return ", ".join(parts)


def beams_text(beams: list[int]) -> str:
    """Beams by their ascending numbers."""
    return f"{'beam' if len(beams) == 1 else 'beams'} {ranges(beams)}"
