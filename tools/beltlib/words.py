"""Small matters of English."""


def counted(count: int, one: str, many: str = "") -> str:
    """So many of something, for which there is an s or a word of its own."""
    return f"{count} {one if count == 1 else many or one + 's'}"


def either(words: tuple[str, ...]) -> str:
    """One of at least two words."""
    return f"{', '.join(words[:-1])} or {words[-1]}"
