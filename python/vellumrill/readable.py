"""Times, speeds, positions and counts as people read them. Nothing is rounded but where a name says so."""

SECOND = 1_000_000                      # microseconds


def clock(microseconds: int) -> str:
    """As h:mm:ss with all six places behind the second."""
    seconds, fraction = divmod(microseconds, SECOND)
    return f"{seconds // 3600}:{seconds // 60 % 60:02}:{seconds % 60:02}.{fraction:06}"


def seconds_up(microseconds: int) -> int:
    """In whole seconds; what is left counts as one more."""
    return -(-microseconds // SECOND)


def kilometres(metres: int) -> str:
    return f"{metres // 1000}.{metres % 1000:03}"


def kmh(hundredths: int) -> str:
    """A speed in km/h."""
    return f"{hundredths // 100}.{hundredths % 100:02}"


def counted(count: int, thing: str) -> str:
    return f"{count} {thing}{'' if count == 1 else 's'}"
