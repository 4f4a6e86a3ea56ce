"""What is wrong, told in one line."""

MOST_SIGNS = 900  # of a line: what is longer, as one that repeats a whole field, is cut in its middle
ENDING = 300  # signs of it that are kept of the end, where the advice stands


def one_line(text: str) -> str:
    """A text as one line that a person can read."""
    line = " ".join(text.split())
    return line if len(line) <= MOST_SIGNS else f"{line[: MOST_SIGNS - ENDING]} .. {line[-ENDING:]}"


class Fault(Exception):
    """What is wrong with what was asked for or read. The command line prints it as one line and ends with status 1."""

    def __init__(self, text: str) -> None:
        super().__init__(one_line(text))


class TooLarge(Fault):
    """A case that would have more of something than the program takes."""
