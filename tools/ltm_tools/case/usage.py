"""The words that the program takes, and what is wrong with others."""
import difflib
import re
from collections.abc import Sequence

WORDS = {
    "load": "load, the report of the loading",
    "delay": "delay, the queues and the delay of the loading",
    "gap": "gap, travel time beside an estimate of it on the fastest routes",
    "routes": "routes or routes times, least routes",
    "try": "try START NODES, a made case: NODES is 4 to 400",
    "session": "session N, with N workers, 0 to 64",
    "curves": "curves, the loading as a curve file",
    "check": "check, whether curves.csv is the loading",
    "view": "view V, with V viewers, 1 or 2",
    "editors": "editors K, with K editors, 1 to 8",
}
NUMBERS = {"session": (r"[0-9]{1,2}", 0, 64), "view": (r"[0-9]", 1, 2), "editors": (r"[0-9]", 1, 8)}


def number_fault(word: str, text: str) -> str:
    """Why the text is not the number that the word takes; nothing where it is."""
    pattern, least, most = NUMBERS[word]
    if re.fullmatch(pattern, text, re.ASCII) and least <= int(text) <= most:
        return ""
    return f"{text!r} is not the number that {word} takes, {least} to {most}"


def usage_fault(words: Sequence[str]) -> str:
    """What is wrong with the words; nothing where the program takes them."""
    if not words:
        return "no word says what to do: there are " + ", ".join(WORDS)
    first, rest = words[0], words[1:]
    if first not in WORDS:
        near = difflib.get_close_matches(first, WORDS, 1)
        return f"{first!r} is no command" + (f": {near[0]} is one" if near else ": there are " + ", ".join(WORDS))
    if first in NUMBERS:
        if len(rest) != 1:
            return f"{first} takes one number: {WORDS[first]}"
        return number_fault(first, rest[0])
    if first == "try":
        found = re.fullmatch("([0-9]{1,20}) ([0-9]{1,3})", " ".join(rest), re.ASCII) if len(rest) == 2 else None
        fits = found is not None and int(found[1]) < 2**64 and 4 <= int(found[2]) <= 400
        return (
            ""
            if fits
            else "try takes two numbers: START, 1 to 20 digits with a value below 2 to the 64, and NODES, 4 to 400"
        )
    if first == "routes" and rest == ["times"]:
        return ""
    return f"{first} takes no more words, and here follows {rest[0]!r}" if rest else ""
