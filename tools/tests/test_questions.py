"""The commands of a script: the program's reader, FORMATS and the tools have the same ones, with the same members."""
import re
import unittest

from support import CLONE
from ltm_tools.case.script import COMMANDS, MAY, NAME, WHOLE
from ltm_tools.scenario.session import Session

READER = CLONE / "crates" / "ltm_script" / "src" / "line.rt"
FORMATS = CLONE / "docs" / "FORMATS.md"
KINDS = {"find_name": NAME, "find_whole": WHOLE}


def commands_of_program(text: str) -> dict[str, dict[str, object]]:
    """The commands that the program's reader knows, each with the members that it looks for and their kinds."""
    arms = re.split(r'^ +"(\w+)" => ', text, flags=re.MULTILINE)
    return {
        word: {member: KINDS[call] for call, member in re.findall(r'(find_name|find_whole)\(value, "(\w+)"\)', arm)}
        for word, arm in zip(arms[1::2], arms[2::2])
    }


def may_be_missing(text: str) -> dict[str, dict[str, object]]:
    """The members that the program's reader looks at where they are there, by the command whose function does."""
    readers = re.split(r"^fn read_(\w+)", text, flags=re.MULTILINE)
    return {
        word: {member: WHOLE for member in members}
        for word, body in zip(readers[1::2], readers[2::2])
        if (members := re.findall(r'match value\.get\("(\w+)"\) \{\s+Some\(found\) => \{\s+let \w+ = read_whole', body))
    }


class Commands(unittest.TestCase):
    def setUp(self) -> None:
        self.program = commands_of_program(READER.read_text(encoding="utf-8"))

    def test_tools_know_those_of_the_program(self) -> None:
        self.assertEqual(self.program, COMMANDS)

    def test_tools_know_which_members_may_be_missing(self) -> None:
        self.assertEqual(may_be_missing(READER.read_text(encoding="utf-8")), MAY)

    def test_formats_lists_them(self) -> None:
        """A row for each command with the members that it needs, and one more with each member that it may go
        without."""
        rows = re.findall(r"^`(\w+)` \|(.*?)\| ", FORMATS.read_text(encoding="utf-8"), re.MULTILINE)
        listed = [(word, sorted(re.findall(r"`(\w+)`", members))) for word, members in rows if word in self.program]
        self.assertEqual(
            sorted(row for row in listed if row[0] != "edit"),
            sorted(
                (word, sorted([*members, *more]))
                for word, members in self.program.items()
                for more in ((), *([name] for name in MAY.get(word, ())))
                if word != "edit"
            ),
        )

    def test_a_session_has_a_call_for_each(self) -> None:
        self.assertEqual([word for word in self.program if not callable(getattr(Session, word, None))], [])

    def test_what_is_read(self) -> None:
        text = '"a" => Some(A),\n        "b" => {\n let x = find_name(value, "link")?;\n'
        self.assertEqual(commands_of_program("        " + text), {"a": {}, "b": {"link": NAME}})
        text = 'fn read_a() {\n  match value.get("every") {\n    Some(found) => {\n let x = read_whole(found)?;\n'
        self.assertEqual(may_be_missing(text), {"a": {"every": WHOLE}})


if __name__ == "__main__":
    unittest.main()
