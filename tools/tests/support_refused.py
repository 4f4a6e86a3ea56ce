"""What the second reader and the program say of the files of a case: that they take them, or the first fault."""
import subprocess
from pathlib import Path

from support import BUILT
from ltm_tools.case import Case
from ltm_tools.case.bad_case import BadCase, NoFile, TooLong
from ltm_tools.errors import Fault
from ltm_tools.formats import vehicles_text


def due(folder: Path, word: str = "load") -> tuple[int, str]:
    """The status and the line that are due by the second reader. Of a case that is loaded 0, and how the report begins:
    with what its demand has produced."""
    try:
        case = Case.read(folder, splits=word != "routes", routes=False)
    except NoFile:
        return 3, ""
    except TooLong as fault:
        return 7, fault.line()
    except BadCase as fault:
        return 6, fault.line()
    except Fault as fault:
        raise AssertionError(f"no fault of a case: {fault}") from None
    produced = vehicles_text(sum(row.units for row in case.standing_demand()))
    return 0, f"version 0 generated {produced}" if word == "load" else "node,destination,from_slot,weights"


def told(folder: Path, word: str = "load") -> tuple[int, str]:
    """The status of the program, and its line or the beginning of its first one, as `due` has it."""
    run = subprocess.run([BUILT, word], cwd=folder, capture_output=True, text=True)
    line = run.stdout.partition("\n")[0]
    return run.returncode, line.partition(" arrived")[0] if run.returncode == 0 else line
