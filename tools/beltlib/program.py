"""The program beltbeam: where it is, and what it prints of a sheet."""

import os
import shutil
import subprocess
import sys
from pathlib import Path

from beltlib.errors import BadInput
from beltlib.files import decoded

VARIABLE = "BELTBEAM"
REPOSITORY = Path(__file__).resolve().parent.parent.parent


def find_program(given: str | None) -> str:
    """The program that the command line or the environment names, else one at its usual places."""
    named = given or os.environ.get(VARIABLE)
    if named:
        found = shutil.which(named)
        if not found:
            raise BadInput("expected the program beltbeam, found none that can be run").at(named)
        return found
    # A link to belt may stand beside the program; it is not followed.
    beside = Path(sys.argv[0]).absolute().parent / "beltbeam"
    built = REPOSITORY / "target" / "bin" / "beltbeam"
    found = shutil.which(beside) or shutil.which(built) or shutil.which("beltbeam")
    if not found:
        raise BadInput(
            "beltbeam is not found: build it by tools/build beltbeam,"
            f" or name it by --beltbeam or in {VARIABLE}"
        )
    return found


def report_of(program: str, sheet: str) -> str:
    """What beltbeam prints of a sheet; what it says on standard error is for the user."""
    try:
        done = subprocess.run([program], input=sheet.encode(), stdout=subprocess.PIPE)
    except OSError as error:
        raise BadInput(f"cannot be run: {error.strerror}").at(program) from None
    if done.returncode < 0:
        wrong = BadInput(f"ended by signal {-done.returncode}, so that its report is not whole")
        raise wrong.at(program)
    return decoded(f"the report of {program}", done.stdout)
