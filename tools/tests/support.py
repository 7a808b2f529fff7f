"""What the tests share."""

import subprocess
import sys
from pathlib import Path

TOOLS = Path(__file__).resolve().parent.parent
EXAMPLES = TOOLS.parent / "examples"
DOCS = TOOLS.parent / "docs"
DATA = Path(__file__).resolve().parent / "data"

sys.path.insert(0, str(TOOLS))

HEAD = """\
degree=3
basis=bezier
type=flat
width0=1
width1=1
splitdepth=0
reverse=0
"""
STRAIGHT_POINTS = "point=-3,0,4\npoint=-1,0,4\npoint=1,0,4\npoint=3,0,4\n"
UP = "beam=0,0,0,0,0,1,inf,0\n"


def text_of(path: Path) -> str:
    """A file's text, its line ends as they are."""
    return path.read_bytes().decode()


def run(
    *arguments: object, stdin: str = "", tool: str | Path = "belt", env: dict | None = None
) -> subprocess.CompletedProcess:
    """Runs a tool as a user does, from the folder of the repository."""
    return subprocess.run(
        [sys.executable, "-B", TOOLS / tool, *arguments],
        input=stdin,
        capture_output=True,
        text=True,
        cwd=TOOLS.parent,
        env=env,
    )
