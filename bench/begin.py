"""What the scripts of Python here begin with."""
import argparse
import os
import shutil
import subprocess
import sys
from typing import Optional

PROGRAM = os.path.join(os.path.dirname(os.path.abspath(__file__)), "program")


def parser(text: str) -> argparse.ArgumentParser:
    """The words of a script, the first of which is the program; its text is printed for --help."""
    words = argparse.ArgumentParser(description=text, formatter_class=argparse.RawDescriptionHelpFormatter)
    words.add_argument("program", nargs="?", metavar="PROGRAM", help="what is measured; without it the one that was built here")
    return words


def program(named: Optional[str], *tools: str) -> str:
    """The path of the program that is measured. Ends with a line where it or one of the tools isn't there."""
    for tool in tools:
        if not shutil.which(tool):
            print(f"{os.path.basename(sys.argv[0])}: {tool} isn't installed, and is wanted", file=sys.stderr)
            sys.exit(2)
    found = subprocess.run([PROGRAM, *([named] if named else [])], stdout=subprocess.PIPE, text=True, check=False)
    if found.returncode:
        sys.exit(found.returncode)
    return found.stdout.rstrip("\n")
