"""The top of the repository, and the folders whose modules the scripts of dev/ and libvt/ import.

Importing this module puts these folders into the path of imports. A script finds this module by the line that puts dev/
there. `programs` of tools/ finds the programs, for these scripts as for the users' tools.
"""
import pathlib
import sys

TOP = pathlib.Path(__file__).resolve().parent.parent
FOLDERS = ("tools", "dev/checks", "dev/gen", "dev/engines", "dev/bench", "libvt/tools")

sys.path[1:1] = [folder for folder in (str(TOP / it) for it in FOLDERS) if folder not in sys.path]


def path_of(name):
    """The script of this name, in whichever of these folders it stands."""
    for folder in FOLDERS:
        if (TOP / folder / name).is_file():
            return TOP / folder / name
    raise FileNotFoundError(f"no script {name} is in {', '.join(FOLDERS)}")
