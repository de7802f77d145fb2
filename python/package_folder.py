"""Prints the folder below a prefix where the Python that runs this looks for packages.

    package_folder.py PREFIX
"""

import os
import site
import sys


def folder_below(prefix: str) -> str:
    """The first folder of packages below `PREFIX/lib`; where there is none, the one that has the name there which the
    first of all has below its own `lib`."""
    lib = os.path.join(os.path.abspath(prefix), "lib", "")
    folders = site.getsitepackages()
    names = [folder.rpartition("/lib/")[2] for folder in folders]
    return next((folder for folder in folders if folder.startswith(lib)), lib + names[0])


if __name__ == "__main__":
    print(folder_below(sys.argv[1]))
