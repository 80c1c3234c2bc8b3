"""Starts the command `calmizsed` from the tree. Its modules come from beside this file, and none from the folder in which it is called."""

import os
import sys

sys.path[0] = os.path.join(os.path.dirname(os.path.realpath(__file__)), "src")

if sys.version_info < (3, 9):
    sys.exit("calmizsed: %s is older than Python 3.9; PYTHON names another Python" % sys.executable)
try:
    from calmizsed.command import main
except ModuleNotFoundError as error:
    sys.exit("calmizsed: %s has no package %s (Debian: python3-%s); PYTHON names another Python" % (
        sys.executable, error.name, str(error.name).partition(".")[0]))

if __name__ == "__main__":
    sys.exit(main())
