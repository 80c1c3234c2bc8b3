"""`python -m calmizsed` is the command."""

import sys

from calmizsed.command import main

sys.exit(main())
