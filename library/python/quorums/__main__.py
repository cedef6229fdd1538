"""`python3 -m quorums` is the command `quorums`."""

import sys

from .command import main

sys.exit(main())
