"""python -m cxf: the command."""

import signal
import sys

from .command import main

if __name__ == "__main__":
    signal.signal(signal.SIGTERM, lambda number, _: sys.exit(128 + number))  # what is half written is removed on the way out
    sys.exit(main())
