"""Imported by each tool in Python: `--help` prints the text at the head of the tool."""
import sys

import __main__

if sys.argv[1:2] in (["--help"], ["-h"]):
    print(__main__.__doc__.strip())
    sys.exit()
