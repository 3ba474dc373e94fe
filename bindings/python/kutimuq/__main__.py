"""`python3 -m kutimuq`, and the installed command."""

import sys

try:
    from .command import main

    status = main()
except KeyboardInterrupt:
    status = 130  # before the command could see to it
sys.exit(status)
