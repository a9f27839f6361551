"""Runs a command on a terminal of its own, prints what it shows there, and ends with its status."""

import os
import pty
import sys

sys.exit(os.waitstatus_to_exitcode(pty.spawn(sys.argv[1:])))
