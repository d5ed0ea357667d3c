"""What no proof shows, tried and measured from outside the built program. A module is a tool, and tools/ or bench/ has its command;
`python3 -m outside.crash 200` at the top of the repository is `tools/crash 200`."""

import os
import sys

TOP = os.path.dirname(os.path.dirname(os.path.abspath(__file__)))
# The client of this repository comes first, whatever is installed.
CLIENT = os.path.join(TOP, "clients", "python")
sys.path.insert(0, CLIENT)
# Tools run as root too, in a checkout of somebody else.
sys.dont_write_bytecode = True
