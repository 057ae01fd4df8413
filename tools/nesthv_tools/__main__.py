"""`python3 -m nesthv_tools COMMAND WORD...` does what the script of this name does."""
import os
import sys

from nesthv_tools import places, start

if len(sys.argv) < 2 or sys.argv[1] not in start.commands():
    sys.exit("usage: python3 -m nesthv_tools COMMAND [WORD]..., where COMMAND is one of "
             + ", ".join(start.commands()))
sys.argv = [os.path.join(places.TOOLS, sys.argv[1]), *sys.argv[2:]]
start.command(os.path.basename(sys.argv[0]))
