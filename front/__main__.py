"""Runs the command. Whatever goes wrong in it, no failure looks like an answer: status 1 is a miss."""

import os
import sys
import traceback

sys.path.insert(0, os.path.dirname(os.path.dirname(os.path.abspath(__file__))))

try:
    from front.main import main

    status = main(sys.argv[1:])
except Exception:
    traceback.print_exc()
    status = 3
sys.exit(status)
