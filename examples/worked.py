"""The whole case, from Python: two stations ten bit times apart, each with a frame for the other at time 0.

PYTHONPATH=PREFIX/lib/python3.11/site-packages python3 worked.py
"""

import sys

from wisavulome import text
from wisavulome.library import Library

PLAN = """
station at 0   02:00:00:00:00:01 draws 0
station at 10  02:00:00:00:00:02 draws 1
offer at 0 station 0 to station 1 value 0x0800 data 46 zeros
offer at 0 station 1 to station 0 value 0x0800 data 46 zeros
run 1500
"""

sys.stdout.write(Library().print_run(text.write(PLAN)).decode())
