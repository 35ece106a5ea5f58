"""Opens three tallies by a library, and calls back from it."""
import ctypes
import sys

library = ctypes.CDLL(sys.argv[1])
library.tally_open.restype = ctypes.c_void_p
NUMBER = ctypes.CFUNCTYPE(ctypes.c_int, ctypes.c_int)
tallies = [library.tally_open(name) for name in (b"north", b"south", b"we-st")]
library.tally_add(ctypes.c_void_p(tallies[0]), NUMBER(lambda number: number + 1))
