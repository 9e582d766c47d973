#!/usr/bin/env python3
"""Checks logs by the library, without a process for each: verify.py LIBRARY/libwmlab.so MODULE LOG..
Prints the status and the line of each. Ends with 0 if all are allowed, with 1 if one is broken, else with 2 or 3."""
import ctypes
import sys

if len(sys.argv) < 4:
    print(__doc__, file=sys.stderr)
    sys.exit(2)
wmlab = ctypes.CDLL(sys.argv[1])
wmlab.wmlab_module_new.restype = ctypes.c_void_p
wmlab.wmlab_module_new.argtypes = [ctypes.c_char_p, ctypes.c_size_t]
wmlab.wmlab_verify.argtypes = [ctypes.c_void_p, ctypes.c_char_p, ctypes.c_size_t, ctypes.c_char_p, ctypes.c_size_t]
module_bytes = open(sys.argv[2], "rb").read()
module = wmlab.wmlab_module_new(module_bytes, len(module_bytes))
statuses = []
for name in sys.argv[3:]:
    log, line = open(name, "rb").read(), ctypes.create_string_buffer(512)
    status = wmlab.wmlab_verify(module, log, len(log), line, len(line))
    print(status, line.value.decode())
    statuses.append(status)
sys.exit(1 if 1 in statuses else max(statuses))
