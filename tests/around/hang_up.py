"""Hangs a terminal up, as the kernel does if a stick is pulled out: from then on each read of it returns 0 bytes at
once. It needs the rights of root.

    tests/around/hang_up.py TERMINAL
"""
import fcntl
import os
import sys

TIOCVHANGUP = 0x5437

fcntl.ioctl(os.open(sys.argv[1], os.O_RDWR | os.O_NOCTTY), TIOCVHANGUP)
