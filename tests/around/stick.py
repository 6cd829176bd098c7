"""A simulated stick with a radio module: a pseudo-terminal, configured as the guide configures a stick. It brings the
contents of a file that grows, in lines of hexadecimal digits; what the gateway sends is added to another, without
lines. With ANSWER it answers the query for its base ID with these digits, keeps nothing of the query, and does not have
the terminal open itself. A signal ends it, and that pulls the stick out.

    tests/around/stick.py LINK BROUGHT SENT [ANSWER]
"""
import os
import select
import sys
import termios
import time
import tty

link_path, brought_path, sent_path, answer = (sys.argv[1:] + [""])[:4]
QUESTION = bytes.fromhex("5500010005700838")
master, slave = os.openpty()
tty.setraw(slave)
settings = termios.tcgetattr(slave)
settings[4] = settings[5] = termios.B57600
settings[6][termios.VMIN], settings[6][termios.VTIME] = 0, 1
termios.tcsetattr(slave, termios.TCSANOW, settings)
os.symlink(os.ttyname(slave), link_path)
if answer:
    os.close(slave)
with open(brought_path) as source, open(sent_path, "a") as sink:
    line = ""
    while True:
        line += source.readline()
        if line.endswith("\n"):
            os.write(master, bytes.fromhex(line))
            line = ""
        if select.select([master], [], [], 0.02)[0]:
            try:
                chunk = os.read(master, 4096)
                if answer and QUESTION in chunk:
                    chunk = chunk.replace(QUESTION, b"")
                    os.write(master, bytes.fromhex(answer))
                sink.write(chunk.hex())
            except OSError:  # it was hung up, or nobody has it open
                if answer:
                    time.sleep(0.02)
                    continue
                break
            sink.flush()
