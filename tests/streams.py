#!/usr/bin/env python3
"""Runs a command with an unusual standard input that has a file's bytes, and ends with the command's status.

streams.py late FILE COMMAND..      a pipe that does not block: all of the file at once, and half a second after it was read a byte more
streams.py terminal FILE COMMAND..  a terminal, on which the file is typed; fails if the command does not say that it waits
"""
import fcntl
import os
import pty
import struct
import subprocess
import sys
import termios
import threading
import time


def late(text, command):
    reader, writer = os.pipe()
    os.set_blocking(reader, False)
    os.write(writer, text)
    process = subprocess.Popen(command, stdin=reader)
    while process.poll() is None and struct.unpack("i", fcntl.ioctl(reader, termios.FIONREAD, bytes(4)))[0] > 0:
        time.sleep(0.01)
    time.sleep(0.5)
    try:
        os.write(writer, b"x")
    except BrokenPipeError:
        pass
    os.close(writer)
    return process.wait()


def terminal(text, command):
    master, slave = pty.openpty()
    settings = termios.tcgetattr(slave)
    settings[3] &= ~termios.ECHO
    termios.tcsetattr(slave, termios.TCSANOW, settings)
    process = subprocess.Popen(command, stdin=slave, stderr=subprocess.PIPE)

    def type_in():
        for at in range(0, len(text), 500):
            os.write(master, text[at : at + 500])
        os.write(master, b"\x04")

    threading.Thread(target=type_in, daemon=True).start()
    said = process.stderr.read().decode()
    if "terminal" not in said:
        sys.stderr.write("no word of a terminal: " + said)
        return 3
    return process.wait()


sys.exit({"late": late, "terminal": terminal}[sys.argv[1]](open(sys.argv[2], "rb").read(), sys.argv[3:]))
