#!/usr/bin/env python3
"""Runs a command on a terminal of its own, and prints what it writes there, then a line with its exit status.
    tests/check/terminal.py COMMAND [WORD..]
    STOP_AT=FILE tests/check/terminal.py ..      presses Ctrl-C once there is this file, with something in it
A carriage return is printed as <, the sequence that clears a line as >."""
import os, pty, select, signal, sys

stop_at = os.environ.pop('STOP_AT', '')
pid, terminal = pty.fork()
if pid == 0:
    signal.signal(signal.SIGPIPE, signal.SIG_DFL)
    os.execvp(sys.argv[1], sys.argv[1:])
written = b''
while True:
    if stop_at and os.path.exists(stop_at) and os.path.getsize(stop_at):
        os.write(terminal, b'\x03')
        stop_at = ''
    if not select.select([terminal], [], [], 0.05)[0]:
        continue
    try:
        more = os.read(terminal, 4096)
    except OSError:
        break
    if not more:
        break
    written += more
_, status = os.waitpid(pid, 0)
shown = written.replace(b'\r\n', b'\n').replace(b'\r', b'<').replace(b'\x1b[K', b'>')
sys.stdout.write(shown.decode(errors='replace'))
print('status', os.waitstatus_to_exitcode(status))
