"""The duty screen beside a run: screen.py TEXT COMMAND.. runs the command on a terminal of its own, waits until TEXT is on
its screen, presses Q, and prints what comes after the screen. Exits with the command's status, or with 99 where TEXT does
not come within 50 seconds or the command does not end."""
import fcntl
import os
import pty
import select
import struct
import sys
import termios
import time

LEAVES = b"\x1b[?1049l"  # the terminal's first screen comes back


def main(text, command):
    process, terminal = pty.fork()
    if process == 0:
        fcntl.ioctl(0, termios.TIOCSWINSZ, struct.pack("HHHH", 40, 180, 0, 0))
        os.environ["TERM"] = "xterm"
        os.execvp(command[0], command)
    end, seen, typed = time.monotonic() + 50, b"", False
    while time.monotonic() < end:
        if not select.select([terminal], [], [], 0.1)[0]:
            continue
        try:
            part = os.read(terminal, 65536)
        except OSError:
            part = b""  # nobody has the terminal any more
        if not part:
            break
        seen += part
        if not typed and text.encode() in seen:
            os.write(terminal, b"q")
            typed = True
    else:
        os.write(2, seen[-3000:] + b"\n")
        return 99
    _, status = os.waitpid(process, 0)
    sys.stdout.write(seen[seen.rfind(LEAVES) + len(LEAVES):].decode(errors="replace"))
    return os.waitstatus_to_exitcode(status) if typed else 99


sys.exit(main(sys.argv[1], sys.argv[2:]))
