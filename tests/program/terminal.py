"""Breaks the program off while it asks, and looks at what it shows on a terminal. Its host is on 127.0.0.1, at a port
that is free, and takes no connection."""

import os
import pty
import signal
import subprocess
import time

from peers import full_port

# beyond this, in seconds, the program hangs; by itself it waits for half as long
MOST = 60
ASKED = ["ask", "--at-once", "--save", "broken.saved", "full.world"]
SHOWN = ["ask", "--patience", "1", "full.world"]
FIRST = b'\r\x1b[K\x1b[?7l0 s, waiting for "full"; 0 of 1 done, 0 failed, 0 connected; 0 records\x1b[?7h'
LAST = (
    b'\r\x1b[Kzmeta: target "full": Connect\r\n'
    b"zmeta: 127.0.0.1 gave no answer in 1 s; --connect sets how long that may take\r\n"
)


def fault_of_break(zmeta, room):
    """Ctrl-C ends the program at once: nothing is listed or saved."""
    # Else the program ignores it too, if a shell had it ignored here.
    signal.signal(signal.SIGINT, signal.default_int_handler)
    with subprocess.Popen([zmeta, *ASKED], stdout=subprocess.PIPE, stderr=subprocess.PIPE, cwd=room) as ran:
        time.sleep(1)
        ran.send_signal(signal.SIGINT)
        begun = time.monotonic()
        found = (*ran.communicate(timeout=MOST), ran.returncode)
        taken = time.monotonic() - begun
    if found != (b"", b"", -signal.SIGINT) or taken > 2 or os.path.exists(os.path.join(room, "broken.saved")):
        return f"Ctrl-C: {found} after {taken:.1f} s"
    return None


def shown(zmeta, room):
    """What the program shows on a terminal."""
    main, other = pty.openpty()
    with subprocess.Popen([zmeta, *SHOWN], stdout=subprocess.DEVNULL, stderr=other, cwd=room):
        os.close(other)
        pieces = []
        try:
            while piece := os.read(main, 4096):
                pieces.append(piece)
        except OSError:
            # (the program has ended)
            pass
    os.close(main)
    return b"".join(pieces)


def fault_of_progress(zmeta, room):
    """A line comes while hosts are connected to, and is wiped before what comes next."""
    text = shown(zmeta, room)
    return None if text.startswith(FIRST) and text.endswith(LAST) else f"progress: {text}"


def faults(zmeta, room):
    """What is not as it should be of the program at this path."""
    held = []
    try:
        with open(os.path.join(room, "full.world"), "w", encoding="utf-8") as file:
            file.write(f"host full 127.0.0.1:{full_port(held)}\nask full d - 1 dune\n")
        yield from (it for it in (fault_of_break(zmeta, room), fault_of_progress(zmeta, room)) if it)
    finally:
        for it in held:
            it.close()
