"""Standard input that cannot be read to its end (R15.8, D1.9)."""

import os
import socket
import subprocess


def unreadable(given):
    """Such inputs: a name, and how subprocess.run is told. The last fails behind `given`."""
    folder = os.open(os.sep, os.O_RDONLY)
    yield "a folder", {"stdin": folder}
    os.close(folder)
    yield "nothing open", {"stdin": subprocess.DEVNULL, "preexec_fn": lambda: os.close(0)}
    near, far = socket.socketpair()
    far.sendall(given)
    # a socket that is closed with bytes unread resets the connection, once all that it sent is read
    near.send(b"never read")
    far.close()
    yield "a reset connection", {"stdin": near}
    near.close()


def fault_of(done):
    """What is wrong with a run on such an input (R15.8), or nothing."""
    if done.stdout:
        return f"printed {done.stdout[:100]!r}"
    if done.returncode != 0 or not done.stderr.startswith(b"standard input: "):
        return f"ended with {done.returncode}, and wrote {done.stderr[:200]!r} as its errors"
    return None
