"""Waiting for processes that a test has started."""
import fcntl
import signal
import struct
import termios
import time

SECONDS = 60                            # that anything may take


def bytes_waiting(pipe):
    return struct.unpack("i", fcntl.ioctl(pipe, termios.FIONREAD, bytes(4)))[0]


def wait_until(true, what):
    end = time.monotonic() + SECONDS
    while not true():
        if time.monotonic() > end:
            raise TimeoutError(what)
        time.sleep(0.0002)


def taken(running, pipe):
    """Waits until the process has taken all that was written, or has ended."""
    wait_until(lambda: bytes_waiting(pipe) == 0 or running.poll() is not None, "the piece is not read")


def with_interrupts():
    """In a new process: Ctrl-C counts, also where this test was started in the background."""
    signal.signal(signal.SIGINT, signal.SIG_DFL)
