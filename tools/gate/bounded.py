"""Commands with a time that grows with the machine's load."""
import contextlib
import os
import signal
import subprocess
import threading
import time


def patience(seconds):
    """How long to wait for what takes at most so many seconds on a calm machine."""
    return seconds * max(1, 2 * os.getloadavg()[0] / len(os.sched_getaffinity(0)))


def is_awaited(holds, seconds):
    """Whether something comes to hold in its time."""
    until = time.monotonic() + patience(seconds)
    while not (is_so := holds()) and time.monotonic() < until:
        time.sleep(0.02)
    return is_so


def run(words, seconds, given=None, **how):
    """How a command ended, and what it wrote to standard output and error.

    The status is None where it was killed at the end of its time, with all that it started; that is told behind what it
    wrote."""
    how = {"stdout": subprocess.PIPE, "stderr": subprocess.PIPE, **how}
    stdin = subprocess.DEVNULL if given is None else subprocess.PIPE
    with subprocess.Popen(words, stdin=stdin, start_new_session=True, **how) as process:
        began = time.monotonic()
        if given is not None:
            # (`communicate` gives it no more once its time is over, which a busy machine may see before it gave any)
            threading.Thread(target=give, args=(process.stdin, given), daemon=True).start()
            process.stdin = None
        try:
            while True:
                try:
                    out, err = communicated(process, 5)
                    return process.returncode, out, err
                except subprocess.TimeoutExpired:
                    taken = time.monotonic() - began
                    if taken > patience(seconds):
                        return None, *killed(process, f"it had not ended after {taken:.0f} seconds\n".encode())
        except BaseException:
            killed(process, b"")
            raise


def told(words, seconds, **how):
    """How a command ended, and all that it wrote as a text."""
    status, out, err = run(words, seconds, **how)
    return status, (out + err).decode(errors="replace")


def give(stdin, given):
    with contextlib.suppress(OSError), stdin:
        stdin.write(given)


def communicated(process, seconds):
    out, err = process.communicate(timeout=seconds)
    return out or b"", err or b""


def killed(process, told):
    """What a process wrote that is killed with all that is in its session's group."""
    os.killpg(process.pid, signal.SIGKILL)
    out, err = communicated(process, None)
    return out, err + told
