"""Runs a built program and measures it."""
import os
import subprocess
import time


def run(words):
    """The seconds, the peak in MB, the status and the output of a run."""
    start = time.monotonic()
    child = subprocess.Popen(words, stdout=subprocess.PIPE)
    output = child.stdout.read()
    _, status, usage = os.wait4(child.pid, 0)
    seconds = time.monotonic() - start
    return seconds, usage.ru_maxrss / 1000, os.waitstatus_to_exitcode(status), output.decode()
