"""One run of the program, with the time that the processor took for it, the time that passed, and its peak memory."""
import os
import subprocess
import sys
import tempfile
import time
from typing import NamedTuple

from schedule import TOP

PROGRAM = TOP / 'crates/census/out/census'
PAUSE = 0.0005


class Run(NamedTuple):
    processor: float
    seconds: float
    megabytes: float
    output: bytes


def peak(number):
    """The peak memory so far of a process, in kilobytes, or 0 where it has ended."""
    try:
        with open(f'/proc/{number}/status') as status:
            return next((int(line.split()[1]) for line in status if line.startswith('VmHWM:')), 0)
    except OSError:
        return 0


def measured(words, text=b''):
    """One run. What the system counts as the peak of a process is at least that of this script, which starts it, so it
    is read off while the process runs: what it takes in its last half millisecond may be missed."""
    with tempfile.TemporaryFile() as source, tempfile.TemporaryFile() as sink:
        source.write(text)
        source.seek(0)
        start = time.monotonic()
        process = subprocess.Popen([PROGRAM, *words], stdin=source, stdout=sink)
        ended, highest = 0, 0
        while not ended:
            highest = max(highest, peak(process.pid))
            time.sleep(PAUSE)
            ended, status, usage = os.wait4(process.pid, os.WNOHANG)
        seconds = time.monotonic() - start
        process.returncode = os.waitstatus_to_exitcode(status)
        if process.returncode:
            sys.exit(f'a run of {" ".join(words)} ended with {process.returncode}')
        sink.seek(0)
        return Run(usage.ru_utime + usage.ru_stime, seconds, highest / 1024, sink.read())
