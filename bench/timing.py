"""What a whole command takes: seconds and peak memory."""
import os
import resource
import signal
import subprocess
import time


def best(words, status=0):
    """The seconds of the best of three runs, and what the command printed; each run has to end with the status."""
    times = []
    for _ in range(3):
        start = time.perf_counter()
        run = subprocess.run(words, capture_output=True, text=True)
        times.append(time.perf_counter() - start)
        assert run.returncode == status, f"{words} ended with {run.returncode}"
    return min(times), run.stdout.strip()


def peak(words):
    """The bytes of memory that one run holds at most."""
    process = subprocess.Popen(words, stdout=subprocess.DEVNULL)
    return os.wait4(process.pid, 0)[2].ru_maxrss * 1024


class Run:
    """One run of a command, which is ended behind a limit of whole processor seconds.

    `seconds` are those of the processor, for itself and for the system. `memory` is the peak in bytes, and at least
    what this script holds when the run starts, since the system counts from there. `status` is below 0 where a signal
    ended the run.
    """

    def __init__(self, words, limit, cwd=None):
        def bounded():
            resource.setrlimit(resource.RLIMIT_CPU, (limit, limit + 1))

        environment = {**os.environ, "OMP_NUM_THREADS": "1"}
        how = {"stdin": subprocess.DEVNULL, "stdout": subprocess.PIPE, "stderr": subprocess.DEVNULL}
        process = subprocess.Popen(words, cwd=cwd, env=environment, preexec_fn=bounded, **how)
        self.said = process.stdout.read().decode(errors="replace").strip()
        process.stdout.close()
        _, code, used = os.wait4(process.pid, 0)
        process.returncode = self.status = os.waitstatus_to_exitcode(code)
        self.seconds = used.ru_utime + used.ru_stime
        self.memory = used.ru_maxrss * 1024
        self.is_late = self.status == -signal.SIGXCPU
