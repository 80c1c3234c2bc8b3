"""Runs a program over a file and says how long it took and how much memory.

It is started by a small process, this file as a script, since the peak of a child counts the memory of its parent."""
import os
import subprocess
import sys
import time

TOP = os.path.dirname(os.path.dirname(os.path.abspath(__file__)))


def program_path(name):
    """Where a program is built."""
    return os.path.join(TOP, "crates", name, "out", name)


PROGRAM = program_path("rpkica")


def build_program(name="rpkica"):
    """Has the program built where it isn't there."""
    if not os.path.exists(program_path(name)):
        subprocess.run([os.path.join(TOP, name), "--version"], stdin=subprocess.DEVNULL, stdout=subprocess.DEVNULL, check=False)


def measure(path, words):
    """Prints the seconds, the status and the most memory of one run over a file."""
    with open(path, "rb") as source:
        start = time.perf_counter()
        child = subprocess.Popen(words, stdin=source, stdout=subprocess.DEVNULL, stderr=subprocess.DEVNULL)
        _, status, usage = os.wait4(child.pid, 0)
        seconds = time.perf_counter() - start
    child.returncode = os.waitstatus_to_exitcode(status)
    print(seconds, child.returncode, usage.ru_maxrss * 1024)


def run(path, *words):
    """Seconds, exit status and peak memory in octets of the words, with the file as standard input."""
    command = [sys.executable, os.path.abspath(__file__), path, *words]
    seconds, status, peak = subprocess.run(command, capture_output=True, text=True, check=True).stdout.split()
    return float(seconds), int(status), int(peak)


def best_of_three(path, *words):
    """The quickest of three runs."""
    return min(run(path, *words) for _ in range(3))


def shown_time(path, *words):
    """The seconds of the quickest of three runs, or the status that is not 0, as a text."""
    seconds, status, _ = best_of_three(path, *words)
    return f"{seconds:.3f}" if status == 0 else f"status {status}"


if __name__ == "__main__":
    measure(sys.argv[1], sys.argv[2:])
