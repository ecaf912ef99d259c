"""Runs a program again and again, and tells the processor seconds of its fastest run and the peak of its memory.

Processor seconds are the process's own, in the program and in the system. Where a machine has other work they hardly
change, as the seconds of a clock would.
"""

import os
import subprocess
import sys
import tempfile

TOP = os.path.dirname(os.path.dirname(os.path.abspath(__file__)))


def program_of(words):
    """The program that is measured, and how many runs: as the words say, or what ./aio builds, and 3."""
    runs = int(words[1]) if len(words) > 1 else 3
    if words:
        return os.path.abspath(words[0]), runs
    subprocess.run([os.path.join(TOP, "aio"), "check", "examples/hello.aio"], cwd=TOP, check=True, stdout=subprocess.DEVNULL)
    return os.path.join(TOP, "crates", "aio", "out", "aio"), runs


def run(words, folder):
    """The status and the processor seconds of one run."""
    process = subprocess.Popen(words, cwd=folder, stdout=subprocess.DEVNULL)
    _, status, used = os.wait4(process.pid, 0)
    process.returncode = os.waitstatus_to_exitcode(status)
    return process.returncode, used.ru_utime + used.ru_stime


def peak(words, folder):
    """The peak of memory of one run in MiB, as GNU time tells it. What Python's own wait tells would count the memory of
    this process too."""
    if not os.access("/usr/bin/time", os.X_OK):
        return "–"
    told = os.path.join(folder, "told")
    subprocess.run(["/usr/bin/time", "--quiet", "-f", "%M", "-o", told, *words], cwd=folder, stdout=subprocess.DEVNULL)
    with open(told) as file:
        return f"{int(file.read()) / 1024:.1f}"


def write(folder, files):
    for name, text in files.items():
        with open(os.path.join(folder, name), "w") as file:
            file.write(text)


def measure(words, files, wanted, runs):
    """The processor seconds of the fastest of several runs in a folder with these files, and the peak of memory. Each run
    has to end with the status that is wanted."""
    with tempfile.TemporaryDirectory() as folder:
        write(folder, files)
        results = [run(words, folder) for _ in range(runs)]
        memory = peak(words, folder)
    for status, _ in results:
        if status != wanted:
            sys.exit(f"bench: status {status}, and not {wanted}: {' '.join(words)}")
    return min(seconds for _, seconds in results), memory


def output(words, files):
    """What one run writes."""
    with tempfile.TemporaryDirectory() as folder:
        write(folder, files)
        return subprocess.run(words, cwd=folder, stdout=subprocess.PIPE, text=True).stdout
