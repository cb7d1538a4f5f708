"""Programs that are run and timed, and files in a folder that lies in memory."""

import contextlib
import os
import subprocess
import sys
import tempfile

# the folder in which files are made, one that lies in memory, where there is such
SHARED_MEMORY = "/dev/shm"


def folder_in_memory():
    return SHARED_MEMORY if os.path.isdir(SHARED_MEMORY) else tempfile.gettempdir()


@contextlib.contextmanager
def new_path(beneath=None):
    """A path at which there is no file, in a folder that goes with it, beneath this one, or one that lies in memory."""
    with tempfile.TemporaryDirectory(dir=beneath or folder_in_memory()) as folder:
        yield os.path.join(folder, "desk.db")


def ended(process):
    """What a process used until it ended, which it must with status 0."""
    _, status, used = os.wait4(process.pid, 0)
    process.returncode = os.waitstatus_to_exitcode(status)
    if process.returncode != 0:
        sys.exit(f"{' '.join(process.args)} ended with status {process.returncode}")
    return used


def ran(words, source=os.devnull):
    """What a program prints that reads a file as its standard input, and what it used."""
    with open(source, "rb") as file, subprocess.Popen(words, stdin=file, stdout=subprocess.PIPE) as process:
        printed = process.stdout.read()
        return printed, ended(process)


def processor_seconds(used):
    return used.ru_utime + used.ru_stime
