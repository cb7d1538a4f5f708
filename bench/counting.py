"""What it costs a program to play a script: in instructions where valgrind is there, which no other work disturbs, else in
nanoseconds of the processor, the least of five runs."""

import os
import re
import resource
import shutil
import subprocess
import tempfile

TURNS = 5


def instructions(program, script):
    with tempfile.TemporaryDirectory() as folder:
        counts = os.path.join(folder, "counts")
        words = ["valgrind", "--tool=callgrind", f"--callgrind-out-file={counts}", program, "play"]
        played = subprocess.run(words, input=script, stdout=subprocess.DEVNULL, stderr=subprocess.PIPE, check=True)
        return int(re.search(rb"Collected : (\d+)", played.stderr).group(1))


def nanoseconds(program, script):
    def once():
        before = resource.getrusage(resource.RUSAGE_CHILDREN)
        subprocess.run([program, "play"], input=script, stdout=subprocess.DEVNULL, check=True)
        after = resource.getrusage(resource.RUSAGE_CHILDREN)
        return (after.ru_utime + after.ru_stime - before.ru_utime - before.ru_stime) * 1e9

    return min(once() for _ in range(TURNS))


COST, UNIT = (instructions, "instructions") if shutil.which("valgrind") else (nanoseconds, "nanoseconds")
