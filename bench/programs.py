"""Programs of the repository that benchmarks give a text on the standard input, and what each run of them takes."""
import os
import subprocess
import sys
import tempfile
from pathlib import Path

CRATES = Path(__file__).resolve().parent.parent / "crates"


class Program:
    """The program of a crate, proved and built where that has not been done."""

    def __init__(self, name):
        self.name = name
        self.path = CRATES / name / "out" / name
        if not self.path.exists():
            command = ["rt", "run", "--", "--build-only"]
            quiet = {"stdin": subprocess.DEVNULL, "stdout": subprocess.DEVNULL, "stderr": subprocess.DEVNULL}
            subprocess.run(command, cwd=CRATES / name, **quiet)
        if not self.path.exists():
            sys.exit(f"{name} was not built")

    def once(self, text):
        """Processor seconds of one run on this text, and what it printed."""
        with tempfile.TemporaryFile() as told, tempfile.TemporaryFile() as out:
            told.write(text.encode())
            told.seek(0)
            child = subprocess.Popen([self.path], stdin=told, stdout=out)
            _, status, used = os.wait4(child.pid, 0)
            out.seek(0)
            if status:
                sys.exit(f"{self.name} ended with {status}")
            return used.ru_utime + used.ru_stime, out.read().decode()

    def least(self, texts, runs):
        """The least seconds of so many runs on each of these texts, which are taken in turn, and what each printed."""
        seconds, printed = {}, {}
        for _ in range(runs):
            for key, text in texts.items():
                spent, printed[key] = self.once(text)
                seconds[key] = min(spent, seconds.get(key, spent))
        return seconds, printed
