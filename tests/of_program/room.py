"""A folder with texts, in which the built program runs with a shim loaded before it."""
import os
import resource
import subprocess

TOP = os.path.dirname(os.path.dirname(os.path.dirname(os.path.realpath(__file__))))
PROGRAM = f"{TOP}/crates/s2ix/out/s2ix"


class Ended:
    """How a run ended: its status, what it wrote, what it said on standard error, and what the shim counted."""

    def __init__(self, status, output, words, counts):
        self.status, self.output, self.words, self.counts = status, output, words, counts

    def is_like(self, other):
        return (self.status, self.output, self.words) == (other.status, other.output, other.words)


class Room:
    """The folder, and how many runs came out well or didn't."""

    def __init__(self, path):
        self.path, self.shim, self.passed, self.failed = path, f"{path}/refuse.so", 0, 0
        subprocess.run(["cc", "-O2", "-shared", "-fPIC", "-o", self.shim, f"{TOP}/tests/preloaded/refuse.c"], check=True)

    def write(self, name, text):
        with open(f"{self.path}/{name}", "wb") as file:
            file.write(text)

    def run(self, words, script=b"", output=subprocess.PIPE, memory=None, **refusals):
        """Runs the program with words over a script; each refusal becomes a variable of the shim."""
        counts = f"{self.path}/counts"
        shim = {"LD_PRELOAD": self.shim, "REFUSE_COUNTS": counts, **{name: str(value) for name, value in refusals.items()}}
        if os.path.exists(counts):
            os.remove(counts)
        limit = (lambda: resource.setrlimit(resource.RLIMIT_AS, (memory, memory))) if memory else None
        with open(f"{self.path}/script", "w+b") as given:
            given.write(script)
            given.seek(0)
            ran = subprocess.run(
                [PROGRAM, *words], stdin=given, stdout=output, stderr=subprocess.PIPE, env=shim, cwd=self.path, timeout=600, preexec_fn=limit
            )
        with open(counts, encoding="ascii") as file:
            counted = [int(word) for word in file.read().split()]
        return Ended(ran.returncode, ran.stdout or b"", ran.stderr, counted)

    def expect(self, name, is_well):
        """Counts a run that came out well, or prints how it came out."""
        self.passed += is_well
        self.failed += not is_well
        if not is_well:
            print(name)

    def expect_ended(self, name, ended, status_and_words, outputs):
        self.expect(
            f"{name}: status {ended.status}, {ended.words!r}, {ended.output[-200:]!r}",
            (ended.status, ended.words) == status_and_words and ended.output in outputs,
        )
