"""What the benchmarks share: their programs, and commands that are timed over one input, in turn."""
import os
import subprocess
import tempfile
import time

HOME = os.path.dirname(os.path.dirname(os.path.abspath(__file__)))


def built(crate, *words):
    """The program of a crate, proved and built from these sources. The words are such that it ends well on no input."""
    folder = os.path.join(HOME, "crates", crate)
    subprocess.run(["rt", "run", "--", *words], cwd=folder, stdin=subprocess.DEVNULL, stdout=subprocess.DEVNULL,
                   stderr=subprocess.DEVNULL, check=True)
    return os.path.join(folder, "out", crate)


def timed(command, path):
    """How long the command takes over the file, in seconds, and what it writes."""
    with open(path, "rb") as file:
        start = time.perf_counter()
        done = subprocess.run(command, stdin=file, stdout=subprocess.PIPE, check=True)
        return time.perf_counter() - start, done.stdout


def least(commands, data, runs):
    """The least time of each command over these bytes, of so many runs in turn, with what the command writes."""
    with tempfile.NamedTemporaryFile() as file:
        file.write(data)
        file.flush()
        rounds = [[timed(command, file.name) for command in commands] for _ in range(runs)]
    return [min(of_one) for of_one in zip(*rounds)]
