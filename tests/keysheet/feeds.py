"""The ways to run keysheet on an input: by a pipe, by a file, and in pieces."""

import subprocess
import tempfile
import time

SECONDS = 20
PAUSE = 0.004


def by_pipe(program, data):
    """Runs the program with the data on standard input: its exit status and what it prints."""
    done = subprocess.run([program], input=data, stdout=subprocess.PIPE, timeout=SECONDS, check=False)
    return done.returncode, done.stdout


def by_file(program, data):
    """Runs the program with a file as its standard input."""
    with tempfile.TemporaryFile() as file:
        file.write(data)
        file.seek(0)
        done = subprocess.run([program], stdin=file, stdout=subprocess.PIPE, timeout=SECONDS, check=False)
    return done.returncode, done.stdout


def write_pieces(pipe, data, ends):
    """Writes the data in pieces that end at the given offsets, with a pause behind each."""
    start = 0
    try:
        for end in ends:
            pipe.write(data[start:end])
            start = end
            time.sleep(PAUSE)
    except BrokenPipeError:
        pass  # The program has read as much as it needs.


def written_in(ends):
    """A way to run the program whose input is written in pieces that end at the given offsets, with pauses."""

    def run(program, data):
        pipes = {"stdin": subprocess.PIPE, "stdout": subprocess.PIPE}
        with subprocess.Popen([program], bufsize=0, **pipes) as process:
            try:
                write_pieces(process.stdin, data, [*ends(len(data)), len(data)])
                output, _ = process.communicate(timeout=SECONDS)
            finally:
                process.kill()  # Without effect on a program that has ended.
        return process.returncode, output

    return run


FEEDS = {
    "pipe": by_pipe,
    "file": by_file,
    "pieces": written_in(lambda length: sorted(end for end in (1, 4, 11, length // 2, length - 1) if 0 < end < length)),
    "bytes": written_in(lambda length: range(1, length)),
}
