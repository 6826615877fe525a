"""Runs of a soundx."""
import os
import subprocess
import sys

# The status with which the script `soundx` ends where it cannot build its program.
NOT_BUILT = 70


def program_at(path, script):
    """The whole path of a soundx; none, behind a line that says why, where no soundx runs there.

    It is run once on the smallest sample: by this the script `soundx` proves and builds its program."""
    path = os.path.abspath(path)
    fault = fault_of(path)
    if fault:
        print(f"{script}: {fault}", file=sys.stderr)
    return path if fault is None else None


def fault_of(path):
    """Why no soundx runs at a path; none where one does, and nothing where the script `soundx` has told it."""
    if not os.path.isfile(path) or not os.access(path, os.X_OK):
        return f"no program at {path}"
    try:
        status = subprocess.call([path, "sample", "1"], stdin=subprocess.DEVNULL, stdout=subprocess.DEVNULL)
    except OSError as error:
        return f"{path} cannot be run: {error.strerror}"
    if status == NOT_BUILT:
        return ""
    return f"{path} is no soundx that runs: `sample 1` ends with status {status}" if status else None


def run(program, words, folder):
    """What a command prints, and its status."""
    ran = subprocess.run([program, *words], cwd=folder, stdout=subprocess.PIPE, stdin=subprocess.DEVNULL, timeout=600)
    return ran.stdout.decode(), ran.returncode
