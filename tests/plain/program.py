"""The built program, and what a check says in the end."""
import os
import resource
import subprocess
import sys

TOP = os.path.dirname(os.path.dirname(os.path.dirname(os.path.realpath(__file__))))
PROGRAM = os.path.join(TOP, "crates", "uvl", "out", "uvl")
STACK_BYTES = 1024 * 1024


def limit_stack(size=STACK_BYTES):
    """Gives the program little stack, as calls are no deeper than what nests in a model; for `preexec_fn`."""
    resource.setrlimit(resource.RLIMIT_STACK, (size, size))


def limit_stack_for_files():
    """Gives the program stack for files that import each other 16 deep, which takes 64 KiB for each."""
    limit_stack(2 * STACK_BYTES)


def build():
    """Has the launcher build the program where it isn't built or a source is newer; without it there is nothing to check."""
    model = os.path.join(TOP, "examples", "thin.uvl")
    if subprocess.run([os.path.join(TOP, "uvl"), model], stdin=subprocess.DEVNULL).returncode:
        sys.exit(f"{sys.argv[0]}: the launcher `uvl` couldn't run the program")


def report(passed, rounds):
    """Says how many of the rounds passed; answers the check's status."""
    print(f"{passed} passed, {rounds - passed} failed")
    return passed != rounds
