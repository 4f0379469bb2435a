"""Runs programs under valgrind's lackey, which lists each instruction, load and store by its address."""
import os
import subprocess


def started(command, output=subprocess.DEVNULL):
    """A traced run, whose own output goes to a file, and its trace."""
    end, log = os.pipe()
    # valgrind's optimiser would drop a load whose value is not used.
    run = subprocess.Popen(["setarch", "--addr-no-randomize", "valgrind", "--tool=lackey", "--trace-mem=yes", "--vex-iropt-level=0",
                            f"--log-fd={log}", *command], pass_fds=[log], stdin=subprocess.DEVNULL, stdout=output)
    os.close(log)
    return run, open(end, "rb")
