"""Starts a program with as much of the machine's stack as the system gives, and tells where that was too little."""
import resource
import signal
import subprocess

# The launchers' own status where a signal ended the program as it does where the stack is too small; the program never ends so.
TOO_SMALL = 6


def take_all():
    """Raises the bound of this process's stack as far as the system lets it."""
    most = resource.getrlimit(resource.RLIMIT_STACK)[1]
    try:
        resource.setrlimit(resource.RLIMIT_STACK, (most, most))
    except (OSError, ValueError):
        pass


def run(command, **how):
    """Runs a program, as subprocess.run does."""
    # pylint: disable-next=subprocess-popen-preexec-fn
    return subprocess.run(command, preexec_fn=take_all, check=False, **how)


def status_of(returncode):
    """Returns a launcher's exit status for what a program ended with, and the line that it says of it, or none."""
    if returncode == -signal.SIGSEGV:
        most = resource.getrlimit(resource.RLIMIT_STACK)[1]
        size = "no bound" if most == resource.RLIM_INFINITY else f"{most} bytes"
        return TOO_SMALL, f"why3lift: signal SIGSEGV ended the program, as where the machine's stack is too small ({size})"
    return (returncode if returncode >= 0 else 128 - returncode), ""
