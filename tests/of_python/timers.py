"""A timer whose signal raises, for tests of interrupts."""
import signal
import sys
import time

# So long a signal that was sent is waited for, in seconds.
PATIENCE = 600


def stop():
    """Stops the timer of real time. If it has fired, what its signal raises is raised here: else it might come later, out of the caller's `try`."""
    if signal.setitimer(signal.ITIMER_REAL, 0)[0] == 0:
        time.sleep(PATIENCE)


def but_for(kind):
    """Tells what nothing can raise, as of a finalizer, but not interrupts of a kind: for sys.unraisablehook."""
    return lambda given: None if issubclass(given.exc_type, kind) else sys.__unraisablehook__(given)
