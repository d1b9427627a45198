"""What tools/prove_program and tools/prove_library share: each says on standard error how far it is, and exits with 70 if a crate is not proved or
there is no toolchain."""
import shutil
import sys
import time

import workspace

NOT_PROVED, INTERRUPTED = 70, 130


def say(text):
    print(f"s2ix: {text}", file=sys.stderr, flush=True)


def has_toolchain():
    """Whether rt is on the path; if it isn't, a line says so."""
    if shutil.which("rt"):
        return True
    say("there is no rt on the path: README says which toolchain it is of")
    return False


def prove(crate, make, left):
    """Proves a crate and what it is built on, and has `make` make of it what is asked for, by the workspace's folder and the time at which this began.
    `left` says what isn't done if a crate is not proved. Returns the status to exit with."""
    started = time.time()
    try:
        with workspace.proved([crate], say) as folder:
            make(folder, started)
    except workspace.NotProved as error:
        print(error, file=sys.stderr)
        say(f"a crate is not proved, so {left}")
        return NOT_PROVED
    except KeyboardInterrupt:
        return INTERRUPTED
    return 0
