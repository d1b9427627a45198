"""Wrong bodies, for tests/wrong_bodies: `edits` has the bodies as they are written, `compiler` whether they compile, `told` what the prover says of
them, `trial` the checks and the verdicts, `refusals` those that this machine keeps, `clauses` which clause refuses a body, and `gate` which bodies
the gate tries."""
import os
import sys

sys.path.insert(0, f"{os.path.dirname(os.path.dirname(os.path.dirname(os.path.realpath(__file__))))}/tools")
