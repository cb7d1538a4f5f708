"""All trials: each part of the gate, and ./desk, on a sound copy of what it works on, which must pass, and on copies with one thing
broken, which must fail and say why."""

import tempfile

from . import cases, checks, connections, desk, disks, documents, edits, events, examples, folders, gate, helps, inputs
from . import kills, layout, migrations, proofs, wrong_bodies

MODULES = [gate, layout, proofs, checks, cases, folders, disks, examples, helps, documents, wrong_bodies, edits, desk, inputs]
MODULES += [kills, migrations, connections, events]


def tried():
    """Each trial, and why it did not go well."""
    for module in MODULES:
        with tempfile.TemporaryDirectory() as room:
            for name, is_well, (status, told) in module.trials(room):
                why = "" if is_well else f"status {status}, and it told:\n{told[-2000:]}"
                yield f"{module.__name__}: {name}", why
