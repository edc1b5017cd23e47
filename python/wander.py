#!/usr/bin/env python3
"""Wanders at random through a model's events until a deadline is missed, and writes
the script that leads there: wander.py MODEL OUT [STEPS [SEED]]"""

import random
import sys
from pathlib import Path

import futonkestrel as fk

MISSED, THREADS = 112, 16  # the variables of all threads that count misses


def wander(model: fk.Model, steps: int, chance: random.Random) -> bytes | None:
    state, script = model.start(), b""
    for _ in range(steps):
        enabled = model.enabled(state)
        events = [offer.event(chance.randint(offer.low, offer.high)) for offer in enabled.events]
        if enabled.tick:
            events.append(fk.tick(1))
        event = chance.choice(events)
        before = bytes(state)
        model.step(state, event)
        # A REQUEST that is taken without effect leads nowhere.
        if bytes(state) != before:
            script += event
        variables = model.variables(state)
        if any(variables[MISSED + thread] for thread in range(THREADS)):
            return script
    return None


if __name__ == "__main__":
    model, out, *figures = sys.argv[1:]
    steps, seed = (list(map(int, figures)) + [10_000, 1][len(figures) :])
    found = wander(fk.Model(Path(model).read_bytes()), steps, random.Random(seed))
    if found is None:
        sys.exit(f"no deadline is missed within {steps} steps")
    Path(out).write_bytes(found)
    print(f"a deadline is missed after {len(list(fk.events(found)))} events")
