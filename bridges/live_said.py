"""One line on standard error for each change of state, in words or as a JSON object."""
import datetime
import json
import sys
import time


class Said:
    """Says what happens. A line has the time, the peer or `live`, the state, and what goes with it."""

    def __init__(self, as_json=False, out=sys.stderr):
        self.as_json, self.out = as_json, out

    def __call__(self, state, peer=None, why=None, **fields):
        known = {name: value for name, value in fields.items() if value is not None}
        spell = self.object if self.as_json else self.words
        print(spell(state, peer, why, known), file=self.out, flush=True)

    @staticmethod
    def object(state, peer, why, fields):
        made = {"time": round(time.time(), 6), "peer": peer, "state": state, **fields, "why": why}
        return json.dumps({name: value for name, value in made.items() if value is not None})

    @staticmethod
    def words(state, peer, why, fields):
        clock = datetime.datetime.now().strftime("%H:%M:%S.%f")[:-3]
        said = " ".join([clock, peer or "live", state, *(f"{name.replace('_', ' ')} {value}" for name, value in fields.items())])
        return f"{said}: {why}" if why else said
