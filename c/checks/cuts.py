"""Prints a random script of cuts: cuts.py SEED CUTS. Each call that stores comes in turn, on a log that other calls have brought to
where it is done, and is cut at any byte of its store, often at its ends. Then the image is shown whole, unless it is a large one, whose
CRC has to do, and open finds what is left."""

import sys
from pathlib import Path

sys.path.insert(0, str(Path(__file__).resolve().parents[2] / "compare"))

from generate import LONGEST_DUMP, Script, geometry, reach, start_log  # noqa: E402

CUTS_A_LOG = 40


def main():
    seed, cuts = int(sys.argv[1]), int(sys.argv[2])
    script = Script(seed)
    for done in range(cuts):
        if done % CUTS_A_LOG == 0:
            start_log(script, *geometry(script.rng))
        script.say(script.cut(reach(script, next(script.storing))))
        if len(script.image) < LONGEST_DUMP:
            script.say("dump")
        script.say("open")
    sys.stdout.buffer.write(b"\n".join(script.lines) + b"\n")


main()
