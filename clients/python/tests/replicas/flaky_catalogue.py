"""The stand-in as one that now and then refuses what others accept, for want of memory or by its device; and that can end.

FLAKY is the chance of a refusal, and FLAKY_READS that of one of a read; while there is no file that FLAKY_ONCE names, the
40th item is refused for certain. A line that holds the word `deadly` ends it, as a fault of a program would.
"""

import os
import random
import sys
from pathlib import Path

sys.path.insert(0, str(Path(__file__).resolve().parent.parent))

import fake_catalogue  # noqa: E402

CHANCE = float(os.environ.get("FLAKY", "0"))
READS = float(os.environ.get("FLAKY_READS", "0"))
ONCE = Path(os.environ["FLAKY_ONCE"]) if "FLAKY_ONCE" in os.environ else None
TROUBLES = {
    "do_put": ((40, 1), (30, 1)),
    "do_del": ((16, 1),),
    "do_delw": ((40, 10),),
    "do_refresh": ((30, 10),),
    "do_open": ((40, 10),),
    "do_commit": ((30, 30),),
    "do_snap": ((40, 10),),
    "do_merge": ((31, 1),),
}


def trouble(name, refusals):
    sound = getattr(fake_catalogue.Fake, name)

    def method(self, *arguments):
        for number, times in refusals:
            if random.random() < CHANCE * times:
                raise fake_catalogue.No(number)
        if any("deadly" in str(each) for each in arguments):
            os._exit(3)
        if ONCE is not None and name == "do_put" and self.writes == 40 and not ONCE.exists():
            ONCE.touch()
            raise fake_catalogue.No(40)
        return sound(self, *arguments)

    setattr(fake_catalogue.Fake, name, method)


def read_trouble(name):
    sound = getattr(fake_catalogue.Fake, name)

    def method(self, *arguments):
        if random.random() < READS:
            raise fake_catalogue.No(40)
        return sound(self, *arguments)

    setattr(fake_catalogue.Fake, name, method)


for name in ("do_find", "do_facets", "do_get"):
    read_trouble(name)

for name, refusals in TROUBLES.items():
    trouble(name, refusals)

sys.exit(fake_catalogue.main())
