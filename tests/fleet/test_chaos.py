"""The soak, for 40 seconds: bench/fleet/run soak runs ten minutes of it.

KOBDZILA_FLEET_CHAOS is for how many seconds it runs.
"""
from __future__ import annotations

import os
import random
import subprocess
import sys
import unittest
from pathlib import Path

SECONDS = os.environ.get("KOBDZILA_FLEET_CHAOS", "40")


class ChaosTest(unittest.TestCase):
    def test_whatever_happens(self) -> None:
        seed = str(random.randrange(10**6))
        done = subprocess.run([sys.executable, str(Path(__file__).with_name("soak.py")), SECONDS, seed], text=True,
                              capture_output=True, timeout=280 + float(SECONDS))
        self.assertEqual(done.returncode, 0, done.stdout[-1500:] + done.stderr[-1500:])
        print(done.stdout.strip().splitlines()[1])


if __name__ == "__main__":
    unittest.main()
