"""The gate: `rt ci` over a copy of the repository without its wrong bodies, and these beside its end, over what it built."""

import concurrent.futures
import queue
import re
import shutil
import subprocess
import tempfile
import time

import crates
import wrong_bodies


def copy(to):
    """Makes a repository of all files in the folder `to`, but for what was built and the wrong bodies."""
    ignored = shutil.ignore_patterns(".git", "out", "bin", "must-fail")
    shutil.copytree(crates.TOP, to, symlinks=True, ignore=ignored)
    subprocess.run(["git", "init", "-q", to], check=True)


# So many seconds a processor is free before it is taken as free for good: `rt ci` begins the next proof sooner.
PAUSE = 5


def prove_and_try(words, folder):
    """Runs `rt ci` with these options in the folder, and tries the wrong bodies once it leaves a processor free for good.

    Returns the status of `rt ci`, its last line, and how many wrong bodies were refused and how many were not.
    """
    lines, gates, busy = crates.listed(), queue.Queue(), time.monotonic()
    with concurrent.futures.ThreadPoolExecutor(1) as pool:
        ci = pool.submit(crates.run_gate, words, lines, folder, watch=lambda *it: gates.put(it))
        gate, proved = gates.get()

        def turn(running):
            nonlocal busy
            if ci.done():
                return None if ci.result()[0] else True
            # once each crate is proved, a processor is free only if no tests wait for one
            if len(proved) < len(lines) or len(list(crates.provers(gate.pid))) + running >= crates.lanes():
                busy = time.monotonic()
            if time.monotonic() < busy + PAUSE:
                return False
            busy = time.monotonic()
            return True

        refused, others = wrong_bodies.try_all(list(lines), folder, turn)
        status, said = ci.result()
    return status, said[-1], refused, others


def run(words):
    """Runs the gate with these options of `rt ci`, prints how far it is, and returns its status.

    The last line is `N passed, M failed`, where a crate and a wrong body count as one each. If the program of the kit isn't as
    `wrong_bodies` knows it, `rt ci` tries the wrong bodies too, one after the other.
    """
    if not wrong_bodies.fits_kit():
        return crates.run_gate(words, crates.listed())[0]
    with tempfile.TemporaryDirectory(prefix="leveled-") as work:
        copy(f"{work}/leveled")
        status, last, refused, others = prove_and_try(words, f"{work}/leveled")
    passed, failed = map(int, re.match(r"(\d+) passed, (\d+) failed", last).groups())
    print(f"{passed + refused} passed, {failed + others} failed")
    return status or (1 if others else 0)
