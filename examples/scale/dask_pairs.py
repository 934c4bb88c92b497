#!/usr/bin/env python3
"""examples/scale/dask_pairs.py FOLDER [WORKERS]

Which series did not survive, and which of those received are the same, on Dask. It starts a local cluster of two workers, or joins the one that
DASK_SCHEDULER_ADDRESS names, and maps over the pairs of FOLDER/sent and FOLDER/received. It prints a line for each pair that is not
equal, in the order of their names: what is said of it, a tab, and the name. A file that one of the two folders lacks is `missing A` or
`missing B`. On standard error it says what a pair costs, how many different series there are, and how many files are refused. Each
worker calls the library in its own process.
"""
import hashlib
import os
import sys
import time
from pathlib import Path

import dask.bag
from distributed import Client, LocalCluster

sys.path.insert(0, str(Path(__file__).resolve().parents[2] / "python"))
import rr


def verdict_on(pair):
    """What is said of a pair, as the program prints it, and its name."""
    name, sent, received = pair
    if not os.path.isfile(sent):
        return "missing A", name
    if not os.path.isfile(received):
        return "missing B", name
    try:
        verdict = rr.equal(Path(sent).read_bytes(), Path(received).read_bytes())
    except rr.Refused as refused:
        return f"refused {refused.operand} {refused.name}" + (f" {refused.place}" if refused.place else ""), name
    except (rr.OutOfMemory, OSError) as fault:
        return f"failed {fault}", name
    if verdict:
        return "yes", name
    moment = verdict.moment if isinstance(verdict.moment, str) else verdict.moment.isoformat()
    return f"no {moment} {verdict.side}", name


def key_of(pair):
    """The key of a received series, equal exactly for equal occurrences; none if it has no canonical text."""
    try:
        return hashlib.sha256(rr.canon(Path(pair[2]).read_bytes()).encode()).hexdigest()
    except (rr.Refused, rr.OutOfMemory, OSError):
        return None


def timed(work):
    """What a computation gives, and the seconds that it takes."""
    begun = time.monotonic()
    return work.compute(), time.monotonic() - begun


def main():
    folder, workers = Path(sys.argv[1]).resolve(), int(sys.argv[2]) if len(sys.argv) > 2 else 2
    names = sorted({it.name for side in ("sent", "received") for it in (folder / side).iterdir()})
    pairs = dask.bag.from_sequence([(it, str(folder / "sent" / it), str(folder / "received" / it)) for it in names], npartitions=8 * workers)
    address = os.environ.get("DASK_SCHEDULER_ADDRESS")
    with Client(address) if address else Client(LocalCluster(n_workers=workers, threads_per_worker=1, dashboard_address=None)):
        lost, taken = timed(pairs.map(verdict_on).filter(lambda it: it[0] != "yes"))
        keys, grouped = timed(pairs.map(key_of).frequencies())
    for said, name in sorted(lost, key=lambda it: it[1]):
        print(f"{said}\t{name}")
    counts = dict(keys)
    apart = counts.pop(None, 0)
    each = 1e6 / len(names)
    print(f"verdicts: {taken * each:.0f} us a pair; canonical texts: {grouped * each:.0f} us a series, {len(counts)} different, {apart} without one", file=sys.stderr)


if __name__ == "__main__":
    main()
