#!/usr/bin/env python3
"""run.py [--rounds N] [--before FOLDER]: scans the benchmark's texts with every scanner that was built, in one run; prints MB/s, tokens/s and peak
memory of each, the ratio to the best peer, that of tokens taken one at a time, and theirs to the one call; and how time grows from 64 KB to 1 MB.
bench/build.sh builds what this runs. FOLDER has what an earlier state of the library was built to: its time beside this one's in the same rounds.
Where a scanner refuses a text it says `refused`. A text that this library refuses, or every peer, has no ratio, and the exit status is then 1."""
import argparse, os, statistics, subprocess, sys

HERE = os.path.dirname(os.path.abspath(__file__))
OUT = os.environ.get("BENCH_OUT", os.path.join(HERE, "..", "target", "bench"))
SIZES = [65_536, 1_048_576]


# what is compared with an earlier state of the library
KEPT = ("tokenglade", "tokenglade-stream")


def scanners(before):
    found = {n: [os.path.join(OUT, "bench"), n] for n in ("tokenglade", "tokenglade-full", "tokenglade-stream", "libyaml", "libfyaml")}
    rust = os.path.join(OUT, "bench-rust")
    if os.path.exists(rust):
        found["yaml-rust"] = [rust, "yaml-rust"]
    if before:
        found |= {n + "-before": [os.path.join(before, "bench"), n] for n in KEPT}
    return found


def measure(command, rounds, file):
    """Best nanoseconds, tokens (-1: refused), peak KB, bytes."""
    try:
        said = subprocess.run(command + [str(rounds), file], capture_output=True, text=True)
    except OSError as e:
        sys.exit(f"{command[0]}: {e.strerror}")
    if said.returncode or len(said.stdout.split()) != 4:
        sys.exit(f"{' '.join(command)} {file}: status {said.returncode}: {said.stdout}{said.stderr}")
    best, tokens, peak, size = said.stdout.split()
    return float(best), int(tokens), int(peak), int(size)


def rounds_of(jobs, found, rounds):
    """What each job took, round by round. All stay on one core, and the scanners of a text run side by side in each round: a change of the machine's
    speed is met by all alike."""
    os.sched_setaffinity(0, {0})
    taken = {job: [] for job in jobs}
    for _ in range(rounds):
        for job in jobs:
            name, size, scanner = job
            taken[job].append(measure(found[scanner], 3, os.path.join(OUT, f"texts-{size}", name + ".yaml")))
    return taken


def accepted(runs):
    return all(r[1] >= 0 for r in runs)


def middle(ratios):
    """The median, with the least and the most."""
    return f"{statistics.median(ratios):.2f} ({min(ratios):.2f} to {max(ratios):.2f})"


def cell(runs):
    if not accepted(runs):
        return "refused"
    ns, tokens, peak, size = min(runs)
    return f"{size / ns * 1e3:.1f} MB/s, {tokens / ns * 1e3:.1f} Mtok/s, {peak / 1024:.1f} MB"


def compared(ours, first, peers):
    """The ratio to the best peer and the growth of time; none where there is nothing to compare."""
    if not (peers and accepted(ours) and accepted(first)):
        return None
    return faster(ours, peers), f"{statistics.median(o[0] / f[0] for o, f in zip(ours, first)):.1f}"


def faster(ours, others):
    """How many times as fast as the best of the others; none where there is nothing to compare."""
    if not (others and all(map(accepted, [ours, *others]))):
        return "none"
    return middle([min(o[r][0] for o in others) / ours[r][0] for r in range(len(ours))])


def slower(ours, before):
    """The time now over the time before; none where there is nothing to compare."""
    if not (accepted(ours) and accepted(before)):
        return "none"
    return middle([o[0] / b[0] for o, b in zip(ours, before)])


def positive(s):
    if int(s) < 1:
        raise ValueError
    return int(s)


def main():
    parser = argparse.ArgumentParser(description=__doc__)
    parser.add_argument("--rounds", metavar="N", type=positive, default=5)
    parser.add_argument("--before", metavar="FOLDER")
    words = parser.parse_args()
    rounds, before = words.rounds, words.before
    found = scanners(before)
    for size in SIZES:
        subprocess.run([sys.executable, os.path.join(HERE, "texts.py"), os.path.join(OUT, f"texts-{size}"), str(size)], check=True)
    small, last = SIZES
    names = sorted(f[:-5] for f in os.listdir(os.path.join(OUT, f"texts-{last}")))
    taken = rounds_of([job for name in names for job in [(name, small, "tokenglade")] + [(name, last, n) for n in found]], found, rounds)
    heads = ["Text", *found, "against the best peer", "time, 1 MB to 64 KB", "stream against the best peer", "stream against the one call"]
    heads += [n + ", time over before" for n in KEPT if before]
    print("| " + " | ".join(heads) + " |")
    print("|---" * len(heads) + "|")
    missing = 0
    for name in names:
        peers = [taken[name, last, n] for n in found if not n.startswith("tokenglade") and accepted(taken[name, last, n])]
        said = compared(taken[name, last, "tokenglade"], taken[name, small, "tokenglade"], peers)
        missing += said is None
        stream = [faster(taken[name, last, "tokenglade-stream"], others) for others in (peers, [taken[name, last, "tokenglade"]])]
        stream += [slower(taken[name, last, n], taken[name, last, n + "-before"]) for n in KEPT if before]
        print("| " + " | ".join([name, *(cell(taken[name, last, n]) for n in found), *(said or ("none", "none")), *stream]) + " |", flush=True)
    if missing:
        sys.exit(f"{missing} texts have no ratio")


main()
