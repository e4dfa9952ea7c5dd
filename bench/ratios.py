#!/usr/bin/env python3
"""Times commands side by side:

    ratios.py [--to NAME].. [--each COUNT] [--less LABEL NAME OTHER].. [--one LABEL NAME OTHER COUNT]..
              NAME COMMAND [NAME COMMAND ..]

Each command runs five times, in turn with the others. What it prints is dropped, where it doesn't say itself where that
goes. One line a command tells the median of its five times, as a ratio to the median of the first command, or of those
that --to names, and in seconds. --each tells besides how many nanoseconds that is for each of COUNT things. --less adds
a line LABEL: the median of NAME less that of OTHER. --one adds such a line too, with a COUNT of its own: its ratio is
that of the time for one of so many, in microseconds. --to may name such lines too.
"""
import argparse
import statistics
import subprocess
import time

ROUNDS = 5


def seconds(command):
    start = time.perf_counter()
    subprocess.run(["bash", "-c", command], stdout=subprocess.DEVNULL, check=True)
    return time.perf_counter() - start


def arguments():
    parser = argparse.ArgumentParser(usage=__doc__)
    parser.add_argument("--to", action="append", default=[])
    parser.add_argument("--each", type=int)
    parser.add_argument("--less", action="append", default=[], nargs=3)
    parser.add_argument("--one", action="append", default=[], nargs=4)
    parser.add_argument("words", nargs="+")
    given = parser.parse_args()
    names = set(given.words[::2])
    given.counts = {label: int(count) for label, _, _, count in given.one}
    given.less += [line[:3] for line in given.one]
    wanted = {*given.to, *(name for _, *pair in given.less for name in pair)}
    if len(given.words) % 2 != 0 or not wanted <= names | {label for label, _, _ in given.less}:
        parser.error("a name without a command")
    return given


def medians(commands):
    times = {name: [] for name, _ in commands}
    for _ in range(ROUNDS):
        for name, command in commands:
            times[name].append(seconds(command))
    return {name: statistics.median(values) for name, values in times.items()}


def told(given, name, seconds, one):
    """The time that stands behind a ratio."""
    if name in given.counts:
        return f"({one * 1e6:.2f} us each, {seconds:.3f} s)"
    each = f", {seconds / given.each * 1e9:.0f} ns each" if given.each else ""
    return f"({seconds:.3f} s{each})"


def main():
    given = arguments()
    middles = medians(list(zip(given.words[::2], given.words[1::2])))
    for label, name, other in given.less:
        middles[label] = middles[name] - middles[other]
    ones = {name: median / given.counts.get(name, 1) for name, median in middles.items()}
    bases = given.to or given.words[:1]
    if len(bases) > 1:
        print(f"{'':<24}" + "".join(f" {base:>12}" for base in bases))
    for name, one in ones.items():
        ratios = "".join(f" {one / ones[base]:{12 if len(bases) > 1 else 6}.2f}" for base in bases)
        print(f"{name:<24}{ratios}   {told(given, name, middles[name], one)}")


if __name__ == "__main__":
    main()
