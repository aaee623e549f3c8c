#!/usr/bin/env python3
"""Times the library's calls, and beside them another program's.

bench.py PROGRAM [OTHER]

PROGRAM is the program `bench`. OTHER times petgraph's own code on the same
graphs; docs/PERFORMANCE.md says how it is called and what it prints. Both run
in turn, several times. Of each call the least time and the median of the
medians are printed, in nanoseconds for each node and edge, and how they
compare. Fails when the two answer otherwise.
"""

import os
import re
import statistics
import subprocess
import sys

TURNS = 5
GRAPHS = "target/bench-graphs.txt"
LINE = re.compile(r"(.+?) +median +([\d.]+) ns/\(N\+M\) +least +([\d.]+) +=(.*)")
# What the other program calls a call, where that is not our name.
OTHER_NAMES = {"Dfs over everything": "walk"}


def take(command, found):
    """Runs a program once, and adds its times to those of each call."""
    graph = None
    done = subprocess.run(command, check=True, stdout=subprocess.PIPE, text=True)
    for line in done.stdout.splitlines():
        if line.startswith("case "):
            graph = line.split()[1]
        elif match := LINE.fullmatch(line):
            name, median, least, answer = match.groups()
            call = (graph, OTHER_NAMES.get(name, name))
            medians, leasts, answers = found.setdefault(call, ([], [], set()))
            medians.append(float(median))
            leasts.append(float(least))
            answers.add(" ".join(answer.split()))


def main():
    if len(sys.argv) not in (2, 3):
        sys.exit("usage: bench.py PROGRAM [OTHER]")
    program, other = sys.argv[1], sys.argv[2] if len(sys.argv) == 3 else ""
    if other:
        with open(GRAPHS, "w") as file:
            subprocess.run([program, "graphs"], check=True, stdout=file)
    ours, theirs = {}, {}
    print("load before: %.1f %.1f %.1f" % os.getloadavg())
    for _ in range(TURNS):
        take([program, "time"], ours)
        if other:
            take([other, "time", GRAPHS], theirs)
    print("load after: %.1f %.1f %.1f" % os.getloadavg())

    heads = ["graph", "call", "least", "median"]
    heads += ["its least", "its median", "least ratio", "median ratio"] if other else []
    print(("{:<8} {:<20}" + " {:>12}" * (len(heads) - 2)).format(*heads))
    differ = False
    for (graph, name), (medians, leasts, answers) in ours.items():
        least, median = min(leasts), statistics.median(medians)
        cells = [least, median]
        if (graph, name) in theirs:
            its_medians, its_leasts, its_answers = theirs[graph, name]
            its_least, its_median = min(its_leasts), statistics.median(its_medians)
            cells += [its_least, its_median, least / its_least, median / its_median]
            if answers != its_answers:
                differ = True
                print(f"{graph}, {name}: {answers}, the other program: {its_answers}")
        print(f"{graph:<8} {name:<20}" + "".join(f" {cell:12.2f}" for cell in cells))
    if differ:
        sys.exit("the answers differ")


if __name__ == "__main__":
    main()
