#!/usr/bin/env python3
"""Proves the crates and builds the program nda. ./nda calls it where that is to do.

`rt all check` in the folder of nda proves the crates that it stands on, those that do not stand on each other side by
side: here one a processor, and one for each 5 GB of free memory. Once each crate that is left stands on the one
before, `rt run` proves one at a time, on all of these processors. What is proved is kept in crates/*/out, so a run
goes on where an earlier one was cut off. On standard error this says how many crates are proved, after how many
minutes. The status is 0, or 70 where a crate is refused.
"""
import os
import signal
import subprocess
import sys
import threading
import time

ROOT = os.path.dirname(os.path.dirname(os.path.abspath(__file__)))
PROGRAM = os.path.join(ROOT, "crates", "nda")
MEMORY_OF_A_CHECK = 5 * 2**30
SECONDS_BETWEEN_LINES = 60
REFUSED = 70


def crates_below():
    """The crates of crates.txt, each with all of them that it stands on."""
    lines = (line.split("#")[0] for line in open(os.path.join(ROOT, "crates.txt"), encoding="utf-8"))
    named = {line.split(":")[0].strip(): line.split(":")[1].split() for line in lines if ":" in line}

    def below(crate):
        return set().union(*({it} | below(it) for it in named[crate] if it in named))

    return {crate: below(crate) for crate in named}


def is_chain(crates, below):
    """Tells whether each of these crates stands on all of them that come before it."""
    in_order = sorted(crates, key=lambda it: len(below[it]))
    return all(lower in below[upper] for lower, upper in zip(in_order, in_order[1:]))


def free_memory():
    """The free memory in bytes; much where the system does not tell."""
    try:
        lines = dict(line.split(":") for line in open("/proc/meminfo", encoding="utf-8"))
        return int(lines["MemAvailable"].split()[0]) * 1024
    except (OSError, KeyError, ValueError):
        return 2**50


def tell(text):
    print(f"nda: {text}", file=sys.stderr, flush=True)


class Progress:
    """Says each minute, and once a crate is proved, how far the run is."""

    def __init__(self, crates):
        self.crates, self.proved, self.last = crates, 0, "none yet"
        self.begun, self.ended = time.monotonic(), threading.Event()
        self.clock = threading.Thread(target=self.tick, daemon=True)
        self.clock.start()

    def tick(self):
        while not self.ended.wait(SECONDS_BETWEEN_LINES):
            self.say()

    def say(self):
        minutes = int((time.monotonic() - self.begun) / 60)
        tell(f"{self.proved} of {self.crates} crates are done, {minutes} min; the last one: {self.last}")

    def add(self, crate):
        self.proved, self.last = self.proved + 1, crate
        self.say()


def started(words, folder, running):
    """Starts rt with these words, its output and its errors as one stream of lines."""
    rt = subprocess.Popen(["rt", *words], cwd=folder, stdin=subprocess.DEVNULL, stdout=subprocess.PIPE,
                          stderr=subprocess.STDOUT, text=True, errors="replace", start_new_session=True)
    running.append(rt)
    return rt


def prove(lanes, progress, left, below, running):
    """Proves crates until those of the program that are left are a chain. Gives what rt said of those that are
    refused, nothing where none is."""
    rt, said = started(["all", "check", "--jobs", str(lanes)], PROGRAM, running), []
    for line in rt.stdout:
        said.append(line)
        if line.startswith("== "):
            crate = line[3:].strip()
            if crate in left:
                left.remove(crate)
                progress.add(crate)
            if lanes > 1 and is_chain(left, below):
                os.killpg(rt.pid, signal.SIGTERM)
                rt.wait()
                return ""
    return "".join(said[-200:]) if rt.wait() else ""


def build(lanes, progress, left, below, running):
    """Proves the crates that are left, lowest first, and builds the program. Gives what rt said where one is refused."""
    chain = sorted(left, key=lambda it: len(below[it]))
    rt, said = started(["run", "--jobs", str(lanes), "--", "--version"], PROGRAM, running), []
    for line in rt.stdout:
        said.append(line)
        if line.startswith("logic=proved ") and chain:
            progress.add(chain.pop(0))
    return "".join(said[-200:]) if rt.wait() else ""


def main():
    signal.signal(signal.SIGTERM, lambda *_: sys.exit(128 + signal.SIGTERM))
    lanes = max(1, min(os.cpu_count() or 1, free_memory() // MEMORY_OF_A_CHECK))
    below = crates_below()
    left = {"nda"} | below["nda"]
    tell(f"{len(left)} crates are to be proved, {lanes} at a time; the first time may take two hours."
         " Ctrl-C stops it, and the next ./nda goes on from there.")
    running, progress = [], Progress(len(left))
    try:
        refused = prove(lanes, progress, left, below, running) or build(lanes, progress, left, below, running)
        if refused:
            tell(f"a crate is refused:\n{refused}")
        return REFUSED if refused else 0
    except FileNotFoundError:
        tell("the toolchain's command rt is not in the PATH")
        return REFUSED
    except KeyboardInterrupt:
        return 128 + signal.SIGINT
    finally:
        progress.ended.set()
        for rt in running:
            if rt.poll() is None:
                os.killpg(rt.pid, signal.SIGTERM)
                rt.wait()


if __name__ == "__main__":
    sys.exit(main())
