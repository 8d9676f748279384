"""Proves and builds libraries, several side by side, those first that the others wait for longest."""
import os
import queue
import re
import threading
import time
from collections import namedtuple

from kit import TOP, Stated, quietly, rt, rtlib

# A crate gives way by one step of niceness for so many seconds that others are waited for longer than it is.
STEP = 60
# A crate has two jobs where no more seconds than these are to spare for it. A second job takes a quarter more processor time than one does, a third half as much again: each loads anew what is below.
URGENT = 40


# The programs of this repository that users call.
PROGRAMS = ("isolationtester", "timeline", "outcomes")


def note_what_it_is_of(program):
    """Writes beside a built program which folders it was built from: tools/built.sh looks there to see whether it is that of the text."""
    rooms = [f"crates/{crate.name}/{room}" for crate in [*program.below(), program] for room in rtlib.PARTS]
    with open(f"{program.folder}/out/built_from", "w", encoding="utf-8") as it:
        it.write("".join(f"{room}\n" for room in rooms if os.path.isdir(f"{TOP}/{room}")))


def seconds():
    """Returns how many processor seconds a proof of each crate took when it was measured. What is built first goes by it, and nothing else."""
    text = rtlib.text_of(f"{TOP}/tools/seconds.txt") or ""
    return {name: int(number) for name, number in re.findall(r"^(\w+): (\d+)$", text, re.M)}


def waits_for(libraries):
    """Returns for how many seconds each of these crates is waited for: its own, by one job or two, and those of the longest chain of crates above it."""
    known = seconds()
    own = {it.name: known.get(it.name, it.count(rb"\n") / 5) / 1.5 for it in libraries}
    behind = dict.fromkeys(own, 0)
    for crate in reversed(libraries):
        for low in (it.name for it in crate.below() if it.name in own):
            behind[low] = max(behind[low], own[crate.name] + behind[crate.name])
    return {name: own[name] + behind[name] for name in own}


def build_beside(crate, jobs, niceness, ended):
    """Builds a library in a thread of its own, which gives way to others by its niceness, as what it starts does."""

    def build():
        os.setpriority(os.PRIO_PROCESS, threading.get_native_id(), niceness)
        ended.put((crate, quietly(crate, lambda it: it.build_rlib(["--jobs", str(jobs)], anew=False))))

    threading.Thread(target=build, daemon=True).start()


# A crate at work: the memory that it takes, when all that waits for it may have ended, how far it gives way, and its jobs.
Work = namedtuple("Work", "takes until niceness jobs")


def build_all(libraries, told=lambda done, of, crate, well: None):
    """Proves and builds these libraries, which stand on each other alone. What is built already isn't looked at. Returns whether all are built; of each that was tried, told
    learns which in turn it is, of how many, and whether it went well.

    First those that the others wait for longest. One begins where fewer jobs than there are processors, and one more, are at work that are waited for as long as it is, or longer: those
    that give way to it hold no place against it, and have the processors that it leaves."""
    lacking = [it for it in libraries if not all(each.is_built() for each in [it, *it.below()])]
    waits, memory = waits_for(lacking), 0.85 * rt.free()
    left, running, well, ended = sorted(lacking, key=lambda it: -waits[it.name]), {}, {}, queue.SimpleQueue()
    while left or running:
        ready = [it for it in left if all(well.get(low.name, low not in lacking) for low in it.below())]
        longest = max([waits[it.name] for it in ready] + [it.until - time.monotonic() for it in running.values()], default=0)
        for crate in ready:
            # (a check that keeps its work takes half of the memory that the gate reckons with, and its second job some six tenths more)
            takes, spare = (1 if isinstance(crate, Stated) else 0.8) * rt.need(crate), longest - waits[crate.name]
            niceness = min(int(spare / STEP), 19)
            places = rt.processors() + 1 - sum(it.jobs for it in running.values() if it.niceness <= niceness)
            if not running or places > 0 and sum(it.takes for it in running.values()) + takes <= memory:
                left.remove(crate)
                is_alone = len(ready) == 1 and not running
                jobs = rt.processors() if is_alone else min(places, 2) if spare < URGENT else 1
                build_beside(crate, jobs, niceness, ended)
                running[crate.name] = Work(takes, time.monotonic() + waits[crate.name], niceness, jobs)
        if not running:
            # (what is left stands on a crate that isn't proved)
            return False
        crate, well[crate.name] = ended.get()
        del running[crate.name]
        told(len(well), len(lacking), crate, well[crate.name])
    return all(well.values())
