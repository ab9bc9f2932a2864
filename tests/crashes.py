#!/usr/bin/env python3
"""Tries what crashes leave of the files of `pbook collect`, and that a run goes on over it.

Usage: PROGRAM=program python3 -B tests/crashes.py [--seed N] [--only PATTERN] [--states N]
           [--again N] [--jobs N] [--without files|folders] [--whole-renames]
(at the top of the repository).

strace tells the calls of a run. After each call a model of the files (tests/lib/crash_model.py)
builds states that a kill and a power cut may leave. The book has to be the old or the new one in
each, and the games are there that FORMATS says: `--journal` keeps what was answered from kills,
with `--sync` or once the run has ended from power cuts, and `--ledger` from both then. A run goes
on, to which all lines are sent again. Of some states it meets a second crash. At last the same is
judged as if syncs had not been called, and has to be seen to fail. As root, real file systems lose
what wasn't flushed (tests/lib/crash_disk.py).

--states is how many states of a scenario are tried, and --again how many of them meet a second
crash. --without leaves the syncs of files or of folders out of the model, to show what fails then.
--whole-renames lets no power cut leave both names of a rename, as the journals of ext4 and XFS do.
The last line is `N passed, N failed`, where each state counts.
"""
from __future__ import annotations

import argparse
import collections
import concurrent.futures
import copy
import dataclasses
import multiprocessing
import os
import random
import re
import shutil
import signal
import sys
import tempfile
import time
from collections.abc import Iterator, Sequence
from dataclasses import dataclass

from lib import crash_disk
from lib.crash_model import State, World
from lib.crash_scenarios import (BOOK, ROOM, Progress, Promise, Run, Scenario, command, complaint,
                                 put, read, scenarios)
from lib.calls import Call, trace

# The calls after which crashes are looked at.
CHANGES = ("open", "write", "resize", "sync", "rename", "unlink", "reply")
# What is seen to fail where syncs are left out: in which scenario, and how.
DUE = (("book", "files", "the book"), ("book", "folders", "the book"),
       ("ledger", "files", "lost"), ("ledger", "folders", "lost"), ("journal", "files", "lost"),
       ("journal --sync", "files", "lost"), ("journal --sync, made just before", "folders", "lost"))

# Where a state is wrong, and how; and what was judged: how many states, and the wrong ones.
Failure = tuple[str, str]
Verdict = tuple[int, list[Failure]]


@dataclass(frozen=True)
class Crash:
    """What a crash has left, and what it may not take, nor a power cut after it. A kill leaves the
    world as it was, with what isn't synced."""
    where: str
    state: State
    promise: Promise
    power: Promise
    world: World
    is_kill: bool = False


def killed(where: str, world: World, progress: Progress) -> Crash:
    world = copy.deepcopy(world)
    world.opened = {}
    return Crash(f"kill {where}", world.after_kill(), progress.kill, progress.power, world, True)


def crashes_at(where: str, world: World, progress: Progress,
               chance: random.Random) -> Iterator[Crash]:
    """What a kill and what power cuts leave at this moment."""
    yield killed(where, world, progress)
    for state in world.after_power_cut(chance, most=30):
        yield Crash(f"power cut {where}", state, progress.power, progress.power, World.found(state))


def crashes_in(run: Run, calls: Sequence[Call], world: World, progress: Progress,
               chance: random.Random) -> Iterator[Crash]:
    """Has the world and its promises go through a run, and tells what crashes may leave of it."""
    progress.begin(run)
    yield from crashes_at("before the first call", world, progress, chance)
    for number, call in enumerate(calls):
        if call.name == "write" and len(call.data) > 1:
            torn, cut = copy.deepcopy(world), chance.randrange(1, len(call.data))
            torn.step(dataclasses.replace(call, data=call.data[:cut]))
            yield killed(f"in call {number}, {call}", torn, progress)
        world.step(call)
        if call.name == "reply":
            progress.reply(run, call.data)
        if call.name in CHANGES:
            yield from crashes_at(f"after call {number}, {call}", world, progress, chance)
    world.opened = {}
    progress.end(run)
    yield from crashes_at("after the end", world, progress, chance)


def unlike(crashes: Iterator[Crash]) -> list[Crash]:
    """The crashes that left different files, each at the last moment, when it might take least."""
    return list({(crash.state, crash.is_kill): crash for crash in crashes}.values())


def some_of(crashes: list[Crash], chance: random.Random, most: int) -> list[Crash]:
    """So many of these crashes, some of them the last ones."""
    others, last = crashes[:-most // 8], crashes[-most // 8:]
    return last + chance.sample(others, min(most - len(last), len(others)))


def traced(run: Run, place: str, without: str) -> list[Call]:
    """The calls of a run, without the syncs of files or of folders where they are left out."""
    calls, status = trace(command(run.options), run.lines, place, run.failing)
    if status != run.status:
        raise ValueError(f"a run ends with status {status}, and not {run.status}")
    return [call for call in calls if call.name != "sync" or not without
            or ("folder" in call.flags) != (without == "folders")]


def first_crashes(scenario: Scenario, chance: random.Random, without: str) -> Iterator[Crash]:
    """What crashes may leave of the runs of a scenario, one after the other."""
    world = World.found(scenario.files, scenario.unsynced)
    with tempfile.TemporaryDirectory(dir=ROOM) as place:
        put(scenario.files, place)
        progress = Progress.at_first(scenario, read(place, BOOK))
        for run in scenario.runs:
            yield from crashes_in(run, traced(run, place, without), world, progress, chance)


def second_crashes(scenario: Scenario, crash: Crash, chance: random.Random,
                   without: str) -> Iterator[Crash]:
    """What crashes may leave of the run that goes on after a crash."""
    run = dataclasses.replace(scenario.runs[-1], lines=tuple(reversed(scenario.sent.values())))
    with tempfile.TemporaryDirectory(dir=ROOM) as place:
        put(crash.state, place)
        if scenario.keeper and read(place, scenario.keeper) is None:
            return
        books = (read(place, BOOK),)
        progress = Progress(scenario, Promise(crash.promise.games, books),
                            Promise(crash.power.games, books))
        calls = traced(run, place, without)
        yield from crashes_in(run, calls, copy.deepcopy(crash.world), progress, chance)


def chance_of(given: argparse.Namespace, *words: str) -> random.Random:
    return random.Random(" ".join([str(given.seed), *words]))


def planned(scenario: Scenario, given: argparse.Namespace) -> list[Crash]:
    chance = chance_of(given, scenario.name)
    return some_of(unlike(first_crashes(scenario, chance, given.without)), chance, given.states)


def judged(scenario: Scenario, crashes: Sequence[Crash]) -> Verdict:
    wrong = ((crash.where, complaint(scenario, crash.state, crash.promise)) for crash in crashes)
    return len(crashes), [failure for failure in wrong if failure[1]]


def judged_again(scenario: Scenario, crash: Crash, given: argparse.Namespace) -> Verdict:
    """Judges what a crash leaves of the run that goes on after this one."""
    if complaint(scenario, crash.state, crash.promise):
        return 0, []
    chance = chance_of(given, scenario.name, crash.where)
    second = unlike(second_crashes(scenario, crash, chance, given.without))
    count, failures = judged(scenario, some_of(second, chance, given.states // 6))
    return count, [(f"{where}, after a {crash.where}", wrong) for where, wrong in failures]


def seen_to_fail(scenario: Scenario, without: str, due: str, given: argparse.Namespace) -> Verdict:
    """Whether a state is found wrong as it is due where syncs are left out."""
    chance = chance_of(given, scenario.name)
    for crash in unlike(first_crashes(scenario, chance, without))[::-1]:
        if complaint(scenario, crash.state, crash.promise).startswith(due):
            return 1, []
    return 1, [("at no state", f"none is wrong ({due}) without the syncs of {without}")]


def tell(name: str, futures: Sequence[concurrent.futures.Future[Verdict]]) -> Verdict:
    """Tells in a line, and one more for each kind of mistake, what was judged."""
    count, failures = 0, []
    for future in futures:
        try:
            number, wrong = future.result()
        except ValueError as unlike_it:
            number, wrong = 1, [("at its end", str(unlike_it))]
        count, failures = count + number, failures + wrong
    print(f"FAILED: {name}: {len(failures):,} of {count:,} states" if failures
          else f"ok: {name}: {count:,} states", flush=True)
    kinds = collections.Counter(wrong.split(":")[0] for _, wrong in failures)
    for kind, times in kinds.items():
        where, wrong = next(failure for failure in failures if failure[1].startswith(kind))
        print(f"    {times} so, such as {where}: {wrong}")
    return count, failures


def begun(pool: concurrent.futures.Executor, given: argparse.Namespace,
          room: str) -> Iterator[tuple[str, list[concurrent.futures.Future[Verdict]]]]:
    """Begins all that is tried, in the processes of the pool: names, and what will come of them."""
    chosen = {s.name: s for s in scenarios() if re.search(given.only, s.name)}
    plans = {name: pool.submit(planned, s, given) for name, s in chosen.items()}
    disks = list(crash_disk.begun(pool, given, room))
    for name, plan in plans.items():
        if plan.exception():
            yield name, [plan]
            continue
        crashes = plan.result()
        again = crashes[::len(crashes) // given.again + 1] if given.again else []
        yield name, [*(pool.submit(judged, chosen[name], crashes[n::8]) for n in range(8)),
                     *(pool.submit(judged_again, chosen[name], crash, given) for crash in again)]
    for name, without, due in DUE:
        if name in chosen and not given.without:
            yield f"seen to fail: {name}, without the syncs of {without}", [
                pool.submit(seen_to_fail, chosen[name], without, due, given)]
    yield from disks


def main() -> None:
    words = argparse.ArgumentParser(
        description=__doc__, formatter_class=argparse.RawDescriptionHelpFormatter)
    for name, number in ("seed", 1), ("states", 120), ("again", 4), ("jobs", os.cpu_count()):
        words.add_argument("--" + name, type=int, default=number)
    words.add_argument("--only", default="")
    words.add_argument("--without", choices=("files", "folders"), default="")
    words.add_argument("--whole-renames", action="store_true")
    given = words.parse_args()
    World.both_names = not given.whole_renames
    if not shutil.which("strace"):
        sys.exit("not tried, strace is wanted: crashes")
    os.environ.setdefault("ASAN_OPTIONS", "detect_leaks=0")
    begin = time.monotonic()
    with (tempfile.TemporaryDirectory() as room,
          concurrent.futures.ProcessPoolExecutor(given.jobs, multiprocessing.get_context("fork"))
          as pool):
        # What has begun undoes its mounts.
        signal.signal(signal.SIGTERM, signal.default_int_handler)
        try:
            verdicts = [tell(name, futures) for name, futures in [*begun(pool, given, room)]]
        except BaseException:
            pool.shutdown(cancel_futures=True)
            raise
    count, failed = sum(v[0] for v in verdicts), sum(len(v[1]) for v in verdicts)
    print(f"{time.monotonic() - begin:.0f} s")
    print(f"{count - failed:,} passed, {failed:,} failed")
    sys.exit(failed > 0 or count == 0)


if __name__ == "__main__":
    main()
