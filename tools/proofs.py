"""Proofs of crates, side by side.

The compiler builds a crate only once it has proved it, over what the crates below it state. So a crate may be proved as soon as those
below it are. Of those the one with the longest way to the top is taken first. It has the more jobs the longer its way is among what is
left, and the less may be proved beside it: all where nothing may. There are no more jobs than processors, but for the last that is taken:
checks that share a processor take longer together. What a library states is kept until what its proof reads changes.

How far it is stands on the error stream, at each start and end and each half minute. What is left is counted by the processor time that
each crate took when it was measured (tools/seconds, by `tools/gate_times --seconds`), and by how fast it went until then."""
import contextlib
import functools
import math
import os
import shutil
import signal
import subprocess
import sys
import time

import crates

# What a check may hold for each of its jobs, in GiB.
JOB = 2
# The seconds of processor time that must be seen before they say more of how fast this machine is than the table does.
PRIOR = 60
# The longest time without a line, in seconds.
QUIET = 30


def say(text):
    print(text, file=sys.stderr, flush=True)


def processors():
    return len(os.sched_getaffinity(0))


def memory():
    """The memory that is free, in GiB."""
    with open("/proc/meminfo", encoding="ascii") as lines:
        return next(int(line.split()[1]) for line in lines if line.startswith("MemAvailable")) / 2**20


def is_kept(library):
    """Whether what a library states is there, of its files as they are."""
    try:
        with open(f"{crates.statements(library)}/sum", encoding="ascii") as kept:
            return kept.read() == crates.sum_of(library)
    except OSError:
        return False


def size(crate):
    """The bytes of a crate's code. Its proof takes time as they are many."""
    return sum(os.stat(it).st_size for it in crates.files(crate, ["src"]))


@functools.cache
def known_seconds():
    """The seconds of processor time that the proof of each crate took, where it was measured."""
    with contextlib.suppress(OSError, ValueError), open(f"{crates.ROOT}/tools/seconds", encoding="ascii") as lines:
        return {name: float(spent) for name, spent in (it.split() for it in lines if not it.startswith("#"))}
    return {}


def seconds(crate):
    """What the proof of a crate takes of processor time, about: a new crate's as its code is long."""
    known = {it: spent for it, spent in known_seconds().items() if it in crates.lines_of_crates()}
    return known[crate] if crate in known else size(crate) * sum(known.values()) / max(1, sum(map(size, known)))


def span(time_taken):
    """A time in minutes and seconds."""
    return f"{int(time_taken) // 60}:{int(time_taken) % 60:02}"


def counted(number, thing):
    return f"{number} {thing}{'' if number == 1 else 's'}"


def ways(chain, cost):
    """For each crate what the longest way from it up to the last one costs."""
    way = {}
    for crate in reversed(chain):
        way[crate] = cost(crate) + max((way[it] for it in way if crate in crates.used(it)), default=0)
    return way


def gain(jobs):
    """How much faster a check is with so many jobs than with one: four take half as much processor time again."""
    return 6 * jobs / (5 + jobs)


class Proofs:
    """What is left to prove of a program, or a library, and of those below it, what runs, and what is done."""

    def __init__(self, chain, work):
        """A chain has the crates lowest first; a folder is for what is not kept."""
        # When this began, for spans of time, and by the clock that files have.
        self.at_first, self.by_clock = time.monotonic(), time.time()
        self.chain, self.work, self.way = chain, work, ways(chain, seconds)
        self.done = {it for it in chain if not crates.is_program(it) and is_kept(it)}
        self.left = sorted((it for it in chain if it not in self.done), key=lambda it: -self.way[it])
        # The process of each crate that is being proved. When each of these began, and of those before, its jobs, and how long it took.
        self.running, self.began, self.jobs, self.took = {}, {}, {}, {}
        # With little memory there are fewer jobs.
        self.most_jobs = max(1, min(processors(), int(memory() / JOB)))
        # What each crate that is to be proved takes, about.
        self.seconds = {it: seconds(it) for it in self.left}

    def to(self, crate):
        """What the compiler writes of a crate: of a program the object file."""
        return f"{self.work}/{crate}.o" if crates.is_program(crate) else f"{crates.statements(crate)}/{crate}.rlib"

    def free(self):
        return self.most_jobs - sum(self.jobs[it] for it in self.running)

    def ready(self):
        return [it for it in self.left if self.done.issuperset(crates.used(it))]

    def jobs_for(self, crate):
        """The processors in the ratio of a crate's way to all that is left, or, where that is more, of what it takes to what may be proved
        beside it: all where nothing may."""
        whole = sum(self.seconds[it] for it in [*self.left, *self.running])
        beside = sum(map(self.rest, self.running)) + sum(self.seconds[it] for it in self.left if crate not in crates.below(it))
        by_way = int(self.most_jobs * self.way[crate] / whole)
        return max(by_way, math.ceil(self.most_jobs * self.seconds[crate] / (self.seconds[crate] + beside)))

    def spent(self, crate):
        """The processor time that a crate took, or has taken until now, as if with one job."""
        if crate in self.left:
            return 0
        return self.took.get(crate, time.monotonic() - self.began[crate]) * gain(self.jobs[crate])

    def rest(self, crate, slower=1):
        """What is left of the processor time that a crate takes, about, where it goes so much slower than when that was measured."""
        if crate not in self.seconds or crate in self.took:
            return 0
        # Of one that runs on beyond its time a tenth is left.
        whole = slower * self.seconds[crate]
        return max(0.1 * whole, whole - self.spent(crate))

    def time_left(self):
        """The seconds until all is proved, about."""
        # How much slower it goes than the table says: by those that are proved, and those that should be.
        seen = [it for it in self.seconds if it in self.took or it in self.running and self.spent(it) > self.seconds[it]]
        slower = (sum(map(self.spent, seen)) + PRIOR) / (sum(self.seconds[it] for it in seen) + PRIOR)
        rest = functools.partial(self.rest, slower=slower)
        # No less than the longest way takes with all processors, nor than all takes with some jobs for each crate.
        way = max(ways(self.chain, rest).values(), default=0)
        side_by_side = self.most_jobs ** 0.5
        return max(way / gain(self.most_jobs), sum(map(rest, self.seconds)) / (side_by_side * gain(side_by_side)))

    def say_first(self):
        known, minutes = len(self.done), max(1, round(self.time_left() / 60))
        known_too = f" ({known} more stay proved)" if known else ""
        of_crates = f"{counted(len(self.left), 'crate')}, the last {self.left[-1]}{known_too}"
        of_time = f"about {counted(minutes, 'minute')} on {counted(self.most_jobs, 'processor')}"
        say(f"proving {of_crates}: {of_time}; libraries that are proved stay so if you stop")

    def say_progress(self, ended):
        """Says how far it is, with the crates that have just been proved. Answers when."""
        now = time.monotonic()
        of_all = f"({len(self.took)} of {len(self.seconds)}, {span(now - self.at_first)})"
        parts = [f"proved {', '.join(f'crates/{it}' for it in ended)}"] if ended else ["proving"]
        parts[0] += f" {of_all}"
        parts += [f"{', '.join(self.running)} running", f"about {span(self.time_left())} left"] if self.running else []
        say("; ".join(parts))
        return now

    def start(self, crate):
        self.began[crate] = time.monotonic()
        self.jobs[crate] = self.jobs_for(crate)
        words = [*crates.words("build", crate), "--jobs", str(self.jobs[crate]), "-o", self.to(crate)]
        if crates.is_program(crate):
            words += ["--toolchain", f"{crates.kit()}/toolchain", "--backend", "rattle"]
        else:
            words += ["--statements"]
            shutil.rmtree(crates.statements(crate), ignore_errors=True)
            os.makedirs(crates.statements(crate))
        # A group of its own, to be stopped whole.
        how = {"cwd": f"{crates.ROOT}/crates/{crate}", "stdin": subprocess.DEVNULL, "preexec_fn": os.setpgrp}
        with open(f"{self.work}/{crate}.log", "wb") as log:
            self.running[crate] = subprocess.Popen(words, stdout=log, stderr=log, **how)
        self.left.remove(crate)

    def end(self, crate, status):
        """Takes in that the compiler has ended. Answers whether the crate was proved, and says why not."""
        del self.running[crate]
        if status:
            with open(f"{self.work}/{crate}.log", encoding="utf-8", errors="replace") as log:
                say(f"{log.read()}crates/{crate} was not built")
            return False
        # What was touched meanwhile was perhaps not what the compiler read: then it is proved again by the next call.
        if not crates.is_program(crate) and crates.touched(crate, crates.PARTS) < self.by_clock:
            with open(f"{crates.statements(crate)}/sum", "w", encoding="ascii") as kept:
                kept.write(crates.sum_of(crate))
        self.done.add(crate)
        self.took[crate] = time.monotonic() - self.began[crate]
        return True

    def run(self):
        """Proves what is left. Answers whether nothing failed."""
        said, ended = 0, []
        if self.left:
            self.say_first()
        try:
            while self.left or self.running:
                is_new = bool(ended)
                for crate in self.ready():
                    if self.free() > 0:
                        self.start(crate)
                        is_new = True
                if is_new or time.monotonic() > said + QUIET:
                    said = self.say_progress([crate for crate, _ in ended])
                time.sleep(0.1)
                ended = [(crate, process.returncode) for crate, process in self.running.items() if process.poll() is not None]
                if not all([self.end(crate, status) for crate, status in ended]):
                    return False
            if ended:
                self.say_progress([crate for crate, _ in ended])
            return True
        finally:
            if self.left or self.running:
                say(f"stopped, with {len(self.took)} of {len(self.seconds)} crates proved; libraries that are proved stay so")
            for process in self.running.values():
                with contextlib.suppress(OSError):
                    os.killpg(process.pid, signal.SIGKILL)
                # So that nothing is written any more into the folder that is removed behind this.
                process.wait()
