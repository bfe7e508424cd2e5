"""Runs a table of builds and scripts, each as a process, and adds up what they say: the works of bin/test.

A script ends with a line that says how many of its checks passed and failed. One that ends without it, by a signal, or
after its time counts as failed. What a machine lacks is skipped, with its reason.
"""

import contextlib
import importlib.util
import os
import re
import shutil
import signal
import subprocess
import threading
import time
from concurrent.futures import FIRST_COMPLETED, ThreadPoolExecutor, wait
from dataclasses import dataclass, field
from typing import NamedTuple

# How to get what a script needs: a command, or `python:NAME`, a module.
SOURCES = {
    "rt": "unpack the Rattle kit, and put its bin folder on the PATH",
    "gcc": "apt-get install gcc libc6-dev binutils",
    "cargo": "install Rust, https://rustup.rs, or apt-get install cargo",
    "node": "apt-get install nodejs",
    "chromium": "apt-get install chromium",
    "wasm-opt": "apt-get install binaryen",
    "valgrind": "apt-get install valgrind",
    "python:jsonschema": "apt-get install python3-jsonschema",
}
# Without these nothing can be built or tested: a lack is a failure.
REQUIRED = ("rt",)
SHOWN_LINES = 40


class Count(NamedTuple):
    """How many checks passed, failed and were skipped."""

    passed: int = 0
    failed: int = 0
    skipped: int = 0

    def __str__(self):
        return f"{self.passed} passed, {self.failed} failed" + (f", {self.skipped} skipped" if self.skipped else "")


def by_closing_line(lines):
    """`N passed, M failed`, or `N passed, M failed, K skipped`, as the last line."""
    found = re.fullmatch(r"(\d+) passed, (\d+) failed(?:, (\d+) skipped)?", lines[-1])
    return Count(*(int(it or 0) for it in found.groups())) if found else None


def by_cases(lines):
    """`N cases, M differ` as the last line."""
    found = re.fullmatch(r"(\d+) cases, (\d+) differ", lines[-1])
    return Count(int(found[1]) - int(found[2]), int(found[2])) if found else None


def by_unittest(lines):
    """What Python's unittest prints last."""
    ran = [it for it in map(re.compile(r"Ran (\d+) tests? in .*").fullmatch, lines) if it]
    last = re.fullmatch(r"(?:OK|FAILED)(?: \((.*)\))?", lines[-1])
    if not ran or not last:
        return None
    told = dict(re.findall(r"(\w+)=(\d+)", last[1] or ""))
    failed = sum(int(told.get(name, 0)) for name in ("failures", "errors"))
    skipped = int(told.get("skipped", 0))
    return Count(int(ran[-1][1]) - failed - skipped, failed, skipped)


def by_status(lines):
    """A build says nothing that counts: its status is one check."""
    return Count(1)


@dataclass
class Step:
    """A build or a script: its words, in which {program} is the program's path, and {output of NAME} that of the file
    with what the step NAME printed; what it can't do without; what only a part of it needs, with what is left out then;
    the steps that it stands on; how its output is read; its time; whether nothing may run beside it."""

    name: str
    words: list
    needs: list = field(default_factory=list)
    wants: dict = field(default_factory=dict)
    after: list = field(default_factory=list)
    reads: object = by_closing_line
    minutes: float = 15
    alone: bool = False


def has(name):
    kind, _, module = name.partition(":")
    return importlib.util.find_spec(module) is not None if kind == "python" and module else bool(shutil.which(name))


def lack(name):
    return f"there is no {name.removeprefix('python:')}: {SOURCES.get(name, 'it is needed')}"


def ending(status):
    """How a process ended, as words, or None if it ended well."""
    if status == 0:
        return None
    return f"ended by signal {signal.Signals(-status).name}" if status < 0 else f"ended with status {status}"


class Run:
    """A run of a table: `folder` gets each step's output, `root` is where the steps are run. Steps may be done by several
    threads: what one of them tells comes in one piece."""

    def __init__(self, root, folder, program, say=print):
        self.root, self.folder, self.program, self.say = root, folder, program, say
        self.sum = Count()
        self.ended = {}  # of each step that was done: passed, failed or skipped
        self.lock = threading.Lock()
        self.processes, self.is_stopped = set(), False

    def add(self, count):
        self.sum = Count(*map(sum, zip(self.sum, count)))

    def skip(self, step, reason):
        self.ended[step.name] = "skipped"
        self.add(Count(skipped=1))
        self.say(f"{step.name}: skipped: {reason}")

    def fail(self, step, reason):
        self.ended[step.name] = "failed"
        self.add(Count(failed=1))
        self.say(f"{step.name}: FAILED: {reason}")

    def may_run(self, step):
        """Whether all is there that a step needs; if not, it is skipped, or has failed."""
        for name in step.after:
            if self.ended.get(name) == "failed":
                self.fail(step, f"it was not run, since {name} failed")
                return False
            if self.ended.get(name) == "skipped":
                self.skip(step, f"it needs {name}, which was skipped")
                return False
        missing = [name for name in step.needs if not has(name)]
        if missing:
            tell = self.fail if missing[0] in REQUIRED else self.skip
            tell(step, "; ".join(map(lack, missing)))
        return not missing

    def log(self, name):
        return os.path.join(self.folder, re.sub(r"[^A-Za-z0-9]+", "_", name) + ".log")

    def word(self, it):
        """A word of a step with paths in the place of their names."""
        it = it.replace("{program}", self.program)
        return re.sub(r"\{output of (.*?)\}", lambda found: self.log(found[1]), it)

    @contextlib.contextmanager
    def started(self, step, log):
        """A step's process, which is killed if it hasn't ended."""
        with self.lock:
            if self.is_stopped:
                raise InterruptedError(None, "the run is stopped")
            running = subprocess.Popen([self.word(it) for it in step.words], cwd=self.root, stdin=subprocess.DEVNULL,
                                       stdout=log, stderr=subprocess.STDOUT, start_new_session=True)
            self.processes.add(running)
        try:
            yield running
        finally:
            with self.lock:
                self.processes.discard(running)
            kill(running)

    def process(self, step):
        """Runs a step, its output in its log, and gives how it ended: None, or words."""
        with open(self.log(step.name), "wb") as log:
            try:
                with self.started(step, log) as running:
                    return ending(running.wait(step.minutes * 60 if step.minutes else None))
            except OSError as error:
                return f"{step.words[0]} doesn't start: {error.strerror}"
            except subprocess.TimeoutExpired:
                return f"not done after {step.minutes} minutes"

    def stop(self):
        """Kills what runs, and lets nothing else begin."""
        with self.lock:
            self.is_stopped = True
            for running in self.processes:
                kill(running)

    def lines(self, step):
        with open(self.log(step.name), encoding="utf-8", errors="replace") as log:
            return [line.rstrip() for line in log if line.strip()] or [""]

    def judge(self, step, ended, lines):
        """The count of a step, and what is wrong with how it ended, or None."""
        count = step.reads(lines) if ended is None or step.reads is not by_status else None
        if count is None:
            return Count(failed=1), ended or f"it ended without its closing line: {lines[-1][:100]!r}"
        if ended and not count.failed:
            return count._replace(failed=1), f"{ended}, after {count}"
        return count, None

    def do(self, step):
        """Does one step, if it can be done, and tells what came of it."""
        with self.lock:
            if not self.may_run(step):
                return
        begun = time.monotonic()
        ended = self.process(step)
        lines = self.lines(step)
        with self.lock:
            self.tell(step, ended, lines, time.monotonic() - begun)

    def tell(self, step, ended, lines, seconds):
        """Adds what a step counts, and tells it, with what was skipped and what is wrong."""
        count, wrong = self.judge(step, ended, lines)
        self.ended[step.name] = "failed" if count.failed else "passed"
        for line in lines:
            if line.startswith("skipped "):
                self.say(f"    {line}")
        for name, part in step.wants.items():
            if not has(name):
                count = count._replace(skipped=count.skipped + 1)
                self.say(f"    skipped {part}: {lack(name)}")
        self.add(count)
        if count.failed:
            self.say(*(f"    {line[:300]}" for line in lines[-SHOWN_LINES:]), sep="\n")
        said = f"FAILED: {wrong}" if wrong else str(count)
        place = f"; all of its output is in {self.log(step.name)}" if count.failed else ""
        self.say(f"{step.name}: {said} ({seconds:.0f} s){place}")


def kill(running):
    """Kills a process and what it has started, if it hasn't ended."""
    if running.poll() is None:
        with contextlib.suppress(ProcessLookupError):
            os.killpg(running.pid, signal.SIGKILL)
        running.wait()


def picked(table, words, left_out=()):
    """The steps whose names have one of the words, all without words; and before them those that they stand on. What is
    left out is in neither."""
    by_name = {step.name: step for step in table}
    wanted = set()

    def want(step):
        if step.name not in left_out and step.name not in wanted:
            wanted.add(step.name)
            for name in step.after:
                want(by_name[name])

    for step in table:
        if not words or any(word in step.name for word in words):
            want(step)
    return [step for step in table if step.name in wanted]


def next_step(waiting, running):
    """The first step that waits for no other and may run beside those that run, or None."""
    if any(step.alone for step in running):
        return None
    unfinished = {step.name for step in (*waiting, *running)}
    return next((step for step in waiting
                 if unfinished.isdisjoint(step.after) and not (step.alone and running)), None)


def run_steps(table, run, at_once):
    """Runs all steps, so many at once, each after those that it stands on."""
    waiting, running = list(table), {}
    with ThreadPoolExecutor(at_once) as threads:
        try:
            while waiting or running:
                while len(running) < at_once and (step := next_step(waiting, running.values())):
                    waiting.remove(step)
                    running[threads.submit(run.do, step)] = step
                for done in wait(running, return_when=FIRST_COMPLETED).done:
                    del running[done]
                    done.result()
        except BaseException:
            run.stop()
            raise


def run_table(table, run, at_once=1):
    """Runs all steps, prints the last line, and gives the exit status."""
    run_steps(table, run, at_once)
    run.say(str(run.sum))
    return int(run.sum.failed > 0)
