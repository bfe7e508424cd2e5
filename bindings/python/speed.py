"""Times looks by the library: for 1, 100 and 1,000 jobs, the least and the median milliseconds of 201 calls.

The rows are those of calls48.csv in examples/speed.sh. docs/SPEED.md has the figures.
"""

import time

from crossbar5 import Engine, Task

LOOKS = [Task.LOOK, Task.LOOK_AS_JSON, Task.LOOK_IN_SVG]


def rows(jobs):
    """Rows of this many jobs on 48 markers: each line dials, completes and releases, each job with 128 steps."""
    text = []
    for job in range(jobs):
        marker = job // 3 % 48
        line = f"{marker % 10}{marker // 10}00"
        what = [f"D,{line}", f"C,{line} 5551234", f"R,{line}"][job % 3]
        text.append(f"J,{marker},{job},{what}\nS,{marker},128,,\n")
    return "".join(text)


def timed(engine, task, text):
    start = time.perf_counter()
    engine.answer(task, text)
    return 1000 * (time.perf_counter() - start)


engine = Engine(markers="X" * 48)
for jobs in (1, 100, 1000):
    text = rows(jobs)
    for task in LOOKS:
        times = sorted(timed(engine, task, text) for _ in range(201))
        print(f"{jobs:5} jobs  {times[0]:6.2f}, {times[100]:6.2f} ms  {task.name}")
