"""How long a visitor waits for a step, by the page's own figures."""

import statistics, time

import plans
from scenario import scenario

SAMPLES, STEPS_OF_A_DIAL = 40, 28
EXAMPLE_PLAN, FULL_PLAN = 16, 50
# Seconds between two clicks, as many as a quick hand needs.
PAUSE = 0.15


def time_steps(test, what, limit, most=SAMPLES):
    """Makes steps of whichever marker has a job, and compares the times with the limit."""
    page, taken = test.page, []
    while len(taken) < most and page.enabled("#one"):
        time.sleep(PAUSE)
        page.press("#one")
        taken.append(test.browser.run("return exhibit.timings()")[-1])
    if not test.check(taken, f"{what}: there was no step to make"):
        return
    middle, most = statistics.median(taken), max(taken)
    test.figure(f"{what}: {len(taken)} steps, median {middle:.1f} ms, most {most:.1f} ms, at most {limit} wanted")
    test.check(middle <= limit, f"{what}: a step takes {middle:.1f} ms, more than {limit}")


@scenario("k1", "a step is answered and drawn within 16 ms with the example plan", timed=True)
def times_of_the_example(test):
    test.page.automatic(False)
    for number in ("0001", "0003"):
        test.page.lift(number)
    time_steps(test, "the example plan", EXAMPLE_PLAN)


@scenario("k2", "a step is answered and drawn within 50 ms with a full plan and 100 jobs behind it", timed=True)
def times_of_a_full_plan(test):
    page, rows = test.page, plans.calls(50) + "J,0,9999,D,9954\n"
    page.drop(test.file("full.toml", plans.full_plan()))
    page.drop(test.file("calls.csv", rows + f"S,0,{SAMPLES},,\n"))
    page.automatic(False)
    while page.rows().count("J,") < 101 and page.enabled("#skip"):
        page.press("#skip")
    records = page.look()["records"]
    test.check(len(records) == 100, f"{len(records)} jobs are behind the step, not 100")
    time_steps(test, "a full plan after 100 jobs", FULL_PLAN, STEPS_OF_A_DIAL)
