"""Markers against one another: trying to break the office, the rush hour, and films."""

import random, time

from page import duellist
from scenario import scenario

ORDERS_TO_BREAK = 6


class Order:
    """Chooses which marker makes the next step: for seed 0 one after the other, else at random."""

    def __init__(self, seed):
        self.seed, self.count, self.random = seed, 0, random.Random(seed)

    def choose(self, markers):
        self.count += 1
        return markers[self.count % len(markers)] if self.seed == 0 else self.random.choice(markers)


def race(test, seed):
    """Both receivers lifted, then the markers stepped to the end in the order of this seed."""
    page, order = test.page, Order(seed)
    page.open()
    page.mode("break")
    page.automatic(False)
    numbers = list(page.situation()["phones"])
    test.check(len(numbers) == 2, f"mode break has {len(numbers)} phones")
    for number in numbers[:2]:
        page.lift(number)
    for _ in range(400):
        steps = page.situation()["steps"]
        if not steps:
            break
        page.press(duellist(order.choose(steps)))
    page.press("#audit-both")
    page.browser.wait("return document.querySelector('#naive-verdict').textContent.trim()", 20)


@scenario("c", "try to break it: the naive office gives one link to two calls, the office never")
def try_to_break(test):
    page, broken, alarms = test.page, 0, 0
    for seed in range(ORDERS_TO_BREAK):
        race(test, seed)
        where = f"order {seed}"
        test.check_audit(where)
        test.check_office(where)
        verdict = page.text("#naive-verdict")
        shared = page.count("#naive .link.alarm")
        if "AUDIT,LEGAL" not in verdict:
            broken += 1
        test.check(not page.count("#picture .link.alarm"), f"{where}: the office shows two calls on one link")
        test.check(not shared or "AUDIT,REPLY" in verdict, f"{where}: the naive office shows two calls on a link, {verdict}")
        alarms += bool(shared)
        paths = [record["path"] for record in page.look()["records"]]
        test.check(len(set(paths)) == len(paths), f"{where}: the office has two calls on one path: {paths}")
    test.check(alarms, f"the naive office shows no link with two calls in {ORDERS_TO_BREAK} orders")
    test.figure(f"of {ORDERS_TO_BREAK} orders {broken} broke the naive office, {alarms} show two calls on one link")


@scenario("d", "rush hour: 48 markers, a pause, a step, back, and the audit")
def rush_hour(test):
    page = test.page
    page.mode("rush")
    test.check(len(page.kinds()) == 48, f"the rush hour has {len(page.kinds())} markers")
    page.automatic(True, "End")
    time.sleep(5)
    page.automatic(False)
    page.wait_until_still()
    rows = page.rows()
    test.check(len(page.ends()) > 0, "no turn was taken in the rush hour")
    page.press("#one")
    test.check(page.rows() != rows, "a step in the pause changes nothing")
    test.check_office("after a step")
    page.press("#undo")
    test.check(page.rows() == rows, "a step and back doesn't leave the rows as they were")
    test.check_office("after the rush hour")
    test.check_audit("after the rush hour")
    test.figure(f"{len(page.ends())} turns in 5 seconds, {len(rows.splitlines())} rows")


@scenario("e", "each film plays to its end, and the office is then as a replay leaves it")
def films(test):
    page = test.page
    page.mode("film")
    names = page.films()
    test.check(names, "there are no films")
    for name in names:
        page.play(name)
        page.wait_until_still(3)
        rows = page.rows()
        test.check(rows, f"film {name}: no row was done")
        test.check_office(f"film {name}")
        records = test.program.look(page.plan(), page.kinds(), rows)["records"]
        replayed = test.program.replay(page.plan(), page.kinds(), rows).splitlines()
        test.check(len(records) == sum(line[0].isdigit() for line in replayed),
                   f"film {name} stops before its jobs are done")
        check_counts(test, name, replayed)
    test.figure(f"{len(names)} films: {', '.join(names)}")


def check_counts(test, name, replayed):
    """The closed crosspoints that the page's office has are as many as a replay counts."""
    shown = test.page.look()["shown"]
    closed = sum(len(word["items"]) for word in shown if word["object"]["kind"] != "group")
    test.check(f"CLOSED,{closed}" in replayed, f"film {name} ends with {closed} crosspoints, {replayed[-1:]} in a replay")
