"""Screenshots of what a visitor sees at the page's best moments, at three sizes; for --pictures alone."""

import os, time

import plans
from page import duellist, marker, phone
from scenario import scenario
from texts import SIZES

ANIMATED = 0.8  # seconds until what has just closed or dropped stands still


def take(test, name, shown="body"):
    """A screenshot at each size, with the first element that fits `shown` in view."""
    os.makedirs(test.options.pictures, exist_ok=True)
    for width, height in SIZES:
        test.browser.size(width, height, touch=width < 600)
        test.page.idle()
        test.browser.run("document.querySelector(values[0]).scrollIntoView({behavior: 'instant'})", shown)
        test.page.idle()
        time.sleep(ANIMATED)
        test.browser.screenshot(os.path.join(test.options.pictures, f"{name}-{width}x{height}.png"))
    test.browser.size(1280, 720)


def drop(test, name, content):
    test.page.drop(test.file(name, content))
    test.page.automatic(False)


def call(test):
    test.page.call("0001", "2340004")
    test.page.press(phone("0004", "button.answer"))
    take(test, "call")


def meeting(test):
    """Two markers that want one frame, at the step at which one is denied it."""
    for number in ("0001", "0002"):
        test.page.lift(number)
    for name in ("0", "0", "1"):
        if test.page.enabled(marker(name)):
            test.page.press(marker(name))
    take(test, "meeting")


def trouble(test):
    drop(test, "faults.toml", plans.plan_with_faults())
    test.page.lift("0001")
    test.page.finish()
    take(test, "trouble", "#cards")


def forty_paths(test):
    drop(test, "full.toml", plans.full_plan())
    drop(test, "dials.csv", plans.dials(40))
    test.page.skip(100)
    paths = len(test.page.look()["records"])
    test.check(paths == 40, f"{paths} jobs are done, not 40")
    take(test, "forty-paths")


def two_calls_on_one_link(test):
    """Two markers without connectors, step by step in turns."""
    test.page.mode("break")
    test.page.press("#both")
    for name in ("0", "1") * 40:
        if test.page.enabled(duellist(name)):
            test.page.press(duellist(name))
    test.check(test.page.count("#naive .alarm"), "no link carries two calls")
    take(test, "two-calls-on-one-link")


def film(test):
    test.page.mode("film")
    test.page.automatic(False)
    test.page.skip(2)
    take(test, "film")


def rush(test):
    test.page.mode("rush")
    test.page.automatic(True, "End")
    test.browser.wait("return exhibit.look().records.length >= 20", 30)
    take(test, "rush")


ACTS = (call, meeting, trouble, forty_paths, two_calls_on_one_link, film, rush)


@scenario("pictures", "screenshots of the page at its best moments")
def screenshots(test):
    for act in ACTS:
        test.page.open()
        if act is not rush:
            test.page.automatic(False)
        act(test)
    test.figure(f"{len(SIZES) * len(ACTS)} pictures in {test.options.pictures}")
