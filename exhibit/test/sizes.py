"""Sizes: the page on a phone, a laptop, a hall's screen and a wall."""

from page import phone
from scenario import scenario

SIZES = [(390, 844), (1280, 720), (1920, 1080), (3840, 2160)]
LEAST, LEAST_OF_A_KIOSK = 44, 56

# The boxes of what fits a selector and is to be seen, each with its name.
BOXES = """
return [...document.querySelectorAll(values[0])].filter(part => part.checkVisibility({visibilityProperty: true}))
    .map(part => {
        const {left, top, right, bottom} = part.getBoundingClientRect();
        return {name: part.id || part.className || part.textContent.slice(0, 20), left, top, right, bottom};
    });
"""
TARGETS = "button:not(:disabled), select, label.switch, .duellist, .chip summary"


def boxes(test, css):
    return test.browser.run(BOXES, css)


def check_targets(test, least, where):
    """Each target is large enough for a finger."""
    small = {f"{it['name']} {it['right'] - it['left']:.0f}x{it['bottom'] - it['top']:.0f}" for it in boxes(test, TARGETS)
             if min(it["right"] - it["left"], it["bottom"] - it["top"]) < least - 0.6}
    test.check(not small, f"{where}: targets under {least} pixels: {sorted(small)}")


def check_in_view(test, css, size, where):
    """What fits a selector is there, and all of it is in the window without scrolling."""
    found = boxes(test, css)
    outside = [it["name"] for it in found if it["top"] < -0.6 or it["left"] < -0.6 or it["bottom"] > size[1] + 0.6
               or it["right"] > size[0] + 0.6]
    test.check(found and not outside, f"{where}: {css} isn't in view" if found else f"{where}: there is no {css}")


def check_apart(test, css, where):
    """Parts that stand beside each other don't overlap."""
    found = boxes(test, css)
    over = [f"{one['name']} and {other['name']}" for at, one in enumerate(found) for other in found[:at]
            if min(one["right"], other["right"]) - max(one["left"], other["left"]) > 1
            and min(one["bottom"], other["bottom"]) - max(one["top"], other["top"]) > 1]
    test.check(not over, f"{where}: parts overlap: {over}")


FIRST = [".now", phone("0001", ".state"), "#picture svg"]


def first_call(test, size, address, least):
    page, where = test.page, f"{size[0]}x{size[1]} {address}"
    test.browser.size(*size)
    page.open(address, shows_all=False)
    for css in (*FIRST, phone("0001", "button.lift")):
        check_in_view(test, css, size, where)
    check_targets(test, least, where)
    page.lift("0001")
    page.wait_for_state("0001", ["tone"])
    for css in (*FIRST, phone("0001", ".rotary"), phone("0001", "button.hang")):
        check_in_view(test, css, size, f"{where}, at the tone")
    check_apart(test, "#modes button, #tools > *", where)
    check_apart(test, ".now, .phone .state, .phone .buttons, .rotary", where)
    check_targets(test, least, f"{where}, at the tone")


@scenario("l1", "the first call: telephone, dial and picture in view at every size, with targets for fingers")
def first_call_at_all_sizes(test):
    for size in SIZES:
        first_call(test, size, "", LEAST)
        if size[0] > 1000:
            first_call(test, size, "#kiosk=600", LEAST_OF_A_KIOSK)


@scenario("l2", "the two buttons of a contest and both pictures in view at every size of a hall")
def contest_at_all_sizes(test):
    for size in SIZES[1:]:
        for address, least in (("", LEAST), ("#kiosk=600", LEAST_OF_A_KIOSK)):
            where = f"{size[0]}x{size[1]} {address}"
            test.browser.size(*size)
            test.page.open(address, shows_all=False)
            test.page.mode("break")
            test.page.press("#both")
            for css in (".duellist", "#picture svg", "#naive svg", ".goal"):
                check_in_view(test, css, size, where)
            check_apart(test, ".duellist, .between, #picture, #naive, #say", where)
            check_targets(test, least, where)


@scenario("l3", "a window of 3840 by 2160 looks as one of 1920 by 1080, doubled")
def doubled(test):
    found = []
    css = "h1, .now, .phone, .phone button, #picture svg, #panel, #modes button, #say"
    for size in SIZES[2:]:
        test.browser.size(*size)
        test.page.open(shows_all=False)
        found.append(boxes(test, css))
    one, other = found
    test.check(len(one) == len(other), f"{len(one)} parts on the small screen, {len(other)} on the large one")
    for small, large in zip(one, other):
        far = max(abs(2 * small[side] - large[side]) for side in ("left", "top", "right", "bottom"))
        # The browser's own parts, such as the arrow of a list, don't grow.
        test.check(far <= 20, f"{small['name']} is off by {far:.1f} pixels")


@scenario("l4", "what is controlled is in view once all is shown, on a laptop and larger")
def all_shown(test):
    for size in SIZES[1:]:
        test.browser.size(*size)
        test.page.open()
        test.page.lift("0001")
        test.page.wait_for_state("0001", ["tone"])
        for css in (".now", phone("0001", ".rotary"), "#one", "#auto", "#picture svg", '.marker[data-marker="0"]'):
            check_in_view(test, css, size, f"{size[0]}x{size[1]}")
        check_targets(test, LEAST, f"{size[0]}x{size[1]}")
