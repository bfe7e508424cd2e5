"""What a visitor reads: in every language, large enough, with enough contrast, and within the window."""

import json, os, re

import plans
from page import duellist, marker
from scenario import scenario

HERE = os.path.dirname(os.path.realpath(__file__))
MODES = ("day", "break", "rush", "film")
SIZES, LOW = ((1920, 1080), (1280, 720), (390, 844)), (1280, 560)
LEAST_SIZE, LARGE, NO_CONTRAST = 11, 24, 1.05


def measured(test, call):
    with open(os.path.join(HERE, "measure.js"), encoding="utf-8") as file:
        return test.browser.run(file.read() + f"\nreturn {call};")


def text_folder(test):
    """Where the texts are: beside the page, if it's one that was given, else in exhibit/page."""
    beside = os.path.join(os.path.dirname(os.path.abspath(test.options.page)), "texts")
    return beside if os.path.isdir(beside) else os.path.join(HERE, "../page/texts")


def flat(value, name=""):
    """All texts of a file by their keys, those of an object within by both keys."""
    if isinstance(value, str):
        return {name: value}
    items = value.items() if isinstance(value, dict) else enumerate(value)
    return {key: text for word, part in items for key, text in flat(part, f"{name}.{word}".strip(".")).items()}


def languages(test):
    """The texts of each language by their keys."""
    folder = text_folder(test)
    found = {}
    for name in sorted(os.listdir(folder)):
        if name.endswith(".json"):
            with open(os.path.join(folder, name), encoding="utf-8") as file:
                found[name.removesuffix(".json")] = flat(json.load(file))
    return found


@scenario("j1", "every text is there in every language")
def same_keys(test):
    found = languages(test)
    test.check("en" in found and len(found) > 1, f"the languages are {', '.join(found)}")
    english = found["en"]
    for name, texts in found.items():
        missing = sorted(set(english) - set(texts))
        test.check(not missing, f"{name} lacks {', '.join(missing)}")
        empty = [key for key, text in texts.items() if not text.strip() and english.get(key, "").strip()]
        test.check(not empty, f"{name} has empty texts: {', '.join(empty)}")
        other = [key for key in set(english) & set(texts) if places(english[key]) != places(texts[key])]
        test.check(not other, f"{name} has other places to fill in than English in {', '.join(sorted(other))}")
    offered = test.browser.run("return [...document.querySelector('#language').options].map(item => item.value)")
    test.check(sorted(offered) == sorted(found), f"the page offers {offered}")
    test.figure(", ".join(f"{name} {len(texts)} texts" for name, texts in found.items()))


def places(text):
    """The names in a text that are replaced, such as {number}."""
    return sorted(set(re.findall(r"\{\w+\}", text)))


def patterns(texts):
    """A pattern for each run of letters in the texts, with anything at the places that are filled in."""
    found = []
    for text in texts.values():
        for part in re.split(r"<[^>]*>", text):
            part = re.sub(r"\s+", " ", part).strip()
            if re.search(r"\w", re.sub(r"\{\w+\}", "", part)):
                pieces = [re.escape(piece) for piece in re.split(r"\{\w+\}", part)]
                found.append(re.compile(".*?".join(pieces) + r"\Z", re.DOTALL))
    return found


def fits(string, wanted):
    return any(pattern.match(string) for pattern in wanted)


def is_words(string):
    """Whether a string is made of words, not of names, numbers and capital letters alone."""
    return re.search(r"[^\W\d_]*[^\W\d_A-Z]{3,}", string) is not None


def fill_with_life(test, mode):
    """Brings a mode to a point where much is shown."""
    page = test.page
    page.mode(mode)
    if mode in ("day", "break"):
        page.automatic(False)
        numbers = list(page.situation()["phones"])[:2]
        for number in numbers:
            page.lift(number)
        for _ in range(12):
            steps = page.situation()["steps"]
            for name in steps:
                page.press(duellist(name) if mode == "break" else marker(name))
        if mode == "day":
            page.finish()
            page.press("#audit")
    elif mode == "rush":
        page.automatic(True, "End")
        test.browser.wait("return exhibit.look().records.length > 0", 60)
        page.automatic(False)
        page.wait_until_still()
    else:
        page.play(page.films()[0])
        page.wait_until_still()


@scenario("j2", "another language changes all that is shown")
def languages_change(test):
    found = languages(test)
    known = {name: patterns(texts) for name, texts in found.items()}
    for mode in MODES:
        fill_with_life(test, mode)
        shown = {}
        for name in found:
            test.page.language(name)
            shown[name] = set(measured(test, "strings()"))
        for name in found:
            if name != "en":
                compare_languages(test, mode, name, shown, known)
        test.page.language("en")


def compare_languages(test, mode, name, shown, known):
    """No string that stays has words, unless it's a text of both languages."""
    left = [text for text in shown[name] if text in shown["en"] and is_words(text)]
    english = [text for text in left if not fits(text, known[name])]
    test.check(not english, f"{mode}: {name} leaves {'; '.join(sorted(english))[:300]}")
    also = [text for text in shown[name] - shown["en"] if is_words(text) and not fits(text, known[name])
            and fits(text, known["en"])]
    test.check(not also, f"{mode}: {name} has texts of English: {'; '.join(sorted(also))[:300]}")
    own = [text for text in shown[name] if fits(text, known[name])]
    test.check(len(own) >= 10, f"{mode}: only {len(own)} texts are those of {name}")


@scenario("j3", "every text has contrast and size enough, and nothing is wider than the window")
def readable(test):
    for mode in MODES:
        test.page.open()
        fill_with_life(test, mode)
        for width, height in SIZES:
            test.browser.size(width, height)
            test.page.idle()
            check_texts(test, f"{mode} at {width}x{height}")
        test.browser.size(1280, 720)


def is_pale(text):
    """Whether a text has too little contrast. One that only fills a figure and has none isn't there to be seen."""
    contrast = text["contrast"]
    if contrast is None or contrast < NO_CONTRAST and not text["isSpoken"]:
        return False
    return contrast < (3 if text["size"] >= LARGE else 4.5)


def check_texts(test, where):
    texts = measured(test, "measureTexts()")
    test.check(len(texts) >= 5, f"{where}: only {len(texts)} texts are shown")
    small = {f"{text['where']} {text['text']!r} {text['size']:.1f} px" for text in texts
             if text["size"] < LEAST_SIZE - 0.05}
    pale = {f"{text['where']} {text['text']!r} {text['contrast']:.2f}" for text in texts if is_pale(text)}
    wide = {f"{part['where']} to {part['right']}" for part in measured(test, "measureWidths()")}
    for fault, found in (("too small", small), ("too pale", pale), ("too wide", wide)):
        test.check(not found, f"{where}: {len(found)} {fault}: {'; '.join(sorted(found)[:4])}")


@scenario("j4", "trouble cards and forty paths are readable too, and in a low window")
def readable_cards(test):
    test.page.drop(test.file("faults.toml", plans.plan_with_faults()))
    test.page.lift("0001")
    test.page.finish()
    test.check(test.page.count("#cards .card") == 2, f"{test.page.count('#cards .card')} trouble cards are shown")
    check_sizes(test, "trouble cards")
    test.page.drop(test.file("full.toml", plans.full_plan()))
    test.page.drop(test.file("dials.csv", plans.dials(40)))
    test.page.automatic(False)
    test.page.skip(100)
    paths = test.browser.run("return exhibit.page.stage.session.office.paths.length")
    test.check(paths == 40, f"{paths} paths are up, not 40")
    check_sizes(test, "forty paths")


def check_sizes(test, what):
    for width, height in (*SIZES, LOW):
        test.browser.size(width, height)
        test.page.idle()
        check_texts(test, f"{what} at {width}x{height}")
    test.browser.size(1280, 720)


@scenario("j5", "nothing in the picture covers a path or a text")
def nothing_covered(test):
    test.page.mode("rush")
    test.page.automatic(True, "End")
    for paths in (5, 15, 25):
        test.browser.wait("return exhibit.page.stage.session.office.paths.length >= values[0]", 60, paths)
        test.page.automatic(False)
        test.page.idle()
        check_overlaps(test, f"rush hour with {paths} paths")
        test.page.automatic(True)
    test.page.drop(test.file("faults.toml", plans.plan_with_faults()))
    test.page.lift("0001")
    test.page.finish()
    check_overlaps(test, "two links met out of order")


def check_overlaps(test, what):
    for width, height in (*SIZES, LOW):
        test.browser.size(width, height)
        test.page.idle()
        found = measured(test, "measureOverlaps()")
        test.check(not found, f"{what} at {width}x{height}: {len(found)} overlap: {'; '.join(found[:4])}")
    test.browser.size(1280, 720)
