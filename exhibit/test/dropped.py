"""Files that a visitor drops on the page or chooses: good ones, wrong ones, and very large ones."""

import os, random, time

import plans
from browser import BrowserError
from program import EXAMPLE_PLAN
from scenario import scenario

EXAMPLES = os.path.join(os.path.dirname(os.path.realpath(__file__)), "../../examples")


def example(name):
    with open(os.path.join(EXAMPLES, name), encoding="utf-8") as file:
        return file.read()


def give(test, path, dropped=True):
    """Gives the page a file, and waits until it says what it makes of it."""
    page, name = test.page, os.path.basename(path)
    try:
        if dropped:
            page.drop(path)
        else:
            choose_file(test, path)
        page.rest()
    except BrowserError as error:
        test.check(False, f"{name}: {error}")


def choose_file(test, path):
    """Chooses a file in the dialog of files, and leaves the dialog."""
    test.page.forget_messages()
    test.browser.click("#files")
    test.browser.files("#file", path)
    test.page.wait_for_message()
    test.browser.click("#files-dialog .close")


def check_refused(test, name, content):
    """The page says what is wrong with a file, keeps what it had, and works on."""
    page = test.page
    kept = page.rows(), page.plan(), page.kinds()
    give(test, test.file(name, content))
    test.check(page.text("#message"), f"{name}: the page doesn't say what is wrong")
    test.check((page.rows(), page.plan(), page.kinds()) == kept, f"{name}: the page doesn't keep what it had")
    test.check_office(name)


def check_rows_taken(test, name, rows, dropped=True):
    """The page takes rows as a film, and at its end the office is that of a replay of the file."""
    page = test.page
    give(test, test.file(name, rows), dropped)
    page.skip(1000)
    replayed = test.program.replay(page.plan(), page.kinds(), rows)
    shown = test.program.replay(page.plan(), page.kinds(), page.rows())
    test.check(shown == replayed, f"{name}: the page's rows aren't those of the file")
    test.check(not page.text("#message"), f"{name}: the page takes it and says {page.text('#message')!r}")
    test.check_office(name)


def check_plan_taken(test, name, plan, dropped=True):
    give(test, test.file(name, plan), dropped)
    test.check(test.page.plan() == plan, f"{name}: the page doesn't have the plan of the file")
    test.check(not test.page.text("#message"), f"{name}: the page takes it and says {test.page.text('#message')!r}")
    test.check_office(name)


@scenario("f1", "rows and plans, dropped and chosen, are taken")
def good_files(test):
    check_rows_taken(test, "meeting.csv", example("meeting.csv"))
    check_rows_taken(test, "inside_call.csv", example("inside_call.csv"), dropped=False)
    check_plan_taken(test, "hunting.toml", example("hunting.toml"))
    check_rows_taken(test, "hunting.csv", example("hunting.csv"))
    check_plan_taken(test, "faults.toml", plans.plan_with_faults(), dropped=False)


@scenario("f2", "files that are neither rows nor a plan are refused, and nothing is lost")
def wrong_files(test):
    noise = random.Random(1).randbytes(10_000_000)
    wrong = {
        "letter.txt": "Dear operator,\nplease connect me.\n", "zeros.csv": bytes(1000),
        "row.csv": "J,0,1,D,3041\nS,0,1\n", "marker.csv": "J,77,1,D,3041\n", "version.toml": "version = 3\n",
        "group.toml": EXAMPLE_PLAN.replace("600-601", "600-701"), "half.toml": EXAMPLE_PLAN[:120],
        "noise.bin": noise, "noise.csv": noise, "noise.toml": noise, "<b>.csv": "<img src=x onerror=alert(1)>",
    }
    for name, content in wrong.items():
        check_rows_taken(test, "meeting.csv", example("meeting.csv"))
        check_refused(test, name, content)


@scenario("f3", "a plan with 3,000 numbers and rows of 10,000 jobs are taken or refused with a reason")
def large_files(test):
    page = test.page
    check_plan_taken(test, "full.toml", plans.full_plan())
    number = page.browser.run("return document.querySelector('.phone')?.dataset.number ?? ''")
    if test.check(number, "no phone is there with a full plan"):
        page.lift(number)
        page.finish()
        test.check(page.ends()[-1:] == ["DIALTONE"], f"with a full plan a lifted receiver ends {page.ends()[-1:]}")
    check_many_jobs(test, plans.many_jobs(10_000))


def check_many_jobs(test, rows):
    """Rows of very many jobs are taken to their end, or refused with a reason and without harm."""
    page, begun = test.page, time.monotonic()
    kept = page.rows(), page.plan()
    give(test, test.file("many.csv", rows))
    test.figure(f"10,000 jobs: {time.monotonic() - begun:.1f} s")
    if page.text("#message"):
        test.check((page.rows(), page.plan()) == kept, "many.csv: the page doesn't keep what it had")
        test.figure("they are refused: " + page.text("#message")[:100])
    else:
        turns = len(page.look()["records"])
        test.check(turns == 10_000, f"many.csv: the page shows {turns} turns")
    test.check_office("many.csv")
