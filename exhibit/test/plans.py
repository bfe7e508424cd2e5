"""Plans and rows that are larger than those of a visitor."""

from program import EXAMPLE_PLAN

LINES = [f"{frame}{switch}{group}{file}" for frame in range(10) for switch in range(10) for group in range(6)
         for file in range(5)]
FINISHING = 128  # steps within which a job ends that nobody disturbs


def quoted(texts):
    return ", ".join(f'"{text}"' for text in texts)


def full_plan():
    """3,000 numbers, all lines in order, forty registers, forty trunks of each kind."""
    places = [f"{frame}{switch}" for frame in range(10) for switch in range(4)]
    groups = ["REG register " + " ".join(place + "0" for place in places),
              "INTRA intra " + " ".join(f"{place}1-{place}2" for place in places),
              "OUTA outgoing " + " ".join(place + "3" for place in places)]
    numbers = [f"{number:04} {line}" for number, line in enumerate(LINES)]
    return (f'version = 1\ngroups = [{quoted(groups)}]\nnumbers = [{quoted(numbers)}]\n'
            'codes = ["234 INTRA", "555 OUTA"]\nfaults = []\n')


def plan_with_faults():
    """The example plan in which the first junctors that a register's path from 3041 would take are out of order."""
    return EXAMPLE_PLAN.replace("faults = []", 'faults = ["JU340", "JU345"]')


def rows_of(jobs):
    """Rows that give these jobs to marker 0, one after the other, each with the steps that it needs."""
    return "".join(f"J,0,{number},{kind},{args}\nS,0,{FINISHING},,\n" for number, (kind, args) in enumerate(jobs))


def spread(place):
    """The line of this place in an order that goes from frame to frame and from switch to switch."""
    return LINES[place % 10 * 300 + place // 10 % 10 * 30 + place // 100 % 30]


def dials(count):
    """Rows that give this many lines a register."""
    return rows_of(("D", spread(place)) for place in range(count))


def calls(count):
    """Rows of calls inside the office, two jobs each, and each to a line of another frame."""
    jobs = []
    for place in range(count):
        called = LINES.index(spread(place + 1005))
        jobs += [("D", spread(place)), ("C", f"{spread(place)} 234{called:04}")]
    return rows_of(jobs)


def many_jobs(count):
    """Rows in which line after line gets a register and gives it back."""
    return rows_of(("DR"[number % 2], LINES[number // 2 % 3000]) for number in range(count))
