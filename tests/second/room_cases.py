"""Cases of document 02, P12: calls on the table of rooms, as one block of requests.

What is shown depends on what was answered, so the calls are done as they are made.  All
requests of a run share one table; the block begins and ends with a clearing.
"""

from arithmetic import KINDS, MAX_N, MAX_TEXT, MAX_VISIT, run
from breach import told
from damage import damaged, replaced
from dice import Dice
from examples import EXAMPLES, JOB_41, T7, T9, T11, T12
from jobs import largest_job, pinned_job, random_job, symmetric_job
from pin_cases import FLAT, FLAT_LINES, PIN_AT
from rooms import SLOTS, TABLE, Opened, call
from step_cases import wrong_jobs
from texts import job_text

# x x = 2 near the lower end, by a poor inverse: unique at step 15, or spent before it
SLOW = JOB_41._replace(lo=[92_000], inv=[1_000], steps=20)
SPENT = SLOW._replace(steps=11)
# texts of every fault that a job text has
WRONG_JOBS = [*wrong_jobs(), replaced(FLAT_LINES, PIN_AT, b"pin=2"),
              job_text(T7).replace(b"65536:1", b"0:1")]
# no number of a slot, or of a visit; in 8, 32 or 64 bits some would be
FAR = [255, 256, 2 ** 31, 2 ** 32, 2 ** 63, 2 ** 64 - 1, 2 ** 64, 10 ** 30]


def refusal(answered):
    """The fault of a call by what is told of it, which is a plain pair; 0 where it was not
    refused."""
    refused = isinstance(answered, tuple) and not isinstance(answered, Opened)
    return answered[0] if refused else 0


class House:
    """Who holds a room, and who held one before, by what is shown: slot and visit."""

    def __init__(self):
        self.now, self.before = [], []

    def hear(self, name, words, answered):
        """After a call."""
        if refusal(answered):
            return
        if name == "open":
            self.now.append(answered)
        elif name == "close":
            self.now.remove(words)
            self.before.append(Opened(*words))
        elif name == "clear":
            self.now, self.before = [], self.before + self.now


class Story:
    """Calls as requests, the table that they have led to, and who is in it."""

    def __init__(self):
        self.asked, self.table, self.house = [], bytearray(TABLE), House()

    def tell(self, name, *words):
        """The next call, and what is answered; a step's buffer is one for any text."""
        room = [MAX_TEXT] if name == "step" else []
        answered = told(call, self.table, name, *words, *room)
        self.house.hear(name, words, answered)
        if name == "open":
            self.asked.append((name, *words))
        else:
            self.asked.append((" ".join(map(str, (name, *words))), b""))
        return answered

    def open(self, job):
        """A job is opened."""
        return self.tell("open", job_text(job))

    def squeeze_in(self, job):
        """A job is opened; where no room is free, who has been there longest leaves."""
        if len(self.house.now) == SLOTS:
            self.tell("close", *self.house.now[0])
        return self.open(job)

    def all_three(self, slot, visit):
        """The calls that show a slot and a visit, closing last."""
        self.tell("step", slot, visit)
        self.tell("reading", slot, visit, MAX_TEXT)
        self.tell("close", slot, visit)

    def read(self, slot, visit):
        """A reading in buffers of its own length, a byte longer, a byte shorter and of none."""
        length = len(self.tell("reading", slot, visit, MAX_TEXT))
        for room in (length, length + 1, length - 1, 0):
            self.tell("reading", slot, visit, room)


# The fixed ones, each on a table that is cleared.

def one_visit(story):
    """A visit from opening to closing, and the next one in its slot; before it, beside it and
    after it 15 for whatever else is shown."""
    for pair in ((0, 0), (0, 1), (7, 1), (8, 0)):
        story.all_three(*pair)
    pair = story.open(JOB_41)
    story.read(*pair)
    story.tell("step", *pair)
    story.read(*pair)
    story.tell("step", *pair)
    for slot in (1, 7, 8, 9):
        story.all_three(slot, pair.visit)
    for visit in (0, 2, 3, MAX_VISIT, MAX_VISIT + 1):
        story.all_three(pair.slot, visit)
    for name in ("step", "close"):
        for far in FAR:
            story.tell(name, far, pair.visit)
            story.tell(name, pair.slot, far + pair.visit)
    story.read(*pair)
    story.all_three(*pair)
    story.all_three(*pair)
    second = story.open(T7)
    story.all_three(*pair)
    story.all_three(*second)


def every_verdict(story):
    """Every verdict and a spent allowance, one of no steps too, each with two more steps."""
    for job in (*EXAMPLES, SLOW, SPENT):
        pair = story.squeeze_in(job)
        story.read(*pair)
        for _ in range(run(job).steps + 2):
            story.tell("step", *pair)
        story.read(*pair)


def refused_openings(story):
    """Jobs that are wrong use no visit number; where the table is full their own fault is told
    and not 13."""
    for text in WRONG_JOBS:
        story.tell("open", text)
    story.open(T11)
    for job in (T12, FLAT, T9, *map(largest_job, KINDS), SPENT):
        story.tell("open", WRONG_JOBS[0])
        story.open(job)
    for text in (*WRONG_JOBS, job_text(JOB_41)):
        story.tell("open", text)
    for pair in list(story.house.now):
        story.tell("step", *pair)


def used_again(story):
    """The lowest free slot each time, visits one more each time; a stale holder is refused, and
    so is one who shows another's slot or visit."""
    pairs = [story.open(JOB_41._replace(job=number)) for number in range(SLOTS)]
    story.open(JOB_41)
    for slots in ((3,), (5, 2), (7, 0, 4), (6, 1, 3, 0)):
        for slot in slots:
            story.tell("close", *pairs[slot])
        for _ in slots:
            pair = story.open(T7)
            story.tell("step", *pair)
            for name in ("step", "close"):
                story.tell(name, *pairs[pair.slot])
            pairs[pair.slot] = pair
        story.open(JOB_41)
        for pair, other in zip(pairs, pairs[1:]):
            story.tell("step", pair.slot, other.visit)
    for pair in pairs:
        story.all_three(*pair)


def after_a_clearing(story):
    """All rooms are free; what was shown before is that of others as soon as they come."""
    pairs = [story.open(job) for job in (T11, T12, SLOW)]
    story.tell("step", *pairs[1])
    story.tell("clear")
    for pair in pairs:
        story.all_three(*pair)
    story.open(JOB_41)
    story.tell("step", *pairs[0])
    story.all_three(*pairs[1])
    for pair in pairs:
        story.open(T9)
        story.read(*pair)


def every_kind(story):
    """A random job of each kind and every n, stepped in turns."""
    for n in range(1, MAX_N + 1):
        for kind in KINDS:
            story.squeeze_in(random_job(Dice(n), kind, n))
            for pair in story.house.now[-3:]:
                story.tell("step", *pair)


STORIES = [one_visit, every_verdict, refused_openings, used_again, after_a_clearing, every_kind]


# Random ones.

def random_opening(dice):
    """A job text, one of eight a damaged one."""
    text = job_text(dice.pick([random_job, random_job, symmetric_job, pinned_job])(dice))
    return damaged(dice, text) if dice.one_in(8) else text


def random_pair(dice, house):
    """A slot and a visit: mostly of one who holds a room, else of one who did, or mixed up."""
    own = dice.pick(house.now or [Opened(0, 1)])
    if not dice.one_in(5):
        return own
    other = dice.pick([*house.now, *house.before, own, Opened(SLOTS, 0)])
    return dice.pick([other, other, (own.slot, other.visit), (other.slot, own.visit),
                      (own.slot, own.visit + 1), (dice.pick(FAR), own.visit)])


def random_call(dice, house, crowd):
    """A call, its name and what is shown, in a house where about so many want to be."""
    throw = dice.below(20)
    if throw < 8 and len(house.now) < crowd or throw == 0:
        return "open", random_opening(dice)
    if throw == 1 and dice.one_in(6):
        return ("clear",)
    pair = random_pair(dice, house)
    if throw < 15:
        return "step", *pair
    if throw < 18:
        return "reading", *pair, dice.pick([MAX_TEXT, 160, 90, dice.between(50, 90), 0])
    return "close", *pair


def room_cases(seed, count):
    """The block: the fixed requests, and as many random ones.  Every fortieth another crowd
    comes."""
    story, dice, crowd = Story(), Dice(seed + 2 ** 38), SLOTS
    for fixed in STORIES:
        story.tell("clear")
        fixed(story)
    story.tell("clear")
    for number in range(count):
        if number % 40 == 0:
            crowd = dice.pick([1, 3, 5, SLOTS, SLOTS + 1])
        story.tell(*random_call(dice, story.house, crowd))
    story.tell("clear")
    return story.asked
