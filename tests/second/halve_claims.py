"""What document 02, P8, wants of every list, tried on jobs whose zeros are known: "every
fraction zero of the starting box lies in a listed box, and each box listed as unique holds
at most one".  claims.py calls it.
"""

from collections import Counter

from arithmetic import MAX_DEPTH, ends_of
from breach import claim, inside
from dice import Dice
from halving import halve
from zeros import job_with_several, job_with_zeros


def try_listing(job, zeros, depth, tried):
    """All claims on the list of one job; zeros are its known ones."""
    listed, start = halve(job, depth, 2 ** depth), list(zip(job.lo, job.hi))
    claim(len(listed) <= 2 ** depth, "two to the power of the depth", job, depth, listed)
    for word, box in listed:
        claim(all(inside(ends, start) for ends in ends_of(box)), "listed in the starting box",
              job, depth, box)
        held = sum(inside(zero, box) for zero in zeros)
        claim(word == "open" or held <= 1, "at most one zero in a unique box", job, depth, box)
        tried[f"halving: boxes listed as {word}{' with two zeros or more' * (held > 1)}"] += 1
    held = [zero for zero in zeros if inside(zero, start)]
    for zero in held:
        homes = [word for word, box in listed if inside(zero, box)]
        claim(homes, "a zero in a listed box", job, depth, zero, listed)
        tried[f"halving: zeros in {'a box' if len(homes) == 1 else 'boxes'} listed as "
              + " and ".join(sorted(set(homes)))] += 1
    claim(listed or not held, "no zero where nothing is listed", job, depth)
    if not listed:
        tried["halving: nothing listed"] += 1
    if len(held) > 1:
        whole = all(word == "unique" for word, _ in listed)
        tried[f"halving: starting boxes with two zeros or more{', all unique' * whole}"] += 1


def try_halvings(seed, count):
    """The lists of count jobs, two of three with several known zeros in their boxes; how
    often each claim was tried.  Raises Breach at the first claim that does not hold.  Where
    there are more than two unknowns no depth is great, for the time that it would take."""
    dice, tried = Dice(seed + 2 ** 35), Counter()
    for number in range(count):
        job, zeros = (job_with_several if number % 3 else job_with_zeros)(dice)
        job = job._replace(steps=dice.pick([0, 1, 2, 5, 12, 20]))
        depth = dice.between(0, MAX_DEPTH if job.n <= 2 else MAX_DEPTH // 2)
        try_listing(job, zeros, depth, tried)
    return tried
