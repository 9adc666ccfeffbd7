"""Compares the crate with 50-digit arithmetic (mpmath) on random accepted inputs.

    cargo build --release --offline --example answers
    python3 compare.py COUNT SEED

asks COUNT shares and a quarter as many factors, currents and rises, each of a sheet, of
which two of three have neighbours. It prints the largest difference of each kind, and of
how many days the hottest hour is not that of the highest load."""
import os
import random
import subprocess
import sys

from mpmath import e1, exp, log, mp, mpf, sqrt

mp.dps = 50
COUNT = int(sys.argv[1]) if len(sys.argv) > 1 else 4000
random.seed(int(sys.argv[2]) if len(sys.argv) > 2 else 7)
PROGRAM = os.path.join(
    os.path.dirname(os.path.abspath(__file__)), "..", "target", "release", "examples", "answers"
)
MILLION = 10**6

# Heating sums so near each other, in millionths, may change places in the crate.
EQUAL = mpf(10) ** -8


def pick(low, high):
    """A number of the range: an end, spread by size, or any."""
    r = random.random()
    if r < 0.12:
        return low
    if r < 0.24:
        return high
    if r < 0.5 and low > 0:
        return max(low, min(high, round(low * (high / low) ** random.random())))
    return random.randint(low, high)


def any_cable():
    slow, fast = sorted([pick(1, 100000), pick(1, 100000)])
    return [
        pick(100, 1500),
        pick(300, 5000),
        random.choice([0, pick(100, 2000), pick(100, 2000)]),
        pick(0, MILLION),
        pick(0, MILLION),
        fast,
        slow,
        pick(50, 2000),
    ]


def any_neighbour(d, l):
    """Touching, at the cable's depth, at an end of what is allowed, or anywhere."""
    touching = -(-d // 10)
    while True:
        offset, depth = random.choice(
            [
                (touching, l),
                (touching * random.randint(1, 9), l),
                (0, pick(300, 5000)),
                (3000, random.choice([300, l, 5000])),
                (pick(0, 3000), pick(300, 5000)),
            ]
        )
        if offset <= 3000 and 100 * (offset**2 + (l - depth) ** 2) >= d**2:
            return random.choice([-1, 1]) * offset, depth


def any_neighbours(cable):
    count = random.choice([0, 1, 2, 2, 5, 12, random.randint(0, 48)])
    return [any_neighbour(cable[0], cable[1]) for _ in range(count)]


def any_trench():
    cable = any_cable()
    return cable, any_neighbours(cable) if random.random() < 0.75 else []


def in_sheet(cable, neighbours, start=0, first=0, records=()):
    """The bytes of a sheet in hexadecimal: these records, then the neighbours."""
    count = len(records)
    links = [count + 2 + i for i in range(len(neighbours))]
    links[-1:] = [0] * len(links[-1:])
    text = "".join(f"{field:08x}" for field in cable) + f"{start:04x}{first:04x}"
    if neighbours:
        text += f"{count + 1:04x}"
    rest = [[offset % 65536, depth, link] for (offset, depth), link in zip(neighbours, links)]
    return text + "".join(f"{x:04x}" for record in list(records) + rest for x in record)


def share(cable, neighbours, minutes):
    """G in millionths, in metres and seconds as document 000 writes it: one source for
    each cable, and its image above ground."""
    d, l, s, k, w, fast, slow, _ = cable
    t = 60 * minutes
    diameter, depth, diffusivity = mpf(d) / 10**4, mpf(l) / 10**3, mpf(s or 500) / 10**9
    integral = e1(diameter**2 / (16 * t * diffusivity)) - e1(depth**2 / (t * diffusivity))
    steady = 2 * log(4 * depth / diameter)
    for offset, below in neighbours:
        x, y = mpf(offset) / 10**3, mpf(below) / 10**3
        near, image = x**2 + (depth - y) ** 2, x**2 + (depth + y) ** 2
        integral += e1(near / (4 * t * diffusivity)) - e1(image / (4 * t * diffusivity))
        steady += log(image / near)
    w, k = mpf(w) / MILLION, mpf(k) / MILLION
    alpha = 1 - w * exp(-mpf(fast) * t / MILLION) - (1 - w) * exp(-mpf(slow) * t / MILLION)
    return (1 - k + k * integral / steady) * alpha * MILLION


def only(*expected):
    """Whether the whole numbers of an answer are these."""
    return lambda wholes: wholes == list(expected)


def share_question():
    (cable, neighbours), minutes = any_trench(), pick(1, 2880)
    asked = ["share", in_sheet(cable, neighbours), minutes]
    return asked, [share(cable, neighbours, minutes)], only()


def any_day():
    """Loads of any kind, or a plateau and a short, slightly higher peak elsewhere."""
    if random.random() < 0.5:
        return [pick(0, 4000) for _ in range(24)]
    peak, long, short = pick(8, 4000), random.randint(3, 12), random.randint(1, 2)
    plateau = random.randint(peak - peak // 8, peak - 1)
    start = random.randrange(24)
    later = start + long + random.randint(1, 23 - long - short)
    hours = [random.randint(0, plateau // 2) for _ in range(24)]
    for i in range(long):
        hours[(start + i) % 24] = plateau
    for i in range(short):
        hours[(later + i) % 24] = peak
    return hours


def heating_sum(squares, g, reference):
    """As document 01 writes it, for one reference hour; the squares are over the highest."""
    y = [squares[(reference - i) % 24] for i in range(6)]
    near = sum(y[i] * (g[i + 1] - g[i]) for i in range(6))
    return near + sum(squares) / 24 * (MILLION - g[6])


# Of each day, whether it is hottest at another hour than those of the highest load.
elsewhere = []


def factor_question():
    """T is the largest of the 24 sums, and the hour told has it or one as good as equal."""
    (cable, neighbours), hours = any_trench(), any_day()
    if max(hours) == 0:
        hours[3] = 5
    highest = max(hours)
    squares = [mpf(hour) ** 2 / highest**2 for hour in hours]
    g = [mpf(0)] + [share(cable, neighbours, 60 * j) for j in range(1, 7)]
    sums = [heating_sum(squares, g, reference) for reference in range(24)]
    largest = max(sums)
    at_highest = max(sums[i] for i in range(24) if hours[i] == highest)
    elsewhere.append(largest - at_highest > EQUAL)

    def right(wholes):
        return len(wholes) == 1 and largest - sums[wholes[0]] <= EQUAL

    return ["factor", in_sheet(cable, neighbours)] + hours, [largest], right


def current_question():
    cable, neighbours = any_trench()
    while True:
        h, r = pick(0, 200), pick(1, 200)
        if h * h <= 100 * r:
            break
    minutes = pick(1, 2880)
    g = share(cable, neighbours, minutes)
    preload = mpf(h) ** 2 / 10**4
    amperes = cable[7] * sqrt(preload + (mpf(r) / 100 - preload) / (g / MILLION))
    return ["current", in_sheet(cable, neighbours), h, r, minutes], [amperes, g], only()


def rise_question():
    """A chain of any length through shuffled records, the others filled at random; then the
    neighbours."""
    cable, neighbours = any_trench()
    n = random.randint(0, 48 - len(neighbours))
    chain = random.sample(range(1, n + 1), random.randint(0, n))
    minutes = sorted(random.sample(range(1, 2881), len(chain)), reverse=True)
    records = [[random.randint(0, 65535) for _ in range(3)] for _ in range(n)]
    start = before = pick(0, 4000)
    total, changes = mpf(start) ** 2 * MILLION, 0
    for record, then, link in zip(chain, minutes, chain[1:] + [0]):
        amperes = pick(0, 4000)
        records[record - 1] = [then, amperes, link]
        change = amperes**2 - before**2
        total += change * share(cable, neighbours, then)
        changes += abs(change)
        before = amperes
    first = chain[0] if chain else 0
    asked = ["rise", in_sheet(cable, neighbours, start, first, records)]
    right = only(changes, cable[7], len(chain), len(neighbours))
    return asked, [total / mpf(cable[7]) ** 2], right


questions = [share_question() for _ in range(COUNT)]
for make in (factor_question, current_question, rise_question):
    questions += [make() for _ in range(COUNT // 4)]
text = "".join(" ".join(map(str, asked)) + "\n" for asked, _, _ in questions)
answers = subprocess.run(
    [PROGRAM], input=text, capture_output=True, text=True, check=True
).stdout.splitlines()
assert len(answers) == len(questions)
apart, relative = {}, {}
for (asked, reals, right), answer in zip(questions, answers):
    words = answer.split()
    assert right([int(x) for x in words[len(reals):]]), (asked, answer)
    kind = asked[0]
    for word, real in zip(words, reals):
        off = abs(mpf(word) - real)
        apart[kind] = max(apart.get(kind, 0), off)
        if real != 0:
            relative[kind] = max(relative.get(kind, 0), off / abs(real))
for kind in apart:
    print(f"{kind}: {float(apart[kind]):.1e} absolute, {float(relative[kind]):.1e} relative")
print(f"{sum(elsewhere)} of {len(elsewhere)} days are hottest at another hour than their highest")
