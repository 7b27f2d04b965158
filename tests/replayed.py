#!/usr/bin/env python3
"""Compares ./replay with the second voice, samples/check.py, byte for byte, with --echo and without.

    tests/replayed.py samples              the samples, and their .answers
    tests/replayed.py random SEED [FILES [LINES]]
                                           fresh random files: good lines, bad ones of every kind, odd line ends

The status must be 2 if some line is not understood, else 0. A file on which they differ is kept in target/.
And a table that finished calls have made, from fresh or from one that was judged good, must be judged good; where plain
and read ask the same on it, one right behind the other, their answers must be the same; and what is left is 0 or more
where fresh, below 0 where old, and in its range. A step changes nobody's answer on such a table but of whom it enters.
All is told by the replay program's answers alone.
"""
import collections
import pathlib
import random
import re
import subprocess
import sys

TOP = pathlib.Path(__file__).resolve().parent.parent
sys.path.insert(0, str(TOP / 'samples'))
sys.dont_write_bytecode = True
import check  # noqa: E402

MARK = b'\xef\xbb\xbf'
WORDS = b'fresh set read serve plain delete evict hand cut list poke dump slots counters items judge'.split()
WORDS += b'plan move enter'.split()
WORDS += [b'standing']  # no word of the language any more
WHOLE = 1024 + 7  # the most stores that a call can have to make: an evict that clears every place of the largest table
PAIRS = {True: [0, 0], False: [0, 0]}  # plain beside read, on good tables and on others: all, the unlike
VERDICTS = dict.fromkeys(['yes', *('no %d' % n for n in range(1, 9))], 0)
FAR = 2**62  # minutes overdue; beyond them the answer stays the same
LEFT = dict.fromkeys(['the whole limit', 'limit 0', '1', '0', '-1', '-2^62 + 1', '-2^62'], 0)  # answers that tell so
STEPS = collections.Counter()  # the answers of plan, move and enter
AROUND = {True: 0, False: 0}  # the same question before and after a step, on good tables and on others
RETIRED = dict.fromkeys(['read', 'serve', 'plain', 'set', 'delete'], 0)  # of a standing entry, and not refused


def run(command, data):
    done = subprocess.run(command, input=data, stdout=subprocess.PIPE, stderr=subprocess.PIPE)
    return done.stdout, done.returncode, done.stderr


def unlike(echoed):
    """Counts verdicts, pairs and steps; the first no, or pair with two answers, on a good table, if there is one."""
    clean, earlier, before = False, None, None
    for line in re.findall(rb'^\d+: (.*) -> (.*)$', echoed, re.M):
        call, answer = line[0].split(b' '), line[1]
        if earlier and earlier[0] == call and call[0] == b'read' and before[1] in (b'moved', b'entered'):
            AROUND[clean] += 1
            if clean and earlier[1] != answer and (before[1] == b'moved' or before[0][3] != call[1]):
                return 'a step changes an answer: %r, and %r is %r' % (b' '.join(before[0]), b' '.join(call), answer)
        if before and {before[0][0], call[0]} == {b'read', b'plain'} and before[0][1:] == call[1:]:
            PAIRS[clean][0] += 1
            PAIRS[clean][1] += before[1] != answer
            if clean and before[1] != answer:
                return 'read and plain differ: %r -> %r, and then %r' % (b' '.join(before[0]), before[1], answer)
        if call[0] == b'judge':
            VERDICTS[answer.rpartition(b' ')[0].decode() or 'yes'] += 1
            if clean and answer != b'yes':
                return 'a table that finished calls have made is judged %r' % answer
        if answer in (b'yes', b'fresh'):
            clean = True
        elif answer in (b'poked', b'loaded') or call[0] == b'cut' and int(call[1]) < WHOLE:
            clean = False
        earlier, before = before, (call, answer)
        if call[0] in (b'plan', b'move', b'enter'):
            moves = b'%d moves' % (answer.count(b' ') // 3)
            STEPS[(call[0] + b': ' + (moves if answer.startswith(b'planned') else answer)).decode()] += 1
    return None


def badly_left(echoed):
    """Counts what is left; the first answer that tells it badly, if there is one."""
    for limit, answer in re.findall(rb'^\d+: (?:read|serve|plain) \d+ (\d+) \d+ -> (.*)$', echoed, re.M):
        told = re.fullmatch(rb'fresh \d+ (0|[1-9]\d*)|old (-[1-9]\d*)|ahead|absent|refused \d+', answer)
        if told and not told.lastindex:
            continue
        left, limit = int(told[told.lastindex]) if told else FAR, int(limit)
        if not -FAR <= left <= limit:
            return 'badly told, with limit %d: %r' % (limit, answer)
        edges = [left == limit, left == limit == 0, *(left == n for n in (1, 0, -1, 1 - FAR, -FAR))]
        for name, met in zip(LEFT, edges):
            LEFT[name] += met
    return None


def compare(name, data, answers=None):
    """The number of answer lines; ends the program at a difference."""
    for echo in [], ['--echo']:
        ours = run([TOP / 'replay', *echo, '-'], data)
        second = run([sys.executable, TOP / 'samples/check.py', *echo, '-'], data)
        status = 2 if re.search(rb'^line \d+: not understood', second[0], re.M) else 0
        wrong = None
        if ours[0] != second[0]:
            wrong = 'the replay program and check.py differ'
        elif answers is not None and not echo and ours[0] != answers:
            wrong = 'both differ from the .answers'
        elif ours[1] != status or second[1] != status:
            wrong = 'status %d, check.py %d, expected %d' % (ours[1], second[1], status)
        elif ours[2]:
            wrong = 'said on standard error: %r' % ours[2][:200]
        elif echo:
            wrong = unlike(ours[0]) or badly_left(ours[0])
        if wrong:
            kept = TOP / 'target/difference.calls'
            kept.write_bytes(data)
            print('%s%s: %s' % (name, ' with --echo' if echo else '', wrong))
            for n, (a, b) in enumerate(zip(ours[0].split(b'\n'), second[0].split(b'\n')), 1):
                if a != b:
                    print('line %d of the output:\n  replay   %r\n  check.py %r' % (n, a[:200], b[:200]))
                    break
            print('the file is kept: %s' % kept)
            sys.exit(1)
    return ours[0].count(b'\n')


class Day:
    """Lines for one small table: few animals, so that they are often held, and in each other's way."""

    def __init__(self, seed):
        self.r = random.Random(seed)
        self.crowd = self.one_in(2)  # a table that is nearly full, so that plans have moves
        self.pool = [self.r.choice([n + 1, self.r.getrandbits(64), self.of_any_length(), self.of_any_length()])
                     for n in range(120 if self.crowd else self.r.choice([6, 30, 90]))]
        self.now = self.r.choice([0, 100, 2**40])
        self.last, self.issues = self.pool[0], {}  # the animal of the last set; each animal's last minute of issue
        self.coming = []  # the calls that are to follow
        self.far = 0  # how many plans are to follow on a table where they have many moves
        self.there = check.Replay()  # the table as it stands after the lines so far
        # With cuts most calls are refused 8, so some days have pokes alone, to reach what comes after 8.
        self.cuts, self.pokes = self.r.choice([(False, False), (False, True), (not self.crowd, True)])
        self.before = not self.one_in(3)  # a cabinet from before version 4, with standing permissions
        self.shape()

    def shape(self):
        r = self.r
        self.n, self.v, self.m = 2 << r.randrange(4), r.choice([1, 2, 3, 8]), r.choice([1, 3, 9, 70, 70])
        if self.crowd:
            self.n = r.choice([4, 8, 16])
            self.m = 4 * self.n + r.choice([-2, 1, 3])

    def begun(self):
        """The line that makes a table; a crowd comes at once."""
        came = self.r.sample(self.pool, min(len(self.pool), 4 * self.n)) if self.crowd else []
        return [['fresh', 4 * self.n, self.v, 4 * self.m], *(['set', one, 1, self.now, self.now] for one in came)]

    def one_in(self, n):
        return self.r.randrange(n) == 0

    def number(self):
        r = self.r
        return r.choice([0, 1, r.randrange(50), r.randrange(2**32), 2**32 - 1, 2**32, r.getrandbits(64), 2**64 - 1])

    def of_any_length(self):
        """Of one to eight bytes: scattered, at an edge, or with bytes of 0. A hash may take such another way."""
        r, n = self.r, self.r.randrange(1, 9)
        edge = min(256**n + r.choice([-1, 0, 1]), 2**64 - 1)
        holes = int.from_bytes(bytes(r.choice([0, r.randrange(256)]) for _ in range(n)), 'little')
        return r.choice([r.getrandbits(8 * n), r.getrandbits(8 * n), edge, holes]) or 1

    def animal(self):
        if self.one_in(5):
            return self.last
        return 0 if self.one_in(60) else self.of_any_length() if self.one_in(20) else self.r.choice(self.pool)

    def minute(self):
        self.now += self.r.randrange(40)
        if self.one_in(60):
            return self.r.choice([2**64 - 1, 2**64 - 2, self.r.getrandbits(64)])
        return max(0, self.now - self.r.randrange(3000)) if self.one_in(4) else self.now

    def limit(self):
        return self.r.choice([0, 30, 720, 720, 720, 10080, 10081, self.number() if self.one_in(9) else 100])

    def length(self, good):
        return self.number() if self.one_in(30) else good + (self.one_in(15) and self.r.choice([-1, 1, 4]))

    def issued(self, animal, now):
        """Before now, now, or after it; often about the minute of the animal's last set, which it mostly holds."""
        r = self.r
        if self.one_in(20):
            return self.number()
        if animal in self.issues and not self.one_in(3):
            return min(max(0, self.issues[animal] + r.choice([-1, -1, 0, 1])), 2**64 - 1)
        late = r.choice([0, 0, 0, r.randrange(60), r.randrange(60), r.randrange(3000), -1, now - r.randrange(3)])
        return min(max(0, now - late), 2**64 - 1)

    def inputs(self):
        """What a set takes, and a step too."""
        animal, now = self.animal(), self.minute()
        issued = self.issued(animal, now)
        now = now if self.one_in(5) else max(issued, now)
        return [animal, self.r.choice([0, 1, 2, 3, 2**32 - 1]), issued, now]

    def noted(self, call):
        """The call, of an animal that it may store, and that is asked for later."""
        animal, _, issued, now = call[-4:]
        self.last = animal or self.last
        if issued <= now < 2**64 - 1:
            self.issues.pop(animal, None)
            self.issues[animal] = issued  # the last to be set stands last
        return call

    def set(self):
        return self.noted(['set', *self.inputs()]) + ['standing'] * self.one_in(50)  # not understood, since version 4

    def write(self):
        """A set, delete or evict."""
        kind = self.r.randrange(10)
        return self.set() if kind < 7 else ['delete', self.animal()] if kind < 8 else ['evict']

    def lately(self):
        """An animal that was set lately: she is often held."""
        return self.r.choice(list(self.issues)[-8:] or self.pool)

    def ask(self):
        """A serve, or the first of a pair of read and plain: the next call asks the same of the other."""
        animal, limit, now = self.animal(), self.limit(), self.minute()
        if self.issues and not self.one_in(3):
            animal = self.lately()
            if not self.one_in(3):  # about a turn of the answer: her first or last fresh minute, the least left
                turn = self.r.choice([0, limit]) + self.r.choice([0, 0, FAR, 2 * FAR]) + self.r.choice([-1, 0, 1])
                now = min(max(0, self.issues[animal] + turn), 2**64 - 2)
            elif self.one_in(4):
                now = 2**64 - self.r.choice([1, 2, 2])
        if self.one_in(3):
            return ['serve', animal, limit, now]
        first, second = self.r.sample(['read', 'plain'], 2)
        self.coming = [[second, animal, limit, now]]
        return [first, animal, limit, now]

    def well_shaped(self):
        return check.good_shape(*(len(getattr(self.there.table, run)) for run in check.HOLDS))

    def led_to(self, slot):
        """The animal that the slot's word leads to."""
        t = self.there.table
        return t.items[t.slots[slot] % 65536 * 4] or 1

    def far_apart(self):
        """A large table whose slots are taken by any tags, all but one or two: a way to these is long."""
        r, n = self.r, self.r.choice([32, 64, 128])
        slots = [r.randrange(1, 256) << 16 | r.randrange(8) for _ in range(4 * n)]
        for slot in r.sample(range(4 * n), r.choice([1, 2])):
            slots[slot] = 0
        items = [word for _ in range(5) for word in (r.choice(self.pool), 1, 1, 1)] + [0] * 12
        self.far = 5
        return [['slots', *slots], ['counters', *[0] * r.choice([1, 8, 100])], ['items', *items]]

    def planned(self, inputs):
        """The numbers of the plan; none where it is refused."""
        try:
            return [int(number) for number in self.there.table.plan(*inputs).split(' ')[1:]]
        except check.Refused:
            return []

    def in_steps(self):
        """A plan, and its steps. Other calls come between and overtake some; or it is compared with a set."""
        r, back = self.r, self.loads(check.HOLDS)
        wanted = [self.inputs() for _ in range(r.choice([1, 4]))]
        numbers, inputs = max([(self.planned(one), one) for one in wanted], key=lambda both: len(both[0]))
        lines = [['plan', *inputs]]
        if not numbers:
            return lines if self.well_shaped() else lines + self.begun()
        steps = [['move', *numbers[at:at + 3], *inputs] for at in range(2, len(numbers), 3)]
        steps.append(self.noted(['enter', *numbers[:2], *inputs]))
        if self.one_in(5):
            return [*lines, *steps, ['dump'], *back, ['set', *inputs], ['dump']]
        for step in steps:
            lines += [self.between(inputs) for _ in range(r.choice([0, 0, 0, 1, 2]))]
            if self.one_in(8):  # other inputs than planned, of the same animal or of another
                step[-4:] = self.inputs() if self.one_in(2) else [inputs[0], *self.inputs()[1:]]
            asked = [['read', self.led_to(step[1]), 720, self.now]] if step[0] == 'move' and self.one_in(2) else []
            lines += [*asked, *[step] * r.choice([0, 2, *[1] * 18]), *asked]  # now and then left out, or made twice
        return lines + r.choice([[['judge']], [['judge']], [['plan', *inputs]], []])

    def between(self, inputs):
        """A call between the steps of these inputs."""
        calls = [['serve', self.lately(), 720, self.minute()], ['judge'], ['plan', *inputs], ['set', *inputs], ['dump']]
        return self.r.choice(calls) if self.one_in(2) else self.write()

    def a_step(self):
        """A step that would be made, or is wrong in one way, or meets a fault; or one of any numbers."""
        r, t, inputs = self.r, self.there.table, self.inputs()
        inputs[0] *= not self.one_in(20)
        if not self.well_shaped() or self.one_in(8):
            numbers = [r.choice([self.number(), r.randrange(1 + len(t.slots))]) for _ in range(3)]
            return [r.choice([['move', *numbers, *inputs], ['enter', *numbers[:2], *inputs]])]
        if self.pokes and self.one_in(8):
            return self.damaged_source(inputs)
        lines = self.an_enter(inputs) if self.one_in(2) else self.a_move(inputs)
        changes = r.choice([self.hindrance(inputs[0]), self.fault(t)]) if self.pokes and self.one_in(2) else []
        back = [(run, index, getattr(t, run)[index]) for run, index, _ in reversed(changes)]
        return [*(['poke', *change] for change in changes), *lines, *(['poke', *change] for change in back)]

    def hindrance(self, animal):
        """An odd counter and a damaged word, or one of them; half of the time hers."""
        r, t = self.r, self.there.table
        counter, slot = r.randrange(len(t.counters)), r.randrange(len(t.slots))
        if self.one_in(2):
            counter, slot = t.counter_of(animal), r.choice(t.home_slots(animal))
        both = [('counters', counter, 2 * r.randrange(2**31) + 1), ('slots', slot, r.randrange(1, 2**16))]
        return r.choice([both, both[:1], both[1:]])

    def an_enter(self, inputs):
        r, t, hers = self.r, self.there.table, self.there.table.home_slots(inputs[0])
        vacant = [p for p in range(t.m) if t.items[4 * p] == 0]
        free = [s for s in hers if t.slots[s] == 0]
        right = [r.choice(vacant or [0]), r.choice(free or hers)]
        free = [s for s, word in enumerate(t.slots) if word == 0]
        wrong = [[t.m, r.choice(t.live() or [0])], [len(t.slots), r.choice(hers), r.choice(free or hers)]]
        return [self.noted(['enter', *self.slipped(right, wrong), *inputs])]

    def a_move(self, inputs):
        """One is asked for before and after it."""
        r, t, slot = self.r, self.there.table, self.r.randrange(len(self.there.table.slots))
        words = {s: word for s, word in enumerate(t.slots) if word != 0 and not t.damaged(word)}
        free = [s for s, word in enumerate(t.slots) if word == 0]
        if free and self.one_in(12):
            words = {r.choice(free): 0}  # as if a free word were an entry of tag 0
        ways = [[s, word >> 16, d] for s, word in words.items() for d in free if d // 4 == t.other(word >> 16, s // 4)]
        if not ways:
            return [['move', slot, t.slots[slot] >> 16, r.choice(free or [0]), *inputs]]
        right = r.choice(ways)
        beside = 4 * (right[2] // 4) + r.randrange(4)
        wrong = [[len(t.slots), slot], [0, right[1] ^ 4], [len(t.slots), slot, right[0], beside, r.choice(free)]]
        asked = ['read', r.choice([self.led_to(right[0]), self.lately()]), 720, self.now]
        return [asked, ['move', *self.slipped(right, wrong), *inputs], asked]

    def slipped(self, right, wrong):
        """The right numbers, or with a wrong one in the place of one; that may be the right one, if it were cut."""
        r, at, numbers = self.r, self.r.randrange(len(right)), list(right)
        if not self.one_in(3):
            longer = right[at] + 2**r.choice([8, 16, 32, 62])
            numbers[at] = r.choice([*wrong[at], longer, longer, right[at] ^ 1 << r.randrange(8), self.number()])
        return numbers

    def damaged_source(self, inputs):
        """A slot gets a damaged word, and a move from there fails by that alone; then it is put right again."""
        r, t = self.r, self.there.table
        source, tag = r.randrange(len(t.slots)), r.randrange(1, 256)
        word = r.choice([r.randrange(1, 2**16), r.randrange(256, 2**16) << 16, 256 << 16, tag << 16 | t.m])
        others = [s for s in range(4 * t.n) if s // 4 == t.other(word >> 16, source // 4)]
        destination = r.choice([s for s in others if t.slots[s] == 0] or others)
        strangers = [a for a in self.pool if source not in t.home_slots(a)]
        inputs[0] = r.choice(strangers or [inputs[0]])
        return [['poke', 'slots', source, word], ['move', source, word >> 16, destination, *inputs],
                ['poke', 'slots', source, t.slots[source]]]

    def loads(self, runs, changes=()):
        """The lines that load these runs as they stand, with some words changed."""
        now = {run: list(getattr(self.there.table, run)) for run in runs}
        for run, index, word in changes:
            now[run][index] = word
        return [[run, *words] for run, words in now.items()]

    def retired(self):
        """Some who are held get the stamp of a standing permission, by pokes or a loaded run; one is asked for."""
        r, t = self.r, self.there.table
        places = r.sample(t.live(), min(len(t.live()), r.choice([1, 1, 4])))
        marks = [('items', 4 * p + 2, check.RETIRED_MARK - self.one_in(6)) for p in places]  # one less is a minute
        made = [['poke', *mark] for mark in marks] if self.one_in(2) else self.loads(['items'], marks)
        if self.one_in(3):
            made.append(['poke', 'items', 4 * places[0] + 3, 0])  # she was not here lately
        her = self.last = t.items[4 * places[0]]
        asked = [her, self.limit(), r.choice([0, self.minute(), self.minute(), 2**64 - 2])]
        self.issues[her] = self.issues.pop(her, self.now)
        now = self.minute()
        line = ['set', her, r.randrange(4), r.choice([0, now // 2, max(0, now - 1), now]), now]
        after = r.choice([[], [line], [line], [['dump']], [['evict']], [['delete', her]]])
        return [*made, ['judge'], ['serve', *asked], ['read', *asked], ['plain', *asked], *after]

    def a_run(self):
        """A run of any length and any words; now and then a word more than the program holds."""
        r, run = self.r, self.r.choice(list(check.HOLDS))
        if self.one_in(12):
            return [run] + [0] * (check.HOLDS[run] + r.randrange(2))
        good = len(getattr(self.there.table, run))
        length = r.choice([0, 1, 4, 8, 12, good, good, max(0, good + r.choice([-1, 1, 4])), 2 * good])
        number = r.choice([lambda: 0, lambda: 0, lambda: r.randrange(3), lambda: r.getrandbits(32), self.number])
        return [run] + [number() for _ in range(length)]

    def fault(self, t):
        """Words to change, so that a condition of the judge breaks, 2 to 8, if somebody is there to break it."""
        r, condition = self.r, self.r.choice([2, 3, 4, 4, 5, 5, 6, 6, 6, 7, 8, 8])
        live, taken = t.live(), [s for s, word in enumerate(t.slots) if word != 0]
        vacant = [p for p in range(t.m) if p not in live]
        slot, place, tag = r.randrange(len(t.slots)), r.randrange(t.m), r.randrange(1, 256)
        if condition == 2:
            return [('slots', slot, r.choice([place or 1, tag << 24 | place, tag << 16 | t.m, 2**32 - 1]))]
        if condition == 3:
            return [('counters', r.randrange(len(t.counters)), 2 * r.randrange(2**31) + 1)]
        if condition == 7:
            return [('items', 4 * place + 1, 2**32 << r.choice([0, r.randrange(32)]))]
        if condition == 4 and vacant and self.one_in(3):  # a vacant place, as if 0 were an animal
            return [('slots', r.choice(t.home_slots(0)), check.tag_of(0) << 16 | r.choice(vacant))]
        if condition == 8 and vacant:
            return [('items', 4 * r.choice(vacant) + r.randrange(1, 4), r.choice([1, 2**32 - 1, 2**64 - 1]))]
        if not live or not taken:
            return []
        her, old = r.choice(live), r.choice(taken)
        word = check.tag_of(t.items[4 * her]) << 16
        free = [s for s in t.home_slots(t.items[4 * her]) if t.slots[s] == 0]
        if condition == 4:  # another tag, any tag and place, mostly another bucket, another animal or none
            return r.choice([[('slots', old, t.slots[old] ^ 65536 << r.randrange(8))],
                             [('slots', slot, tag << 16 | place)],
                             [('slots', old, 0), ('slots', slot, t.slots[old])],
                             [('items', 4 * her, r.choice([0, *self.pool]))]])
        if condition == 5:  # no slot, two of them, a place that nobody was given
            return r.choice([[('slots', old, 0)], *([('slots', s, word | her)] for s in free),
                             *([('items', 4 * p, self.lately())] for p in vacant[:2])])
        if condition == 6 and free and vacant:
            at = r.choice(vacant)
            hers = [('items', 4 * at + n, t.items[4 * her + n]) for n in range(4)]
            return [*hers, ('slots', r.choice(free), word | at)]
        return []

    def faults(self):
        """One or two faults, by pokes or by loaded runs, and the verdict; mostly they are mended then."""
        t = self.there.table
        if t.judge().startswith('no 1') or t.judge() != 'yes' and self.one_in(2):
            return self.begun() + [self.set() for _ in range(self.m // 2)] * (not self.crowd)
        changes = self.fault(t) + (self.fault(t) if self.one_in(3) else [])
        runs = sorted({run for run, _, _ in changes})
        back = [(run, index, getattr(t, run)[index]) for run, index, _ in reversed(changes)]
        made, mended = self.loads(runs, changes), self.loads(check.HOLDS)
        between = [self.write() for _ in range(self.r.choice([0, 0, 0, 1, 4]))]
        if self.one_in(2):
            made = [['poke', *change] for change in changes]
        if self.one_in(2) and not between:
            mended = [['poke', *change] for change in back]
        if between:
            made += [['judge'], *between]
        return [*made, ['judge']] if self.one_in(8) else [*made, ['judge'], *mended, ['judge']]

    def call(self):
        r, kind = self.r, self.r.randrange(100)
        if self.coming:
            return self.coming.pop(0)
        if self.one_in(14):
            return ['judge']
        if self.one_in(70):
            self.coming = [*self.loads(check.HOLDS), ['judge']]  # nothing has changed: as good as it was
            return ['dump']
        if self.before and self.one_in(40) and self.there.table.live():
            self.coming = self.retired()
            return self.coming.pop(0)
        if self.far or self.pokes and self.one_in(40):
            self.coming = self.in_steps() if self.far > 1 else self.begun() if self.far else self.far_apart()
            self.far = max(0, self.far - 1)
            return self.coming.pop(0)
        if self.one_in(2 if self.crowd else 5):
            self.coming = self.a_step() if self.one_in(2) else self.in_steps()
            return ['cut', r.randrange(9)] * self.one_in(20) + self.coming.pop(0)  # not understood
        if self.pokes and self.one_in(60):
            self.coming = [['judge']] if self.one_in(2) else [['judge'], *self.begun()]
            return self.a_run()
        if self.pokes and self.one_in(12):
            self.coming = self.faults()
            return self.coming.pop(0)
        if kind < 40:
            return self.write()
        if kind < 72:
            return self.ask()
        if kind < 78:
            return ['list', r.choice([0, 20 * self.m, 19, 81920, r.randrange(900)])]
        if kind < 81:
            return ['dump']
        if kind < 84:
            return ['hand', r.choice([0, self.m - 1, self.m, self.number()])]
        if kind < 85 or kind < 88 and self.cuts:
            self.shape()
            self.coming = self.begun()[1:]
            return ['fresh', self.length(4 * self.n), self.length(self.v), self.length(4 * self.m)]
        if kind < 94:
            self.coming = [['judge']] * self.one_in(2)
            return ['cut', r.choice([0, 1, 2, 3, 5, 7, 11, 30, self.number()]) if self.cuts else WHOLE, *self.write()]
        if not self.pokes:
            return self.set()
        self.coming = [['judge']] * self.one_in(2)
        run = r.choice(['slots', 'slots', 'counters', 'items'])
        good = {'slots': 4 * self.n, 'counters': self.v, 'items': 4 * self.m}[run]
        if run == 'items' and self.one_in(2):
            return ['poke', run, 4 * r.randrange(self.m), self.lately()]  # a twin, if she is held
        return ['poke', run, r.randrange(good + 1), 0 if self.one_in(3) else self.number()]

    def digits(self, number):
        zeros = self.r.choice([1, 2, 30, 400]) if self.one_in(25) else 0
        return b'0' * zeros + b'%d' % number

    def large(self):
        return self.r.choice([b'18446744073709551616', b'99999999999999999999', b'4294967296', b'81921', b'9' * 40,
                              b'00' + b'8' * 21])

    def no_number(self):
        return self.r.choice([b'-1', b'+1', b'1x', b'x1', b'0x10', b'1.5', b'1,000', b'1_0', b'--', b'\xd9\xa1',
                              b'\xef\xbc\x91'])

    def misspelt(self, word):
        r, at = self.r, self.r.randrange(len(word) + 1)
        return r.choice([word.upper(), word.capitalize(), word[:at], word[:at] + word[at:at + 1] + word[at:],
                         word + b's', word + b'\x00', MARK + word, r.choice(WORDS), b'judge', b'office', b'\xff\xfe',
                         word + word])

    def spoilt(self, words):
        """The words of a line with one or two slips."""
        r = self.r
        for _ in range(r.choice([1, 1, 1, 2])):
            at, kind = r.randrange(len(words) or 1), r.randrange(8)
            if kind == 0 or not words:
                words = words[:at]
            elif kind == 1:
                words = words[:at] + words[at + 1:]
            elif kind == 2:
                words = words + [self.digits(self.number())] * r.choice([1, 1, 2, 9])
            elif kind == 3:
                words = words + [r.choice(WORDS + [b'now', self.no_number(), self.large()])]
            elif kind == 4:
                words = words[:at] + [r.choice(WORDS), *words[at:]]
            elif words[at].isdigit():
                other = r.choice([self.large(), self.large(), self.no_number(), r.choice(WORDS)])
                words = words[:at] + [other] + words[at + 1:]
            else:
                words = words[:at] + [self.misspelt(words[at])] + words[at + 1:]
        return words

    def line(self):
        """The next line. It is answered here too, so that the table is known."""
        line, t = self.bare_line(), self.there.table
        marked = [t.items[4 * p] for p in t.live() if t.items[4 * p + 2] == check.RETIRED_MARK]
        try:
            words = check.words_of(line)
            if words:
                call = check.understood(words)
                self.there.answer(call)
                if call[0] in RETIRED:
                    RETIRED[call[0]] += call[1] in marked
        except (check.NotUnderstood, check.Refused):
            pass
        return line

    def bare_line(self):
        r = self.r
        if self.one_in(14):
            return r.choice([b'', b' ', b'\t \t', b'#', b'# set 1 2 3 4', b'  # \xff\x00', b'#' * 300])
        if self.one_in(90):
            return bytes(r.choice(b'0123456789 \t#setcut\x00\x0b\x0c\r\xff\xc2\xa0') for _ in range(r.randrange(60)))
        words = [self.digits(w) if isinstance(w, int) else w.encode() for w in self.call()]
        if self.one_in(8):
            words = self.spoilt(words)
        between = [b' '] * 12 + [b'\t', b'  ', b' \t ', b' ' * 90]
        text = b''.join(r.choice(between) + w if at else w for at, w in enumerate(words))
        if self.one_in(12):
            text = r.choice(between) + text
        if self.one_in(12):
            text += r.choice([b' ', b'\t', b'#', b' # the end', b'\r', b'\r ', b' \r', b'\x0c', b'\xc2\xa0'])
        return text

    def text(self, lines):
        r = self.r
        ends = r.choice([[b'\n'], [b'\r\n'], [b'\n', b'\n', b'\r\n']])
        if not self.one_in(6):
            self.coming = self.begun()
        parts = [r.choice([b'', b'', MARK]), self.line()]
        for _ in range(lines):
            parts += [r.choice(ends), self.line()]
        return b''.join(parts) + r.choice([b'\n', b'\r\n', b'', b'\r', b'\n\n', b'\n\r', b'#'])


def samples():
    files = sorted((TOP / 'samples').glob('*.calls'))
    for path in files:
        compare(path.name, path.read_bytes(), path.with_suffix('.answers').read_bytes())
    print('%d samples' % len(files))
    return not files


def every_turn():
    """Each call asks at every turn of the answer, and a minute before and after it. The last animal is retired."""
    stamps = {1: 0, 2: 100, 3: 2**64 - 2, 4: 50}
    lines = ['fresh 16 4 16', *('set %d 1 %d %d' % (animal, stamp, stamp) for animal, stamp in stamps.items())]
    lines += ['poke items 14 %d' % check.RETIRED_MARK, 'poke items 15 0', 'judge']
    for animal, stamp in stamps.items():
        for limit in 0, 1, 720, 10080, 10081:
            turns = {stamp + age + more for age in (0, limit) for more in (0, FAR, 2 * FAR)} | {2**64 - 2}
            for now in sorted({turn + beside for turn in turns for beside in (-1, 0, 1)}):
                if now not in range(2**64):
                    continue
                lines += ['%s %d %d %d' % (call, animal, limit, now) for call in ('serve', 'read', 'plain')]
    return '\n'.join(lines + ['dump']).encode()


def every_step():
    """Each slot to each slot, each tag, each place with each slot; some words are damaged and some counters odd."""
    table = ['slots 4063232 4063238 0 7 15138818 0 0 4063232 16318465 0 2686980 0 5636099 16777216 0 0',
             'counters 5 4 7 0', 'items 1 1 100 1 3 1 100 1 28 1 100 1 2 1 100 1 0 0 7 0 0 0 0 0']
    tags = [62, 62, 0, 0, 231, 0, 0, 62, 249, 0, 41, 0, 86, 256, 0, 0, 62]
    tried = ['move %d %d %d' % (source, tags[source], to) for source in range(17) for to in range(17)]
    tried += ['move 0 %d 14' % tag for tag in range(320)]
    tried += ['enter %d %d' % (place, slot) for place in range(8) for slot in range(17)]
    for more in 2**8, 2**16, 2**32, 2**48, 2**62, 2**63:  # what would be good if it were cut
        tried += ['move %d 62 14' % more, 'move 0 %d 14' % (62 + more), 'move 0 62 %d' % (14 + more)]
        tried += ['enter %d 5' % (4 + more), 'enter 4 %d' % (5 + more)]
    # 40 and 28 have buckets 1 and 2, and 28 is held; the buckets of 37 have damaged words, and its counter is odd.
    asked = [line + ' %d 1 110 110' % animal for animal in (40, 28, 37) for line in tried]
    return '\n'.join(line for one in asked for line in (*table, one, 'dump')).encode()


def every_length():
    """Each run at and about the edges of its length and of what the program holds, and the verdict on it."""
    lines = []
    for name, most in check.HOLDS.items():
        for length in 0, 1, 2, 3, 4, 5, 7, 8, 9, 12, 16, 1023, 1024, 1025, most // 2, most - 1, most, most + 1:
            lines += ['fresh 8 1 4', name + ' 0' * length, 'judge', 'set 1 1 1 1', 'plain 1 1 1', 'judge']
        lines += [name + ' 0' * (most + 1) + bad for bad in (' x', ' 18446744073709551616', ' 4294967296')]
    return '\n'.join(lines + ['dump']).encode()


def fresh_lines(seed, files, lines):
    edges = [b'', b'\n', b'\r', b'\r\n', b'#', b'd', b'dump', b'dump\r', b'\x00', MARK, MARK + b'\n', MARK + b'dump',
             MARK + MARK + b'dump', MARK[:1], MARK[:2] + b'dump', b'\n' + MARK + b'dump', b' ' + MARK + b'dump\n',
             b'dump' + MARK, b'plain 0 10081 1\nfresh 8 1 4\nplain 0 10081 1\ncut 1 plain 1 1 1', b'judge', b'slots',
             b'judge\nslots # 1\njudge\nslots' + b' 0' * 8 + b'\njudge\ncounters 0\njudge\nitems 0 0 0 0\njudge\ndump',
             b'plan 0 1 2 1\nmove 9 9 9 0 1 2 1\nenter 9 9 0 1 2 1\ncut 1 plan 1 1 1 1\ncut 9 enter 9 9 1 1 1 1',
             b'fresh 8 1 4\nset 1 1 1 1 standing\ncut 9 set 1 1 1 1 standing#\nset 1 1 1 standing\nread 1 1 1']
    for n, data in enumerate(edges):
        compare('edge %d' % n, data)
    compare('every turn', every_turn())
    compare('every length', every_length())
    compare('every step', every_step())
    VERDICTS.update(dict.fromkeys(VERDICTS, 0))
    STEPS.clear()
    LEFT.update(dict.fromkeys(LEFT, 0))  # of the random lines alone it is told what they met
    answers = sum(compare('seed %d file %d' % (seed, n), Day('%d %d' % (seed, n)).text(lines)) for n in range(files))
    print('seed %d: %d files of %d lines, %d lines of answers, no difference' % (seed, files, lines, answers))
    print('plain and read of the same: %d on good tables, all alike; %d on others, %d of them unlike'
          % (PAIRS[True][0], *PAIRS[False]))
    print('judged: ' + ', '.join('%s %d' % told for told in VERDICTS.items()))
    print('left: ' + ', '.join('%s %d' % told for told in LEFT.items()))
    print('steps: ' + ', '.join('%s %d' % told for told in sorted(STEPS.items())))
    print('asked before and after a step: %d on good tables, all alike; %d on others' % (AROUND[True], AROUND[False]))
    print('retired: ' + ', '.join('%s %d' % told for told in RETIRED.items()))
    if not PAIRS[True][0]:
        sys.exit('too few lines: plain and read were never compared')


if __name__ == '__main__':
    if sys.argv[1:] == ['samples']:
        sys.exit(samples())
    if len(sys.argv) < 3 or sys.argv[1] != 'random':
        sys.exit(__doc__)
    numbers = [int(n) for n in sys.argv[2:5]]
    fresh_lines(*numbers, *(30, 700)[len(numbers) - 1:])
