#!/usr/bin/env python3
"""The stores of each call one after the other, worked out from the customer's order alone, against a memory trace of the library.

    stores.py SCENARIOS MEMORY TRACE    the comparison; MEMORY is what stores.c wrote, TRACE the stores that lackey saw
    stores.py find N V MOVES SEED       looks for a herd whose last animal needs so many moves, and prints its calls

The order of a call comes from the trace, its answer and the words after it from MEMORY. With the cut forms at every k
the words are compared after each prefix, so each value is tied to its position; plan's steps have no cut form, and of
them only the words at the end are compared. For fresh and list any order will do.
"""
import copy
import random
import struct
import sys

NO_MINUTE = 2**64 - 1                                         # as now
RETIRED_MARK = 2**64 - 1                                      # as a stamp
WIDTH = {'slots': 4, 'counters': 4, 'items': 8, 'buffer': 1}  # bytes of a word
RUNS = ['slots', 'counters', 'items']
ROOM = {'slots': 64, 'counters': 8, 'items': 256, 'buffer': 64}


class Refusal(Exception):
    """A call's refusal number."""


# ---- The lent memory ------------------------------------------------------

class Table:
    """The words, the lengths that are lent, and the stores that a call makes."""

    def __init__(self, lengths):
        self.length = dict(zip(RUNS, lengths))
        self.word = {run: [int('a5' * WIDTH[run], 16)] * ROOM[run] for run in ROOM}
        self.buckets, self.places = lengths[0] // 4, lengths[2] // 4
        self.stores = []

    def good_lengths(self):
        """Of each run, whether its length is good."""
        s, c, i = (self.length[run] for run in RUNS)
        return [s in [4 * 2**e for e in range(1, 12)], 1 <= c <= 1024, i % 4 == 0 and 1 <= self.places <= 4096]

    def check_lengths(self):
        if not all(self.good_lengths()):
            raise Refusal(1)

    def check_items(self):
        if not self.good_lengths()[2]:
            raise Refusal(1)

    def put(self, run, index, value):
        self.word[run][index] = value
        self.stores.append((run, index, value))

    def count(self, counter):
        self.put('counters', counter, (self.word['counters'][counter] + 1) % 2**32)

    def item(self, place, part):
        return self.word['items'][4 * place + part]

    def damaged(self, slot):
        word = self.word['slots'][slot]
        return word != 0 and (not 1 <= word // 65536 <= 255 or word % 65536 >= self.places)


# ---- From an animal to its buckets ----------------------------------------

def tag_and_first(t, animal):
    h = 2166136261
    for byte in animal.to_bytes(8, 'little'):
        h = (h ^ byte) * 16777619 % 2**32
    return h // 2**24 or 1, h % t.buckets


def other(t, bucket, tag):
    spread = tag * 1540483477 % t.buckets
    return bucket ^ (spread if spread % 2 else spread + 1)


def counter_of(t, bucket, tag):
    return min(bucket, other(t, bucket, tag)) % t.length['counters']


def homes(t, animal):
    """The tag, the first bucket and the eight home slots, after refusals 8 and 4."""
    tag, first = tag_and_first(t, animal)
    if t.word['counters'][counter_of(t, first, tag)] % 2:
        raise Refusal(8)
    slots = [4 * bucket + n for bucket in (first, other(t, first, tag)) for n in range(4)]
    if any(t.damaged(slot) for slot in slots):
        raise Refusal(4)
    return tag, first, slots


def hit(t, animal):
    """The slot that holds the animal, or None."""
    tag, _, slots = homes(t, animal)
    for slot in slots:
        word = t.word['slots'][slot]
        if word // 65536 == tag and t.item(word % 65536, 0) == animal:
            return slot
    return None


# ---- The calls: each answers with its four numbers, refusal first; plan with its moves behind them ----

def check_asked(animal, limit, now):
    if animal == 0:
        raise Refusal(2)
    if limit > 10080 or now == NO_MINUTE:
        raise Refusal(3)


def judged(t, place, limit, now):
    permission, stamp = t.item(place, 1) % 2**32, t.item(place, 2)
    if now < stamp < RETIRED_MARK:
        return 0, 3, 0, 0
    left = -2**62 if stamp == RETIRED_MARK else max(limit - (now - stamp), -2**62)
    return (0, 1, permission, left) if left >= 0 else (0, 2, 0, left % 2**64)  # the bits that stores.c writes


def read(t, animal, limit, now):
    check_asked(animal, limit, now)
    slot = hit(t, animal)
    return (0, 0, 0, 0) if slot is None else judged(t, t.word['slots'][slot] % 65536, limit, now)


def plain_read(t, animal, limit, now):
    check_asked(animal, limit, now)
    for place in range(t.places):
        if t.item(place, 0) == animal:
            return judged(t, place, limit, now)
    return 0, 0, 0, 0


def serve(t, animal, limit, now):
    answer = read(t, animal, limit, now)
    if answer[1] == 1:
        t.put('items', 4 * (t.word['slots'][hit(t, animal)] % 65536) + 3, 1)
    return answer


def find(t, animal):
    if animal == 0:
        raise Refusal(2)
    slot = hit(t, animal)
    return (0, 0, 0, 0) if slot is None else (0, 9, t.word['slots'][slot] % 65536, 0)


def search(t, tag, first):
    """The slots on the way to the first free slot, that one last, and the visits."""
    level, visits = [(first, []), (other(t, first, tag), [])], 0
    for _ in range(5):
        deeper = []
        for bucket, way in level:
            visits += 1
            slots = range(4 * bucket, 4 * bucket + 4)
            if any(t.damaged(slot) for slot in slots):
                raise Refusal(4)
            for slot in slots:
                if t.word['slots'][slot] == 0:
                    return way + [slot], visits
            deeper += [(other(t, bucket, t.word['slots'][slot] // 65536), way + [slot]) for slot in slots]
        level = deeper
    raise Refusal(6)


def move(t, source, destination):
    word = t.word['slots'][source]
    counter = counter_of(t, source // 4, word // 65536)
    t.count(counter)
    t.put('slots', destination, word)
    t.put('slots', source, 0)
    t.count(counter)


def enter(t, place, slot, animal, permission, issued):
    tag, first = tag_and_first(t, animal)
    counter = counter_of(t, first, tag)
    t.count(counter)
    for n, part in enumerate([animal, permission, issued, 1]):
        t.put('items', 4 * place + n, part)
    t.put('slots', slot, tag * 65536 + place)
    t.count(counter)


def check_given(animal, issued, now):
    if animal == 0:
        raise Refusal(2)
    if now == NO_MINUTE or issued > now:
        raise Refusal(3)


def room(t, animal):
    """For an absent animal: the lowest vacant place, and what the search finds."""
    vacant = [place for place in range(t.places) if t.item(place, 0) == 0]
    if not vacant:
        raise Refusal(5)
    tag, first = tag_and_first(t, animal)
    return (vacant[0],) + search(t, tag, first)


def set_(t, animal, permission, issued, now):
    check_given(animal, issued, now)
    slot = hit(t, animal)
    if slot is not None:
        tag, first = tag_and_first(t, animal)
        place = t.word['slots'][slot] % 65536
        if issued < t.item(place, 2) < RETIRED_MARK:
            raise Refusal(11)
        t.count(counter_of(t, first, tag))
        for n, part in enumerate([permission, issued, 1], 1):
            t.put('items', 4 * place + n, part)
        t.count(counter_of(t, first, tag))
        return 0, 0, 0, 0
    place, way, visits = room(t, animal)
    for n in reversed(range(len(way) - 1)):
        move(t, way[n], way[n + 1])
    enter(t, place, way[0], animal, permission, issued)
    return 0, visits, len(way) - 1, 0


def plan(t, animal, permission, issued, now):
    check_given(animal, issued, now)
    if hit(t, animal) is not None:
        raise Refusal(12)
    place, way, _ = room(t, animal)
    moves = [(way[n], t.word['slots'][way[n]] // 65536, way[n + 1]) for n in reversed(range(len(way) - 1))]
    return (0, len(moves), place, way[0]) + tuple(number for record in moves for number in record)


def step_move(t, source, tag, destination, animal, permission, issued, now):
    check_given(animal, issued, now)
    homes(t, animal)
    if max(source, destination) >= t.length['slots']:
        raise Refusal(12)
    word = t.word['slots'][source]
    if word == 0 or t.damaged(source) or word // 65536 != tag:
        raise Refusal(12)
    if t.word['slots'][destination] != 0 or destination // 4 != other(t, source // 4, tag):
        raise Refusal(12)
    move(t, source, destination)
    return 0, 0, 0, 0


def step_enter(t, place, slot, animal, permission, issued, now):
    check_given(animal, issued, now)
    held, (_, _, slots) = hit(t, animal), homes(t, animal)
    if held is not None or place >= t.places or t.item(place, 0) != 0:
        raise Refusal(12)
    if slot not in slots or t.word['slots'][slot] != 0:
        raise Refusal(12)
    enter(t, place, slot, animal, permission, issued)
    return 0, 0, 0, 0


def take_away(t, slot, place, counter):
    t.count(counter)
    t.put('slots', slot, 0)
    for n in (0, 1, 2, 3):
        t.put('items', 4 * place + n, 0)
    t.count(counter)


def delete(t, animal):
    if animal == 0:
        raise Refusal(2)
    slot = hit(t, animal)
    if slot is None:
        raise Refusal(7)
    tag, first = tag_and_first(t, animal)
    take_away(t, slot, t.word['slots'][slot] % 65536, counter_of(t, first, tag))
    return 0, 0, 0, 0


def evict(t, hand):
    if hand >= t.places:
        raise Refusal(1)
    if not any(t.item(place, 0) for place in range(t.places)):
        raise Refusal(7)
    clears, looked, place = [], 1, hand
    while t.item(place, 0) == 0 or (t.item(place, 3) != 0 and place not in clears):
        if looked == 2 * t.places:
            raise Refusal(10)
        if t.item(place, 0):
            clears.append(place)
        looked, place = looked + 1, (place + 1) % t.places
    victim = t.item(place, 0)
    tag, first, slots = homes(t, victim)
    slots = [slot for slot in slots if t.word['slots'][slot] == tag * 65536 + place]
    if not slots:
        raise Refusal(4)
    for passed in clears:
        t.put('items', 4 * passed + 3, 0)
    take_away(t, slots[0], place, counter_of(t, first, tag))
    return 0, victim, looked, (place + 1) % t.places


def list_(t, bytes_lent):
    live = [place for place in range(t.places) if t.item(place, 0)]
    if bytes_lent < 20 * len(live):
        raise Refusal(9)
    text = b''.join(struct.pack('<QIQ', t.item(p, 0), t.item(p, 1) % 2**32, t.item(p, 2)) for p in live)
    for n, byte in enumerate(text):
        t.put('buffer', n, byte)
    return 0, len(live), 0, 0


def judge(t):
    """The first condition that is broken, and the lowest number that breaks it. It refuses nothing."""
    if not all(t.good_lengths()):
        return 0, 1, t.good_lengths().index(False), 0
    words, counters = (t.word[run][:t.length[run]] for run in RUNS[:2])
    entries = [(slot, word // 65536, word % 65536) for slot, word in enumerate(words) if word]
    live = [place for place in range(t.places) if t.item(place, 0)]

    def belongs(slot, tag, place):
        own, first = tag_and_first(t, t.item(place, 0))
        return place in live and tag == own and slot // 4 in (first, other(t, first, tag))

    # Each is worked out only where those before it hold.
    conditions = [(2, (slot for slot, _, _ in entries if t.damaged(slot))),
                  (3, (n for n, counter in enumerate(counters) if counter % 2)),
                  (4, (entry[0] for entry in entries if not belongs(*entry))),
                  (5, (place for place in live if [entry[2] for entry in entries].count(place) != 1)),
                  (6, (place for place in live if [t.item(p, 0) for p in live].count(t.item(place, 0)) != 1)),
                  (7, (place for place in range(t.places) if t.item(place, 1) >= 2**32)),
                  (8, (place for place in range(t.places)
                       if place not in live and any(t.item(place, n) for n in (1, 2, 3))))]
    for condition, breaking in conditions:
        for number in breaking:
            return 0, condition, number, 0
    return 0, 0, 0, 0


def fresh(t):
    for run in RUNS:
        for n in range(t.length[run]):
            t.put(run, n, 0)
    return 0, 0, 0, 0


CALLS = {'fresh': fresh, 'read': read, 'plain_read': plain_read, 'serve': serve, 'find': find, 'set': set_,
         'plan': plan, 'step_move': step_move, 'step_enter': step_enter, 'delete': delete, 'evict': evict,
         'list': list_, 'judge': judge}


def call(t, op, numbers):
    """Makes the call on t, whole or cut. Its answer; t.stores are its stores."""
    name, cut = (op[:-4], numbers[-1]) if op.endswith('_cut') else (op, None)
    arguments = numbers if cut is None else numbers[:-1]
    t.stores, t.word['buffer'] = [], [0xa5] * ROOM['buffer']
    whole = copy.deepcopy(t)
    try:
        if name != 'judge':
            (whole.check_items if name == 'plain_read' else whole.check_lengths)()
        answer = CALLS[name](whole, *arguments)
    except Refusal as refusal:
        whole.stores = []
        answer = refusal.args[0], 0, 0, arguments[0] if name == 'evict' else 0
    for store in whole.stores[:cut]:
        t.put(*store)
    return answer, len(whole.stores)


# ---- The comparison -------------------------------------------------------

# Plan and the steps: 0, and every refusal that they have; and how many numbers a step has before its animal.
STEPS = {'plan': (0, 1, 2, 3, 8, 4, 12, 5, 6), 'step_move': (0, 1, 2, 3, 8, 4, 12),
         'step_enter': (0, 1, 2, 3, 8, 4, 12)}
BEHIND = {'step_move': 3, 'step_enter': 2}


def steps(path):
    """The lines of the scenarios: the scenario's name, the first word, the numbers, and whether it is one of the cuts.
    A cuts line becomes its calls."""
    name = ''
    for line in open(path):
        words = line.split()
        if not words or words[0].startswith('#'):
            continue
        if words[0] == 'scenario':
            name = ' '.join(words[1:])
        elif words[0] == 'cuts':
            for k in range(int(words[1]) + 2):
                yield name, words[2], [int(word) for word in words[3:]] + [k], int(words[1])
        else:
            yield name, words[0], [int(word) for word in words[1:]], None


class Watched:
    """What the program did: the words that it wrote out, and the trace between the markers."""

    def __init__(self, memory, trace):
        self.memory = open(memory, 'rb')
        where = self.numbers('Q', 10)
        self.start = dict(zip(ROOM, where[0:8:2]))
        assert where[1:8:2] == list(ROOM.values()), 'stores.c has other rooms'
        self.marker, self.stack = where[8:]
        self.calls, inside = [], False
        for line in open(trace):
            address, size = line[3:].split(',')
            address = int(address, 16)
            if address == self.marker:
                inside = not inside
                if inside:
                    self.calls.append([])
            elif inside:
                self.calls[-1].append((address, int(size)))
        self.calls.reverse()

    def numbers(self, kind, count):
        return list(struct.unpack('<%d%s' % (count, kind), self.memory.read(count * struct.calcsize(kind))))

    def words(self):
        return {'slots': self.numbers('I', ROOM['slots']), 'counters': self.numbers('I', ROOM['counters']),
                'items': self.numbers('Q', ROOM['items']), 'buffer': self.numbers('B', ROOM['buffer'])}

    def name(self, address, size):
        """The words that a store covers, in the order of their addresses; none for the stack."""
        for run, start in self.start.items():
            at, width = address - start, WIDTH[run]
            if 0 <= at < ROOM[run] * width:
                if at % width or size % width:
                    return [('a part of ' + run, at // width)]
                return [(run, at // width + n) for n in range(size // width)]
        if self.stack - 2**20 < address < self.stack + 2**16:
            return []
        return [('elsewhere', address)]

    def stores(self):
        """The words that the next call stored to, in order, and how many stores covered more than one."""
        named = [self.name(*store) for store in self.calls.pop()]
        return [word for words in named for word in words], sum(len(words) > 1 for words in named)


def first_difference(found, wanted):
    for n in range(max(len(found), len(wanted))):
        a, b = ('%s[%d]' % words[n] if n < len(words) else 'none' for words in (found, wanted))
        if a != b:
            return ['store %d is %s, by the document %s' % (n + 1, a, b)]
    return []


def faults(seen, table, op, answer):
    """Where the next call that was seen isn't as the one that was made on the table; and its joined stores."""
    said = []
    found_answer, found_words = tuple(seen.numbers('Q', 16)), seen.words()
    answer += (0,) * (16 - len(answer))
    if found_answer != answer:
        said.append('answers %s, by the document %s' % (found_answer, answer))
    found, joined = seen.stores()
    wanted = [store[:2] for store in table.stores]
    if op in ('fresh', 'list'):
        found, wanted, joined = sorted(set(found)), sorted(wanted), 0
    said += first_difference(found, wanted)
    for run in ROOM:
        for n, (a, b) in enumerate(zip(found_words[run], table.word[run])):
            if a != b:
                said.append('then %s[%d] is %d, by the document %d' % (run, n, a, b))
    return said, joined


def compare(scenarios, memory, trace):
    seen, table, wrong, report = Watched(memory, trace), None, 0, {}
    refusals, moves, made, conditions, retired, steps_said = set(), set(), set(), set(), set(), set()
    for name, op, numbers, cuts in steps(scenarios):
        if op == 'lend':
            table = Table(numbers)
        elif op == 'poke':
            table.word[RUNS[numbers[0]]][numbers[1]] = numbers[2]
        else:
            # Each of the cuts has the memory that stood before.
            after = table if cuts is None else copy.deepcopy(table)
            marked = [table.item(p, 0) for p in range(table.places) if table.item(p, 2) == RETIRED_MARK]
            answer, stores = call(after, op, numbers)
            said, joined = faults(seen, after, op, answer)
            if cuts not in (None, stores):
                said.append('the scenario says %d stores, the document %d' % (cuts, stores))
            for fault in said[:3]:
                print('%s: %s %s: %s' % (name, op, ' '.join(map(str, numbers)), fault))
            wrong += said != []
            line = report.setdefault(name, [0, 0, 0])
            line[0], line[1], line[2] = line[0] + 1, line[1] + len(after.stores), line[2] + joined
            refusals.add(answer[0])
            made.add((op, answer[0] == 0))
            animal = answer[1] if op in ('evict', 'evict_cut') else (numbers + [0])[BEHIND.get(op, 0)]
            if answer[0] == 0 and animal in marked:
                retired.add(op)
            if op in ('set', 'set_cut') and answer[1] > 0:
                moves.add((op, answer[2]))
            if op in STEPS:
                steps_said.add((op, answer[0]))
            if op == 'plan' and answer[0] == 0:
                moves.add((op, answer[1]))
            if op == 'judge':
                conditions.add(answer[1])
    for name, line in report.items():
        print('%s: %d calls, %d stores, %d joined' % (name, *line))
    if seen.calls or seen.memory.read():
        wrong += 1
        print('the program made more calls than the scenarios have')
    # The scenarios reach every number of moves, every refusal but 10 and every condition; each writing call is made and
    # refused; plan and the steps with each refusal that they have; each call of an animal is made where she is retired,
    # but not plan and the final store, for then she is held.
    writing = ['fresh', 'serve', 'set', 'set_cut', 'delete', 'delete_cut', 'evict', 'evict_cut']
    missed = {(op, success) for op in writing for success in (True, False)} - made
    missed |= {(op, 'retired') for op in writing[1:] + ['read', 'plain_read', 'find', 'step_move'] if op not in retired}
    missed |= {(op, refusal) for op in STEPS for refusal in STEPS[op]} ^ steps_said
    if len(moves) != 3 * 5 or refusals != {*range(10), 11, 12} or conditions != {*range(9)} or missed:
        wrong += 1
        print('the scenarios reach only moves %s, refusals %s, conditions %s, and not %s' %
              (sorted(moves), refusals, conditions, missed))
    calls, stores, joined = (sum(line[n] for line in report.values()) for n in range(3))
    if wrong:
        print('stores: %d of %d calls are not as in the document' % (wrong, calls))
        return 1
    print('stores: %d calls, %d stores as the order has them, %d joined' % (calls, stores, joined))
    return 0


# ---- How the herds were found ---------------------------------------------

def herd_needs(shape, herd):
    """The moves that the last animal of the herd needs, if all others are set without a refusal."""
    table = Table(shape)
    call(table, 'fresh', [])
    for animal in herd:
        answer, _ = call(table, 'set', [animal, 1, 100, 100])
        if answer[0]:
            return None
    return answer[2]


def look_for_herd(buckets, counters, moves, seed):
    chance = random.Random(seed)
    shape = [4 * buckets, counters, 4 * min(4 * buckets, ROOM['items'] // 4)]
    herd = [chance.randrange(1, 1000)]
    while herd_needs(shape, herd) != moves:
        # An animal that was refused, or a full table, begins a new herd.
        if herd_needs(shape, herd) is None or len(herd) == 4 * buckets:
            herd = []
        herd.append(chance.choice([chance.randrange(1, 1000), chance.randrange(1, 2**64)]))
    n = 0
    while n < len(herd) - 1:
        # Leave out each animal that isn't needed.
        fewer = herd[:n] + herd[n + 1:]
        if herd_needs(shape, fewer) == moves:
            herd = fewer
        else:
            n += 1
    print('scenario set of an absent animal, N = %d, moves: %d' % (buckets, moves))
    print('lend %d %d %d\nfresh' % (shape[0], counters, 4 * (len(herd) + 1)))
    for animal in herd[:-1]:
        print('set %d 1 100 100' % animal)
    print('cuts %d set_cut %d 7 150 200\nset %d 7 150 200' % (7 + 4 * moves, herd[-1], herd[-1]))


if __name__ == '__main__':
    if sys.argv[1] == 'find':
        look_for_herd(*map(int, sys.argv[2:]))
    else:
        sys.exit(compare(*sys.argv[1:]))
