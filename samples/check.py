#!/usr/bin/env python3
"""A second, plain implementation of the order and of the replay language.

    python3 samples/check.py [--echo] [FILE]      (no FILE, or -: standard input)

It prints the answers that `./replay` must print, and ends with its status. It
was written from the order, its change requests (wishes 1 to 7 have landed) and
docs/replay-format.md only, not from the Rattle code, so that the two can disagree.
Every call first works out its answer and the list of its stores without
touching the table; then the first k stores are made. So the cut form and the
whole call are one and the same text here.
"""
import sys

TOP = 2**64 - 1                   # the largest number
RETIRED_MARK = TOP                # the stamp of a standing permission, from before version 4
NO_MINUTE = TOP                   # the one minute that now may not be
LEAST_LEFT = -2**62               # who is overdue for longer is told this too
HOLDS = {'slots': 8192, 'counters': 1024, 'items': 4096}  # words: the most that replay holds
BUFFER_MAX = 81920
FILE_MAX = 2 * 2**20


# ---- From an animal to its buckets ---------------------------------------

def fnv(data):
    h = 2166136261
    for byte in data:
        h = ((h ^ byte) * 16777619) % 2**32
    return h


def hash_of(animal):
    return fnv(animal.to_bytes(8, 'little'))


def tag_of(animal):
    return hash_of(animal) // 2**24 or 1


def spread(tag, n):
    s = tag * 1540483477 % n
    return s + 1 if s % 2 == 0 else s


class Refused(Exception):
    """A refusal: one number, no store, the hand as passed."""


def good_lengths(s, c, i):
    """Of each run, whether its length is right."""
    n, m = s // 4, i // 4
    return (s % 4 == 0 and 2 <= n <= 2048 and n & (n - 1) == 0,
            1 <= c <= 1024,
            i % 4 == 0 and 1 <= m <= 4096)


def good_shape(s, c, i):
    return all(good_lengths(s, c, i))


# ---- The table -------------------------------------------------------------

class Table:
    def __init__(self, s=0, c=0, i=0):
        self.slots, self.counters, self.items = [0] * s, [0] * c, [0] * i
        self.n, self.m = s // 4, i // 4

    def make(self, stores, k):
        """Make the first k stores. A counter store adds 1 to what is there."""
        for run, index, word in stores[:k]:
            if run == 'counters':
                self.counters[index] = (self.counters[index] + 1) % 2**32
            else:
                getattr(self, run)[index] = word

    def load(self, run, words):
        setattr(self, run, words)
        self.n, self.m = len(self.slots) // 4, len(self.items) // 4

    # -- small words of the order

    def other(self, tag, bucket):
        return bucket ^ spread(tag, self.n)

    def homes(self, animal):
        first = hash_of(animal) % self.n
        return [first, self.other(tag_of(animal), first)]

    def home_slots(self, animal):
        return [4 * b + j for b in self.homes(animal) for j in range(4)]

    def counter(self, bucket, tag):
        return min(bucket, self.other(tag, bucket)) % len(self.counters)

    def counter_of(self, animal):
        return self.counter(self.homes(animal)[0], tag_of(animal))

    def damaged(self, word):
        tag, place = divmod(word, 65536)
        return word != 0 and (tag == 0 or tag > 255 or place >= self.m)

    def live(self):
        return [p for p in range(self.m) if self.items[4 * p] != 0]

    # -- the refusals, in the order's turn

    def test_1(self):
        if not good_shape(len(self.slots), len(self.counters), len(self.items)):
            raise Refused(1)

    def test_8_4(self, animal):
        if self.counters[self.counter_of(animal)] % 2 == 1:
            raise Refused(8)
        if any(self.damaged(self.slots[s]) for s in self.home_slots(animal)):
            raise Refused(4)

    def test_1_2_3_8_4(self, animal, limit=0, issued=0, now=0):
        self.test_1()
        if animal == 0:
            raise Refused(2)
        if limit > 10080 or now == NO_MINUTE or issued > now:
            raise Refused(3)
        self.test_8_4(animal)

    def hit(self, animal):
        """The first home slot with the tag whose place holds the number."""
        for s in self.home_slots(animal):
            tag, place = divmod(self.slots[s], 65536)
            if tag == tag_of(animal) and self.items[4 * place] == animal:
                return s
        return None

    # -- the calls: each returns its answer and its list of stores

    def read(self, animal, limit, now, serve=False):
        self.test_1_2_3_8_4(animal, limit=limit, now=now)
        s = self.hit(animal)
        if s is None:
            return 'absent', []
        place = self.slots[s] % 65536
        permission = self.items[4 * place + 1] % 2**32
        stamp = self.items[4 * place + 2]
        recent = [('items', 4 * place + 3, 1)] if serve else []
        if stamp == RETIRED_MARK:            # at every minute: it comes before "ahead"
            return f'old {LEAST_LEFT}', []
        if stamp > now:
            return 'ahead', []
        left = limit - (now - stamp)
        if left >= 0:                        # 0 on the last good minute
            return f'fresh {permission} {left}', recent
        return f'old {max(left, LEAST_LEFT)}', []

    def plain(self, animal, limit, now):
        """The answer alone, from the item words alone: nothing is hashed or stored."""
        if len(self.items) not in range(4, 16385, 4):
            raise Refused(1)
        if animal == 0:
            raise Refused(2)
        if limit > 10080 or now == NO_MINUTE:
            raise Refused(3)
        for place in range(len(self.items) // 4):
            number, permission, stamp, _ = self.items[4 * place:4 * place + 4]
            if number == animal:             # the first, where there are twins
                if stamp == RETIRED_MARK:
                    return f'old -{2**62}'
                age = now - stamp
                if age < 0:
                    return 'ahead'
                if age > limit:
                    return f'old -{min(age - limit, 2**62)}'
                return f'fresh {permission % 2**32} {limit - age}'
        return 'absent'

    def set(self, animal, permission, issued, now):
        self.test_1_2_3_8_4(animal, issued=issued, now=now)
        bump = ('counters', self.counter_of(animal), None)
        held = self.hit(animal)
        if held is not None:
            p = 4 * (self.slots[held] % 65536)
            if RETIRED_MARK != self.items[p + 2] > issued:
                raise Refused(11)
            return 'stored 0 0', [bump,
                                  ('items', p + 1, permission),
                                  ('items', p + 2, issued),
                                  ('items', p + 3, 1), bump]
        place = self.lowest_vacant()
        visits, moves, free = self.search(animal)
        stores = []
        for source, destination in moves:
            stores += self.move_stores(source, destination)
        stores += self.new_entry_stores(place, free, animal, permission, issued)
        return f'stored {visits} {len(moves)}', stores

    def lowest_vacant(self):
        for place in range(self.m):
            if self.items[4 * place] == 0:
                return place
        raise Refused(5)

    def move_stores(self, source, destination):
        word = self.slots[source]
        add = ('counters', self.counter(source // 4, word // 65536), None)
        return [add, ('slots', destination, word), ('slots', source, 0), add]

    def new_entry_stores(self, place, slot, animal, permission, issued):
        add, p = ('counters', self.counter_of(animal), None), 4 * place
        return [add, ('items', p, animal), ('items', p + 1, permission),
                ('items', p + 2, issued), ('items', p + 3, 1),
                ('slots', slot, tag_of(animal) * 65536 + place), add]

    def search(self, animal):
        """Visits, the moves in the order of making, the slot left free."""
        # A visit is (bucket, slots moved from on the way to it, nearest last).
        level = [(b, []) for b in self.homes(animal)]
        visits = 0
        for _ in range(5):
            for bucket, way in level:
                visits += 1
                words = self.slots[4 * bucket:4 * bucket + 4]
                if any(self.damaged(w) for w in words):
                    raise Refused(4)
                if 0 in words:
                    free, moves = 4 * bucket + words.index(0), []
                    for source in reversed(way):
                        moves.append((source, free))
                        free = source
                    return visits, moves, free
            level = [(self.other(self.slots[4 * b + j] // 65536, b),
                      way + [4 * b + j])
                     for b, way in level for j in range(4)]
        assert visits == 682
        raise Refused(6)

    # -- a set in steps: each takes what a set takes, and is judged by the table it finds

    def plan(self, animal, permission, issued, now):
        """What a set would do. No store; and any held animal is 12, late or not."""
        self.test_1_2_3_8_4(animal, issued=issued, now=now)
        if self.hit(animal) is not None:
            raise Refused(12)
        place = self.lowest_vacant()
        _, moves, free = self.search(animal)
        numbers = [place, free]
        for source, destination in moves:
            numbers += [source, self.slots[source] // 65536, destination]
        return ' '.join(['planned'] + [str(number) for number in numbers])

    def move(self, source, tag, destination, animal, permission, issued, now):
        """One whole move. The animal may be held by now, and the entry busy."""
        self.test_1_2_3_8_4(animal, issued=issued, now=now)
        if source >= len(self.slots) or destination >= len(self.slots):
            raise Refused(12)
        word = self.slots[source]
        if word == 0 or self.damaged(word) or word // 65536 != tag:
            raise Refused(12)
        if self.slots[destination] != 0 or destination // 4 != self.other(tag, source // 4):
            raise Refused(12)
        return 'moved', self.move_stores(source, destination)

    def enter(self, place, slot, animal, permission, issued, now):
        """The final store, into any vacant place and any free slot of her buckets."""
        self.test_1_2_3_8_4(animal, issued=issued, now=now)
        if self.hit(animal) is not None:
            raise Refused(12)
        if place >= self.m or slot >= len(self.slots):
            raise Refused(12)
        if self.items[4 * place] != 0 or self.slots[slot] != 0 or slot // 4 not in self.homes(animal):
            raise Refused(12)
        return 'entered', self.new_entry_stores(place, slot, animal, permission, issued)

    def delete_stores(self, animal, slot, place):
        add = ('counters', self.counter_of(animal), None)
        return ([add, ('slots', slot, 0)]
                + [('items', 4 * place + j, 0) for j in range(4)] + [add])

    def delete(self, animal):
        self.test_1_2_3_8_4(animal)
        s = self.hit(animal)
        if s is None:
            raise Refused(7)
        return 'deleted', self.delete_stores(animal, s, self.slots[s] % 65536)

    def evict(self, hand):
        """Also returns the new hand."""
        self.test_1()
        if hand >= self.m:
            raise Refused(1)
        if not self.live():
            raise Refused(7)
        recent = {p for p in self.live() if self.items[4 * p + 3] != 0}
        clears, place = [], hand
        for looked in range(1, 2 * self.m + 1):
            if place in recent:
                recent.remove(place)
                clears.append(('items', 4 * place + 3, 0))
            elif self.items[4 * place] != 0:
                break
            place = (place + 1) % self.m
        else:
            raise Refused(10)
        victim = self.items[4 * place]
        self.test_8_4(victim)
        word = tag_of(victim) * 65536 + place
        holding = [s for s in self.home_slots(victim) if self.slots[s] == word]
        if not holding:
            raise Refused(4)
        hand = (place + 1) % self.m
        stores = clears + self.delete_stores(victim, holding[0], place)
        return f'evicted {victim} {looked} {hand}', stores, hand

    def list(self, length):
        self.test_1()
        live = self.live()
        if length < 20 * len(live):
            raise Refused(9)
        lines = [f'listed {len(live)}']
        for p in live:
            animal, permission, stamp = self.items[4 * p:4 * p + 3]
            record = (animal.to_bytes(8, 'little')
                      + (permission % 2**32).to_bytes(4, 'little')
                      + stamp.to_bytes(8, 'little'))
            lines.append(record.hex())
        return '\n'.join(lines)

    # -- the judge: the plain text of its eight conditions, one after the other

    def leads_home(self, slot):
        """A live place whose animal has that tag and that bucket as one of its two."""
        tag, place = divmod(self.slots[slot], 65536)
        animal = self.items[4 * place]
        return animal != 0 and tag == tag_of(animal) and slot // 4 in self.homes(animal)

    def broken(self):
        """Of each condition, in its turn, who breaks it, the lowest first."""
        lengths = len(self.slots), len(self.counters), len(self.items)
        yield [run for run, good in enumerate(good_lengths(*lengths)) if not good]
        occupied = [s for s, word in enumerate(self.slots) if word != 0]
        places, live = range(self.m), self.live()
        yield [s for s in occupied if self.damaged(self.slots[s])]
        yield [c for c, count in enumerate(self.counters) if count % 2 != 0]
        yield [s for s in occupied if not self.leads_home(s)]
        yield [p for p in live if sum(self.slots[s] % 65536 == p for s in occupied) != 1]
        yield [p for p in live for q in live if p != q and self.items[4 * p] == self.items[4 * q]]
        yield [p for p in places if self.items[4 * p + 1] >= 2**32]
        yield [p for p in places if self.items[4 * p] == 0 and any(self.items[4 * p:4 * p + 4])]

    def judge(self):
        for condition, breakers in enumerate(self.broken(), 1):
            if breakers:                     # the later ones are not looked at
                return f'no {condition} {breakers[0]}'
        return 'yes'


# ---- The replay language ---------------------------------------------------

# Every form of a line, in the page's order: N is a number, P a permission, B the
# length of a buffer, W a word of 32 bits, any other word stands for itself. What
# stands before .. comes as often as the line has words for it.
FORMS = [form.split() for form in (
    'fresh N N N', 'set N P N N', 'read N N N', 'serve N N N', 'plain N N N',
    'delete N', 'evict', 'hand N', 'cut N set N P N N', 'cut N delete N',
    'cut N evict', 'list B', 'poke slots N N', 'poke counters N N',
    'poke items N N', 'dump', 'slots W ..', 'counters W ..', 'items N ..', 'judge',
    'plan N P N N', 'move N N N N P N N', 'enter N N N P N N', '')]
MOST = {'N': TOP, 'P': 2**32 - 1, 'B': BUFFER_MAX, 'W': 2**32 - 1}


class NotUnderstood(Exception):
    """A line that is no call: why."""


def digits_only(word):
    return all(c in b'0123456789' for c in word)


def meant(wanted, word):
    """The word as the form takes it, a number or a text; None where it doesn't."""
    if wanted not in MOST:
        return wanted if word == wanted.encode() else None
    if not digits_only(word):
        return None
    digits = word.lstrip(b'0') or b'0'
    fits = len(digits) <= 20 and int(digits) <= MOST[wanted]
    return int(digits) if fits else None


def agreement(form, words):
    """The words in which the form and the line agree, from the first on."""
    call = []
    for wanted, word in zip(form, words):
        value = meant(wanted, word)
        if value is None:
            break
        call.append(value)
    return call


def as_long(form, words):
    """The form for a line of so many words."""
    return [form[0]] + [form[1]] * (len(words) - 1) if form[-1:] == ['..'] else form


def understood(words):
    """The line's call, or why it is none."""
    forms = [as_long(form, words) for form in FORMS]
    agreed = [len(agreement(form, words)) for form in forms]
    most = max(agreed)
    for form, count in zip(forms, agreed):
        if count == len(form) == len(words):
            return agreement(form, words)
    nearest = forms[agreed.index(most)]
    if most == len(words):
        raise NotUnderstood('too few numbers')
    if digits_only(words[most]):
        if most == len(nearest):
            raise NotUnderstood('too many numbers')
        if nearest[most] in MOST:
            raise NotUnderstood('number too large')
    raise NotUnderstood('unknown word')


class Replay:
    def __init__(self):
        self.table, self.hand = Table(), 0

    def answer(self, call):
        name, rest, t = call[0], call[1:], self.table
        if name == 'cut':
            return self.stores(rest[1], rest[2:], rest[0])
        if name in ('set', 'delete', 'evict', 'move', 'enter'):
            return self.stores(name, rest, TOP)
        if name in ('read', 'serve'):
            answer, stores = t.read(*rest, serve=name == 'serve')
            t.make(stores, 1)
            return answer
        if name == 'plain':
            return t.plain(*rest)
        if name == 'plan':
            return t.plan(*rest)
        if name == 'fresh':
            held = all(length <= most for length, most in zip(rest, HOLDS.values()))
            if not held or not good_shape(*rest):
                raise Refused(1)
            self.table, self.hand = Table(*rest), 0
            return 'fresh'
        if name == 'hand':
            self.hand = rest[0]
            return 'hand'
        if name == 'list':
            return t.list(rest[0])
        if name == 'poke':
            run, index, word = getattr(t, rest[0]), rest[1], rest[2]
            above = 2**64 if rest[0] == 'items' else 2**32
            if index >= len(run) or word >= above:
                return 'no such word'
            run[index] = word
            return 'poked'
        if name in HOLDS:
            if len(rest) > HOLDS[name]:
                raise Refused(1)
            t.load(name, rest)
            return 'loaded'
        if name == 'judge':
            return t.judge()
        assert name == 'dump'
        return '\n'.join(' '.join([run] + [str(w) for w in getattr(t, run)])
                         for run in HOLDS)

    def stores(self, name, rest, k):
        """A call with a list of stores, of which the first k are made."""
        t = self.table
        if name == 'evict':
            answer, stores, self.hand = t.evict(self.hand)
        else:
            answer, stores = getattr(t, name)(*rest)
        t.make(stores, k)
        return answer


def words_of(line):
    if line.endswith(b'\r'):
        line = line[:-1]                     # CR LF, or a CR that ends the file: docs/DECISIONS.md
    words = line.split(b'#')[0].replace(b'\t', b' ').split(b' ')
    return [w for w in words if w]


def shown(call):
    """The call as it was understood; the words of a run are not shown again."""
    return f'{call[0]} ..' if call[0] in HOLDS else ' '.join(map(str, call))


def replay(data, echo=False):
    """For each call what is printed, and whether it was understood."""
    r = Replay()
    if data.startswith(b'\xef\xbb\xbf'):
        data = data[3:]                      # the byte order mark
    for number, line in enumerate(data.split(b'\n'), 1):
        words = words_of(line)
        if not words:
            continue
        try:
            call = understood(words)
        except NotUnderstood as why:
            yield f'line {number}: not understood: {why}', False
            continue
        try:
            answer = r.answer(call)
        except Refused as refusal:
            answer = f'refused {refusal}'
        before = f'{number}: {shown(call)} -> ' if echo else ''
        yield before + answer, True


def main():
    """The status: 0 if every line was understood, else 2; 1 if nothing was replayed."""
    arguments = sys.argv[1:]
    echo = arguments[:1] == ['--echo']
    files = arguments[echo:] or ['-']
    if len(files) > 1 or files[0].startswith('--'):
        sys.exit('usage: check.py [--echo] [FILE]')
    try:
        with open(0 if files[0] == '-' else files[0], 'rb') as f:
            data = f.read()
    except OSError as e:
        sys.exit(f'check.py: cannot read {files[0]}: {e.strerror}')
    if len(data) > FILE_MAX:
        sys.exit(f'check.py: {files[0]} has more than {FILE_MAX} bytes')
    status = 0
    try:
        for answer, good in replay(data, echo):
            print(answer)
            status = status if good else 2
        sys.stdout.flush()
    except OSError as e:
        sys.stdout = None                    # what could not be written is not tried again at the end
        sys.exit(f'check.py: cannot write the answers: {e.strerror}')
    sys.exit(status)


if __name__ == '__main__':
    main()
