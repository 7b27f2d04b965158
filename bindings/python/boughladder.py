"""The table inside a grazing gate: animal number to permission with its stamp. For Python 3.8 on, on x86-64 Linux.

    from boughladder import HOLDING, Refusal, Table, lane

    table = Table(buckets=64, counters=16, places=200)
    table.set(4711, 1, issued, now)
    try:
        where = lane(table.serve(4711, 720, now))
    except Refusal as refusal:
        where = HOLDING
        print(refusal)

A refusal is the exception Refusal, with its number and a sentence: hold the animal. It changes no word of the table.

A set takes two minutes, issued before now; they may go by name. issued is when the office gave the permission, as the
list says; it becomes the stamp. now is the gate's clock. Swapped, they are refusal 3 where issued is earlier than now;
where it is later, now becomes the stamp, which is wrong. A list that was issued before what is held is refusal 11, and
nothing else stops a late list: after a delete or an eviction it is stored. What came with minutes that ran ahead makes
every true list late until the animal is deleted.

A set in steps, with any calls between:

    plan = table.plan(4711, 1, issued, now)
    for move in plan.moves:
        table.step_move(move, 4711, 1, issued, now)
    table.step_enter(plan.place, plan.slot, 4711, 1, issued, now)

plan says what a set of an absent animal would do now. Without calls between, the steps leave what the set leaves, word
for word. Nothing is reserved, and nothing ties a step to its plan: each is judged by the words that it finds. Where it
can't be made any more it is refusal 12, and no word changes: plan again, or set. An update has no steps: it is a set.

Standing permissions are retired: no set makes one. A table from before 4.0.0 may hold some, stamped RETIRED_MARK. Such
an entry is old with LEAST_LEFT at every minute and under every limit, so it opens no gate, and serve leaves it alone.
No list is late for it: the next set replaces it. The list has it as it is stored.

One call at a time: no call may run while another one writes (fresh, set, delete, evict, the cut forms, the two steps
and serve) on the same table. Each Table has a lock and each of its calls takes it, so threads may share it. Two Tables
over the same arrays have two locks: make one. The functions plain_read and judge, for an auditor, take no lock.

The library is libboughladder.so, which bindings/python/run links: beside this file, in target/python of the repository,
or where the environment variable BOUGHLADDER_SO says.
"""
import ctypes
import os
import pathlib
import threading
from dataclasses import dataclass
from typing import NamedTuple, Optional, Tuple

ABSENT, FRESH, OLD, AHEAD = 'absent', 'fresh', 'old', 'ahead'
HOLDING, MILKING, GRAZING = 'holding', 'milking', 'grazing'

RECORD_BYTES = 20
MOST_MOVES = 4               # of a set, and so of a plan
LARGEST_LIMIT = 10080        # minutes: a week
LEAST_LEFT = -2 ** 62        # minutes; what would be less is told as this
NO_MINUTE = 2 ** 64 - 1      # as now: refusal 3
RETIRED_MARK = 2 ** 64 - 1   # as the stamp of an entry: a standing permission from before 4.0.0, which is retired
ALL_STORES = 2 ** 64 - 1     # as k of a cut form: nothing is cut off
MAY_MILK, MAY_GRAZE = 1, 2

REFUSALS = {
    1: 'a length of the lent memory is wrong, or the hand is too large',
    2: 'the animal number is 0',
    3: 'the limit is too large, now is no minute, or issued is later than now',
    4: 'a damaged word was read',
    5: 'no vacant place for a new animal',
    6: 'no room within four moves for a new animal',
    7: 'the animal to delete is absent, or nobody is there to evict',
    8: 'busy: a write was cut off',
    9: 'the buffer is too short for the list',
    10: 'the hand found no victim',
    11: 'late: a permission that was issued later is held',
    12: "the animal to plan for is held, or a step can't be made as planned",
}

CONDITIONS = {
    1: 'a run has a wrong length',
    2: 'a slot word is damaged',
    3: 'a counter is odd',
    4: 'a slot does not point to an animal that belongs there',
    5: 'not exactly one slot points to a place that is taken',
    6: 'two places hold the same animal',
    7: 'a permission does not fit 32 bits',
    8: 'a vacant place is not all zero',
}


class Refusal(Exception):
    """A call refused; `number` says why."""

    def __init__(self, number):
        super().__init__('refusal %d: %s' % (number, REFUSALS.get(number, 'no refusal number')))
        self.number = number


@dataclass(frozen=True)
class Reading:
    """What read, serve and plain read say. Fresh alone opens nothing: see lane().

    It is no tuple: a caller of 2.x that takes one apart would take what is left for the age.
    """
    kind: str                          # absent, fresh, old or ahead
    permission: Optional[int] = None   # where fresh
    left: Optional[int] = None         # minutes of the limit that are left; where fresh (0 or more) or old (below 0;
                                       # LEAST_LEFT where retired)


class Stored(NamedTuple):
    visits: int  # buckets looked at for room; 0 where the animal was held already
    moves: int   # entries moved to make room, at most 4


class Move(NamedTuple):
    from_: int  # the slot that it empties
    tag: int    # the tag of the entry there
    to: int     # the slot that the entry goes to


class Plan(NamedTuple):
    moves: Tuple[Move, ...]  # in the order of making, at most 4
    place: int               # for the final store
    slot: int


class Evicted(NamedTuple):
    victim: int  # the animal that went
    looked: int  # places looked at
    hand: int    # to pass to the next evict; after a refusal the hand is as it was


@dataclass(frozen=True)
class Judgement:
    """What judge says. It is true where it is a yes; as text it tells the condition that is broken, and where."""
    condition: int      # 0: sound, a yes; else the first condition that is broken, 1 to 8, as CONDITIONS has them
    at: Optional[int]   # the lowest that breaks it: 1 the run (0 slots, 1 counters, 2 items), 2 and 4 the slot,
                        # 3 the counter, 5 to 8 the place; None where sound

    @property
    def sound(self):
        return self.condition == 0

    def __bool__(self):
        return self.sound

    def __str__(self):
        if self.sound:
            return 'sound'
        return 'condition %d at %s: %s' % (self.condition, self.at,
                                           CONDITIONS.get(self.condition, 'no condition number'))


class Record(NamedTuple):
    animal: int
    permission: int
    stamp: int  # a minute, or RETIRED_MARK


def lane(reading):
    """Of a fresh permission bit 0 means milking, else bit 1 grazing, else holding; every other answer means holding.

    Not for an answer of plain read, which tells of no damage.
    """
    if reading.kind == FRESH and reading.permission & MAY_MILK:
        return MILKING
    if reading.kind == FRESH and reading.permission & MAY_GRAZE:
        return GRAZING
    return HOLDING


def records(data):
    """The records in the bytes of a list: 20 each, low byte first, animal 8, permission 4, stamp 8."""
    return [Record(*(int.from_bytes(data[at + a:at + b], 'little') for a, b in ((0, 8), (8, 12), (12, 20))))
            for at in range(0, len(data) - RECORD_BYTES + 1, RECORD_BYTES)]


class _Reading(ctypes.Structure):
    _fields_ = [('refusal', ctypes.c_uint16), ('kind', ctypes.c_uint16), ('permission', ctypes.c_uint32),
                ('left', ctypes.c_int64)]


class _Finding(ctypes.Structure):
    _fields_ = [('refusal', ctypes.c_uint32), ('kind', ctypes.c_uint32), ('place', ctypes.c_size_t)]


class _Setting(ctypes.Structure):
    _fields_ = [('refusal', ctypes.c_uint32), ('visits', ctypes.c_size_t), ('moves', ctypes.c_size_t)]


class _Move(ctypes.Structure):
    _fields_ = [('from_', ctypes.c_size_t), ('tag', ctypes.c_uint32), ('to', ctypes.c_size_t)]


class _Plan(ctypes.Structure):
    _fields_ = [('refusal', ctypes.c_uint32), ('count', ctypes.c_size_t), ('place', ctypes.c_size_t),
                ('slot', ctypes.c_size_t), ('moves', _Move * MOST_MOVES)]


class _Evicting(ctypes.Structure):
    _fields_ = [('refusal', ctypes.c_uint32), ('victim', ctypes.c_uint64), ('looked', ctypes.c_size_t),
                ('hand', ctypes.c_size_t)]


class _Listing(ctypes.Structure):
    _fields_ = [('refusal', ctypes.c_uint32), ('count', ctypes.c_size_t)]


class _Judgement(ctypes.Structure):
    _fields_ = [('condition', ctypes.c_uint32), ('at', ctypes.c_size_t)]


_u32, _u64, _size = ctypes.c_uint32, ctypes.c_uint64, ctypes.c_size_t
_ITEMS = [ctypes.POINTER(_u64), _size]
_LENT = [ctypes.POINTER(_u32), _size, ctypes.POINTER(_u32), _size] + _ITEMS

# Each call: its reply, and its arguments: the lent memory, then the numbers.
_CALLS = {
    'fresh': (_u32, _LENT),
    'read': (_Reading, _LENT + [_u64, _u64, _u64]),
    'serve': (_Reading, _LENT + [_u64, _u64, _u64]),
    'find': (_Finding, _LENT + [_u64]),
    'set': (_Setting, _LENT + [_u64, _u32, _u64, _u64]),
    'set_cut': (_Setting, _LENT + [_u64, _u32, _u64, _u64, _u64]),
    'plan': (_Plan, _LENT + [_u64, _u32, _u64, _u64]),
    'step_move': (_u32, _LENT + [_Move, _u64, _u32, _u64, _u64]),
    'step_enter': (_u32, _LENT + [_size, _size, _u64, _u32, _u64, _u64]),
    'delete': (_u32, _LENT + [_u64]),
    'delete_cut': (_u32, _LENT + [_u64, _u64]),
    'evict': (_Evicting, _LENT + [_size]),
    'evict_cut': (_Evicting, _LENT + [_size, _u64]),
    'list': (_Listing, _LENT + [ctypes.c_char_p, _size]),
    'plain_read': (_Reading, _ITEMS + [_u64, _u64, _u64]),
    'judge': (_Judgement, _LENT),
}


def _load():
    here = pathlib.Path(__file__).resolve().parent
    named = os.environ.get('BOUGHLADDER_SO')
    places = [pathlib.Path(named)] if named else [here / 'libboughladder.so',
                                                  here.parent.parent / 'target/python/libboughladder.so']
    for path in places:
        if path.exists():
            library = ctypes.CDLL(str(path))
            break
    else:
        raise ImportError('libboughladder.so is missing: run bindings/python/run, or set BOUGHLADDER_SO')
    calls = {}
    for name, (reply, arguments) in _CALLS.items():
        calls[name] = library['boughladder_' + name]
        calls[name].restype, calls[name].argtypes = reply, arguments
    return calls


_library = _load()


def _number(value, bits, what):
    """ctypes would drop the bits above without a word."""
    if not isinstance(value, int) or not 0 <= value < 2 ** bits:
        raise ValueError('%s must be a whole number from 0 to 2^%d - 1, not %r' % (what, bits, value))
    return value


def _answered(name, *arguments):
    """The reply to a call of the library, unless it refused."""
    reply = _library[name](*arguments)
    refusal = reply if isinstance(reply, int) else reply.refusal
    if refusal != 0:
        raise Refusal(refusal)
    return reply


def _asked(animal, limit, now):
    return _number(animal, 64, 'animal'), _number(limit, 64, 'limit'), _number(now, 64, 'now')


def _given(animal, permission, issued, now):
    return (_number(animal, 64, 'animal'), _number(permission, 32, 'permission'), _number(issued, 64, 'issued'),
            _number(now, 64, 'now'))


def _told(r):
    if r.kind == 1:
        return Reading(FRESH, r.permission, r.left)
    if r.kind == 2:
        return Reading(OLD, None, r.left)
    return Reading(AHEAD if r.kind == 3 else ABSENT)


def _is_array(array, kind):
    return isinstance(array, ctypes.Array) and array._type_ is kind


def plain_read(items, animal, limit, now):
    """Read without hashing, for an auditor, who may have the item words alone, as a ctypes array of c_uint64.

    It walks the places in order, takes the first with that number, and judges it as read does, its permission word
    modulo 2^32. It is slower: it may walk all places. It takes no lock; Table.plain_read does.

    On a table that finished calls have made from fresh on, it answers as read does, for every number, limit and minute.
    So where the two differ, a call was cut off, something else wrote, or other lengths were lent. It answers there too,
    even where read is refused with 8 or 4, and that answer opens no gate.
    Refusals 1 (for the length of the items), 2, 3.

    The bytes of a dump: plain_read((ctypes.c_uint64 * (len(dump) // 8)).from_buffer_copy(dump), 4711, 720, now)
    """
    if not _is_array(items, _u64):
        raise TypeError('plain_read wants a ctypes array of c_uint64')
    return _told(_answered('plain_read', items, len(items), *_asked(animal, limit, now)))


def _want_arrays(slots, counters, items):
    for array, kind in ((slots, _u32), (counters, _u32), (items, _u64)):
        if not _is_array(array, kind):
            raise TypeError('a table wants ctypes arrays of c_uint32, c_uint32 and c_uint64')


def judge(*, slots, counters, items):
    """Judges memory that others have built or that a cabinet brings: ctypes arrays of c_uint32, c_uint32 and c_uint64.

    It is a yes where no condition is broken; else it tells the first that is, and the lowest run, slot, counter or
    place that breaks it. What finished calls leave, from fresh on, gets a yes. After a yes, whoever built the table,
    it answers from then on as the order demands: Table.over takes it as it stands. It refuses and changes nothing.

    The arguments go by name: slots and counters that are swapped may get a yes. It takes no lock; Table.judge does.

    The bytes of a dump: slots=(ctypes.c_uint32 * (len(dump) // 4)).from_buffer_copy(dump), and so on.
    """
    _want_arrays(slots, counters, items)
    r = _library['judge'](slots, len(slots), counters, len(counters), items, len(items))
    return Judgement(r.condition, None if r.condition == 0 else r.at)


class Table:
    """A table, fresh, of so many buckets (a power of two, 2 to 2048), counters (1 to 1024) and places (1 to 4096)."""

    def __init__(self, *, buckets, counters, places):
        self._lend((_u32 * (4 * buckets))(), (_u32 * counters)(), (_u64 * (4 * places))())
        self.fresh()

    @classmethod
    def over(cls, *, slots, counters, items):
        """A table over ctypes arrays of c_uint32, c_uint32 and c_uint64, as they stand. The arguments go by name."""
        _want_arrays(slots, counters, items)
        table = cls.__new__(cls)
        table._lend(slots, counters, items)
        return table

    def _lend(self, slots, counters, items):
        self.slots, self.counters, self.items = slots, counters, items
        self._lock = threading.Lock()

    def _call(self, name, *numbers):
        s, c, i = self.slots, self.counters, self.items
        with self._lock:
            return _answered(name, s, len(s), c, len(c), i, len(i), *numbers)

    def fresh(self):
        """Makes a table of the memory: 0 in every word. The only call that helps a busy counter."""
        self._call('fresh')

    def read(self, animal, limit, now):
        """Whether the permission is fresh: held, not ahead of now and at most limit minutes old."""
        return _told(self._call('read', *_asked(animal, limit, now)))

    def serve(self, animal, limit, now):
        """Read, for a gate that then opens: a fresh answer also marks that the animal was here lately."""
        return _told(self._call('serve', *_asked(animal, limit, now)))

    def plain_read(self, animal, limit, now):
        """plain_read of the items: as read, where finished calls have made the table from fresh on.

        It looks at no slots and counters, and what it answers on a damaged table opens no gate.
        """
        with self._lock:
            return plain_read(self.items, animal, limit, now)

    def judge(self):
        """judge of the three arrays: a yes, or the first condition that is broken, and where."""
        with self._lock:
            return judge(slots=self.slots, counters=self.counters, items=self.items)

    def find(self, animal):
        """The place at which the animal is held, whatever its age, or None."""
        r = self._call('find', _number(animal, 64, 'animal'))
        return r.place if r.kind != 0 else None

    def _set(self, name, animal, permission, issued, now, *k):
        r = self._call(name, *_given(animal, permission, issued, now), *(_number(stores, 64, 'k') for stores in k))
        return Stored(r.visits, r.moves)

    def set(self, animal, permission, issued, now):
        """Stores a permission with the stamp issued, over the one that is held unless that has a later stamp.

        Over one that is retired it is always stored.
        """
        return self._set('set', animal, permission, issued, now)

    def set_cut(self, animal, permission, issued, now, k):
        """Set, of which only the first k stores are made, as a loss of power leaves it."""
        return self._set('set_cut', animal, permission, issued, now, k)

    def plan(self, animal, permission, issued, now):
        """What a set of an absent animal would do now: its moves, its place, its slot. It changes nothing.

        A held animal is refusal 12, never 11; all other refusals are set's.
        """
        r = self._call('plan', *_given(animal, permission, issued, now))
        return Plan(tuple(Move(m.from_, m.tag, m.to) for m in r.moves[:r.count]), r.place, r.slot)

    def step_move(self, move, animal, permission, issued, now):
        """One whole move of a plan. The animal and what follows are set's; refusals 1, 2, 3, 8 and 4 are too.

        It is made exactly if both slots lie in the run, the source word is neither free nor damaged and has the planned
        tag, the destination word is 0, and the destination lies in the entry's other bucket; also where the animal is
        held by now. Else it is refusal 12. On a table that finished calls have made no read changes by it.
        """
        if not isinstance(move, Move):
            raise TypeError('step_move wants a Move: one of a plan')
        move = _Move(_number(move.from_, 64, 'from_'), _number(move.tag, 32, 'tag'), _number(move.to, 64, 'to'))
        self._call('step_move', move, *_given(animal, permission, issued, now))

    def step_enter(self, place, slot, animal, permission, issued, now):
        """The final store: the animal into that place and slot, with the stamp issued. Refusals as step_move.

        It is made exactly if the animal is absent, place and slot lie in their runs, the place is vacant, the slot is
        free and lies in one of the animal's two buckets. Else it is refusal 12. On a table that finished calls have
        made only her own read changes by it.
        """
        self._call('step_enter', _number(place, 64, 'place'), _number(slot, 64, 'slot'),
                   *_given(animal, permission, issued, now))

    def delete(self, animal):
        """Takes the animal's entry away."""
        self._call('delete', _number(animal, 64, 'animal'))

    def delete_cut(self, animal, k):
        """Delete, of which only the first k stores are made."""
        self._call('delete_cut', _number(animal, 64, 'animal'), _number(k, 64, 'k'))

    def evict(self, hand):
        """Takes the first animal from the hand on that was not here lately. The hand is 0 after fresh."""
        r = self._call('evict', _number(hand, 64, 'hand'))
        return Evicted(r.victim, r.looked, r.hand)

    def evict_cut(self, hand, k):
        """Evict, of which only the first k stores are made."""
        r = self._call('evict_cut', _number(hand, 64, 'hand'), _number(k, 64, 'k'))
        return Evicted(r.victim, r.looked, r.hand)

    def list(self, length=None):
        """The bytes of the list, 20 for each animal; records() takes them apart. A length is the room that is lent."""
        if length is None:
            length = RECORD_BYTES * (len(self.items) // 4)
        buffer = ctypes.create_string_buffer(max(1, _number(length, 32, 'length')))
        r = self._call('list', buffer, length)
        return buffer.raw[:RECORD_BYTES * r.count]
