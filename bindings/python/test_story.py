"""The order's examples, samples/network-drop.calls with its answers, samples/retired.calls' cabinet, and sets in steps.

bindings/rust/tests/story.rs tells the same.
"""
import ctypes
import threading
import unittest

import boughladder
from boughladder import (ABSENT, AHEAD, ALL_STORES, CONDITIONS, FRESH, GRAZING, HOLDING, LARGEST_LIMIT, LEAST_LEFT,
                         MILKING, MOST_MOVES, NO_MINUTE, OLD, REFUSALS, RETIRED_MARK, Evicted, Judgement, Move, Plan,
                         Reading, Record, Refusal, Stored, Table, judge, lane, plain_read, records)


def lent(s, c, i):
    """A table over memory of these lengths in words, with garbage in it."""
    garbage = 0xa5a5a5a5
    return Table.over(slots=(ctypes.c_uint32 * s)(*[garbage] * s), counters=(ctypes.c_uint32 * c)(*[garbage] * c),
                      items=(ctypes.c_uint64 * i)(*[garbage] * i))


def made(s, c, i):
    table = lent(s, c, i)
    table.fresh()
    return table


def words(table):
    return table.slots[:], table.counters[:], table.items[:]


def fresh(permission, left):
    return Reading(FRESH, permission, left)


def old(left):
    return Reading(OLD, None, left)


RETIRED = old(-2 ** 62)  # at every minute and under every limit


def cabinet():
    """From before 4.0.0: cow 4713, and two bulls who are retired. 901 was here lately, 900 was not."""
    table = lent(16, 2, 16)
    table.slots[:] = 0, 14155778, 0, 0, 11862017, 0, 0, 0, 2818048, 0, 0, 0, 0, 0, 0, 0
    table.counters[:] = 8, 2
    table.items[:] = 4713, 2, 100, 1, 901, 2, RETIRED_MARK, 1, 900, 2, RETIRED_MARK, 0, 0, 0, 0, 0
    return table


# N = 4: buckets 0, 1 and 3 are full, and 2 is empty. 17, of buckets 0 and 1, needs two moves.
CROWD = 1, 5, 9, 13, 12, 16, 20, 24, 2, 6, 10, 14
# N = 16: 625 needs four.
LARGE_CROWD = 58, 186, 353, 512, 31, 63, 159, 239, 368, 69, 286, 414, 464, 100, 180, 371, 593, 119, 215, 344


def crowded(s, c, i, animals):
    """A table that holds them."""
    table = made(s, c, i)
    for animal in animals:
        table.set(animal, 1, 100, 100)
    return table


class Story(unittest.TestCase):
    def refused(self, number, call, *numbers):
        with self.assertRaises(Refusal) as caught:
            call(*numbers)
        self.assertEqual(caught.exception.number, number)

    def test_lengths(self):
        for s, c, i, good in ((8, 1, 4, True), (4, 1, 4, False), (12, 1, 4, False), (8192, 1, 4, True),
                              (16384, 1, 4, False), (8, 0, 4, False), (8, 1024, 4, True), (8, 1025, 4, False),
                              (8, 1, 0, False), (8, 1, 6, False), (8, 1, 16384, True), (8, 1, 16388, False),
                              (0, 0, 0, False)):
            with self.subTest(lengths=(s, c, i)):
                if good:
                    self.assertIsNone(lent(s, c, i).fresh())
                else:
                    self.refused(1, lent(s, c, i).fresh)
        table = Table(buckets=2048, counters=1024, places=4096)
        self.assertEqual((len(table.slots), len(table.counters), len(table.items)), (8192, 1024, 16384))
        self.refused(1, lambda: Table(buckets=3, counters=1, places=1))

    def test_ages(self):
        table = made(32, 4, 32)
        self.assertEqual(table.set(7, 5, 100, 100), Stored(1, 0))
        self.assertEqual(table.read(7, 720, 820), fresh(5, 0))
        self.assertEqual(table.read(7, 720, 821), old(-1))
        self.assertEqual(table.read(7, 720, 99), Reading(AHEAD))
        self.assertEqual(table.read(8, 720, 100), Reading(ABSENT))
        self.assertEqual(table.read(7, LARGEST_LIMIT, 10180), fresh(5, 0))
        self.refused(3, table.read, 7, LARGEST_LIMIT + 1, 100)
        self.refused(3, table.read, 7, 720, NO_MINUTE)
        self.refused(3, table.set, 7, 5, 100, NO_MINUTE)
        self.refused(2, table.read, 0, 720, 100)
        self.assertEqual(table.set_cut(7, 6, 200, 200, ALL_STORES), Stored(0, 0))
        self.assertEqual(table.items[:4], [7, 6, 200, 1])
        # As a table from before 4.0.0 may hold her.
        table.items[2] = RETIRED_MARK
        self.assertEqual(table.read(7, 0, 2 ** 64 - 2), RETIRED)
        self.assertEqual(table.read(7, 720, 200), RETIRED)
        self.assertEqual((NO_MINUTE, RETIRED_MARK, ALL_STORES), 3 * (2 ** 64 - 1,))

    def of_stamp(self, stamp, limit, now):
        """What read, plain read and serve say of a held animal with that stamp; serve marks her where she is fresh."""
        table = self.holding()
        table.items[2] = stamp
        before = words(table)
        said = table.read(7, limit, now)
        self.assertEqual(self.plainly(table, 7, limit, now), said)
        self.assertEqual(words(table), before)
        self.assertEqual(table.serve(7, limit, now), said)
        before[2][3] = 1 if said.kind == FRESH else 0
        self.assertEqual(words(table), before)
        return said

    def test_what_is_left(self):
        self.assertEqual(LEAST_LEFT, -4611686018427387904)
        for limit in (0, 1, 720, LARGEST_LIMIT):
            for stamp in (0, 100, 2 ** 32 - 1, 2 ** 62):
                last = stamp + limit
                self.assertEqual(self.of_stamp(stamp, limit, stamp), fresh(5, limit))
                self.assertEqual(self.of_stamp(stamp, limit, last), fresh(5, 0))
                self.assertEqual(self.of_stamp(stamp, limit, last + 1), old(-1))
                self.assertEqual(self.of_stamp(stamp, limit, last + 2 ** 32), old(-2 ** 32))
                # The lower end, and beyond it.
                self.assertEqual(self.of_stamp(stamp, limit, last + 2 ** 62 - 1), old(1 - 2 ** 62))
                for overdue in (2 ** 62, 2 ** 62 + 1, 2 ** 63 - 1, 2 ** 63):
                    self.assertEqual(self.of_stamp(stamp, limit, last + overdue), old(LEAST_LEFT))
                self.assertEqual(self.of_stamp(stamp, limit, 2 ** 64 - 2), old(LEAST_LEFT))
                self.assertEqual(self.of_stamp(stamp + 1, limit, stamp), Reading(AHEAD))
                self.assertEqual(self.of_stamp(RETIRED_MARK, limit, stamp), RETIRED)
                self.assertEqual(self.of_stamp(RETIRED_MARK, limit, last), RETIRED)
            # The largest minute is no mark.
            self.assertEqual(self.of_stamp(2 ** 64 - 2, limit, 0), Reading(AHEAD))
            self.assertEqual(self.of_stamp(2 ** 64 - 2, limit, 2 ** 64 - 2), fresh(5, limit))
            self.assertEqual(self.of_stamp(RETIRED_MARK, limit, 2 ** 64 - 2), RETIRED)

    def test_the_network_drops(self):
        table = made(32, 4, 32)
        self.assertEqual(table.set(4711, 1, 100, 100), Stored(1, 0))
        self.assertEqual(table.set(4712, 1, 100, 100), Stored(1, 0))
        self.assertEqual(table.set(4713, 2, 100, 100), Stored(1, 0))
        self.assertEqual(table.serve(4711, 720, 130), fresh(1, 690))
        self.assertEqual(table.serve(4712, 720, 130), fresh(1, 690))
        self.assertEqual(table.serve(4713, 720, 130), fresh(2, 690))
        self.assertEqual(table.read(4712, 720, 200), fresh(1, 620))
        self.assertEqual(table.serve(4711, 720, 820), fresh(1, 0))
        self.assertEqual(table.serve(4711, 720, 821), old(-1))
        self.assertEqual(lane(table.serve(4711, 720, 821)), HOLDING)
        self.assertEqual(table.serve(4712, 720, 840), old(-20))
        self.assertEqual(table.serve(4713, 720, 840), old(-20))
        # The bull gets a new permission each week, and a week is his limit. This one was issued at 60.
        self.assertEqual(table.set(900, 2, 60, 840), Stored(1, 0))
        self.assertEqual(table.serve(900, LARGEST_LIMIT, 840), fresh(2, 9300))
        self.assertEqual(table.serve(4799, 720, 840), Reading(ABSENT))
        self.assertEqual(table.read(4711, 10080, 840), fresh(1, 9340))
        self.refused(3, table.read, 4711, 10081, 840)

        # The network is back: 4712 was treated, and her fresh permission is to hold her.
        self.assertEqual(table.set(4711, 1, 890, 900), Stored(0, 0))
        self.assertEqual(table.set(4712, 0, 890, 900), Stored(0, 0))
        # Yesterday's list comes behind it. Where today's is held it is late; else it is stored, and old at once.
        self.refused(11, table.set, 4711, 1, 100, 902)
        self.refused(11, table.set, 4712, 1, 100, 902)
        self.assertEqual(table.set(4713, 2, 100, 902), Stored(0, 0))
        self.assertEqual(table.set(4714, 1, 100, 902), Stored(1, 0))
        self.assertEqual(table.serve(4711, 720, 905), fresh(1, 705))
        self.assertEqual(table.serve(4712, 720, 905), fresh(0, 705))
        self.assertEqual(table.serve(4713, 720, 905), old(-85))
        self.assertEqual(table.serve(4714, 720, 905), old(-85))
        self.assertEqual(table.set(4713, 2, 890, 906), Stored(0, 0))
        self.assertEqual(table.set(4714, 1, 890, 906), Stored(0, 0))
        self.assertEqual(table.serve(4713, 720, 910), fresh(2, 700))
        self.assertEqual(lane(table.serve(4711, 720, 910)), MILKING)
        self.assertEqual(lane(table.serve(4712, 720, 910)), HOLDING)
        self.assertEqual(lane(table.serve(4713, 720, 910)), GRAZING)
        self.assertEqual(table.serve(4714, 720, 910), fresh(1, 700))
        self.assertEqual(table.read(4711, 720, 99), Reading(AHEAD))
        self.assertEqual(table.set(4715, 1, 100, 100), Stored(1, 0))
        self.assertEqual(table.read(4715, 720, 99), Reading(AHEAD))
        self.assertIsNone(table.delete(4713))
        self.refused(7, table.delete, 4713)
        self.assertIsNone(table.find(4713))
        self.assertEqual(table.find(4715), 5)

        self.refused(9, table.list, 99)
        self.assertEqual(table.list(104).hex(), '6712000000000000010000007a03000000000000'
                                                '6812000000000000000000007a03000000000000'
                                                '8403000000000000020000003c00000000000000'
                                                '6a12000000000000010000007a03000000000000'
                                                '6b12000000000000010000006400000000000000')
        self.assertEqual(records(table.list()), [Record(4711, 1, 890), Record(4712, 0, 890), Record(900, 2, 60),
                                                 Record(4714, 1, 890), Record(4715, 1, 100)])

    def holding(self):
        """Animal 7 has permission 5, issued in minute 100 and stored in minute 300; she was not here since."""
        table = made(32, 4, 4)
        self.assertEqual(table.set(7, 5, 100, 300), Stored(1, 0))
        table.items[3] = 0
        return table

    def unchanged(self, number, table, animal, issued, now):
        """A set and its cut form refuse alike, and leave every word as it was."""
        before = words(table)
        self.refused(number, table.set, animal, 9, issued, now)
        for k in (0, 5, ALL_STORES):
            self.refused(number, table.set_cut, animal, 9, issued, now, k)
        self.assertEqual(words(table), before)

    def test_a_late_list(self):
        table = self.holding()
        self.unchanged(11, table, 7, 99, 300)
        self.assertEqual(table.read(7, 720, 300), fresh(5, 520))
        # Not held, and no place: that is another refusal.
        self.unchanged(5, table, 8, 99, 300)
        # The same minute is stored, and so is a later one, by the cut form too.
        self.assertEqual(table.set(7, 6, 100, 300), Stored(0, 0))
        self.assertEqual(table.items[:4], [7, 6, 100, 1])
        self.assertEqual(table.set_cut(7, 4, 101, 300, 5), Stored(0, 0))
        self.assertEqual(table.items[:4], [7, 4, 101, 1])

    def test_issued_after_now(self):
        table = self.holding()
        # Retired or not. No issue minute makes a stamp that is retired.
        for stamp in (100, RETIRED_MARK):
            table.items[2] = stamp
            for animal in (7, 8):
                self.unchanged(3, table, animal, 301, 300)
                self.unchanged(3, table, animal, 300, NO_MINUTE)
                self.unchanged(3, table, animal, RETIRED_MARK, 2 ** 64 - 2)
                self.unchanged(3, table, animal, RETIRED_MARK, NO_MINUTE)
        self.assertEqual(table.set(7, 6, issued=300, now=300), Stored(0, 0))
        # The minutes swapped.
        self.unchanged(3, table, 7, 400, 310)

    def test_retired_opens_no_gate(self):
        table = cabinet()
        before = words(table)
        for animal in (900, 901):
            for limit in (0, 1, 720, LARGEST_LIMIT):
                for now in (0, 1, 99, 100, 130, 820, 10180, 2 ** 62, 2 ** 63, 2 ** 64 - 2):
                    self.assertEqual(table.read(animal, limit, now), RETIRED)
                    self.assertEqual(self.plainly(table, animal, limit, now), RETIRED)
                    said = table.serve(animal, limit, now)
                    self.assertEqual((said, lane(said)), (RETIRED, HOLDING))
                self.refused(3, table.read, animal, limit, NO_MINUTE)
                self.assertEqual(self.plainly(table, animal, limit, NO_MINUTE), 3)
                self.refused(3, table.serve, animal, limit, NO_MINUTE)
            self.refused(3, table.read, animal, LARGEST_LIMIT + 1, 130)
        # Serve has changed no word, for a recent one neither. The cow's answer is as ever.
        self.assertEqual(words(table), before)
        self.assertEqual(table.serve(4713, 720, 130), fresh(2, 690))
        self.assertEqual((table.find(901), table.find(900)), (1, 2))
        self.agree(table, (4713, 900, 901))

        # Sound, and listed as it is stored.
        self.assertIsNone(self.judged(table))
        self.assertEqual(records(table.list()), [Record(4713, 2, 100), Record(901, 2, RETIRED_MARK),
                                                 Record(900, 2, RETIRED_MARK)])
        self.assertEqual(table.list()[32:40], 8 * b'\xff')
        # The hand passes 901, who was here lately, and takes 900. Served, 901 is still not recent: he is next.
        self.assertEqual(table.evict(1), Evicted(900, 2, 3))
        self.assertEqual(table.serve(901, 720, 130), RETIRED)
        self.assertEqual(table.evict(3), Evicted(901, 3, 2))

    def test_retired_is_replaced(self):
        for issued in (0, 1, 60, 2 ** 32, 2 ** 64 - 2):
            for now in (issued, 2 ** 64 - 2):
                table = cabinet()
                then = words(table)
                self.assertEqual(table.set(900, 6, issued, now), Stored(0, 0))
                # His three words and his counter, and nothing else.
                then[1][0] += 2
                then[2][8:12] = 900, 6, issued, 1
                self.assertEqual(words(table), then)
                self.assertEqual(table.serve(900, 720, issued), fresh(6, 720))
                self.assertEqual(table.read(901, 720, issued), RETIRED)
                self.assertIsNone(self.judged(table))
                # From here on he is judged as any other.
                if issued > 0:
                    self.assertEqual(table.read(900, 720, issued - 1), Reading(AHEAD))
                    self.unchanged(11, table, 900, issued - 1, now)
                self.assertEqual(table.set(900, 2, issued, now), Stored(0, 0))
        # The largest minute is no mark: every other list is late for it.
        table = cabinet()
        table.items[10] = 2 ** 64 - 2
        self.unchanged(11, table, 900, 131, 131)
        table.items[10] = RETIRED_MARK
        # Other refusals come first.
        table.counters[0] += 1
        self.unchanged(8, table, 900, 60, 131)
        self.assertEqual(self.plainly(table, 900, 720, 131), RETIRED)
        table.counters[0] -= 1
        table.slots[2] = 7
        self.unchanged(4, table, 900, 60, 131)
        table.slots[2] = 0
        # Five stores: counter, permission, stamp, recent, counter. Before the third it is retired still.
        for k in range(7):
            cut = cabinet()
            self.assertEqual(cut.set_cut(900, 6, 60, 131, k), Stored(0, 0))
            now = RETIRED if k < 3 else fresh(6, 649)
            self.assertEqual(self.plainly(cut, 900, 720, 131), now)
            self.assertEqual(self.said(cut.read, 900, 720, 131), 8 if 0 < k < 5 else now)
        # A delete takes it away as any other.
        table.delete(900)
        self.assertEqual(table.items[8:12], [0, 0, 0, 0])
        self.assertEqual(table.set(900, 6, 60, 131), Stored(1, 0))
        self.assertEqual(table.read(900, 720, 131), fresh(6, 649))

    def test_late_and_nothing_held(self):
        table = self.holding()
        self.unchanged(11, table, 7, 90, 300)
        table.delete(7)
        self.assertEqual(table.set(7, 1, 90, 300), Stored(1, 0))
        self.assertEqual(table.read(7, 720, 300), fresh(1, 510))
        table.evict(0)
        self.assertEqual(table.set(7, 1, 80, 300), Stored(1, 0))
        self.assertEqual(table.read(7, 720, 300), fresh(1, 500))

    def test_a_clock_that_ran_ahead(self):
        table = self.holding()
        self.assertEqual(table.set(7, 1, 5000, 5000), Stored(0, 0))
        # Put right, it makes every true list late, until she is deleted.
        self.assertEqual(table.read(7, 720, 900), Reading(AHEAD))
        self.unchanged(11, table, 7, 900, 900)
        self.assertEqual(table.read(7, 720, 5000), fresh(1, 720))
        table.delete(7)
        self.assertEqual(table.set(7, 1, 900, 900), Stored(1, 0))
        self.assertEqual(table.read(7, 720, 900), fresh(1, 720))

    def test_a_caller_of_before(self):
        table = self.holding()
        # Of 1.0.0, without the issue minute.
        for call, numbers in ((table.set, (7, 1, 300)), (table.set_cut, (7, 1, 300, 5))):
            self.assertRaises(TypeError, call, *numbers)
        # Of 3.x, which sets standing permissions, or looks for them in a list.
        for call in (lambda: table.set_standing(7, 1, 300, 300), lambda: table.set_standing_cut(7, 1, 300, 300, 5),
                     lambda: boughladder.STANDING):
            self.assertRaises(AttributeError, call)
        for said in (table.read(7, 720, 300), table.read(7, 720, 900), table.read(8, 720, 300)):
            self.assertRaises(AttributeError, lambda: said.age)
            self.assertRaises(TypeError, lambda: said[2])
            self.assertRaises(TypeError, lambda: (lambda kind, permission, age: age)(*said))

    def test_records(self):
        table = made(8, 1, 4)
        table.set(1, 5, 2, 2)
        self.assertEqual(table.list().hex(), '01000000000000000500000002' + 14 * '0')
        every = bytes.fromhex('0807060504030201fcfdfeff8877665544332291')
        self.assertEqual(records(every), [Record(0x0102030405060708, 0xfffefdfc, 0x9122334455667788)])

    def test_room_is_made(self):
        table = made(16, 4, 36)
        for animal in (358, 687, 1012, 1334, 248, 734, 913, 1710):
            self.assertEqual(table.set(animal, 1, 100, 100), Stored(1, 0))
        self.assertEqual(table.set(5, 1, 100, 100), Stored(5, 1))
        self.assertEqual((table.slots[12], table.counters[0]), (131074, 20))
        self.assertEqual(table.read(1012, 720, 100), fresh(1, 720))
        self.refused(5, table.set, 6, 1, 100, 100)

        table = made(8, 1, 36)
        for animal in range(1, 9):
            self.assertEqual(table.set(animal, 1, 100, 100), Stored(1, 0))
        self.refused(6, table.set, 9, 1, 100, 100)
        table.delete(4)
        self.assertEqual(table.set(9, 1, 100, 100), Stored(2, 0))

    def test_the_hand(self):
        table = made(8, 1, 12)
        self.refused(7, table.evict, 0)
        for animal in (1, 2, 3):
            table.set(animal, 1, 100, 100)
        self.refused(1, table.evict, 3)
        self.assertEqual(table.evict(1), Evicted(2, 4, 2))

        # Alone, and here lately: two turns. First with no more than the mark taken from her.
        table.fresh()
        table.set(1, 1, 100, 100)
        self.assertEqual(table.evict_cut(1, 1), Evicted(1, 6, 1))
        self.assertEqual(table.items[:4], [1, 1, 100, 0])
        self.assertEqual(table.serve(1, 720, 100), fresh(1, 720))
        self.assertEqual(table.items[3], 1)
        self.assertEqual(table.evict(1), Evicted(1, 6, 1))
        self.assertEqual(table.read(1, 720, 100), Reading(ABSENT))

    def test_the_power_goes(self):
        for k in range(9):
            with self.subTest(k=k):
                table = made(16, 1, 20)
                # Seven stores of a new entry: busy between the first and the last.
                self.assertEqual(table.set_cut(7, 5, 90, 100, k), Stored(1, 0))
                if 0 < k < 7:
                    self.refused(8, table.read, 7, 720, 100)
                    self.refused(8, table.set, 7, 5, 100, 100)
                    self.refused(8, table.delete, 7)
                    self.refused(8, table.find, 7)
                else:
                    self.assertEqual(table.read(7, 720, 100), Reading(ABSENT) if k == 0 else fresh(5, 710))
                # Only fresh helps. Seven stores of a delete, of one that is retired too.
                for stamp, whole in ((90, fresh(5, 710)), (RETIRED_MARK, RETIRED)):
                    table.fresh()
                    self.assertEqual(table.set_cut(7, 5, 90, 100, ALL_STORES), Stored(1, 0))
                    table.items[2] = stamp
                    table.delete_cut(7, k)
                    if 0 < k < 7:
                        self.refused(8, table.read, 7, 720, 100)
                    else:
                        self.assertEqual(table.read(7, 720, 100), whole if k == 0 else Reading(ABSENT))

    def test_a_damaged_word(self):
        table = made(16, 4, 20)
        table.set(1, 1, 100, 100)
        for word in (4, 16777216, 65541):
            table.slots[1] = word
            self.refused(4, table.read, 1, 720, 110)
        table.slots[1] = 65540
        self.assertEqual(table.read(1, 720, 110), fresh(1, 710))

    def said(self, call, *numbers):
        """The answer, or the number of the refusal."""
        try:
            return call(*numbers)
        except Refusal as refusal:
            return refusal.number

    def plainly(self, table, *numbers):
        """Plain read over the table and over its items alone, which say the same."""
        said = self.said(plain_read, table.items, *numbers)
        self.assertEqual(self.said(table.plain_read, *numbers), said)
        return said

    def agree(self, table, animals):
        """Plain read answers as read: for these animals, 0 and absent ones, and for bad limits and minutes too."""
        for animal in (*animals, 0, 4799, 2 ** 64 - 1):
            for limit in (0, 12, 720, LARGEST_LIMIT, LARGEST_LIMIT + 1, 2 ** 64 - 1):
                for now in (0, 99, 100, 820, 821, 900, 902, 903, 10180, 10181, 2 ** 64 - 2, 2 ** 64 - 1):
                    self.assertEqual(self.plainly(table, animal, limit, now), self.said(table.read, animal, limit, now),
                                     (animal, limit, now))

    def retire(self, table, place):
        """As a table from before 4.0.0 may hold who is at that place."""
        self.assertNotEqual(table.items[4 * place], 0)
        table.items[4 * place + 2] = RETIRED_MARK

    def test_plain_read_over_a_day(self):
        table = made(32, 4, 20)
        self.agree(table, ())
        for call, *numbers in ((table.set, 4711, 1, 100, 100), (table.set, 4712, 0, 100, 100),
                               (table.set, 4713, 2 ** 32 - 1, 100, 100), (table.serve, 4711, 720, 820),
                               (table.set, 900, 2, 60, 840), (self.retire, table, 3),         # he is at place 3
                               (table.set, 4711, 3, 890, 900),
                               (table.set, 4711, 1, 100, 902),                                # late
                               (table.delete, 4711), (table.delete, 4711),                    # place 0 is vacant now
                               (table.set, 4714, 1, 890, 902), (table.set, 4715, 1, 902, 902),
                               (table.set, 900, 2, 60, 902),                                  # in his place again
                               (table.set, 4716, 1, 902, 902),                                # no place
                               (table.evict, 1), (table.set, 4716, 1, 902, 902)):
            self.said(call, *numbers)
            self.agree(table, (4711, 4712, 4713, 900, 4714, 4715, 4716))
        self.assertEqual([record.animal for record in records(table.list())], [4714, 4716, 4713, 900, 4715])

        # And where an entry is moved to make room.
        herd = 358, 687, 1012, 1334, 248, 734, 913, 1710, 5
        table = made(16, 4, 36)
        for animal in herd:
            table.set(animal, 1, 100, 100)
            self.agree(table, herd)

    def test_plain_read_judges(self):
        # She is in the last place, behind a vacant one.
        table = lent(8, 1, 12)
        table.items[:] = 8, 1, 50, 1, 0, 0, 0, 0, 7, 5, 100, 0
        self.assertEqual(self.plainly(table, 7, 720, 820), fresh(5, 0))
        self.assertEqual(self.plainly(table, 7, 720, 821), old(-1))
        self.assertEqual(self.plainly(table, 7, 720, 99), Reading(AHEAD))
        self.assertEqual(self.plainly(table, 7, LARGEST_LIMIT, 10180), fresh(5, 0))
        self.assertEqual(self.plainly(table, 7, 0, 2 ** 64 - 2), old(LEAST_LEFT))
        self.assertEqual(self.plainly(table, 8, 720, 770), fresh(1, 0))
        self.assertEqual(self.plainly(table, 9, 720, 820), Reading(ABSENT))
        self.assertEqual(self.plainly(table, 7 + 2 ** 32, 720, 820), Reading(ABSENT))
        # It marks nobody.
        self.assertEqual(table.items[8:], [7, 5, 100, 0])

        # A permission word above 32 bits is told modulo 2^32.
        for word, permission in ((2 ** 32 + 5, 5), (2 ** 32, 0), (2 ** 64 - 1, 2 ** 32 - 1)):
            table.items[9] = word
            self.assertEqual(self.plainly(table, 7, 720, 820), fresh(permission, 0))
        table.items[10] = RETIRED_MARK
        self.assertEqual(self.plainly(table, 7, 0, 0), RETIRED)
        self.assertEqual(self.plainly(table, 7, LARGEST_LIMIT, 100), RETIRED)
        self.assertEqual(self.plainly(table, 7, 720, 2 ** 64 - 2), RETIRED)

        # Twins: the first place decides, whatever the other one is.
        table.items[:] = 8, 1, 50, 1, 7, 6, 100, 1, 7, 5, 110, 1
        self.assertEqual(self.plainly(table, 7, 720, 820), fresh(6, 0))
        self.assertEqual(self.plainly(table, 7, 720, 821), old(-1))
        table.items[6] = 900
        self.assertEqual(self.plainly(table, 7, 720, 820), Reading(AHEAD))
        table.items[6] = RETIRED_MARK
        self.assertEqual(self.plainly(table, 7, 720, 820), RETIRED)
        table.items[:] = 8, 1, 50, 1, 7, 6, 100, 1, 7, 5, RETIRED_MARK, 1
        self.assertEqual(self.plainly(table, 7, 720, 820), fresh(6, 0))

    def test_plain_read_refuses(self):
        for length in (0, 3, 4, 5, 6, 7, 8, 16380, 16383, 16384, 16385, 16388, 20000):
            with self.subTest(length=length):
                items, last = (ctypes.c_uint64 * length)(), length // 4 * 4
                if length >= 4:
                    items[last - 4:last] = 7, 5, 100, 1  # she is in the last place
                good = length in (4, 8, 16380, 16384)
                self.assertEqual(self.said(plain_read, items, 7, 720, 810), fresh(5, 10) if good else 1)
                # Its turn is before those of the animal and the times, in this order.
                for number, numbers in ((2, (0, 720, 820)), (2, (0, LARGEST_LIMIT + 1, 820)),
                                        (2, (0, 720, 2 ** 64 - 1)), (3, (7, LARGEST_LIMIT + 1, 820)),
                                        (3, (9, 720, 2 ** 64 - 1))):
                    self.refused(number if good else 1, plain_read, items, *numbers)
        # One place is lent, and she is behind it.
        items = (ctypes.c_uint64 * 8)(0, 0, 0, 0, 7, 5, 100, 1)
        self.assertEqual(plain_read((ctypes.c_uint64 * 4).from_buffer(items), 7, 720, 820), Reading(ABSENT))
        dump = bytes(items)
        self.assertEqual(plain_read((ctypes.c_uint64 * (len(dump) // 8)).from_buffer_copy(dump), 7, 720, 820),
                         fresh(5, 0))

        # Slots and counters of wrong lengths are no refusal.
        for s, c in ((0, 0), (12, 1), (8, 0), (16384, 1), (8, 1025)):
            table = lent(s, c, 4)
            table.items[:] = 7, 5, 100, 1
            self.refused(1, table.read, 7, 720, 820)
            self.assertEqual(self.plainly(table, 7, 720, 820), fresh(5, 0))

        # Numbers out of range, and what is no array of 64-bit words.
        for numbers in ((2 ** 64, 720, 820), (7, -1, 820), (7, 720, 2 ** 64), (7, 720, 1.5)):
            self.assertRaises(ValueError, plain_read, items, *numbers)
            self.assertRaises(ValueError, made(8, 1, 4).plain_read, *numbers)
        for wrong in (made(8, 1, 4), made(8, 1, 4).slots, (ctypes.c_int64 * 4)(), [7, 5, 100, 1], dump, None):
            self.assertRaises(TypeError, plain_read, wrong, 7, 720, 820)

    def test_plain_read_walks_on(self):
        # Busy: each store of a new entry is seen, and a permission 5 with no stamp yet looks fresh.
        half = [Reading(ABSENT), fresh(0, 620), fresh(5, 620)] + 3 * [fresh(5, 710)]
        for k in range(1, 7):
            table = made(16, 1, 20)
            table.set_cut(7, 5, 90, 100, k)
            self.refused(8, table.read, 7, 720, 100)
            self.assertEqual(self.plainly(table, 7, 720, 100), half[k - 1])

        table = made(16, 4, 20)
        table.set(1, 1, 100, 100)
        slot = next(n for n, word in enumerate(table.slots) if word != 0)
        for word, said in ((0xdeadbeef, 4), (0, Reading(ABSENT))):
            table.slots[slot] = word
            self.assertEqual(self.said(table.read, 1, 720, 110), said)
            self.assertEqual(self.plainly(table, 1, 720, 110), fresh(1, 710))

    def judged(self, table):
        """Judge over the table and over its arrays, which say the same: None for a yes, or the condition and where."""
        before = words(table)
        said = judge(slots=table.slots, counters=table.counters, items=table.items)
        self.assertEqual(table.judge(), said)
        self.assertEqual(words(table), before)
        self.assertEqual((said.sound, bool(said)), (said.condition == 0, said.condition == 0))
        self.assertEqual(said.at is None, said.sound)
        return None if said.sound else (said.condition, said.at)

    def herd(self):
        """Animals 11, 13 and 14 at places 0, 2 and 3; 1 and 4 are vacant. Of two buckets each slot is a home."""
        table = made(8, 3, 20)
        for animal in (11, 12, 13, 14):
            table.set(animal, 1, 100, 100)
        table.delete(12)
        self.assertIsNone(self.judged(table))
        return table

    def test_judge_over_a_day(self):
        table = made(32, 4, 20)
        self.assertIsNone(self.judged(table))
        for call, *numbers in ((table.set, 4711, 1, 100, 100), (table.set, 4712, 0, 100, 100),
                               (table.set, 4713, 2 ** 32 - 1, 100, 100), (table.serve, 4711, 720, 820),
                               (table.set, 900, 2, 60, 840), (self.retire, table, 3),         # he is at place 3
                               (table.set, 4711, 3, 890, 900),
                               (table.set, 4711, 1, 100, 902),                                # late
                               (table.delete, 4711), (table.delete, 4711),                    # place 0 is vacant now
                               (table.set, 4714, 1, 890, 902), (table.set, 4715, 1, 902, 902),
                               (table.set, 900, 2, 60, 902),                                  # in his place again
                               (table.set, 4716, 1, 902, 902),                                # no place
                               (table.evict, 1), (table.set, 4716, 1, 902, 902)):
            self.said(call, *numbers)
            self.assertIsNone(self.judged(table))
        table = made(16, 4, 36)
        for animal in (358, 687, 1012, 1334, 248, 734, 913, 1710, 5):  # the last one has another one moved
            table.set(animal, 1, 100, 100)
            self.assertIsNone(self.judged(table))

    def test_judge_lengths(self):
        for s, c, i, run in ((8, 1, 4, None), (8192, 1024, 16384, None), (4, 1, 4, 0), (12, 1, 4, 0), (16384, 1, 4, 0),
                             (8, 0, 4, 1), (8, 1025, 4, 1), (8, 1, 0, 2), (8, 1, 6, 2), (8, 1, 16388, 2),
                             (0, 0, 0, 0), (12, 0, 4, 0), (12, 1, 6, 0), (8, 0, 6, 1)):
            with self.subTest(lengths=(s, c, i)):
                table = lent(s, c, i)
                for array in (table.slots, table.counters, table.items):
                    ctypes.memset(array, 0, ctypes.sizeof(array))
                self.assertEqual(self.judged(table), None if run is None else (1, run))

    def test_judge_conditions(self):
        table = self.herd()
        good = words(table)
        slot = {word % 65536: n for n, word in enumerate(table.slots) if word != 0}  # by place
        word = {place: table.slots[n] for place, n in slot.items()}
        free = [n for n in range(8) if table.slots[n] == 0]

        def broken(*changes):
            """What is said of the herd with these words put into runs 0, 1 and 2."""
            table.slots[:], table.counters[:], table.items[:] = good
            for run, index, value in changes:
                (table.slots, table.counters, table.items)[run][index] = value
            return self.judged(table)

        # Damaged words: no tag, a tag or a place that is too large. The lowest is told.
        for damage in (4, 256 * 65536, 65536 + 5, 2 ** 32 - 1):
            for n in range(8):
                self.assertEqual(broken((0, n, damage)), (2, n))
                self.assertEqual(broken((0, n, damage), (0, 7, damage)), (2, n))
        # Odd counters, one of which no call looks at.
        for n in range(3):
            self.assertEqual(broken((1, n, 1), (1, 2, 2 ** 32 - 1)), (3, n))
            self.assertIsNone(broken((1, n, 2 ** 32 - 2)))
        # A slot that points to a vacant place, or with another tag.
        self.assertEqual(broken((0, free[1], 65536 + 4), (0, free[2], 65536 + 1)), (4, free[1]))
        for place in slot:
            self.assertEqual(broken((0, slot[place], word[place] ^ 65536)), (4, slot[place]))
            # No slot for her place; two; her word in another slot.
            self.assertEqual(broken((0, slot[place], 0)), (5, place))
            self.assertEqual(broken((0, free[0], word[place])), (5, place))
            self.assertIsNone(broken((0, slot[place], 0), (0, free[0], word[place])))
            # Twins: the lower place is told. Where the second has no slot, that comes first.
            for second in (1, 4):
                twin = (2, 4 * second, table.items[4 * place]), (0, free[0], word[place] - place + second)
                self.assertEqual(broken(*twin), (6, min(place, second)))
                self.assertEqual(broken(twin[0]), (5, second))
        self.assertEqual(broken((0, slot[3], 0), (0, slot[2], 0)), (5, 2))
        # A wide permission, where taken or vacant: 7 comes before 8.
        for place in range(5):
            self.assertEqual(broken((2, 4 * place + 1, 2 ** 32), (2, 4 * 1 + 2, 5)), (7, place))
            vacant = place in (1, 4)
            for part, value in ((1, 2 ** 32 - 1), (2, 1), (2, RETIRED_MARK), (3, 1), (3, 2 ** 64 - 1)):
                self.assertEqual(broken((2, 4 * place + part, value)), (8, place) if vacant else None)
        # All at once, and one after the other is put right.
        every = [(2, 4 * 1 + 2, 1), (2, 4 * 3 + 1, 2 ** 64 - 1), (2, 4 * 4, table.items[4 * 2]),
                 (0, free[0], word[2] - 2 + 4), (0, slot[3], 0), (0, free[1], 65536 + 1), (1, 2, 7), (0, free[2], 5)]
        for kept, said in ((8, (2, free[2])), (7, (3, 2)), (6, (4, free[1])), (5, (5, 3)), (4, (6, 2)),
                           (2, (7, 3)), (1, (8, 1)), (0, None)):
            self.assertEqual(broken(*every[:kept]), said)

    def test_judge_of_a_cut_call(self):
        for k in range(9):
            with self.subTest(k=k):
                # Who is retired is cut as any other.
                for call, numbers, retired in (('set_cut', (15, 5, 90, 100), False),
                                               ('set_cut', (11, 5, 100, 100), False), ('delete_cut', (11,), False),
                                               ('set_cut', (11, 5, 90, 100), True), ('delete_cut', (11,), True)):
                    table = self.herd()
                    if retired:
                        self.retire(table, 0)
                    getattr(table, call)(*numbers, k)
                    stores = 5 if call == 'set_cut' and numbers[0] == 11 else 7
                    self.assertEqual(self.judged(table), (3, 0) if 0 < k < stores else None)
                    table.fresh()
                    self.assertIsNone(self.judged(table))
                # Three marks are taken first, and that leaves it sound.
                table = self.herd()
                self.assertEqual(table.evict_cut(0, k).victim, 11)
                self.assertEqual(self.judged(table), None if k <= 3 else (3, 0))

    def test_judge_of_another_workshop(self):
        # The same herd in other places and slots, with other even counters and recent words.
        own, word = self.herd(), {}
        for entry in filter(None, own.slots):
            word[own.items[4 * (entry % 65536)]] = entry // 65536 * 65536
        table = lent(8, 3, 20)
        table.slots[:] = 0, 0, word[14] + 0, 0, 0, word[11] + 4, 0, word[13] + 1
        table.counters[:] = 40, 2 ** 32 - 2, 6
        table.items[:] = 14, 1, 100, 7, 13, 1, RETIRED_MARK, 0, 0, 0, 0, 0, 0, 0, 0, 0, 11, 1, 100, 2 ** 64 - 1
        self.assertIsNone(self.judged(table))
        for said, call, *numbers in ((fresh(1, 0), table.read, 11, 720, 820), (RETIRED, table.serve, 13, 720, 820),
                                     (Stored(0, 0), table.set, 13, 1, 50, 820),
                                     (fresh(1, 0), table.serve, 13, 720, 770), (None, table.delete, 14),
                                     (Stored(1, 0), table.set, 15, 2, 200, 200),
                                     (Stored(0, 0), table.set, 11, 3, 200, 200), (Evicted(15, 6, 1), table.evict, 0)):
            self.assertEqual(call(*numbers), said)
            self.assertIsNone(self.judged(table))
            self.agree(table, (11, 13, 14, 15))
        # The bytes of a dump.
        dump = bytes(table.slots), bytes(table.counters), bytes(table.items)
        runs = [(kind * (len(data) // ctypes.sizeof(kind))).from_buffer_copy(data)
                for kind, data in zip((ctypes.c_uint32, ctypes.c_uint32, ctypes.c_uint64), dump)]
        self.assertTrue(judge(slots=runs[0], counters=runs[1], items=runs[2]))

    def test_judgements(self):
        self.assertEqual(list(CONDITIONS), list(range(1, 9)))
        self.assertEqual(len(set(CONDITIONS.values())), 8)
        self.assertEqual(str(Judgement(0, None)), 'sound')
        self.assertEqual(str(Judgement(6, 2)), 'condition 6 at 2: two places hold the same animal')
        self.assertEqual(str(Judgement(9, 0)), 'condition 9 at 0: no condition number')
        self.assertFalse(Judgement(9, 0))
        table = made(8, 1, 4)
        # By name only, and of arrays of the right kinds only.
        self.assertRaises(TypeError, lambda: judge(table.slots, table.counters, table.items))
        for wrong in (table, table.items, [0] * 8, bytes(32), None):
            self.assertRaises(TypeError, lambda: judge(slots=wrong, counters=table.counters, items=table.items))
            self.assertRaises(TypeError, lambda: judge(slots=table.slots, counters=wrong, items=table.items))
        self.assertRaises(TypeError, lambda: judge(slots=table.slots, counters=table.counters, items=table.slots))

    def planned(self, table, animal):
        """Plan, which changes no word: what it says, or the number of the refusal."""
        before = words(table)
        said = self.said(table.plan, animal, 2, 100, 130)
        self.assertEqual(words(table), before)
        return said

    def counted(self, table, counters):
        """These counters, with 2 more in the one that has changed."""
        n = next(n for n in range(len(counters)) if table.counters[n] != counters[n])
        counters[n] += 2

    def moved(self, table, from_, tag, to):
        """A move for 17. Where it is made, two slots and one counter change, by 2; where not, nothing does."""
        then = words(table)
        said = self.said(table.step_move, Move(from_, tag, to), 17, 2, 100, 130)
        if said is None:
            then[0][to], then[0][from_] = then[0][from_], 0
            self.counted(table, then[1])
        self.assertEqual(words(table), then)
        return said

    def entered(self, table, place, slot, animal):
        """The final store. Where it is made, one place, a slot and a counter change; where not, nothing does."""
        then = words(table)
        said = self.said(table.step_enter, place, slot, animal, 2, 100, 130)
        if said is None:
            then[0][slot] = table.slots[slot] // 65536 * 65536 + place
            self.counted(table, then[1])
            then[2][4 * place:4 * place + 4] = animal, 2, 100, 1
        self.assertEqual(words(table), then)
        return said

    def test_a_set_in_steps(self):
        table = crowded(16, 4, 56, CROWD)
        plan = self.planned(table, 17)
        # 6, with tag 225, goes from slot 13 to 8, then 1, with tag 62, from 0 to 13.
        self.assertEqual(plan, Plan((Move(13, 225, 8), Move(0, 62, 13)), 12, 0))
        self.assertEqual((plan.moves[1].from_, plan.moves[1].tag, plan.moves[1].to), (0, 62, 13))
        self.assertEqual((plan.place, plan.slot), (12, 0))

        # Between the steps 6 is served, 20 leaves and 3 comes. A move changes no answer, nor does the final store.
        def answers():
            self.assertIsNone(self.judged(table))
            return [table.read(animal, 720, 130) for animal in (1, 5, 6, 9, 10, 14)]

        before = answers()
        self.assertEqual(table.serve(6, 720, 130), fresh(1, 690))
        self.assertIsNone(table.step_move(plan.moves[0], 17, 2, 100, 130))
        self.assertEqual(answers(), before)
        self.assertEqual(table.serve(6, 720, 130), fresh(1, 690))
        table.delete(20)
        self.assertEqual(table.set(3, 1, 100, 130), Stored(1, 0))
        self.assertIsNone(table.step_move(plan.moves[1], 17, 2, 100, 130))
        self.assertEqual(answers(), before)
        self.assertEqual(table.serve(17, 720, 130), Reading(ABSENT))
        # 12 leaves place 4, and that is the lowest vacant one; 17 gets the planned one. What the step says is stored.
        table.delete(12)
        self.assertIsNone(table.step_enter(plan.place, plan.slot, 17, 2 ** 32 - 1, issued=120, now=131))
        self.assertEqual(answers(), before)
        self.assertEqual(table.find(17), 12)
        self.assertEqual(table.serve(17, 720, 131), fresh(2 ** 32 - 1, 709))
        self.assertEqual(table.items[48:52], [17, 2 ** 32 - 1, 120, 1])

    def test_steps_leave_what_a_set_leaves(self):
        one = 358, 687, 1012, 1334, 248, 734, 913, 1710
        for n, v, herd, animal, moves in ((4, 4, CROWD[:3], 17, 0), (4, 4, one, 5, 1), (4, 1, CROWD, 17, 2),
                                          (16, 8, LARGE_CROWD[:19], 625, 3), (16, 8, LARGE_CROWD, 625, 4)):
            with self.subTest(moves=moves):
                table, other = crowded(4 * n, v, 88, herd), crowded(4 * n, v, 88, herd)
                plan = self.planned(table, animal)
                self.assertEqual((len(plan.moves), plan.place), (moves, len(herd)))
                self.assertEqual(other.set(animal, 7, 110, 130).moves, moves)
                for move in plan.moves:
                    table.step_move(move, animal, 7, 110, 130)
                    self.assertIsNone(self.judged(table))
                table.step_enter(plan.place, plan.slot, animal, 7, 110, 130)
                self.assertEqual(words(table), words(other))
        # The four moves, by number.
        plan = self.planned(crowded(64, 8, 88, LARGE_CROWD), 625)
        self.assertEqual(plan, Plan((Move(9, 173, 12), Move(6, 247, 9), Move(3, 189, 6), Move(63, 51, 3)), 20, 63))
        self.assertEqual(len(plan.moves), MOST_MOVES)

    def test_a_stale_step(self):
        table = crowded(16, 4, 52, CROWD)
        old = self.planned(table, 17)
        # 6 leaves, so nobody is there to be moved; a new plan wants one move less.
        table.delete(6)
        self.assertEqual(self.moved(table, 13, 225, 8), 12)
        new = self.planned(table, 17)
        self.assertEqual(new, Plan((Move(0, 62, 13),), 9, 0))
        self.assertIsNone(self.moved(table, 0, 62, 13))
        # Made once, it can't be made again.
        self.assertEqual(self.moved(table, 0, 62, 13), 12)
        # Another one takes the planned place: she is entered into the next.
        table.set(6, 1, 100, 130)
        self.assertEqual(self.entered(table, new.place, new.slot, 17), 12)
        self.assertIsNone(self.entered(table, old.place, old.slot, 17))
        # And only once. A move is made where she is held, too; but who is held can't be planned for, only set.
        self.assertEqual(self.entered(table, new.place, new.slot, 17), 12)
        self.assertEqual(self.planned(table, 17), 12)
        table.delete(5)
        self.assertIsNone(self.moved(table, 13, 62, 1))
        self.assertEqual(table.set(17, 1, 120, 130), Stored(0, 0))
        self.assertIsNone(self.judged(table))

        # A set takes the slot that was the last to be freed.
        table = crowded(16, 4, 56, CROWD)
        old = self.planned(table, 17)
        for move in old.moves:
            self.assertIsNone(self.moved(table, *move))
        self.assertEqual(table.set(21, 1, 100, 130), Stored(1, 0))
        self.assertEqual(self.entered(table, 13, old.slot, 17), 12)
        new = self.planned(table, 17)
        for move in new.moves:
            self.assertIsNone(self.moved(table, *move))
        self.assertIsNone(self.entered(table, new.place, new.slot, 17))
        self.assertEqual((table.find(21), table.find(17)), (12, 13))
        self.assertIsNone(self.judged(table))

    def test_a_move_not_as_planned(self):
        table = crowded(16, 4, 56, CROWD)
        # Slots that are not there. Some would be if they were cut to 32 bits.
        for beyond in (16, 2 ** 8, 2 ** 32, 2 ** 63, 2 ** 64 - 16):
            for from_, to in ((beyond, 8), (beyond + 13, 8), (13, beyond), (13, beyond + 8)):
                self.assertEqual(self.moved(table, from_, 225, to), 12)
        # Another tag. Most have bucket 2 as well; some would be 225 if they were cut to 8 or 16 bits.
        for tag in (0, 1, 224, 226, 227, 225 + 256, 225 + 65536, 225 << 16, 2 ** 32 - 1):
            self.assertEqual(self.moved(table, 13, tag, 8), 12)
        # The source is free: its tag would be 0. Slot 14 is free too, and in the other bucket of each of these tags.
        table.delete(10)
        for tag in (0, 225, 62):
            self.assertEqual(self.moved(table, 9, tag, 14), 12)
        # The source is damaged: tag 0, tag 256, a place that is not there.
        word = table.slots[13]
        for damaged, tag in ((9, 0), (256 * 65536 + 9, 256), (225 * 65536 + 14, 225), (2 ** 32 - 1, 65535)):
            table.slots[13] = damaged
            self.assertEqual(self.moved(table, 13, tag, 8), 12)
            self.assertEqual(self.moved(table, 13, 225, 8), 12)
        table.slots[13] = word
        # The destination is taken, by whatever word.
        for taken in (word, 65536, 7, 2 ** 32 - 1):
            table.slots[8] = taken
            self.assertEqual(self.moved(table, 13, 225, 8), 12)
        table.slots[8] = 0
        # The destination is in another bucket, or in its own, or is the source.
        table.delete(9)
        table.delete(16)
        for to in (2, 5, 14, 13):
            self.assertEqual(self.moved(table, 13, 225, to), 12)
        # Any slot of the other bucket will do, there and back.
        for to in range(8, 12):
            for way in ((13, to), (to, 14), (14, to), (to, 13)):
                self.assertIsNone(self.moved(table, way[0], 225, way[1]))
        self.assertIsNone(self.judged(table))

    def test_a_final_store_not_as_planned(self):
        table = crowded(16, 4, 56, CROWD)
        self.assertIsNone(self.moved(table, 13, 225, 8))
        self.assertIsNone(self.moved(table, 0, 62, 13))
        # 1 is held, and slot 0 is in her bucket.
        self.assertEqual(self.entered(table, 12, 0, 1), 12)
        # A place that is not there; some would be if they were cut, or their first word's number were. Or it is taken.
        for place in (14, 12 + 2 ** 16, 12 + 2 ** 32, 12 + 2 ** 62, 12 + 2 ** 63, 2 ** 64 - 1, 0, 9, 11):
            self.assertEqual(self.entered(table, place, 0, 17), 12)
        # A slot that is not there, is taken, or is in another bucket.
        for slot in (16, 2 ** 32, 2 ** 63, 2 ** 64 - 1, 1, 4, 7, 8, 9, 11, 13):
            self.assertEqual(self.entered(table, 12, slot, 17), 12)
        self.assertIsNone(self.judged(table))
        # Any vacant place will do, whatever is left in its other words; and any free slot of both buckets.
        table.delete(16)
        for place, slot in ((12, 0), (13, 0), (5, 0), (12, 5), (13, 5), (5, 5)):
            table.items[4 * place + 1:4 * place + 4] = 2 ** 64 - 1, 7, 7
            self.assertIsNone(self.entered(table, place, slot, 17))
            self.assertEqual(table.read(17, 720, 130), fresh(2, 690))
            self.assertIsNone(self.judged(table))
            table.delete(17)

    def test_plan_refuses(self):
        table = crowded(16, 4, 48, CROWD)
        # Who is held: by the same minute, by a later list, by a late one, and where she is retired. 12 comes before 5.
        for stamp in (100, 0, 130, RETIRED_MARK):
            table.items[2] = stamp
            self.assertEqual(self.planned(table, 1), 12)
        self.assertEqual(self.planned(table, 17), 5)
        table = crowded(8, 1, 36, range(1, 9))
        self.assertEqual(self.planned(table, 9), 6)
        self.unchanged(6, table, 9, 100, 130)
        # A damaged word beside the free slot that the search finds.
        crowd = crowded(16, 4, 56, CROWD)
        crowd.slots[11] = 7
        self.assertEqual(self.planned(crowd, 17), 4)
        self.unchanged(4, crowd, 17, 100, 130)
        # With a free slot in a home bucket no move is wanted.
        table.delete(4)
        plan = self.planned(table, 9)
        self.assertEqual((plan.moves, plan.place), ((), 3))

    def test_steps_refuse_in_turn(self):
        # One place and two buckets: every slot is a home, and the table is full.
        table = crowded(8, 1, 4, (7,))
        free = next(n for n in range(8) if table.slots[n] == 0)
        top = 2 ** 64 - 1

        def says(table, animal, issued, now):
            """What plan, a move and the final store say, each with numbers that are wrong."""
            before = words(table)
            said = (self.said(table.plan, animal, 2, issued, now),
                    self.said(table.step_move, Move(top, 2 ** 32 - 1, top), animal, 2, issued, now),
                    self.said(table.step_enter, top, top, animal, 2, issued, now))
            self.assertEqual(words(table), before)
            return said

        # All reasons at once, and one after the other is taken away.
        for animal in (7, 8):
            table.slots[free], table.counters[0] = 65537, 3
            short = Table.over(slots=table.slots, counters=table.counters, items=(ctypes.c_uint64 * 3)())
            self.assertEqual(says(short, 0, 131, 130), (1, 1, 1))
            self.assertEqual(says(table, 0, 131, 130), (2, 2, 2))
            self.assertEqual(says(table, animal, 131, 130), (3, 3, 3))
            self.assertEqual(says(table, animal, 130, NO_MINUTE), (3, 3, 3))
            self.assertEqual(says(table, animal, 130, 130), (8, 8, 8))
            table.counters[0] = 4
            self.assertEqual(says(table, animal, 130, 130), (4, 4, 4))
            table.slots[free] = 0
            self.assertEqual(says(table, animal, 130, 130), (12 if animal == 7 else 5, 12, 12))

    def test_steps_out_of_range(self):
        table = crowded(16, 4, 56, CROWD)
        before, good = words(table), (17, 2, 100, 130)
        # Cut to its bits each of them would be good.
        for number in (2 ** 64, -2 ** 64):
            for move in (Move(13 + number, 225, 8), Move(13, 225, 8 + number), Move(13, 225 + number // 2 ** 32, 8)):
                self.assertRaises(ValueError, table.step_move, move, *good)
        for wrong in (13.0, '13', None):
            for move in (Move(wrong, 225, 8), Move(13, wrong, 8), Move(13, 225, wrong)):
                self.assertRaises(ValueError, table.step_move, move, *good)
        for numbers in ((2 ** 64 + 17, 2, 100, 130), (17, 2 ** 32 + 2, 100, 130), (17, 2, -1, 130),
                        (17, 2, 100, 2 ** 64), (17, 2, 100, 1.5)):
            self.assertRaises(ValueError, table.plan, *numbers)
            self.assertRaises(ValueError, table.step_move, Move(13, 225, 8), *numbers)
            self.assertRaises(ValueError, table.step_enter, 12, 0, *numbers)
        # A move is a Move: no plan, no three numbers.
        for wrong in (table.plan(*good), (13, 225, 8), [13, 225, 8], 13, None):
            self.assertRaises(TypeError, table.step_move, wrong, *good)
        self.assertEqual(words(table), before)
        self.assertIsNone(self.moved(table, 13, 225, 8))
        self.assertIsNone(self.moved(table, 0, 62, 13))
        for place, slot in ((2 ** 64 + 12, 0), (12, 2 ** 64), (-1, 0), (12, -16), (12.0, 0), (12, None)):
            self.assertRaises(ValueError, table.step_enter, place, slot, *good)
        self.assertIsNone(self.entered(table, 12, 0, 17))

    def test_lanes(self):
        self.assertEqual([lane(fresh(permission, 0)) for permission in range(5)],
                         [HOLDING, MILKING, GRAZING, MILKING, HOLDING])
        for held in (Reading(ABSENT), old(-1), Reading(AHEAD)):
            self.assertEqual(lane(held), HOLDING)

    def test_refusals(self):
        self.assertEqual(list(REFUSALS), list(range(1, 13)))
        self.assertEqual(len(set(REFUSALS.values())), 12)
        self.assertEqual(str(Refusal(8)), 'refusal 8: busy: a write was cut off')
        self.assertEqual(str(Refusal(11)), 'refusal 11: late: a permission that was issued later is held')
        self.assertEqual(str(Refusal(12)),
                         "refusal 12: the animal to plan for is held, or a step can't be made as planned")
        self.assertEqual(str(Refusal(13)), 'refusal 13: no refusal number')

    def test_numbers_out_of_range(self):
        table = made(8, 1, 4)
        for call in (lambda: table.set(2 ** 64 + 1, 1, 1, 1), lambda: table.set(1, 2 ** 32, 1, 1),
                     lambda: table.set(1, 1, -1, 1), lambda: table.set(1, 1, 1, 2 ** 64),
                     lambda: table.read(1, -1, 1), lambda: table.read(1, 1.5, 1), lambda: table.evict(-1)):
            self.assertRaises(ValueError, call)
        self.assertEqual(table.list(), b'')
        self.assertRaises(TypeError, lambda: Table.over(slots=table.items, counters=table.counters, items=table.items))

    def test_one_call_at_a_time(self):
        table = made(8, 1, 4)
        for call, numbers in ((table.set, (1, 1, 100, 100)), (table.read, (1, 720, 100)), (table.list, ()),
                              (table.plain_read, (1, 720, 100)), (table.judge, ()), (table.plan, (2, 1, 100, 100)),
                              (table.step_move, (Move(0, 1, 4), 2, 1, 100, 100)),
                              (table.step_enter, (0, 0, 2, 1, 100, 100))):
            task = threading.Thread(target=self.said, args=(call, *numbers))
            with table._lock:
                task.start()
                task.join(0.1)
                self.assertTrue(task.is_alive())
            task.join()


if __name__ == '__main__':
    unittest.main()
