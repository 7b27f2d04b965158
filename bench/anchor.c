/* anchor.c: the order's rules in plain C. See anchor.h. */
#include "anchor.h"

#include <string.h>

#define NO_MINUTE UINT64_MAX    /* as now */
#define RETIRED_MARK UINT64_MAX /* as the stamp of an entry */
#define OVERDUE_MOST (UINT64_C(1) << 62) /* minutes: who is overdue for longer is told this */
#define VISITS 682  /* 2 + 8 + 32 + 128 + 512 */
#define PARENTS 170 /* the visits of levels 0 to 3, whose slots lead on */
#define INLINE static inline __attribute__((always_inline))

/* Where an animal belongs. */
typedef struct {
    uint32_t tag, first, other, counter;
} Homes;

/* The stores that a cut call may still make. A whole call does not count them. */
typedef struct {
    int cut;
    uint64_t left;
} Budget;

INLINE void store32(Budget *budget, uint32_t *word, uint32_t value) {
    if (budget->cut) {
        if (budget->left == 0) return;
        budget->left--;
    }
    *word = value;
}

INLINE void store64(Budget *budget, uint64_t *word, uint64_t value) {
    if (budget->cut) {
        if (budget->left == 0) return;
        budget->left--;
    }
    *word = value;
}

INLINE int good_slots(size_t sl) { return sl >= 8 && sl <= 8192 && (sl & (sl - 1)) == 0; }
INLINE int good_counters(size_t cl) { return cl >= 1 && cl <= 1024; }
INLINE int good_items(size_t il) { return il >= 4 && il <= 16384 && il % 4 == 0; }
INLINE int good_shape(size_t sl, size_t cl, size_t il) { return good_slots(sl) && good_counters(cl) && good_items(il); }

INLINE uint32_t fnv1a(uint64_t animal) {
    uint32_t h = 2166136261u;
    for (int i = 0; i < 8; i++) {
        h = (h ^ (uint32_t)(animal & 255)) * 16777619u;
        animal >>= 8;
    }
    return h;
}

/* N is a power of two, so that "mod N" keeps the low bits; an even spread plus 1 is the spread with its low bit set. */
INLINE uint32_t other_bucket(uint32_t bucket, uint32_t tag, uint32_t n) {
    return bucket ^ (((tag * 1540483477u) & (n - 1)) | 1u);
}

INLINE uint32_t counter_of(uint32_t a, uint32_t b, size_t cl) {
    return (a < b ? a : b) % (uint32_t)cl;
}

INLINE Homes homes_of(uint64_t animal, uint32_t n, size_t cl) {
    Homes home;
    uint32_t h = fnv1a(animal);
    home.tag = h >> 24;
    home.tag += home.tag == 0;
    home.first = h & (n - 1);
    home.other = other_bucket(home.first, home.tag, n);
    home.counter = counter_of(home.first, home.other, cl);
    return home;
}

/* 1 for a damaged word, without a branch. */
INLINE uint32_t damaged(uint32_t word, uint32_t m) {
    uint32_t tag = word >> 16;
    return (uint32_t)(word != 0) & ((uint32_t)(tag - 1u > 254u) | (uint32_t)((word & 65535u) >= m));
}

INLINE uint32_t damaged_bucket(const uint32_t *four, uint32_t m) {
    return damaged(four[0], m) | damaged(four[1], m) | damaged(four[2], m) | damaged(four[3], m);
}

INLINE int damaged_homes(const uint32_t *slots, Homes home, uint32_t m) {
    return (damaged_bucket(slots + 4 * home.first, m) | damaged_bucket(slots + 4 * home.other, m)) != 0;
}

/* The slot of the hit, or -1. The home slots are not damaged. The tags are compared without a branch; only the slots with
   the animal's tag are followed to their places. */
INLINE int hit_of(const uint32_t *slots, const uint64_t *items, Homes home, uint64_t animal) {
    const uint32_t *a = slots + 4 * home.first, *b = slots + 4 * home.other;
    uint32_t same = 0;
    for (int i = 0; i < 4; i++) same |= (uint32_t)(a[i] >> 16 == home.tag) << i;
    for (int i = 0; i < 4; i++) same |= (uint32_t)(b[i] >> 16 == home.tag) << (4 + i);
    while (same != 0) {
        uint32_t i = (uint32_t)__builtin_ctz(same);
        uint32_t slot = i < 4 ? 4 * home.first + i : 4 * home.other + (i - 4);
        if (items[4 * (slots[slot] & 65535u)] == animal) return (int)slot;
        same &= same - 1;
    }
    return -1;
}

uint32_t anchor_fresh(ANCHOR_TABLE) {
    if (!good_shape(sl, cl, il)) return 1;
    memset(slots, 0, sl * sizeof *slots);
    memset(counters, 0, cl * sizeof *counters);
    memset(items, 0, il * sizeof *items);
    return 0;
}

/* Read; *place is the place of a fresh answer. */
INLINE BoughladderReading reading(ANCHOR_LENT, uint64_t animal, uint64_t limit, uint64_t now, uint32_t *place) {
    BoughladderReading r = {0, 0, 0, 0};
    if (!good_shape(sl, cl, il)) { r.refusal = 1; return r; }
    if (animal == 0) { r.refusal = 2; return r; }
    if (limit > 10080 || now == NO_MINUTE) { r.refusal = 3; return r; }
    Homes home = homes_of(animal, (uint32_t)(sl / 4), cl);
    if (counters[home.counter] & 1) { r.refusal = 8; return r; }
    if (damaged_homes(slots, home, (uint32_t)(il / 4))) { r.refusal = 4; return r; }
    int slot = hit_of(slots, items, home, animal);
    if (slot < 0) { r.kind = BOUGHLADDER_ABSENT; return r; }
    *place = slots[slot] & 65535u;
    const uint64_t *item = items + 4 * *place;
    uint64_t stamp = item[2];
    if (stamp > now) { /* as the mark is, at every minute */
        r.kind = stamp == RETIRED_MARK ? BOUGHLADDER_OLD : BOUGHLADDER_AHEAD;
        r.left = stamp == RETIRED_MARK ? -(int64_t)OVERDUE_MOST : 0;
        return r;
    }
    uint64_t age = now - stamp;
    if (age > limit) { /* the sign comes last: a long age is no int64_t */
        uint64_t overdue = age - limit;
        r.kind = BOUGHLADDER_OLD;
        r.left = -(int64_t)(overdue < OVERDUE_MOST ? overdue : OVERDUE_MOST);
        return r;
    }
    r.kind = BOUGHLADDER_FRESH;
    r.permission = (uint32_t)item[1];
    r.left = (int64_t)(limit - age);
    return r;
}

BoughladderReading anchor_read(ANCHOR_LENT, uint64_t animal, uint64_t limit, uint64_t now) {
    uint32_t place = 0;
    return reading(slots, sl, counters, cl, items, il, animal, limit, now, &place);
}

BoughladderReading anchor_serve(const uint32_t *slots, size_t sl, const uint32_t *counters, size_t cl, uint64_t *items,
                                size_t il, uint64_t animal, uint64_t limit, uint64_t now) {
    uint32_t place = 0;
    BoughladderReading r = reading(slots, sl, counters, cl, items, il, animal, limit, now, &place);
    if (r.refusal == 0 && r.kind == BOUGHLADDER_FRESH) items[4 * place + 3] = 1;
    return r;
}

BoughladderFinding anchor_find(ANCHOR_LENT, uint64_t animal) {
    BoughladderFinding f = {0, 0, 0};
    if (!good_shape(sl, cl, il)) { f.refusal = 1; return f; }
    if (animal == 0) { f.refusal = 2; return f; }
    Homes home = homes_of(animal, (uint32_t)(sl / 4), cl);
    if (counters[home.counter] & 1) { f.refusal = 8; return f; }
    if (damaged_homes(slots, home, (uint32_t)(il / 4))) { f.refusal = 4; return f; }
    int slot = hit_of(slots, items, home, animal);
    if (slot < 0) return f;
    f.kind = BOUGHLADDER_AT_PLACE;
    f.place = slots[slot] & 65535u;
    return f;
}

/* The stores of a move, and those of a new entry. */
INLINE void carry_over(Budget *budget, uint32_t *counter, uint32_t *from, uint32_t *to) {
    store32(budget, counter, *counter + 1);
    store32(budget, to, *from);
    store32(budget, from, 0);
    store32(budget, counter, *counter + 1);
}

INLINE void put_in(Budget *budget, uint32_t *counter, uint64_t *item, uint32_t *slot, uint32_t word, uint64_t animal,
                   uint32_t permission, uint64_t issued) {
    store32(budget, counter, *counter + 1);
    store64(budget, item + 0, animal);
    store64(budget, item + 1, permission);
    store64(budget, item + 2, issued);
    store64(budget, item + 3, 1);
    store32(budget, slot, word);
    store32(budget, counter, *counter + 1);
}

INLINE BoughladderSetting setting(ANCHOR_TABLE, uint64_t animal, uint32_t permission, uint64_t issued, uint64_t now,
                                  Budget budget) {
    BoughladderSetting s = {0, 0, 0};
    if (!good_shape(sl, cl, il)) { s.refusal = 1; return s; }
    if (animal == 0) { s.refusal = 2; return s; }
    if (now == NO_MINUTE || issued > now) { s.refusal = 3; return s; }
    uint32_t n = (uint32_t)(sl / 4), m = (uint32_t)(il / 4);
    Homes home = homes_of(animal, n, cl);
    uint32_t *counter = counters + home.counter;
    if (*counter & 1) { s.refusal = 8; return s; }
    if (damaged_homes(slots, home, m)) { s.refusal = 4; return s; }
    int hit = hit_of(slots, items, home, animal);
    if (hit >= 0) {
        uint64_t *item = items + 4 * (slots[hit] & 65535u);
        /* A list that comes late does not undo a later one. What is retired has no minute of issue to compare. */
        if (issued < item[2] && item[2] != RETIRED_MARK) { s.refusal = 11; return s; }
        store32(&budget, counter, *counter + 1);
        store64(&budget, item + 1, permission);
        store64(&budget, item + 2, issued);
        store64(&budget, item + 3, 1);
        store32(&budget, counter, *counter + 1);
        return s;
    }
    uint32_t place = 0;
    while (place < m && items[4 * place] != 0) place++;
    if (place == m) { s.refusal = 5; return s; }

    uint16_t queue[VISITS]; /* the buckets of the visit list; visit v's slots lead to visits 2 + 4v to 5 + 4v */
    uint32_t v, free_slot = 0;
    queue[0] = (uint16_t)home.first;
    queue[1] = (uint16_t)home.other;
    for (v = 0; v < VISITS; v++) {
        uint32_t bucket = queue[v];
        const uint32_t *four = slots + 4 * bucket;
        if (damaged_bucket(four, m)) { s.refusal = 4; return s; }
        if (four[0] == 0 || four[1] == 0 || four[2] == 0 || four[3] == 0) {
            free_slot = 4 * bucket;
            while (slots[free_slot] != 0) free_slot++;
            break;
        }
        if (v < PARENTS)
            for (uint32_t i = 0; i < 4; i++) queue[2 + 4 * v + i] = (uint16_t)other_bucket(bucket, four[i] >> 16, n);
    }
    if (v == VISITS) { s.refusal = 6; return s; }
    s.visits = v + 1;
    while (v >= 2) { /* from the far end back */
        uint32_t parent = (v - 2) / 4;
        uint32_t source = 4u * queue[parent] + (v - 2) % 4;
        carry_over(&budget, counters + counter_of(queue[parent], queue[v], cl), slots + source, slots + free_slot);
        free_slot = source;
        v = parent;
        s.moves++;
    }
    put_in(&budget, counter, items + 4 * place, slots + free_slot, home.tag * 65536u + place, animal, permission, issued);
    return s;
}

BoughladderSetting anchor_set(ANCHOR_TABLE, uint64_t animal, uint32_t permission, uint64_t issued, uint64_t now) {
    Budget whole = {0, 0};
    return setting(slots, sl, counters, cl, items, il, animal, permission, issued, now, whole);
}

BoughladderSetting anchor_set_cut(ANCHOR_TABLE, uint64_t animal, uint32_t permission, uint64_t issued, uint64_t now,
                                  uint64_t k) {
    Budget budget = {1, k};
    return setting(slots, sl, counters, cl, items, il, animal, permission, issued, now, budget);
}

/* What comes first in a plan and in every step, as in a set of that animal: 1, 2, 3, 8, 4; or 0, and her homes. */
INLINE uint32_t refused_first(const uint32_t *slots, size_t sl, const uint32_t *counters, size_t cl, size_t il,
                              uint64_t animal, uint64_t issued, uint64_t now, Homes *home) {
    if (!good_shape(sl, cl, il)) return 1;
    if (animal == 0) return 2;
    if (now == NO_MINUTE || issued > now) return 3;
    *home = homes_of(animal, (uint32_t)(sl / 4), cl);
    if (counters[home->counter] & 1) return 8;
    return damaged_homes(slots, *home, (uint32_t)(il / 4)) ? 4 : 0;
}

/* The visit list level by level and without a queue, so that a slip in set's search is no slip here: visit v of a level is a
   way of so many moves, and v's digits in fours are the slots that it goes by. */
BoughladderPlan anchor_plan(ANCHOR_LENT, uint64_t animal, uint32_t permission, uint64_t issued, uint64_t now) {
    BoughladderPlan plan;
    Homes home;
    (void)permission;
    memset(&plan, 0, sizeof plan);
    plan.refusal = refused_first(slots, sl, counters, cl, il, animal, issued, now, &home);
    if (plan.refusal != 0) return plan;
    uint32_t n = (uint32_t)(sl / 4), m = (uint32_t)(il / 4);
    if (hit_of(slots, items, home, animal) >= 0) { plan.refusal = 12; return plan; }
    size_t place = 0;
    while (place < m && items[4 * place] != 0) place++;
    if (place == m) { plan.refusal = 5; return plan; }
    for (uint32_t moves = 0; moves <= 4; moves++)
        for (uint32_t v = 0; v < 2u << 2 * moves; v++) {
            uint32_t bucket = v >> 2 * moves == 0 ? home.first : home.other, way[5], i = 0;
            for (uint32_t d = 0; d < moves; d++) {
                way[d] = 4 * bucket + (v >> 2 * (moves - 1 - d) & 3);
                bucket = other_bucket(bucket, slots[way[d]] >> 16, n);
            }
            if (damaged_bucket(slots + 4 * bucket, m)) { plan.refusal = 4; return plan; }
            while (i < 4 && slots[4 * bucket + i] != 0) i++;
            if (i == 4) continue;
            way[moves] = 4 * bucket + i;
            for (uint32_t d = moves; d > 0; d--) { /* from the far end back */
                BoughladderMove move = {way[d - 1], slots[way[d - 1]] >> 16, way[d]};
                plan.moves[plan.count++] = move;
            }
            plan.place = place;
            plan.slot = way[0];
            return plan;
        }
    plan.refusal = 6;
    return plan;
}

/* The conditions as they are written. */
uint32_t anchor_step_move(uint32_t *slots, size_t sl, uint32_t *counters, size_t cl, const uint64_t *items, size_t il,
                          BoughladderMove move, uint64_t animal, uint32_t permission, uint64_t issued, uint64_t now) {
    Budget whole = {0, 0};
    Homes home;
    (void)items, (void)permission;
    uint32_t refusal = refused_first(slots, sl, counters, cl, il, animal, issued, now, &home);
    if (refusal != 0) return refusal;
    if (move.from >= sl || move.to >= sl) return 12;
    uint32_t word = slots[move.from], tag = word >> 16;
    if (word == 0 || damaged(word, (uint32_t)(il / 4))) return 12;
    if (tag != move.tag) return 12;
    if (slots[move.to] != 0) return 12;
    uint32_t bucket = (uint32_t)(move.from / 4), other = other_bucket(bucket, tag, (uint32_t)(sl / 4));
    if (move.to / 4 != other) return 12;
    carry_over(&whole, counters + counter_of(bucket, other, cl), slots + move.from, slots + move.to);
    return 0;
}

uint32_t anchor_step_enter(ANCHOR_TABLE, size_t place, size_t slot, uint64_t animal, uint32_t permission, uint64_t issued,
                           uint64_t now) {
    Budget whole = {0, 0};
    Homes home;
    uint32_t refusal = refused_first(slots, sl, counters, cl, il, animal, issued, now, &home);
    if (refusal != 0) return refusal;
    if (hit_of(slots, items, home, animal) >= 0) return 12;
    if (place >= il / 4 || slot >= sl) return 12;
    if (items[4 * place] != 0) return 12;
    if (slots[slot] != 0) return 12;
    if (slot / 4 != home.first && slot / 4 != home.other) return 12;
    put_in(&whole, counters + home.counter, items + 4 * place, slots + slot, home.tag * 65536u + (uint32_t)place, animal,
           permission, issued);
    return 0;
}

INLINE void take_away(Budget *budget, uint32_t *counter, uint32_t *slot, uint64_t *item) {
    store32(budget, counter, *counter + 1);
    store32(budget, slot, 0);
    for (int i = 0; i < 4; i++) store64(budget, item + i, 0);
    store32(budget, counter, *counter + 1);
}

INLINE uint32_t deleting(ANCHOR_TABLE, uint64_t animal, Budget budget) {
    if (!good_shape(sl, cl, il)) return 1;
    if (animal == 0) return 2;
    Homes home = homes_of(animal, (uint32_t)(sl / 4), cl);
    if (counters[home.counter] & 1) return 8;
    if (damaged_homes(slots, home, (uint32_t)(il / 4))) return 4;
    int slot = hit_of(slots, items, home, animal);
    if (slot < 0) return 7;
    take_away(&budget, counters + home.counter, slots + slot, items + 4 * (slots[slot] & 65535u));
    return 0;
}

uint32_t anchor_delete(ANCHOR_TABLE, uint64_t animal) {
    Budget whole = {0, 0};
    return deleting(slots, sl, counters, cl, items, il, animal, whole);
}

uint32_t anchor_delete_cut(ANCHOR_TABLE, uint64_t animal, uint64_t k) {
    Budget budget = {1, k};
    return deleting(slots, sl, counters, cl, items, il, animal, budget);
}

INLINE BoughladderEvicting evicting(ANCHOR_TABLE, size_t hand, Budget budget) {
    BoughladderEvicting e = {0, 0, 0, hand};
    size_t m = il / 4;
    if (!good_shape(sl, cl, il) || hand >= m) { e.refusal = 1; return e; }
    /* The walk, without stores: in the second turn every live place has been passed once, so its recent word is 0. */
    size_t looked = 0, place = hand;
    int live = 0, found = 0;
    while (looked < 2 * m) {
        looked++;
        if (items[4 * place] != 0) {
            live = 1;
            if (looked > m || items[4 * place + 3] == 0) { found = 1; break; }
        } else if (looked == m && !live) {
            break;
        }
        if (++place == m) place = 0;
    }
    if (!live) { e.refusal = 7; return e; }
    if (!found) { e.refusal = 10; return e; }
    uint64_t victim = items[4 * place];
    Homes home = homes_of(victim, (uint32_t)(sl / 4), cl);
    if (counters[home.counter] & 1) { e.refusal = 8; return e; }
    if (damaged_homes(slots, home, (uint32_t)m)) { e.refusal = 4; return e; }
    uint32_t word = home.tag * 65536u + (uint32_t)place;
    uint32_t *slot = NULL;
    for (int i = 3; i >= 0; i--)
        if (slots[4 * home.other + (uint32_t)i] == word) slot = slots + 4 * home.other + i;
    for (int i = 3; i >= 0; i--)
        if (slots[4 * home.first + (uint32_t)i] == word) slot = slots + 4 * home.first + i;
    if (slot == NULL) { e.refusal = 4; return e; }
    size_t p = hand;
    for (size_t i = 1; i < looked && i <= m; i++) {
        if (items[4 * p] != 0 && items[4 * p + 3] != 0) store64(&budget, items + 4 * p + 3, 0);
        if (++p == m) p = 0;
    }
    take_away(&budget, counters + home.counter, slot, items + 4 * place);
    e.victim = victim;
    e.looked = looked;
    e.hand = place + 1 == m ? 0 : place + 1;
    return e;
}

BoughladderEvicting anchor_evict(ANCHOR_TABLE, size_t hand) {
    Budget whole = {0, 0};
    return evicting(slots, sl, counters, cl, items, il, hand, whole);
}

BoughladderEvicting anchor_evict_cut(ANCHOR_TABLE, size_t hand, uint64_t k) {
    Budget budget = {1, k};
    return evicting(slots, sl, counters, cl, items, il, hand, budget);
}

/* Low byte first is how x86-64 keeps a number. */
INLINE uint8_t *low_bytes(uint8_t *out, uint64_t value, size_t bytes) {
    memcpy(out, &value, bytes);
    return out + bytes;
}

BoughladderListing anchor_list(ANCHOR_LENT, uint8_t *buffer, size_t buffer_length) {
    (void)slots;
    (void)counters;
    BoughladderListing l = {0, 0};
    if (!good_shape(sl, cl, il)) { l.refusal = 1; return l; }
    size_t live = 0;
    for (size_t i = 0; i < il; i += 4) live += items[i] != 0;
    if (buffer_length < 20 * live) { l.refusal = 9; return l; }
    for (size_t i = 0; i < il; i += 4)
        if (items[i] != 0) {
            buffer = low_bytes(buffer, items[i], 8);
            buffer = low_bytes(buffer, items[i + 1], 4);
            buffer = low_bytes(buffer, items[i + 2], 8);
        }
    l.count = live;
    return l;
}

/* The places in order, one a turn. It judges what is left in lines of its own, so that a slip in read's is no slip here. */
BoughladderReading anchor_plain_read(const uint64_t *items, size_t il, uint64_t animal, uint64_t limit, uint64_t now) {
    BoughladderReading r = {0, 0, 0, 0};
    if (il < 4 || il > 16384 || il % 4 != 0) { r.refusal = 1; return r; }
    if (animal == 0) { r.refusal = 2; return r; }
    if (limit > 10080 || now == NO_MINUTE) { r.refusal = 3; return r; }
    size_t i = 0;
    while (i < il && items[i] != animal) i += 4;
    if (i == il) { r.kind = BOUGHLADDER_ABSENT; return r; }
    uint64_t stamp = items[i + 2];
    if (stamp == RETIRED_MARK) { r.kind = BOUGHLADDER_OLD; r.left = -(INT64_C(1) << 62); return r; }
    if (stamp > now) { r.kind = BOUGHLADDER_AHEAD; return r; }
    uint64_t age = now - stamp, most = limit + (UINT64_C(1) << 62); /* an older one is told as if it were so old */
    r.left = (int64_t)limit - (int64_t)(age < most ? age : most);
    r.kind = r.left < 0 ? BOUGHLADDER_OLD : BOUGHLADDER_FRESH;
    if (r.kind == BOUGHLADDER_FRESH) r.permission = (uint32_t)items[i + 1];
    return r;
}

INLINE BoughladderJudgement judged(uint32_t condition, size_t at) {
    BoughladderJudgement j = {condition, at};
    return j;
}

/* The eight conditions as they are written, each a walk of its own: who points to a place is counted over all slots, and
   twins are looked for among all pairs of places. That is long on a large table. */
BoughladderJudgement anchor_judge(ANCHOR_LENT) {
    if (!good_slots(sl)) return judged(1, 0);
    if (!good_counters(cl)) return judged(1, 1);
    if (!good_items(il)) return judged(1, 2);
    uint32_t n = (uint32_t)(sl / 4), m = (uint32_t)(il / 4);
    for (uint32_t s = 0; s < sl; s++)
        if (damaged(slots[s], m)) return judged(2, s);
    for (uint32_t c = 0; c < cl; c++)
        if (counters[c] % 2 != 0) return judged(3, c);
    for (uint32_t s = 0; s < sl; s++) {
        if (slots[s] == 0) continue;
        uint64_t animal = items[4 * (slots[s] & 65535u)];
        Homes home = homes_of(animal, n, cl);
        if (animal == 0 || home.tag != slots[s] >> 16 || (home.first != s / 4 && home.other != s / 4)) return judged(4, s);
    }
    for (uint32_t p = 0; p < m; p++) {
        uint32_t pointing = 0;
        if (items[4 * p] == 0) continue;
        for (uint32_t s = 0; s < sl; s++) pointing += slots[s] != 0 && (slots[s] & 65535u) == p;
        if (pointing != 1) return judged(5, p);
    }
    for (uint32_t p = 0; p < m; p++) {
        if (items[4 * p] == 0) continue;
        for (uint32_t q = 0; q < m; q++)
            if (p != q && items[4 * p] == items[4 * q]) return judged(6, p);
    }
    for (uint32_t p = 0; p < m; p++)
        if (items[4 * p + 1] > UINT32_MAX) return judged(7, p);
    for (uint32_t p = 0; p < m; p++)
        if (items[4 * p] == 0 && (items[4 * p + 1] | items[4 * p + 2] | items[4 * p + 3]) != 0) return judged(8, p);
    return judged(0, 0);
}
