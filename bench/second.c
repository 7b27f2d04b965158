/* second.c: the order's rules in plain C once more. See second.h. */
#include "second.h"

#include <string.h>

#define NO_MINUTE UINT64_MAX    /* as now */
#define RETIRED_MARK UINT64_MAX /* as a stamp */
#define FAR (UINT64_C(1) << 62) /* minutes beyond the limit; beyond them the answer stays the same */
#define VISITS 682  /* 2 + 8 + 32 + 128 + 512 */
#define PARENTS 170 /* the visits of levels 0 to 3, whose slots lead on */
#define ABSENT (-1)
#define DAMAGED (-2)

/* Where an animal belongs. */
typedef struct {
    uint32_t tag, first, other, counter;
} Homes;

/* A bucket to visit, the visit that led to it, and from which of its slots. */
typedef struct {
    uint16_t bucket, parent, slot;
} Visit;

static inline int good_shape(const BoughladderTable *t) {
    size_t n = t->slots_length / 4, m = t->items_length / 4;
    return t->slots_length % 4 == 0 && n >= 2 && n <= 2048 && (n & (n - 1)) == 0 && t->counters_length >= 1 &&
           t->counters_length <= 1024 && t->items_length % 4 == 0 && m >= 1 && m <= 4096;
}

static inline uint32_t fnv1a(uint64_t animal) {
    uint32_t h = 2166136261u;
    for (int i = 0; i < 8; i++) {
        h = (h ^ (uint32_t)(animal & 255)) * 16777619u;
        animal >>= 8;
    }
    return h;
}

static inline uint32_t spread(uint32_t tag, uint32_t n) { return ((tag * 1540483477u) & (n - 1)) | 1u; }
static inline uint32_t smaller(uint32_t a, uint32_t b) { return a < b ? a : b; }

static inline Homes homes_of(const BoughladderTable *t, uint64_t animal) {
    uint32_t n = (uint32_t)(t->slots_length / 4), h = fnv1a(animal), tag = h >> 24;
    Homes home = {.tag = tag ? tag : 1, .first = h & (n - 1)};
    home.other = home.first ^ spread(home.tag, n);
    home.counter = smaller(home.first, home.other) % (uint32_t)t->counters_length;
    return home;
}

/* Without a branch: a word less 65,536 is below 255 * 65,536 if its tag is 1 to 255. */
static inline uint32_t damaged(uint32_t word, uint32_t m) {
    return (uint32_t)(word != 0) & ((uint32_t)(word - 65536u >= 255u * 65536u) | (uint32_t)((word & 65535) >= m));
}

/* The place of the hit, ABSENT or DAMAGED. All eight words are judged, then all tags compared; only the words that have the
   animal's tag are followed to their places. */
static inline int64_t hit_of(const BoughladderTable *t, Homes home, uint64_t animal, size_t *slot) {
    const uint32_t *first = t->slots + 4 * home.first, *other = t->slots + 4 * home.other;
    uint32_t m = (uint32_t)(t->items_length / 4), words[8], bad = 0, same = 0;
    for (int i = 0; i < 4; i++) {
        words[i] = first[i];
        words[4 + i] = other[i];
    }
    for (int i = 0; i < 8; i++) bad |= damaged(words[i], m);
    if (bad) return DAMAGED;
    for (int i = 0; i < 8; i++) same |= (uint32_t)(words[i] >> 16 == home.tag) << i;
    int64_t found = ABSENT;
    while (same) {
        int i = __builtin_ctz(same);
        if (t->items[4 * (words[i] & 65535)] == animal) {
            found = words[i] & 65535;
            *slot = i < 4 ? 4 * home.first + (uint32_t)i : 4 * home.other + (uint32_t)(i - 4);
            break;
        }
        same &= same - 1;
    }
    return found;
}

/* Read; *found is the place of a fresh answer. */
static inline BoughladderReading reading(const BoughladderTable *t, uint64_t animal, uint64_t limit, uint64_t now, int64_t *found) {
    BoughladderReading r = {0, 0, 0, 0};
    if (!good_shape(t)) { r.refusal = 1; return r; }
    if (animal == 0) { r.refusal = 2; return r; }
    if (limit > 10080 || now == NO_MINUTE) { r.refusal = 3; return r; }
    Homes home = homes_of(t, animal);
    if (t->counters[home.counter] & 1) { r.refusal = 8; return r; }
    size_t slot;
    int64_t place = hit_of(t, home, animal, &slot);
    if (place == DAMAGED) { r.refusal = 4; return r; }
    if (place == ABSENT) { r.kind = BOUGHLADDER_ABSENT; return r; }
    uint64_t stamp = t->items[4 * place + 2], age = now - stamp;
    *found = place;
    if (stamp > now) { /* the mark is later than every minute, so it is looked for only here */
        r.kind = BOUGHLADDER_AHEAD;
        if (stamp == RETIRED_MARK) r.kind = BOUGHLADDER_OLD, r.left = -(int64_t)FAR;
        return r;
    }
    r.left = (int64_t)(limit - age); /* modulo 2^64, so it is right from the limit down to -2^63 */
    if (age > limit) {
        if (age > limit + FAR) r.left = -(int64_t)FAR;
        r.kind = BOUGHLADDER_OLD;
        return r;
    }
    r.kind = BOUGHLADDER_FRESH;
    r.permission = (uint32_t)t->items[4 * place + 1];
    return r;
}

BoughladderReading second_read(const BoughladderTable *t, uint64_t animal, uint64_t limit, uint64_t now) {
    int64_t place;
    return reading(t, animal, limit, now, &place);
}

BoughladderReading second_serve(const BoughladderTable *t, uint64_t animal, uint64_t limit, uint64_t now) {
    int64_t place;
    BoughladderReading r = reading(t, animal, limit, now, &place);
    if (r.kind == BOUGHLADDER_FRESH) t->items[4 * place + 3] = 1;
    return r;
}

BoughladderSetting second_set(const BoughladderTable *t, uint64_t animal, uint32_t permission, uint64_t issued, uint64_t now) {
    BoughladderSetting s = {0, 0, 0};
    if (!good_shape(t)) { s.refusal = 1; return s; }
    if (animal == 0) { s.refusal = 2; return s; }
    if (now < issued || now == NO_MINUTE) { s.refusal = 3; return s; }
    Homes home = homes_of(t, animal);
    uint32_t n = (uint32_t)(t->slots_length / 4), m = (uint32_t)(t->items_length / 4);
    if (t->counters[home.counter] & 1) { s.refusal = 8; return s; }
    size_t to;
    int64_t hit = hit_of(t, home, animal, &to);
    if (hit == DAMAGED) { s.refusal = 4; return s; }
    if (hit != ABSENT) {
        uint64_t *item = t->items + 4 * hit;
        if (item[2] > issued && item[2] != RETIRED_MARK) { s.refusal = 11; return s; }
        t->counters[home.counter]++;
        item[1] = permission;
        item[2] = issued;
        item[3] = 1;
        t->counters[home.counter]++;
        return s;
    }
    uint32_t place = 0;
    while (place < m && t->items[4 * place] != 0) place++;
    if (place == m) { s.refusal = 5; return s; }

    Visit queue[VISITS] /* not set to zero */;
    uint32_t tail = 2, v;
    int free_slot = -1;
    queue[0] = (Visit){(uint16_t)home.first, 0, 0};
    queue[1] = (Visit){(uint16_t)home.other, 0, 0};
    for (v = 0; v < tail; v++) {
        const uint32_t *four = t->slots + 4 * queue[v].bucket;
        for (int i = 0; i < 4; i++)
            if (damaged(four[i], m)) { s.refusal = 4; return s; }
        for (int i = 0; i < 4 && free_slot < 0; i++)
            if (four[i] == 0) free_slot = i;
        if (free_slot >= 0) break;
        if (v < PARENTS)
            for (uint16_t i = 0; i < 4; i++)
                queue[tail++] = (Visit){(uint16_t)(queue[v].bucket ^ spread(four[i] >> 16, n)), (uint16_t)v, i};
    }
    if (free_slot < 0) { s.refusal = 6; return s; }
    s.visits = v + 1;
    to = 4u * queue[v].bucket + (uint32_t)free_slot;
    while (v > 1) { /* from the far end back */
        Visit visit = queue[v];
        uint32_t bucket = queue[visit.parent].bucket;
        size_t from = 4u * bucket + visit.slot;
        uint32_t word = t->slots[from], other = bucket ^ spread(word >> 16, n);
        uint32_t *c = t->counters + smaller(bucket, other) % (uint32_t)t->counters_length;
        ++*c;
        t->slots[to] = word;
        t->slots[from] = 0;
        ++*c;
        to = from;
        v = visit.parent;
        s.moves++;
    }
    uint64_t *item = t->items + 4 * place;
    t->counters[home.counter]++;
    item[0] = animal;
    item[1] = permission;
    item[2] = issued;
    item[3] = 1;
    t->slots[to] = home.tag * 65536 + place;
    t->counters[home.counter]++;
    return s;
}

/* The item words of the first place with the number, or NULL: four places a turn, then those that are left. */
static inline const uint64_t *first_with(const uint64_t *item, size_t places, uint64_t animal) {
    for (; places >= 4; places -= 4, item += 16) {
        if (item[0] == animal) return item;
        if (item[4] == animal) return item + 4;
        if (item[8] == animal) return item + 8;
        if (item[12] == animal) return item + 12;
    }
    for (; places > 0; places--, item += 4)
        if (item[0] == animal) return item;
    return NULL;
}

/* Set's first turns: 1, 2, 3, 8; or 0, and her homes. */
static inline uint32_t refused_first(const BoughladderTable *t, uint64_t animal, uint64_t issued, uint64_t now, Homes *home) {
    if (!good_shape(t)) return 1;
    if (animal == 0) return 2;
    if (now < issued || now == NO_MINUTE) return 3;
    *home = homes_of(t, animal);
    return t->counters[home->counter] & 1 ? 8 : 0;
}

/* One test for free and damaged: a full bucket of good words, as most are, needs no other. */
static inline uint32_t no_entry(uint32_t word, uint32_t m) {
    return (uint32_t)(word - 65536u >= 255u * 65536u) | (uint32_t)((word & 65535) >= m);
}

static inline uint32_t all_entries(const uint32_t *four, uint32_t m) {
    return !(no_entry(four[0], m) | no_entry(four[1], m) | no_entry(four[2], m) | no_entry(four[3], m));
}

static inline uint32_t free_slots(const uint32_t *four) {
    return (uint32_t)(four[0] == 0) | (uint32_t)(four[1] == 0) << 1 | (uint32_t)(four[2] == 0) << 2 | (uint32_t)(four[3] == 0) << 3;
}

/* Most find room at home, so the eight home words are judged at once, the first bucket's in the lower bits. Else the four
   buckets that one visit leads to are judged together; visit v's come from slot (v - 2) % 4 of visit (v - 2) / 4. */
BoughladderPlan second_plan(const BoughladderTable *t, uint64_t animal, uint32_t permission, uint64_t issued, uint64_t now) {
    BoughladderPlan plan = {0}; /* cleared while the hash waits for its products: later it takes longer */
    Homes home;
    (void)permission;
    plan.refusal = refused_first(t, animal, issued, now, &home);
    if (plan.refusal) return plan;
    uint32_t n = (uint32_t)(t->slots_length / 4), m = (uint32_t)(t->items_length / 4);
    const uint32_t *slots = t->slots;
    size_t slot;
    int64_t hit = hit_of(t, home, animal, &slot);
    if (hit == DAMAGED) { plan.refusal = 4; return plan; }
    if (hit != ABSENT) { plan.refusal = 12; return plan; }
    const uint64_t *vacant = first_with(t->items, m, 0);
    if (vacant == NULL) { plan.refusal = 5; return plan; }

    uint32_t free = free_slots(slots + 4 * home.first) | free_slots(slots + 4 * home.other) << 4;
    if (free) {
        uint32_t i = (uint32_t)__builtin_ctz(free);
        plan.slot = 4 * (i < 4 ? home.first : home.other) + i % 4;
        plan.place = (size_t)(vacant - t->items) / 4;
        return plan;
    }
    uint16_t visited[VISITS] /* not set to zero */;
    uint32_t parent, full = 15;
    visited[0] = (uint16_t)home.first;
    visited[1] = (uint16_t)home.other;
    for (parent = 0; parent < PARENTS; parent++) {
        const uint32_t *words = slots + 4 * visited[parent];
        uint16_t *led = visited + 2 + 4 * parent;
        full = 0;
        for (uint32_t i = 0; i < 4; i++) {
            led[i] = (uint16_t)(visited[parent] ^ spread(words[i] >> 16, n));
            full |= all_entries(slots + 4 * led[i], m) << i;
        }
        if (full != 15) break;
    }
    if (full == 15) { plan.refusal = 6; return plan; }
    uint32_t v = 2 + 4 * parent + (uint32_t)__builtin_ctz(~full);
    const uint32_t *four = slots + 4 * visited[v];
    if (damaged(four[0], m) | damaged(four[1], m) | damaged(four[2], m) | damaged(four[3], m)) { plan.refusal = 4; return plan; }
    slot = 4u * visited[v] + (uint32_t)__builtin_ctz(free_slots(four));
    for (; v > 1; v = (v - 2) / 4) { /* from the far end back */
        size_t from = 4u * visited[(v - 2) / 4] + (v - 2) % 4;
        plan.moves[plan.count++] = (BoughladderMove){from, slots[from] >> 16, slot};
        slot = from;
    }
    plan.place = (size_t)(vacant - t->items) / 4;
    plan.slot = slot;
    return plan;
}

/* Who has the planned tag, and that is one, is neither free nor damaged but by its place. Its other bucket differs from its
   own in the bits of the spread. The animal may be held: only her counter and her home slots are looked at. */
uint32_t second_step_move(const BoughladderTable *t, BoughladderMove move, uint64_t animal, uint32_t permission,
                          uint64_t issued, uint64_t now) {
    Homes home;
    (void)permission;
    uint32_t refusal = refused_first(t, animal, issued, now, &home), bad = 0;
    if (refusal) return refusal;
    uint32_t n = (uint32_t)(t->slots_length / 4), m = (uint32_t)(t->items_length / 4);
    for (int i = 0; i < 4; i++) bad |= damaged(t->slots[4 * home.first + i], m) | damaged(t->slots[4 * home.other + i], m);
    if (bad) return 4;
    if (move.from >= 4 * n || move.to >= 4 * n || move.tag - 1 >= 255) return 12;
    uint32_t *from = t->slots + move.from, *to = t->slots + move.to, word = *from;
    uint32_t bucket = (uint32_t)move.from / 4, other = (uint32_t)move.to / 4;
    if (word >> 16 != move.tag || (word & 65535) >= m || *to != 0 || (bucket ^ other) != spread(move.tag, n)) return 12;
    uint32_t *counter = t->counters + smaller(bucket, other) % (uint32_t)t->counters_length;
    ++*counter;
    *to = word;
    *from = 0;
    ++*counter;
    return 0;
}

uint32_t second_step_enter(const BoughladderTable *t, size_t place, size_t slot, uint64_t animal, uint32_t permission,
                           uint64_t issued, uint64_t now) {
    Homes home;
    uint32_t refusal = refused_first(t, animal, issued, now, &home);
    if (refusal) return refusal;
    size_t hers;
    int64_t hit = hit_of(t, home, animal, &hers);
    if (hit == DAMAGED) return 4;
    size_t away = slot / 4 ^ home.first; /* no bits in the first bucket, those of the spread in the other: both in the run */
    if (hit != ABSENT || place >= t->items_length / 4 || (away != 0 && away != (home.first ^ home.other))) return 12;
    uint64_t *item = t->items + 4 * place;
    if (item[0] != 0 || t->slots[slot] != 0) return 12;
    t->counters[home.counter]++;
    item[0] = animal;
    item[1] = permission;
    item[2] = issued;
    item[3] = 1;
    t->slots[slot] = home.tag * 65536 + (uint32_t)place;
    t->counters[home.counter]++;
    return 0;
}

uint32_t second_delete(const BoughladderTable *t, uint64_t animal) {
    if (!good_shape(t)) return 1;
    if (animal == 0) return 2;
    Homes home = homes_of(t, animal);
    if (t->counters[home.counter] & 1) return 8;
    size_t slot;
    int64_t place = hit_of(t, home, animal, &slot);
    if (place == DAMAGED) return 4;
    if (place == ABSENT) return 7;
    uint64_t *item = t->items + 4 * place;
    t->counters[home.counter]++;
    t->slots[slot] = 0;
    item[0] = item[1] = item[2] = item[3] = 0;
    t->counters[home.counter]++;
    return 0;
}

BoughladderReading second_plain_read(const BoughladderTable *t, uint64_t animal, uint64_t limit, uint64_t now) {
    BoughladderReading r = {0, 0, 0, 0};
    size_t m = t->items_length / 4;
    if (t->items_length % 4 != 0 || m < 1 || m > 4096) { r.refusal = 1; return r; }
    if (animal == 0) { r.refusal = 2; return r; }
    if (limit > 10080 || now == NO_MINUTE) { r.refusal = 3; return r; }
    const uint64_t *item = first_with(t->items, m, animal);
    if (item == NULL) { r.kind = BOUGHLADDER_ABSENT; return r; }
    uint64_t stamp = item[2];
    if (stamp > now && stamp != RETIRED_MARK) { r.kind = BOUGHLADDER_AHEAD; return r; }
    uint64_t age = stamp != RETIRED_MARK ? now - stamp : limit + FAR; /* the mark is as long overdue as is told */
    if (age > limit) {
        r.kind = BOUGHLADDER_OLD;
        r.left = age - limit < FAR ? (int64_t)limit - (int64_t)age : -(INT64_C(1) << 62);
        return r;
    }
    r.kind = BOUGHLADDER_FRESH;
    r.permission = (uint32_t)item[1];
    r.left = (int64_t)limit - (int64_t)age;
    return r;
}

static inline BoughladderJudgement no(uint32_t condition, size_t at) { return (BoughladderJudgement){condition, at}; }

/* Whether an occupied slot points to a live place whose animal has its tag, and its bucket as one of her two. */
static inline uint32_t leads_home(const BoughladderTable *t, uint32_t slot) {
    uint32_t n = (uint32_t)(t->slots_length / 4), word = t->slots[slot], tag = word >> 16;
    uint64_t animal = t->items[4 * (word & 65535)];
    uint32_t h = fnv1a(animal), hers = (h >> 24) + (h >> 24 == 0), away = (h & (n - 1)) ^ slot / 4;
    return (uint32_t)(animal != 0) & (uint32_t)(tag == hers) & ((uint32_t)(away == 0) | (uint32_t)(away == spread(tag, n)));
}

static inline uint32_t with_tag(const uint32_t *four, uint32_t tag) {
    return (uint32_t)(four[0] >> 16 == tag) + (four[1] >> 16 == tag) + (four[2] >> 16 == tag) + (four[3] >> 16 == tag);
}

/* Each walk gathers without a branch whether its condition is broken; only then it is looked for who breaks it. Where 4
   holds, no place is pointed to by more than eight slots. Where 5 holds too, twins lie in one pair of buckets. */
BoughladderJudgement second_judge(const BoughladderTable *t) {
    if (!good_shape(t)) {
        size_t words = t->slots_length;
        if (words < 8 || words > 8192 || (words & (words - 1)) != 0) return no(1, 0);
        return no(1, t->counters_length < 1 || t->counters_length > 1024 ? 1 : 2);
    }
    const uint32_t *slots = t->slots, n = (uint32_t)(t->slots_length / 4), m = (uint32_t)(t->items_length / 4);
    const uint64_t *items = t->items;

    uint32_t bad = 0, odd = 0, i;
    for (i = 0; i < 4 * n; i++) bad |= damaged(slots[i], m);
    if (bad)
        for (i = 0;; i++)
            if (damaged(slots[i], m)) return no(2, i);
    for (i = 0; i < t->counters_length; i++) odd |= t->counters[i];
    if (odd & 1)
        for (i = 0;; i++)
            if (t->counters[i] & 1) return no(3, i);

    uint16_t occupied[8192];
    uint8_t pointing[4096]; /* slots, by place */
    uint32_t count = 0, good = 1;
    memset(pointing, 0, m);
    for (i = 0; i < 4 * n; i++) {
        occupied[count] = (uint16_t)i;
        count += slots[i] != 0;
    }
    for (i = 0; i < count; i++) {
        good &= leads_home(t, occupied[i]);
        pointing[slots[occupied[i]] & 65535]++;
    }
    if (!good)
        for (i = 0;; i++)
            if (!leads_home(t, occupied[i])) return no(4, occupied[i]);

    uint64_t wide = 0, stray = 0;
    bad = 0;
    for (i = 0; i < m; i++) { /* 5, 7 and 8 */
        const uint64_t *item = items + 4 * i;
        uint32_t live = item[0] != 0;
        bad |= live ^ pointing[i];
        wide |= item[1] >> 32;
        stray |= (item[1] | item[2] | item[3]) & ((uint64_t)live - 1);
    }
    if (bad)
        for (i = 0;; i++)
            if ((items[4 * i] != 0) != pointing[i]) return no(5, i);

    uint32_t twin = m;
    for (i = 0; i < count; i++) {
        uint32_t slot = occupied[i], word = slots[slot], tag = word >> 16, place = word & 65535;
        const uint32_t *own = slots + slot / 4 * 4, *other = slots + 4 * (slot / 4 ^ spread(tag, n));
        if (with_tag(own, tag) + with_tag(other, tag) == 1) continue; /* nobody else has her tag here */
        for (int k = 0; k < 8; k++) {
            uint32_t like = k < 4 ? own[k] : other[k - 4];
            if (like >> 16 != tag || like == word || items[4 * (like & 65535)] != items[4 * place]) continue;
            twin = smaller(twin, place);
        }
    }
    if (twin < m) return no(6, twin);
    if (wide)
        for (i = 0;; i++)
            if (items[4 * i + 1] >> 32) return no(7, i);
    if (stray)
        for (i = 0;; i++)
            if (items[4 * i] == 0 && (items[4 * i + 1] | items[4 * i + 2] | items[4 * i + 3])) return no(8, i);
    return no(0, 0);
}
