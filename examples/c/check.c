/*
 * Checks include/boughladder.h and libboughladder.a against each other: the layout of each struct, where the hash puts
 * an animal, each call with known answers (the order's examples), what is left of the limit, late lists and the order
 * of set's refusals, entries that are retired, plain read and where it answers as read, judge and each of its
 * conditions, plans and the steps of a set, the sizes and limits, the calls over a table beside those over the runs,
 * and garbage memory of any length in blocks of their own, so that valgrind sees a read or a write outside.
 * `check ROUNDS` prints one line, `N checks passed`, or the checks that failed.
 */
#include <stdio.h>
#include <stdlib.h>
#include <string.h>

#include "boughladder.h"

static unsigned long passed, failed;

static void check(int holds, const char *what, int line) {
    if (holds) {
        passed++;
    } else if (failed++ < 20) {
        printf("check.c:%d: %s\n", line, what);
    }
}
#define CHECK(fact) check((fact) ? 1 : 0, #fact, __LINE__)

/* A table in three blocks of exactly the lent lengths, and a copy to compare with. */
typedef struct {
    size_t s, c, i;
    uint32_t *slots, *counters;
    uint64_t *items;
} Table;

static void *block(size_t bytes) {
    void *p = malloc(bytes == 0 ? 1 : bytes);
    if (p == NULL) abort();
    return p;
}

static Table blocks(size_t s, size_t c, size_t i) {
    Table t;
    t.s = s, t.c = c, t.i = i;
    t.slots = (uint32_t *)block(4 * s);
    t.counters = (uint32_t *)block(4 * c);
    t.items = (uint64_t *)block(8 * i);
    return t;
}

static Table lend(size_t s, size_t c, size_t i) {
    Table t = blocks(s, c, i);
    memset(t.slots, 0, 4 * s), memset(t.counters, 0, 4 * c), memset(t.items, 0, 8 * i);
    return t;
}

static void copy(Table *to, const Table *t) {
    memcpy(to->slots, t->slots, 4 * t->s), memcpy(to->counters, t->counters, 4 * t->c);
    memcpy(to->items, t->items, 8 * t->i);
}

static Table copied(const Table *t) {
    Table to = blocks(t->s, t->c, t->i);
    copy(&to, t);
    return to;
}

static int same(const Table *a, const Table *b) {
    return memcmp(a->slots, b->slots, 4 * a->s) == 0 && memcmp(a->counters, b->counters, 4 * a->c) == 0 &&
           memcmp(a->items, b->items, 8 * a->i) == 0;
}

static void give_back(Table *t) { free(t->slots), free(t->counters), free(t->items); }

#define LENT(t) (t).slots, (t).s, (t).counters, (t).c, (t).items, (t).i
#define LEAST (-4611686018427387904) /* -2^62, by hand: the header has it too */
#define MOST_OVERDUE 4611686018427387904u /* 2^62 */

static int reads(BoughladderReading r, unsigned refusal, unsigned kind, uint32_t permission, int64_t left) {
    return r.refusal == refusal && r.kind == kind && r.permission == permission && r.left == left;
}

static int alike(BoughladderReading a, BoughladderReading b) {
    return reads(a, b.refusal, b.kind, b.permission, b.left);
}

/* On any memory: fresh has 0 to the limit left, old has less than 0, and nothing else tells a number. */
static int in_range(BoughladderReading r, uint64_t limit) {
    if (r.kind == BOUGHLADDER_FRESH) return r.refusal == 0 && r.left >= 0 && (uint64_t)r.left <= limit;
    if (r.kind == BOUGHLADDER_OLD) return r.refusal == 0 && r.permission == 0 && r.left < 0 && r.left >= LEAST;
    return r.permission == 0 && r.left == 0 && (r.refusal == 0 ? r.kind <= 3 : r.kind == 0);
}

static int finds(BoughladderFinding r, uint32_t refusal, uint32_t kind, size_t place) {
    return r.refusal == refusal && r.kind == kind && r.place == place;
}

static int sets(BoughladderSetting r, uint32_t refusal, size_t visits, size_t moves) {
    return r.refusal == refusal && r.visits == visits && r.moves == moves;
}

static int evicts(BoughladderEvicting r, uint32_t refusal, uint64_t victim, size_t looked, size_t hand) {
    return r.refusal == refusal && r.victim == victim && r.looked == looked && r.hand == hand;
}

static int lists(BoughladderListing r, uint32_t refusal, size_t count) {
    return r.refusal == refusal && r.count == count;
}

static int judges(BoughladderJudgement r, uint32_t condition, size_t at) {
    return r.condition == condition && r.at == at;
}

/* Judge in both its forms, over the runs and over a table that is const: they say the same, and no word is changed. */
static BoughladderJudgement judged(const Table *t) {
    const BoughladderTable table = {t->slots, t->s, t->counters, t->c, t->items, t->i};
    Table before = copied(t);
    BoughladderJudgement r = boughladder_judge(LENT(*t));
    CHECK(judges(boughladder_table_judge(&table), r.condition, r.at));
    CHECK(same(t, &before) && r.condition <= 8 && (r.condition != 0 || r.at == 0));
    give_back(&before);
    return r;
}

static int is_sound(const Table *t) { return judges(judged(t), BOUGHLADDER_SOUND, 0); }

/* Plain read in all its forms, which say the same: over the items, over the table, and over the items without slots and
   counters. */
static BoughladderReading plainly(const Table *t, uint64_t animal, uint64_t limit, uint64_t now) {
    BoughladderTable table = {t->slots, t->s, t->counters, t->c, t->items, t->i};
    BoughladderTable alone = {NULL, 0, NULL, 0, t->items, t->i};
    BoughladderReading r = boughladder_plain_read(t->items, t->i, animal, limit, now);
    CHECK(alike(boughladder_table_plain_read(&table, animal, limit, now), r));
    CHECK(alike(boughladder_table_plain_read(&alone, animal, limit, now), r));
    return r;
}

/* What must be said of a place with these words. */
static BoughladderReading owed(const uint64_t *words, uint64_t limit, uint64_t now) {
    BoughladderReading r = {0, BOUGHLADDER_AHEAD, 0, 0};
    uint64_t age = now - words[2];
    if (words[2] == UINT64_MAX) {
        /* Retired: that it is later than now as well does not count. */
        r.kind = BOUGHLADDER_OLD, r.left = LEAST;
        return r;
    }
    if (words[2] > now) return r;
    r.kind = age <= limit ? BOUGHLADDER_FRESH : BOUGHLADDER_OLD;
    if (r.kind == BOUGHLADDER_FRESH) r.permission = (uint32_t)(words[1] % 4294967296u), r.left = (int64_t)(limit - age);
    else r.left = age - limit > MOST_OVERDUE ? LEAST : -(int64_t)(age - limit);
    return r;
}

/* On any memory: what read says of an animal is what is owed of some place that holds her. */
static int of_a_place(const Table *t, BoughladderReading r, uint64_t animal, uint64_t limit, uint64_t now) {
    size_t i = 0;
    if (r.refusal != 0 || r.kind == BOUGHLADDER_ABSENT) return 1;
    while (i < t->i && !(t->items[i] == animal && alike(r, owed(t->items + i, limit, now)))) i += 4;
    return i < t->i;
}

/* What plain read must say, on any memory. */
static BoughladderReading walked(const Table *t, uint64_t animal, uint64_t limit, uint64_t now) {
    BoughladderReading r = {0, BOUGHLADDER_ABSENT, 0, 0};
    const uint64_t *words = t->items, *end = t->items + t->i;
    if (t->i % 4 != 0 || t->i < 4 || t->i > 16384) r.refusal = BOUGHLADDER_BAD_SHAPE;
    else if (animal == 0) r.refusal = BOUGHLADDER_NO_ANIMAL;
    else if (limit > 10080 || now == UINT64_MAX) r.refusal = BOUGHLADDER_BAD_TIME;
    if (r.refusal != 0) return r;
    while (words < end && words[0] != animal) words += 4;
    return words == end ? r : owed(words, limit, now);
}

/* On a table that finished calls have made, plain read answers as read: for every place's number, which is 0 where the
   place is vacant, and for the next number; at the edges of the limit and of the minutes. And judge says yes. */
static void agree(const Table *t) {
    static const uint64_t limits[6] = {0, 1, 720, 10080, 10081, UINT64_MAX};
    CHECK(is_sound(t));
    for (size_t place = 0; place < t->i / 4; place++)
        for (int l = 0; l < 6; l++) {
            uint64_t animal = t->items[4 * place], limit = limits[l], stamp = t->items[4 * place + 2];
            uint64_t last = stamp + limit, least = last + 4611686018427387904u;
            uint64_t minutes[9] = {0, stamp - 1, stamp, last, last + 1, least, least + 1, UINT64_MAX - 1, UINT64_MAX};
            for (int m = 0; m < 9; m++)
                for (uint64_t other = 0; other < 2; other++)
                    CHECK(alike(plainly(t, animal + other, limit, minutes[m]),
                                boughladder_read(LENT(*t), animal + other, limit, minutes[m])));
        }
}

static void layout(void) {
    CHECK(sizeof(BoughladderReading) == 16);
    CHECK(offsetof(BoughladderReading, kind) == 2 && offsetof(BoughladderReading, permission) == 4);
    CHECK(offsetof(BoughladderReading, left) == 8);
    CHECK(sizeof(BoughladderFinding) == 16);
    CHECK(offsetof(BoughladderFinding, kind) == 4 && offsetof(BoughladderFinding, place) == 8);
    CHECK(sizeof(BoughladderSetting) == 24);
    CHECK(offsetof(BoughladderSetting, visits) == 8 && offsetof(BoughladderSetting, moves) == 16);
    CHECK(sizeof(BoughladderMove) == 24);
    CHECK(offsetof(BoughladderMove, from) == 0 && offsetof(BoughladderMove, tag) == 8);
    CHECK(offsetof(BoughladderMove, to) == 16);
    CHECK(sizeof(BoughladderPlan) == 128 && BOUGHLADDER_MOST_MOVES == 4);
    CHECK(offsetof(BoughladderPlan, count) == 8 && offsetof(BoughladderPlan, place) == 16);
    CHECK(offsetof(BoughladderPlan, slot) == 24 && offsetof(BoughladderPlan, moves) == 32);
    CHECK(sizeof(BoughladderEvicting) == 32);
    CHECK(offsetof(BoughladderEvicting, victim) == 8 && offsetof(BoughladderEvicting, looked) == 16);
    CHECK(offsetof(BoughladderEvicting, hand) == 24);
    CHECK(sizeof(BoughladderListing) == 16);
    CHECK(offsetof(BoughladderListing, count) == 8);
    CHECK(sizeof(BoughladderJudgement) == 16);
    CHECK(offsetof(BoughladderJudgement, at) == 8);
}

static uint32_t fnv(const void *bytes, size_t n) {
    const uint8_t *b = (const uint8_t *)bytes;
    uint32_t h = 2166136261u;
    for (size_t i = 0; i < n; i++) h = boughladder_fnv_byte(h, b[i]);
    return h;
}

/* A set into a fresh table with 2,048 buckets: the animal stands where that hash says, in slot 0, with its tag. */
static int stands(uint64_t animal, uint32_t hash) {
    Table t = lend(8192, 1, 4);
    uint32_t tag = hash >> 24 == 0 ? 1 : hash >> 24;
    int holds = boughladder_fresh(LENT(t)) == 0 && boughladder_set(LENT(t), animal, 5, 100, 100).refusal == 0 &&
                t.slots[4 * (hash % 2048)] == 65536 * tag;
    give_back(&t);
    return holds;
}

/* The hash of an animal: of its bytes, lowest first. */
static uint32_t hash_of(uint64_t animal) {
    uint8_t bytes[8];
    for (int i = 0; i < 8; i++) bytes[i] = (uint8_t)(animal >> 8 * i);
    return fnv(bytes, 8);
}

static int stands_by_bytes(uint64_t animal) { return stands(animal, hash_of(animal)); }

static void hashes(void) {
    const uint8_t one[8] = {1, 0, 0, 0, 0, 0, 0, 0};
    CHECK(fnv("", 0) == 0x811c9dc5u);
    CHECK(fnv("a", 1) == 0xe40c292cu);
    CHECK(fnv("foobar", 6) == 0xbf9cf968u);
    CHECK(fnv("chongo ", 7) == 0x6bdd5c67u);
    CHECK(fnv("chongo w", 8) == 0xdd77ed30u);
    CHECK(fnv("chongo wa", 9) == 0xf4ca9683u);
    CHECK(fnv(one, 8) == 0x3e801244u);

    /* In the table: the published vector of eight bytes, a number of each length from eight bytes on down, the edges. */
    CHECK(stands(0x77206f676e6f6863u, 0xdd77ed30u));
    for (int i = 0; i < 8; i++) CHECK(stands_by_bytes(0x8796a5b4c3d2e1f0u >> 8 * i));
    for (int i = 8; i < 64; i += 8) CHECK(stands_by_bytes(((uint64_t)1 << i) - 1) && stands_by_bytes((uint64_t)1 << i));
}

static uint32_t tag_of(uint64_t animal) { return hash_of(animal) >> 24 == 0 ? 1 : hash_of(animal) >> 24; }

/* The other bucket of an entry with that tag in that bucket. */
static size_t other_bucket(const Table *t, size_t bucket, uint32_t tag) {
    size_t spread = (size_t)tag * 1540483477u % (t->s / 4);
    return bucket ^ (spread % 2 == 0 ? spread + 1 : spread);
}

/* Whether that word in that slot points to an animal that has this tag, and this bucket as one of its two. */
static int belongs(const Table *t, size_t slot, uint32_t word) {
    uint64_t animal = t->items[4 * (word % 65536)];
    size_t first = hash_of(animal) % (t->s / 4), other = other_bucket(t, first, tag_of(animal));
    return animal != 0 && word / 65536 == tag_of(animal) && (slot / 4 == first || slot / 4 == other);
}

/* The first run whose length is wrong, 0 to 2, or 3. */
static size_t wrong_run(const Table *t) {
    if (t->s < 8 || t->s > 8192 || (t->s & (t->s - 1)) != 0) return 0;
    if (t->c < 1 || t->c > 1024) return 1;
    return t->i % 4 != 0 || t->i < 4 || t->i > 16384 ? 2 : 3;
}

static int is_damaged(const Table *t, uint32_t word) {
    return word != 0 && (word / 65536 == 0 || word / 65536 > 255 || word % 65536 >= t->i / 4);
}

static BoughladderJudgement broken(uint32_t condition, size_t at) {
    BoughladderJudgement r = {condition, at};
    return r;
}

/* What judge must say by the order's words, on any memory. */
static BoughladderJudgement verdict(const Table *t) {
    static unsigned pointing[4096];
    size_t places = t->i / 4, k, other;
    if (wrong_run(t) < 3) return broken(1, wrong_run(t));
    for (k = 0; k < t->s; k++)
        if (is_damaged(t, t->slots[k])) return broken(2, k);
    for (k = 0; k < t->c; k++)
        if (t->counters[k] % 2 != 0) return broken(3, k);
    memset(pointing, 0, sizeof pointing);
    for (k = 0; k < t->s; k++) {
        if (t->slots[k] == 0) continue;
        if (!belongs(t, k, t->slots[k])) return broken(4, k);
        pointing[t->slots[k] % 65536]++;
    }
    for (k = 0; k < places; k++)
        if (t->items[4 * k] != 0 && pointing[k] != 1) return broken(5, k);
    for (k = 0; k < places; k++)
        for (other = k + 1; other < places && t->items[4 * k] != 0; other++)
            if (t->items[4 * k] == t->items[4 * other]) return broken(6, k);
    for (k = 0; k < places; k++)
        if (t->items[4 * k + 1] > UINT32_MAX) return broken(7, k);
    for (k = 0; k < places; k++)
        if (t->items[4 * k] == 0 && (t->items[4 * k + 1] | t->items[4 * k + 2] | t->items[4 * k + 3]) != 0)
            return broken(8, k);
    return broken(0, 0);
}

/* An animal in a table of good lengths: its tag, its counter, its eight home slots in order. */
typedef struct {
    uint32_t tag;
    size_t counter, slots[8];
} Homes;

static Homes homes_of(const Table *t, uint64_t animal) {
    Homes h;
    size_t first = hash_of(animal) % (t->s / 4), other;
    h.tag = tag_of(animal), other = other_bucket(t, first, h.tag);
    h.counter = (first < other ? first : other) % t->c;
    for (size_t k = 0; k < 8; k++) h.slots[k] = 4 * (k < 4 ? first : other) + k % 4;
    return h;
}

static int is_held(const Table *t, uint64_t animal, const Homes *h) {
    for (int k = 0; k < 8; k++) {
        uint32_t word = t->slots[h->slots[k]];
        if (word / 65536 == h->tag && t->items[4 * (word % 65536)] == animal) return 1;
    }
    return 0;
}

/* Refusals 1, 2, 3, 8 and 4, as in set of that animal. */
static uint32_t owed_first(const Table *t, uint64_t animal, uint64_t issued, uint64_t now) {
    Homes h;
    if (wrong_run(t) < 3) return 1;
    if (animal == 0) return 2;
    if (now == UINT64_MAX || issued > now) return 3;
    h = homes_of(t, animal);
    if (t->counters[h.counter] % 2 != 0) return 8;
    for (int k = 0; k < 8; k++)
        if (is_damaged(t, t->slots[h.slots[k]])) return 4;
    return 0;
}

/* What plan must say by the order's words, on any memory. In the visit list, counted from 0, slot k of visit v leads to
   visit 2 + 4 * v + k: levels of 2, 8, 32, 128 and 512. */
static BoughladderPlan owed_plan(const Table *t, uint64_t animal, uint64_t issued, uint64_t now) {
    static size_t bucket[682];
    BoughladderPlan none, plan;
    Homes h;
    size_t v = 0, k;
    memset(&none, 0, sizeof none);
    plan = none;
    none.refusal = owed_first(t, animal, issued, now);
    if (none.refusal != 0) return none;
    h = homes_of(t, animal);
    none.refusal = 12;
    if (is_held(t, animal, &h)) return none;
    none.refusal = 5;
    while (plan.place < t->i / 4 && t->items[4 * plan.place] != 0) plan.place++;
    if (plan.place == t->i / 4) return none;
    bucket[0] = h.slots[0] / 4, bucket[1] = h.slots[4] / 4;
    for (;; v++) {
        const uint32_t *words;
        none.refusal = 6;
        if (v == 682) return none;
        words = t->slots + 4 * bucket[v];
        none.refusal = 4;
        for (k = 0; k < 4; k++)
            if (is_damaged(t, words[k])) return none;
        for (k = 0; k < 4 && words[k] != 0; k++)
            if (v < 170) bucket[2 + 4 * v + k] = other_bucket(t, bucket[v], words[k] / 65536);
        if (k < 4) break;
    }
    /* From the far end back, each into the slot just freed. */
    plan.slot = 4 * bucket[v] + k;
    for (; v >= 2; v = (v - 2) / 4) {
        BoughladderMove *move = plan.moves + plan.count++;
        move->to = plan.slot;
        move->from = plan.slot = 4 * bucket[(v - 2) / 4] + (v - 2) % 4;
        move->tag = t->slots[move->from] / 65536;
    }
    return plan;
}

/* A move by the order's words: makes it, or says why not. */
static uint32_t owed_move(Table *t, BoughladderMove move, uint64_t animal, uint64_t issued, uint64_t now) {
    uint32_t refusal = owed_first(t, animal, issued, now), word;
    size_t bucket, other;
    if (refusal != 0) return refusal;
    if (move.from >= t->s || move.to >= t->s) return 12;
    word = t->slots[move.from];
    if (word == 0 || is_damaged(t, word) || word / 65536 != move.tag || t->slots[move.to] != 0) return 12;
    bucket = move.from / 4, other = other_bucket(t, bucket, move.tag);
    if (move.to / 4 != other) return 12;
    t->slots[move.to] = word, t->slots[move.from] = 0;
    t->counters[(bucket < other ? bucket : other) % t->c] += 2;
    return 0;
}

/* The final store, likewise. */
static uint32_t owed_enter(Table *t, size_t place, size_t slot, uint64_t animal, uint32_t permission, uint64_t issued,
                           uint64_t now) {
    uint32_t refusal = owed_first(t, animal, issued, now);
    Homes h;
    if (refusal != 0) return refusal;
    h = homes_of(t, animal);
    if (is_held(t, animal, &h) || place >= t->i / 4 || slot >= t->s) return 12;
    if (t->items[4 * place] != 0 || t->slots[slot] != 0) return 12;
    if (slot / 4 != h.slots[0] / 4 && slot / 4 != h.slots[4] / 4) return 12;
    t->items[4 * place] = animal, t->items[4 * place + 1] = permission;
    t->items[4 * place + 2] = issued, t->items[4 * place + 3] = 1;
    t->slots[slot] = h.tag * 65536 + (uint32_t)place;
    t->counters[h.counter] += 2;
    return 0;
}

/* A move, with garbage between its fields. */
static BoughladderMove one_move(size_t from, uint32_t tag, size_t to) {
    BoughladderMove move;
    memset(&move, 0xa5, sizeof move);
    move.from = from, move.tag = tag, move.to = to;
    return move;
}

static int moves_to(BoughladderMove move, size_t from, uint32_t tag, size_t to) {
    return move.from == from && move.tag == tag && move.to == to;
}

static int plans_alike(const BoughladderPlan *a, const BoughladderPlan *b) {
    int alike_so_far = a->refusal == b->refusal && a->count == b->count && a->place == b->place && a->slot == b->slot;
    for (int k = 0; k < 4; k++)
        alike_so_far = alike_so_far && moves_to(a->moves[k], b->moves[k].from, b->moves[k].tag, b->moves[k].to);
    return alike_so_far;
}

/* Plan in both its forms, over the runs and over a table that is const: they say what they must, and change no word. */
static BoughladderPlan planned(const Table *t, uint64_t animal, uint32_t permission, uint64_t issued, uint64_t now) {
    const BoughladderTable table = {t->slots, t->s, t->counters, t->c, t->items, t->i};
    Table before = copied(t);
    BoughladderPlan must = owed_plan(t, animal, issued, now), plan;
    plan = boughladder_table_plan(&table, animal, permission, issued, now);
    CHECK(plans_alike(&plan, &must));
    plan = boughladder_plan(LENT(*t), animal, permission, issued, now);
    CHECK(plans_alike(&plan, &must) && same(t, &before));
    give_back(&before);
    return plan;
}

/* So many slots differ, one counter does, by 2, and of the items only words of that place. */
static int only(const Table *t, const Table *before, size_t slots, size_t place) {
    size_t other_slots = 0, counters = 0, k;
    int by_2 = 1;
    for (k = 0; k < t->s; k++) other_slots += t->slots[k] != before->slots[k];
    for (k = 0; k < t->c; k++)
        if (t->counters[k] != before->counters[k]) counters++, by_2 = t->counters[k] - before->counters[k] == 2;
    for (k = 0; k < t->i; k++)
        if (t->items[k] != before->items[k] && k / 4 != place) return 0;
    return other_slots == slots && counters == 1 && by_2;
}

/* A move: it says and leaves what it must. Refused, it changes no word; made, two slots and a counter. */
static uint32_t moved(Table *t, BoughladderMove move, uint64_t animal, uint64_t issued, uint64_t now) {
    Table other = copied(t);
    uint32_t refusal = boughladder_step_move(LENT(*t), move, animal, 9, issued, now);
    if (refusal == 0) CHECK(only(t, &other, 2, t->i / 4));
    CHECK(refusal == owed_move(&other, move, animal, issued, now) && same(t, &other));
    give_back(&other);
    return refusal;
}

/* The final store, likewise; made, it changes one slot, one place and a counter. */
static uint32_t entered(Table *t, size_t place, size_t slot, uint64_t animal, uint32_t permission, uint64_t issued,
                        uint64_t now) {
    Table other = copied(t);
    uint32_t refusal = boughladder_step_enter(LENT(*t), place, slot, animal, permission, issued, now);
    if (refusal == 0) CHECK(only(t, &other, 1, place));
    CHECK(refusal == owed_enter(&other, place, slot, animal, permission, issued, now) && same(t, &other));
    give_back(&other);
    return refusal;
}

/* Judge says so, and by the order it must. */
static int told(const Table *t, uint32_t condition, size_t at) {
    return judges(judged(t), condition, at) && judges(verdict(t), condition, at);
}

/* What fresh says; judge then says yes, or which length is wrong. */
static uint32_t shape(size_t s, size_t c, size_t i) {
    Table t = lend(s, c, i);
    uint32_t r = boughladder_fresh(LENT(t));
    CHECK(told(&t, r == 0 ? BOUGHLADDER_SOUND : BOUGHLADDER_WRONG_LENGTH, verdict(&t).at));
    give_back(&t);
    return r;
}

static void shapes(void) {
    CHECK(shape(8, 1, 4) == 0);
    CHECK(shape(4, 1, 4) == 1);
    CHECK(shape(12, 1, 4) == 1);
    CHECK(shape(8192, 1, 4) == 0);
    CHECK(shape(16384, 1, 4) == 1);
    CHECK(shape(8, 0, 4) == 1);
    CHECK(shape(8, 1024, 4) == 0);
    CHECK(shape(8, 1025, 4) == 1);
    CHECK(shape(8, 1, 0) == 1);
    CHECK(shape(8, 1, 6) == 1);
    CHECK(shape(8, 1, 16384) == 0);
    CHECK(shape(8, 1, 16388) == 1);
}

/* The sizes and limits of the header are those of the library. */
static void sizes(void) {
    uint64_t items[BOUGHLADDER_ITEMS(2)];
    uint32_t slots[BOUGHLADDER_SLOTS(4)], counters[3];
    BoughladderTable t = BOUGHLADDER_TABLE(slots, counters, items);
    char version[32];
    BOUGHLADDER_CHECK_SHAPE(4, 3, 2);
    for (size_t n = 0; n <= 2050; n++)
        CHECK((shape(BOUGHLADDER_SLOTS(n), 1, 4) == 0) == BOUGHLADDER_GOOD_SHAPE(n, 1u, 1u));
    for (size_t v = 0; v <= 1030; v++) CHECK((shape(8, v, 4) == 0) == BOUGHLADDER_GOOD_SHAPE(2u, v, 1u));
    for (size_t m = 0; m <= 4100; m += m == 8 ? 4080 : 1)
        CHECK((shape(8, 1, BOUGHLADDER_ITEMS(m)) == 0) == BOUGHLADDER_GOOD_SHAPE(2u, 1u, m));
    CHECK(!BOUGHLADDER_GOOD_SHAPE(4096, 1, 1) && shape(16384, 1, 4) == BOUGHLADDER_BAD_SHAPE);
    CHECK(t.slots == slots && t.slots_length == 16 && t.counters == counters && t.counters_length == 3);
    CHECK(t.items == items && t.items_length == 8);
    CHECK(boughladder_table_fresh(&t) == 0);
    CHECK(boughladder_table_set(&t, 7, 5, 0, 0).refusal == 0);
    CHECK(reads(boughladder_table_read(&t, 7, BOUGHLADDER_LARGEST_LIMIT, 1), 0, BOUGHLADDER_FRESH, 5, 10079));
    CHECK(boughladder_table_read(&t, 7, BOUGHLADDER_LARGEST_LIMIT + 1, 1).refusal == BOUGHLADDER_BAD_TIME);
    CHECK(reads(boughladder_table_read(&t, 7, 0, UINT64_MAX - 1), 0, BOUGHLADDER_OLD, 0, BOUGHLADDER_LEAST_LEFT));
    /* One number as a minute, as a stamp and as a count of stores. */
    CHECK(boughladder_table_read(&t, 7, 0, BOUGHLADDER_NO_MINUTE).refusal == BOUGHLADDER_BAD_TIME);
    CHECK(boughladder_table_set(&t, 7, 5, 0, BOUGHLADDER_NO_MINUTE).refusal == BOUGHLADDER_BAD_TIME);
    items[2] = BOUGHLADDER_RETIRED_MARK;
    CHECK(reads(boughladder_table_read(&t, 7, 0, 0), 0, BOUGHLADDER_OLD, 0, BOUGHLADDER_LEAST_LEFT));
    CHECK(boughladder_table_set_cut(&t, 7, 6, 1, 1, BOUGHLADDER_ALL_STORES).refusal == 0);
    CHECK(items[1] == 6 && items[2] == 1 && items[3] == 1 && counters[0] + counters[1] + counters[2] == 4);
    CHECK(reads(boughladder_table_read(&t, 7, 0, 1), 0, BOUGHLADDER_FRESH, 6, 0));
    sprintf(version, "%d.%d.%d", BOUGHLADDER_VERSION_MAJOR, BOUGHLADDER_VERSION_MINOR, BOUGHLADDER_VERSION_PATCH);
    CHECK(strcmp(version, BOUGHLADDER_VERSION) == 0);
}

/* A length of 0 with no memory is a wrong length; a list of nobody needs no buffer. */
static void nothing_lent(void) {
    Table t = lend(8, 1, 4);
    BoughladderTable none = {NULL, 0, NULL, 0, NULL, 0}, two = {t.slots, t.s, t.counters, t.c, NULL, 0};
    BoughladderTable no_slots = {NULL, 0, t.counters, t.c, t.items, t.i};
    BoughladderTable no_counters = {t.slots, t.s, NULL, 0, t.items, t.i};
    BoughladderTable *lent[2] = {&none, &two};
    uint8_t record[BOUGHLADDER_RECORD_BYTES];
    for (int k = 0; k < 2; k++) {
        CHECK(boughladder_table_fresh(lent[k]) == BOUGHLADDER_BAD_SHAPE);
        CHECK(reads(boughladder_table_read(lent[k], 1, 0, 0), BOUGHLADDER_BAD_SHAPE, 0, 0, 0));
        CHECK(reads(boughladder_table_plain_read(lent[k], 1, 0, 0), BOUGHLADDER_BAD_SHAPE, 0, 0, 0));
        CHECK(reads(boughladder_table_serve(lent[k], 1, 0, 0), BOUGHLADDER_BAD_SHAPE, 0, 0, 0));
        CHECK(finds(boughladder_table_find(lent[k], 1), BOUGHLADDER_BAD_SHAPE, 0, 0));
        CHECK(sets(boughladder_table_set(lent[k], 1, 1, 1, 1), BOUGHLADDER_BAD_SHAPE, 0, 0));
        CHECK(sets(boughladder_table_set_cut(lent[k], 1, 1, 1, 1, 1), BOUGHLADDER_BAD_SHAPE, 0, 0));
        CHECK(boughladder_table_plan(lent[k], 1, 1, 1, 1).refusal == BOUGHLADDER_BAD_SHAPE);
        CHECK(boughladder_table_step_move(lent[k], one_move(0, 1, 4), 1, 1, 1, 1) == BOUGHLADDER_BAD_SHAPE);
        CHECK(boughladder_table_step_enter(lent[k], 0, 0, 1, 1, 1, 1) == BOUGHLADDER_BAD_SHAPE);
        CHECK(boughladder_table_delete(lent[k], 1) == BOUGHLADDER_BAD_SHAPE);
        CHECK(boughladder_table_delete_cut(lent[k], 1, 1) == BOUGHLADDER_BAD_SHAPE);
        CHECK(evicts(boughladder_table_evict(lent[k], 0), BOUGHLADDER_BAD_SHAPE, 0, 0, 0));
        CHECK(evicts(boughladder_table_evict_cut(lent[k], 0, 1), BOUGHLADDER_BAD_SHAPE, 0, 0, 0));
        CHECK(lists(boughladder_table_list(lent[k], NULL, 0), BOUGHLADDER_BAD_SHAPE, 0));
    }
    /* Judge names the run; of several the first. */
    CHECK(judges(boughladder_table_judge(&none), BOUGHLADDER_WRONG_LENGTH, 0));
    CHECK(judges(boughladder_table_judge(&no_slots), BOUGHLADDER_WRONG_LENGTH, 0));
    CHECK(judges(boughladder_table_judge(&no_counters), BOUGHLADDER_WRONG_LENGTH, 1));
    CHECK(judges(boughladder_table_judge(&two), BOUGHLADDER_WRONG_LENGTH, 2));
    CHECK(judges(boughladder_judge(t.slots, t.s, NULL, 0, NULL, 0), BOUGHLADDER_WRONG_LENGTH, 1));
    CHECK(boughladder_fresh(LENT(t)) == 0);
    CHECK(lists(boughladder_list(LENT(t), NULL, 0), 0, 0));
    CHECK(boughladder_set(LENT(t), 1, 1, 1, 1).refusal == 0);
    CHECK(lists(boughladder_list(LENT(t), NULL, 0), BOUGHLADDER_SHORT_BUFFER, 0));
    CHECK(lists(boughladder_list(LENT(t), record, sizeof record), 0, 1));
    give_back(&t);
}

/* Only a fresh permission leads anywhere, and only by its bits. */
static void lanes(void) {
    for (unsigned refusal = 0; refusal <= 13; refusal++)
        for (unsigned kind = 0; kind <= 9; kind++)
            for (uint32_t permission = 0; permission < 16; permission++) {
                /* The other bits say nothing. */
                uint32_t word = permission ^ (kind % 2 ? 0xfffffff0u : 0);
                BoughladderReading r = {(uint16_t)refusal, (uint16_t)kind, word, 0};
                int fresh = refusal == 0 && kind == 1;
                CHECK(boughladder_lane(r) == (!fresh                ? BOUGHLADDER_HOLDING
                                              : permission % 2 == 1 ? BOUGHLADDER_MILKING
                                              : permission % 4 == 2 ? BOUGHLADDER_GRAZING
                                                                    : BOUGHLADDER_HOLDING));
            }
}

static void texts(void) {
    for (uint32_t a = 0; a <= 12; a++) {
        CHECK(strcmp(boughladder_refusal_text(a), boughladder_refusal_text(13)) != 0);
        for (uint32_t b = 0; b < a; b++) CHECK(strcmp(boughladder_refusal_text(a), boughladder_refusal_text(b)) != 0);
    }
    CHECK(strstr(boughladder_refusal_text(BOUGHLADDER_LATE), "issued later") != NULL);
    CHECK(strstr(boughladder_refusal_text(BOUGHLADDER_NOT_AS_PLANNED), "planned") != NULL);
    CHECK(strcmp(boughladder_refusal_text(13), "no refusal number") == 0);
    CHECK(strcmp(boughladder_refusal_text(UINT32_MAX), "no refusal number") == 0);
    for (uint32_t a = 0; a <= 8; a++) {
        CHECK(strcmp(boughladder_condition_text(a), boughladder_condition_text(9)) != 0);
        for (uint32_t b = 0; b < a; b++)
            CHECK(strcmp(boughladder_condition_text(a), boughladder_condition_text(b)) != 0);
    }
    CHECK(strcmp(boughladder_condition_text(BOUGHLADDER_SOUND), "sound") == 0);
    CHECK(strstr(boughladder_condition_text(BOUGHLADDER_WRONG_LENGTH), "length") != NULL);
    CHECK(strstr(boughladder_condition_text(BOUGHLADDER_DAMAGED_WORD), "damaged") != NULL);
    CHECK(strstr(boughladder_condition_text(BOUGHLADDER_ODD_COUNTER), "odd") != NULL);
    CHECK(strstr(boughladder_condition_text(BOUGHLADDER_STRAY_SLOT), "belongs") != NULL);
    CHECK(strstr(boughladder_condition_text(BOUGHLADDER_NOT_ONE_SLOT), "exactly one slot") != NULL);
    CHECK(strstr(boughladder_condition_text(BOUGHLADDER_TWIN), "same animal") != NULL);
    CHECK(strstr(boughladder_condition_text(BOUGHLADDER_WIDE_PERMISSION), "32 bits") != NULL);
    CHECK(strstr(boughladder_condition_text(BOUGHLADDER_VACANT_NOT_ZERO), "vacant") != NULL);
    CHECK(strcmp(boughladder_condition_text(9), "no condition number") == 0);
    CHECK(strcmp(boughladder_condition_text(UINT32_MAX), "no condition number") == 0);
}

/* The decoder, at every alignment: the order's bytes, and each record against its item words. */
static void records(void) {
    static const uint8_t bytes[20] = {1, 0, 0, 0, 0, 0, 0, 0, 5, 0, 0, 0, 2, 0, 0, 0, 0, 0, 0, 0};
    static const uint8_t every[20] = {8,    7,    6,    5,    4,    3,    2,    1,    0xfc, 0xfd,
                                      0xfe, 0xff, 0x88, 0x77, 0x66, 0x55, 0x44, 0x33, 0x22, 0x91};
    BoughladderRecord r = boughladder_record(bytes, 0);
    CHECK(r.animal == 1 && r.permission == 5 && r.stamp == 2);
    r = boughladder_record(every, 0);
    CHECK(r.animal == 0x0102030405060708u && r.permission == 0xfffefdfcu && r.stamp == 0x9122334455667788u);
    for (size_t at = 0; at < 8; at++) {
        uint8_t *list = (uint8_t *)block(at + BOUGHLADDER_LIST_BYTES(12));
        Table t = lend(16, 4, BOUGHLADDER_ITEMS(12));
        CHECK(boughladder_fresh(LENT(t)) == 0);
        for (uint32_t k = 1; k <= 12; k++)
            CHECK(boughladder_set(LENT(t), k * 0x123456789u, k * 0x11111u, k, 12).refusal == 0);
        t.items[4 * 8 + 2] = UINT64_MAX;
        CHECK(lists(boughladder_list(LENT(t), list + at, BOUGHLADDER_LIST_BYTES(12)), 0, 12));
        for (size_t k = 0; k < 12; k++) {
            r = boughladder_record(list + at, k);
            CHECK(r.animal == t.items[4 * k] && r.permission == t.items[4 * k + 1] && r.stamp == t.items[4 * k + 2]);
        }
        r = boughladder_record(list + at, 8);
        CHECK(r.animal == 9 * 0x123456789u && r.permission == 9 * 0x11111u && r.stamp == BOUGHLADDER_RETIRED_MARK);
        free(list), give_back(&t);
    }
}

static void ages(void) {
    Table t = lend(16, 4, 36);
    CHECK(boughladder_fresh(LENT(t)) == 0);
    agree(&t);
    CHECK(sets(boughladder_set(LENT(t), 7, 5, 100, 100), 0, 1, 0));
    agree(&t);
    CHECK(reads(boughladder_read(LENT(t), 7, 720, 820), 0, BOUGHLADDER_FRESH, 5, 0));
    CHECK(reads(boughladder_read(LENT(t), 7, 720, 821), 0, BOUGHLADDER_OLD, 0, -1));
    CHECK(reads(boughladder_read(LENT(t), 7, 720, 99), 0, BOUGHLADDER_AHEAD, 0, 0));
    CHECK(reads(boughladder_read(LENT(t), 8, 720, 100), 0, BOUGHLADDER_ABSENT, 0, 0));
    CHECK(reads(boughladder_read(LENT(t), 0, 720, 100), BOUGHLADDER_NO_ANIMAL, 0, 0, 0));
    CHECK(reads(boughladder_read(LENT(t), 7, 10080, 10180), 0, BOUGHLADDER_FRESH, 5, 0));
    CHECK(reads(boughladder_read(LENT(t), 7, 10081, 100), BOUGHLADDER_BAD_TIME, 0, 0, 0));
    CHECK(reads(boughladder_read(LENT(t), 7, 720, UINT64_MAX), BOUGHLADDER_BAD_TIME, 0, 0, 0));
    CHECK(sets(boughladder_set(LENT(t), 7, 6, UINT64_MAX, UINT64_MAX), BOUGHLADDER_BAD_TIME, 0, 0));

    /* An update; then it is retired: old at any minute, and an earlier list replaces it. */
    CHECK(sets(boughladder_set(LENT(t), 7, UINT32_MAX, 200, 200), 0, 0, 0));
    CHECK(reads(boughladder_read(LENT(t), 7, 0, 200), 0, BOUGHLADDER_FRESH, UINT32_MAX, 0));
    t.items[2] = UINT64_MAX;
    CHECK(reads(boughladder_read(LENT(t), 7, 10080, 200), 0, BOUGHLADDER_OLD, 0, LEAST));
    CHECK(reads(boughladder_read(LENT(t), 7, 0, UINT64_MAX - 1), 0, BOUGHLADDER_OLD, 0, LEAST));
    agree(&t);

    /* Serve marks where the answer is fresh, and nowhere else. */
    CHECK(sets(boughladder_set(LENT(t), 7, 5, 100, 100), 0, 0, 0));
    CHECK(t.items[0] == 7 && t.items[1] == 5 && t.items[2] == 100 && t.items[3] == 1);
    t.items[3] = 0;
    CHECK(reads(boughladder_serve(LENT(t), 7, 720, 821), 0, BOUGHLADDER_OLD, 0, -1) && t.items[3] == 0);
    CHECK(reads(boughladder_serve(LENT(t), 7, 720, 99), 0, BOUGHLADDER_AHEAD, 0, 0) && t.items[3] == 0);
    CHECK(reads(boughladder_read(LENT(t), 7, 720, 820), 0, BOUGHLADDER_FRESH, 5, 0) && t.items[3] == 0);
    CHECK(reads(boughladder_serve(LENT(t), 7, 720, 820), 0, BOUGHLADDER_FRESH, 5, 0) && t.items[3] == 1);
    CHECK(reads(boughladder_serve(LENT(t), 8, 720, 820), 0, BOUGHLADDER_ABSENT, 0, 0));
    CHECK(reads(boughladder_serve(LENT(t), 0, 720, 820), BOUGHLADDER_NO_ANIMAL, 0, 0, 0));

    CHECK(finds(boughladder_find(LENT(t), 7), 0, BOUGHLADDER_AT_PLACE, 0));
    CHECK(finds(boughladder_find(LENT(t), 8), 0, BOUGHLADDER_ABSENT, 0));
    CHECK(finds(boughladder_find(LENT(t), 0), BOUGHLADDER_NO_ANIMAL, 0, 0));

    /* Delete, and delete again. */
    CHECK(boughladder_delete(LENT(t), 0) == BOUGHLADDER_NO_ANIMAL);
    CHECK(boughladder_delete(LENT(t), 7) == 0);
    CHECK(boughladder_delete(LENT(t), 7) == BOUGHLADDER_NOBODY);
    CHECK(t.items[0] == 0 && t.items[1] == 0 && t.items[2] == 0 && t.items[3] == 0);
    CHECK(reads(boughladder_read(LENT(t), 7, 720, 820), 0, BOUGHLADDER_ABSENT, 0, 0));
    CHECK(is_sound(&t));
    give_back(&t);
}

/* What read, plain read and serve say of a held animal with that stamp; serve marks her where she is fresh. */
static int leaves(uint64_t stamp, uint64_t limit, uint64_t now, unsigned kind, int64_t left) {
    Table t = lend(16, 4, 36);
    uint32_t permission = kind == BOUGHLADDER_FRESH ? 5 : 0;
    int holds = boughladder_fresh(LENT(t)) == 0 && boughladder_set(LENT(t), 7, 5, 0, 0).refusal == 0;
    t.items[2] = stamp, t.items[3] = 0;
    holds = holds && reads(boughladder_read(LENT(t), 7, limit, now), 0, kind, permission, left) &&
            reads(plainly(&t, 7, limit, now), 0, kind, permission, left) && t.items[3] == 0 &&
            reads(boughladder_serve(LENT(t), 7, limit, now), 0, kind, permission, left) &&
            t.items[3] == (kind == BOUGHLADDER_FRESH ? 1u : 0u);
    give_back(&t);
    return holds;
}

/* What is left of the limit, to its lower end and beyond, where a difference of 64 bits changes its sign. */
static void lefts(void) {
    static const uint64_t limits[4] = {0, 1, 720, 10080};
    static const uint64_t stamps[4] = {0, 100, 4294967295u, 4611686018427387904u};
    static const struct {
        uint64_t minutes;
        int64_t left;
    } overdue[11] = {{1, -1},
                     {2, -2},
                     {2147483648u, -2147483648},
                     {2147483649u, -2147483649},
                     {4294967296u, -4294967296},
                     {4611686018427387903u, -4611686018427387903},
                     {4611686018427387904u, LEAST},
                     {4611686018427387905u, LEAST},
                     {9223372036854775807u, LEAST},
                     {9223372036854775808u, LEAST},
                     {9223372036854775809u, LEAST}};
    for (int l = 0; l < 4; l++) {
        uint64_t limit = limits[l];
        int64_t whole = (int64_t)limit;
        for (int s = 0; s < 4; s++) {
            uint64_t stamp = stamps[s], last = stamp + limit;
            CHECK(leaves(stamp, limit, stamp, BOUGHLADDER_FRESH, whole));
            CHECK(leaves(stamp, limit, stamp + limit / 2, BOUGHLADDER_FRESH, whole - whole / 2));
            CHECK(leaves(stamp, limit, last, BOUGHLADDER_FRESH, 0));
            for (int k = 0; k < 11; k++)
                CHECK(leaves(stamp, limit, last + overdue[k].minutes, BOUGHLADDER_OLD, overdue[k].left));
            CHECK(leaves(stamp, limit, UINT64_MAX - 1, BOUGHLADDER_OLD, LEAST));
            CHECK(leaves(stamp + 1, limit, stamp, BOUGHLADDER_AHEAD, 0));
            CHECK(leaves(UINT64_MAX - 1, limit, stamp, BOUGHLADDER_AHEAD, 0));
            CHECK(leaves(BOUGHLADDER_RETIRED_MARK, limit, stamp, BOUGHLADDER_OLD, LEAST));
            CHECK(leaves(BOUGHLADDER_RETIRED_MARK, limit, last, BOUGHLADDER_OLD, LEAST));
        }
        CHECK(leaves(9223372036854775809u, limit, 0, BOUGHLADDER_AHEAD, 0));
        CHECK(leaves(UINT64_MAX - 1, limit, UINT64_MAX - 1, BOUGHLADDER_FRESH, whole));
        CHECK(leaves(BOUGHLADDER_RETIRED_MARK, limit, UINT64_MAX - 1, BOUGHLADDER_OLD, LEAST));
    }
}

/* Set and its cut form refuse alike, for every k, and change nothing. */
static int refuses(Table *t, uint64_t animal, uint64_t issued, uint64_t now, uint32_t refusal) {
    Table before = copied(t);
    int holds = sets(boughladder_set(LENT(*t), animal, 9, issued, now), refusal, 0, 0) && same(t, &before);
    for (uint64_t k = 0; k <= 8; k++)
        holds = holds && sets(boughladder_set_cut(LENT(*t), animal, 9, issued, now, k), refusal, 0, 0) &&
                same(t, &before);
    give_back(&before);
    return holds;
}

/* Age runs from issue: the stamp is the issue minute, and a late list is refused. */
static void issues(void) {
    Table t = lend(16, 4, 36);
    CHECK(boughladder_fresh(LENT(t)) == 0);
    CHECK(sets(boughladder_set(LENT(t), 7, 5, 100, 300), 0, 1, 0) && t.items[2] == 100);
    CHECK(reads(boughladder_read(LENT(t), 7, 720, 820), 0, BOUGHLADDER_FRESH, 5, 0));
    CHECK(reads(boughladder_read(LENT(t), 7, 720, 821), 0, BOUGHLADDER_OLD, 0, -1));

    /* A minute earlier is late, and she does not count as here lately; the same minute and a later one are stored. */
    t.items[3] = 0;
    CHECK(refuses(&t, 7, 99, 300, BOUGHLADDER_LATE));
    CHECK(refuses(&t, 7, 0, UINT64_MAX - 1, BOUGHLADDER_LATE));
    CHECK(sets(boughladder_set(LENT(t), 7, 6, 100, 300), 0, 0, 0));
    CHECK(t.items[1] == 6 && t.items[2] == 100 && t.items[3] == 1);
    CHECK(sets(boughladder_set_cut(LENT(t), 7, 7, 101, 300, 5), 0, 0, 0));
    CHECK(t.items[1] == 7 && t.items[2] == 101);

    /* Issued later than now: held or not, retired or not. No issue minute makes a stamp that is retired. */
    for (int mark = 0; mark <= 1; mark++) {
        t.items[2] = mark ? UINT64_MAX : 101;
        CHECK(refuses(&t, 7, 301, 300, BOUGHLADDER_BAD_TIME));
        CHECK(refuses(&t, 8, 301, 300, BOUGHLADDER_BAD_TIME));
        for (uint64_t animal = 7; animal <= 8; animal++) {
            CHECK(refuses(&t, animal, UINT64_MAX, UINT64_MAX - 1, BOUGHLADDER_BAD_TIME));
            CHECK(refuses(&t, animal, UINT64_MAX, UINT64_MAX, BOUGHLADDER_BAD_TIME));
            CHECK(refuses(&t, animal, 200, UINT64_MAX, BOUGHLADDER_BAD_TIME));
        }
        /* Over the runs a caller of 1.0.0 compiles: its minute and standing are taken for the two minutes. */
        CHECK(refuses(&t, 7, 300, 0, BOUGHLADDER_BAD_TIME) && refuses(&t, 7, 300, 1, BOUGHLADDER_BAD_TIME));
    }
    CHECK(sets(boughladder_set(LENT(t), 7, 5, 300, 300), 0, 0, 0) && t.items[2] == 300);

    /* Nothing is held after a delete or an eviction: then a late list is stored, and she is fresh by it. */
    CHECK(sets(boughladder_set(LENT(t), 7, 0, 500, 500), 0, 0, 0));
    CHECK(refuses(&t, 7, 100, 510, BOUGHLADDER_LATE));
    CHECK(boughladder_delete(LENT(t), 7) == 0);
    CHECK(sets(boughladder_set(LENT(t), 7, 1, 100, 510), 0, 1, 0));
    CHECK(reads(boughladder_read(LENT(t), 7, 720, 510), 0, BOUGHLADDER_FRESH, 1, 310));
    CHECK(sets(boughladder_set(LENT(t), 7, 0, 520, 520), 0, 0, 0));
    CHECK(boughladder_evict(LENT(t), 0).victim == 7);
    CHECK(sets(boughladder_set(LENT(t), 7, 1, 100, 530), 0, 1, 0));

    /* The clock ran ahead: every true list is late until she is deleted, or until the clock is there. */
    CHECK(sets(boughladder_set(LENT(t), 7, 1, 5000, 5000), 0, 0, 0));
    CHECK(reads(boughladder_read(LENT(t), 7, 720, 900), 0, BOUGHLADDER_AHEAD, 0, 0));
    CHECK(refuses(&t, 7, 900, 900, BOUGHLADDER_LATE));
    CHECK(reads(boughladder_read(LENT(t), 7, 720, 5000), 0, BOUGHLADDER_FRESH, 1, 720));
    CHECK(refuses(&t, 7, 4999, 5001, BOUGHLADDER_LATE));
    CHECK(sets(boughladder_set(LENT(t), 7, 1, 5001, 5001), 0, 0, 0));
    CHECK(boughladder_delete(LENT(t), 7) == 0);
    CHECK(sets(boughladder_set(LENT(t), 7, 1, 900, 900), 0, 1, 0));

    /* Swapped minutes: refusal 3, or, where the list is from later than now, a wrong stamp. */
    CHECK(refuses(&t, 7, 950, 910, BOUGHLADDER_BAD_TIME));
    CHECK(sets(boughladder_set(LENT(t), 7, 1, 950, 1000), 0, 0, 0) && t.items[2] == 950);
    give_back(&t);
}

/* Plan and the steps, these with numbers that are wrong, refuse in their turn. */
static int steps_refuse(Table *t, uint64_t animal, uint64_t issued, uint64_t now, uint32_t plan, uint32_t step) {
    return planned(t, animal, 9, issued, now).refusal == plan &&
           moved(t, one_move(99, 99, 99), animal, issued, now) == step &&
           entered(t, 99, 99, animal, 9, issued, now) == step;
}

static int all_refuse(Table *t, uint64_t animal, uint64_t issued, uint64_t now, uint32_t refusal) {
    return refuses(t, animal, issued, now, refusal) && steps_refuse(t, animal, issued, now, refusal, refusal);
}

/* Set refuses in the order 1, 2, 3, 8, 4, 11, 5: all reasons at once, and one after the other is taken away. One place
   and two buckets, so every slot is a home, and the table is full. Where 7 is retired, only her 11 does not come. Plan
   and the steps have 12 for 11. */
static void turns(int mark) {
    Table t = lend(8, 1, 4);
    size_t slot = 0;
    CHECK(boughladder_fresh(LENT(t)) == 0);
    CHECK(boughladder_set(LENT(t), 7, 5, 100, 100).refusal == 0);
    if (mark) t.items[2] = UINT64_MAX;
    while (t.slots[slot] != 0) slot++;
    t.slots[slot] = 65537, t.counters[0] = 3;
    t.i = 3;
    CHECK(all_refuse(&t, 0, 99, 98, BOUGHLADDER_BAD_SHAPE));
    t.i = 4;
    CHECK(all_refuse(&t, 0, 99, 98, BOUGHLADDER_NO_ANIMAL));
    for (uint64_t animal = 7; animal <= 8; animal++) {
        t.slots[slot] = 65537, t.counters[0] = 3;
        CHECK(all_refuse(&t, animal, 99, 98, BOUGHLADDER_BAD_TIME));
        CHECK(all_refuse(&t, animal, 99, 99, BOUGHLADDER_BUSY));
        t.counters[0] = 4;
        CHECK(all_refuse(&t, animal, 99, 99, BOUGHLADDER_DAMAGED));
        t.slots[slot] = 0;
        CHECK(steps_refuse(&t, animal, 99, 99, animal == 7 ? 12 : 5, BOUGHLADDER_NOT_AS_PLANNED));
        /* Who is held is late, and no place is wanted for her; who is not held has none. */
        if (mark && animal == 7) {
            CHECK(sets(boughladder_set(LENT(t), 7, 9, 99, 99), 0, 0, 0) && t.items[2] == 99);
            t.items[2] = UINT64_MAX;
        } else {
            CHECK(refuses(&t, animal, 99, 99, animal == 7 ? BOUGHLADDER_LATE : BOUGHLADDER_NO_PLACE));
        }
    }
    CHECK(sets(boughladder_set(LENT(t), 7, 9, 100, 100), 0, 0, 0));
    give_back(&t);
}

/* A table in which 7, between 6 and 8, is retired, with that permission and recent word. */
static Table with_retired(uint64_t permission, uint64_t recent) {
    Table t = lend(16, 1, 36);
    CHECK(boughladder_fresh(LENT(t)) == 0);
    for (uint64_t animal = 6; animal <= 8; animal++)
        CHECK(boughladder_set(LENT(t), animal, 5, 100, 300).refusal == 0);
    t.items[4 + 1] = permission, t.items[4 + 2] = UINT64_MAX, t.items[4 + 3] = recent;
    return t;
}

/* Retired: old at every minute and under every limit, overdue by the most that is told. It opens no gate, serve changes
   no word, judge says yes, and the list has it as it is stored. */
static void retired(void) {
    static const uint64_t limits[5] = {0, 1, 720, 10079, 10080};
    static const uint64_t minutes[9] = {0, 1, 99, 100, 820, 10180, MOST_OVERDUE, 2 * MOST_OVERDUE, UINT64_MAX - 1};
    static const uint64_t permissions[4] = {0, 1, 3, UINT32_MAX}, recents[4] = {0, 1, 7, UINT64_MAX};
    for (int p = 0; p < 4; p++)
        for (int n = 0; n < 4; n++) {
            Table t = with_retired(permissions[p], recents[n]), before = with_retired(permissions[p], recents[n]);
            uint8_t list[BOUGHLADDER_LIST_BYTES(3)];
            BoughladderRecord record;
            BoughladderReading r;
            for (int l = 0; l < 5; l++) {
                for (int m = 0; m < 9; m++) {
                    r = boughladder_read(LENT(t), 7, limits[l], minutes[m]);
                    CHECK(reads(r, 0, BOUGHLADDER_OLD, 0, LEAST) && boughladder_lane(r) == BOUGHLADDER_HOLDING);
                    CHECK(alike(plainly(&t, 7, limits[l], minutes[m]), r));
                    CHECK(alike(boughladder_serve(LENT(t), 7, limits[l], minutes[m]), r) && same(&t, &before));
                }
                /* What is no minute is refused here too. */
                r = boughladder_read(LENT(t), 7, limits[l], BOUGHLADDER_NO_MINUTE);
                CHECK(reads(r, BOUGHLADDER_BAD_TIME, 0, 0, 0) && boughladder_lane(r) == BOUGHLADDER_HOLDING);
                CHECK(alike(plainly(&t, 7, limits[l], BOUGHLADDER_NO_MINUTE), r));
                CHECK(alike(boughladder_serve(LENT(t), 7, limits[l], BOUGHLADDER_NO_MINUTE), r) && same(&t, &before));
            }
            CHECK(reads(boughladder_read(LENT(t), 7, 10081, 100), BOUGHLADDER_BAD_TIME, 0, 0, 0));
            CHECK(finds(boughladder_find(LENT(t), 7), 0, BOUGHLADDER_AT_PLACE, 1));
            CHECK(told(&t, BOUGHLADDER_SOUND, 0));
            agree(&t);
            CHECK(lists(boughladder_list(LENT(t), list, sizeof list), 0, 3) && same(&t, &before));
            record = boughladder_record(list, 1);
            CHECK(record.animal == 7 && record.permission == permissions[p]);
            CHECK(record.stamp == BOUGHLADDER_RETIRED_MARK);
            /* Busy comes first; plain read walks on. */
            t.counters[0]++;
            CHECK(reads(boughladder_read(LENT(t), 7, 720, 100), BOUGHLADDER_BUSY, 0, 0, 0));
            CHECK(reads(boughladder_serve(LENT(t), 7, 720, 100), BOUGHLADDER_BUSY, 0, 0, 0));
            CHECK(reads(plainly(&t, 7, 720, 100), 0, BOUGHLADDER_OLD, 0, LEAST));
            give_back(&t), give_back(&before);
        }
}

/* No list is late for what is retired: any issue minute replaces it. The next list is judged by that minute. */
static void retired_replaced(void) {
    static const uint64_t issued[5] = {0, 1, 100, 4294967296u, UINT64_MAX - 1};
    Table t, before = with_retired(5, 0);
    for (int n = 0; n < 5; n++)
        for (int at_once = 0; at_once < 2; at_once++) {
            uint64_t now = at_once ? issued[n] : UINT64_MAX - 1;
            Table then = with_retired(9, 1);
            t = with_retired(5, 0);
            CHECK(sets(boughladder_set(LENT(t), 7, 9, issued[n], now), 0, 0, 0));
            then.items[4 + 2] = issued[n], then.counters[0] += 2;
            CHECK(same(&t, &then) && told(&t, BOUGHLADDER_SOUND, 0));
            CHECK(reads(boughladder_read(LENT(t), 7, 720, issued[n]), 0, BOUGHLADDER_FRESH, 9, 720));
            if (n > 0) CHECK(refuses(&t, 7, issued[n] - 1, now, BOUGHLADDER_LATE));
            CHECK(sets(boughladder_set(LENT(t), 7, 8, issued[n], now), 0, 0, 0) && t.items[4 + 1] == 8);
            give_back(&t), give_back(&then);
        }

    /* The largest minute is no mark: it is ahead, and every other list is late for it. */
    t = with_retired(5, 0);
    t.items[4 + 2] = UINT64_MAX - 1;
    CHECK(reads(boughladder_read(LENT(t), 7, 720, 300), 0, BOUGHLADDER_AHEAD, 0, 0));
    CHECK(refuses(&t, 7, 300, 300, BOUGHLADDER_LATE));
    CHECK(refuses(&t, 7, UINT64_MAX - 2, UINT64_MAX - 1, BOUGHLADDER_LATE));
    give_back(&t);

    /* Five stores of an update: busy between the first and the last. Half of it opens nothing: the mark goes third. */
    for (uint64_t k = 0; k <= 6; k++) {
        BoughladderReading r;
        t = with_retired(5, 0);
        CHECK(sets(boughladder_set_cut(LENT(t), 7, 9, 50, 300, k), 0, 0, 0));
        CHECK(t.counters[0] == before.counters[0] + (k == 0 ? 0u : k < 5 ? 1u : 2u));
        CHECK(t.items[4 + 1] == (k < 2 ? 5u : 9u) && t.items[4 + 2] == (k < 3 ? UINT64_MAX : 50u));
        CHECK(t.items[4 + 3] == (k < 4 ? 0u : 1u));
        r = boughladder_read(LENT(t), 7, 720, 300);
        CHECK(k == 0  ? reads(r, 0, BOUGHLADDER_OLD, 0, LEAST)
              : k < 5 ? reads(r, BOUGHLADDER_BUSY, 0, 0, 0)
                      : reads(r, 0, BOUGHLADDER_FRESH, 9, 470));
        r = plainly(&t, 7, 720, 300);
        CHECK(k < 3 ? reads(r, 0, BOUGHLADDER_OLD, 0, LEAST) : reads(r, 0, BOUGHLADDER_FRESH, 9, 470));
        give_back(&t);
    }

    /* It goes as any other. Serve does not count her as here lately, so the hand takes her. */
    t = with_retired(5, 0);
    for (uint64_t animal = 6; animal <= 8; animal++)
        CHECK(boughladder_serve(LENT(t), animal, 720, 300).kind == (animal == 7 ? BOUGHLADDER_OLD : BOUGHLADDER_FRESH));
    CHECK(evicts(boughladder_evict(LENT(t), 0), 0, 7, 2, 2) && told(&t, BOUGHLADDER_SOUND, 0));
    CHECK(sets(boughladder_set(LENT(t), 7, 9, 50, 300), 0, 1, 0) && t.items[4 + 2] == 50);
    copy(&t, &before);
    CHECK(boughladder_delete(LENT(t), 7) == 0 && told(&t, BOUGHLADDER_SOUND, 0));
    CHECK(reads(boughladder_read(LENT(t), 7, 720, 300), 0, BOUGHLADDER_ABSENT, 0, 0));
    for (size_t k = 4; k < 8; k++) CHECK(t.items[k] == 0);
    give_back(&t), give_back(&before);
}

static void moves(void) {
    /* N = 4: one move after five visits. */
    static const uint64_t herd[8] = {358, 687, 1012, 1334, 248, 734, 913, 1710};
    static const uint32_t words[16] = {65536, 65537, 13107208, 65539, 65540, 65541, 65542, 65543,
                                       0,     0,     0,        0,     131074, 0,    0,     0};
    static const uint64_t small[12] = {1, 5, 9, 13, 12, 16, 20, 24, 2, 6, 10, 14};
    Table t = lend(16, 4, 36), u, v;
    uint32_t first, second;
    CHECK(boughladder_fresh(LENT(t)) == 0);
    for (uint32_t k = 0; k < 8; k++) CHECK(sets(boughladder_set(LENT(t), herd[k], k, 100, 100), 0, 1, 0));
    CHECK(t.counters[0] == 16);
    agree(&t);
    CHECK(sets(boughladder_set(LENT(t), 5, 9, 100, 100), 0, 5, 1));
    for (size_t k = 0; k < 16; k++) CHECK(t.slots[k] == words[k]);
    CHECK(t.counters[0] == 20);
    agree(&t);
    for (uint32_t k = 0; k < 8; k++)
        CHECK(reads(boughladder_read(LENT(t), herd[k], 720, 100), 0, BOUGHLADDER_FRESH, k, 720));
    CHECK(reads(boughladder_read(LENT(t), 5, 720, 100), 0, BOUGHLADDER_FRESH, 9, 720));
    CHECK(sets(boughladder_set(LENT(t), 6, 9, 100, 100), BOUGHLADDER_NO_PLACE, 0, 0));
    give_back(&t);

    /* N = 2: eight animals fill both buckets. */
    u = lend(8, 1, 36);
    CHECK(boughladder_fresh(LENT(u)) == 0);
    for (uint64_t a = 1; a <= 8; a++) CHECK(sets(boughladder_set(LENT(u), a, 1, 100, 100), 0, 1, 0));
    CHECK(sets(boughladder_set(LENT(u), 9, 1, 100, 100), BOUGHLADDER_NO_ROOM, 0, 0));
    CHECK(is_sound(&u));
    give_back(&u);

    /* N = 4, one counter: two moves after twelve visits. */
    v = lend(16, 1, 52);
    CHECK(boughladder_fresh(LENT(v)) == 0);
    for (uint32_t k = 0; k < 12; k++) CHECK(sets(boughladder_set(LENT(v), small[k], k, 100, 100), 0, 1, 0));
    first = v.slots[0], second = v.slots[13];
    CHECK(sets(boughladder_set(LENT(v), 17, 9, 100, 100), 0, 12, 2));
    CHECK(v.slots[8] == second && v.slots[13] == first);
    agree(&v);
    give_back(&v);
}

static void clocks(void) {
    /* M = 3, all live and recent, hand 1. */
    Table t = lend(16, 4, 12), u;
    CHECK(boughladder_fresh(LENT(t)) == 0);
    CHECK(evicts(boughladder_evict(LENT(t), 1), BOUGHLADDER_NOBODY, 0, 0, 1));
    for (uint64_t a = 1; a <= 3; a++) CHECK(boughladder_set(LENT(t), a, 1, 100, 100).refusal == 0);
    CHECK(evicts(boughladder_evict(LENT(t), 3), BOUGHLADDER_BAD_SHAPE, 0, 0, 3));
    CHECK(evicts(boughladder_evict(LENT(t), SIZE_MAX), BOUGHLADDER_BAD_SHAPE, 0, 0, SIZE_MAX));
    CHECK(evicts(boughladder_evict(LENT(t), 1), 0, 2, 4, 2));
    CHECK(t.items[3] == 0 && t.items[11] == 0);

    /* Only place 0 live, recent, hand 1; first with nothing but the clear made. */
    CHECK(boughladder_delete(LENT(t), 3) == 0);
    CHECK(reads(boughladder_serve(LENT(t), 1, 720, 100), 0, BOUGHLADDER_FRESH, 1, 720));
    u = lend(16, 4, 12);
    copy(&u, &t);
    CHECK(evicts(boughladder_evict_cut(LENT(u), 1, 1), 0, 1, 6, 1));
    CHECK(u.items[0] == 1 && u.items[3] == 0 && memcmp(u.slots, t.slots, 64) == 0);
    CHECK(evicts(boughladder_evict(LENT(t), 1), 0, 1, 6, 1));
    for (size_t k = 0; k < 12; k++) CHECK(t.items[k] == 0);
    for (size_t k = 0; k < 16; k++) CHECK(t.slots[k] == 0);
    CHECK(is_sound(&t) && is_sound(&u));
    give_back(&t), give_back(&u);
}

static void the_list(void) {
    static const uint8_t record[20] = {1, 0, 0, 0, 0, 0, 0, 0, 5, 0, 0, 0, 2, 0, 0, 0, 0, 0, 0, 0};
    uint8_t buffer[24];
    Table t = lend(8, 1, 8);
    memset(buffer, 0xee, sizeof buffer);
    CHECK(boughladder_fresh(LENT(t)) == 0);
    CHECK(lists(boughladder_list(LENT(t), buffer, 0), 0, 0));
    CHECK(boughladder_set(LENT(t), 1, 5, 2, 2).refusal == 0);
    CHECK(lists(boughladder_list(LENT(t), buffer, 19), BOUGHLADDER_SHORT_BUFFER, 0));
    CHECK(buffer[0] == 0xee);
    CHECK(lists(boughladder_list(LENT(t), buffer, 20), 0, 1));
    CHECK(memcmp(buffer, record, 20) == 0);
    CHECK(lists(boughladder_list(LENT(t), buffer, 24), 0, 1));
    CHECK(buffer[20] == 0xee && buffer[23] == 0xee);
    CHECK(lists(boughladder_list(t.slots, 7, t.counters, 1, t.items, 8, buffer, 24), BOUGHLADDER_BAD_SHAPE, 0));
    give_back(&t);
}

static void cuts(void) {
    /* Seven stores of a new entry: busy between the first and the last. */
    for (uint64_t k = 0; k <= 9; k++) {
        Table t = lend(16, 1, 36);
        BoughladderReading r;
        CHECK(boughladder_fresh(LENT(t)) == 0);
        CHECK(sets(boughladder_set_cut(LENT(t), 7, 5, 100, 100, k), 0, 1, 0));
        CHECK(t.counters[0] == (k == 0 ? 0u : k < 7 ? 1u : 2u));
        CHECK(t.items[0] == (k < 2 ? 0u : 7u) && t.items[1] == (k < 3 ? 0u : 5u));
        CHECK(t.items[2] == (k < 4 ? 0u : 100u) && t.items[3] == (k < 5 ? 0u : 1u));
        r = boughladder_read(LENT(t), 7, 720, 100);
        CHECK(k == 0   ? reads(r, 0, BOUGHLADDER_ABSENT, 0, 0)
              : k < 7 ? reads(r, BOUGHLADDER_BUSY, 0, 0, 0)
                      : reads(r, 0, BOUGHLADDER_FRESH, 5, 720));
        /* Plain read tells what is half written: new permission, old stamp. */
        r = plainly(&t, 7, 720, 100);
        CHECK(k < 2 ? reads(r, 0, BOUGHLADDER_ABSENT, 0, 0)
                    : reads(r, 0, BOUGHLADDER_FRESH, k < 3 ? 0 : 5, k < 4 ? 620 : 720));
        if (0 < k && k < 7) {
            CHECK(boughladder_delete(LENT(t), 7) == BOUGHLADDER_BUSY);
            CHECK(sets(boughladder_set(LENT(t), 7, 5, 100, 100), BOUGHLADDER_BUSY, 0, 0));
            CHECK(finds(boughladder_find(LENT(t), 7), BOUGHLADDER_BUSY, 0, 0));
            CHECK(boughladder_fresh(LENT(t)) == 0);
            CHECK(sets(boughladder_set(LENT(t), 7, 5, 100, 100), 0, 1, 0));
        }
        give_back(&t);
    }
    /* Seven stores of a delete. */
    for (uint64_t k = 0; k <= 9; k++) {
        Table t = lend(16, 1, 36);
        CHECK(boughladder_fresh(LENT(t)) == 0);
        CHECK(boughladder_set(LENT(t), 7, 5, 100, 100).refusal == 0);
        CHECK(boughladder_delete_cut(LENT(t), 8, k) == BOUGHLADDER_NOBODY);
        CHECK(boughladder_delete_cut(LENT(t), 7, k) == 0);
        CHECK(t.counters[0] == (k == 0 ? 2u : k < 7 ? 3u : 4u));
        CHECK(t.items[0] == (k < 3 ? 7u : 0u) && t.items[3] == (k < 6 ? 1u : 0u));
        CHECK(plainly(&t, 7, 720, 100).kind == (k < 3 ? BOUGHLADDER_FRESH : BOUGHLADDER_ABSENT));
        CHECK(evicts(boughladder_evict(LENT(t), 8), k == 0 ? 0 : k < 3 ? BOUGHLADDER_BUSY : BOUGHLADDER_NOBODY,
                     k == 0 ? 7 : 0, k == 0 ? 11 : 0, k == 0 ? 1 : 8));
        give_back(&t);
    }
}

/* Puts an animal with permission 5 and stamp 100 at a place. */
static void put(Table *t, size_t place, uint64_t animal) {
    t->items[4 * place] = animal, t->items[4 * place + 1] = 5, t->items[4 * place + 2] = 100;
}

/* Plain read: how an animal is judged, and what is refused. */
static void plain(void) {
    Table t = lend(16, 4, 36);
    CHECK(boughladder_fresh(LENT(t)) == 0);
    CHECK(boughladder_set(LENT(t), 7, 5, 100, 100).refusal == 0);
    CHECK(reads(plainly(&t, 7, 720, 820), 0, BOUGHLADDER_FRESH, 5, 0));
    CHECK(reads(plainly(&t, 7, 720, 821), 0, BOUGHLADDER_OLD, 0, -1));
    CHECK(reads(plainly(&t, 7, 720, 99), 0, BOUGHLADDER_AHEAD, 0, 0));
    CHECK(reads(plainly(&t, 7, 0, 100), 0, BOUGHLADDER_FRESH, 5, 0));
    CHECK(reads(plainly(&t, 7, 10080, 10180), 0, BOUGHLADDER_FRESH, 5, 0));
    CHECK(reads(plainly(&t, 7, 10080, 10181), 0, BOUGHLADDER_OLD, 0, -1));
    CHECK(reads(plainly(&t, 7, 0, UINT64_MAX - 1), 0, BOUGHLADDER_OLD, 0, BOUGHLADDER_LEAST_LEFT));
    CHECK(reads(plainly(&t, 8, 720, 820), 0, BOUGHLADDER_ABSENT, 0, 0));
    CHECK(reads(plainly(&t, 4294967303u, 720, 820), 0, BOUGHLADDER_ABSENT, 0, 0));
    t.items[2] = UINT64_MAX;
    CHECK(reads(plainly(&t, 7, 0, 0), 0, BOUGHLADDER_OLD, 0, BOUGHLADDER_LEAST_LEFT));
    CHECK(reads(plainly(&t, 7, 10080, 100), 0, BOUGHLADDER_OLD, 0, BOUGHLADDER_LEAST_LEFT));
    CHECK(reads(plainly(&t, 7, 720, UINT64_MAX - 1), 0, BOUGHLADDER_OLD, 0, BOUGHLADDER_LEAST_LEFT));

    /* 1, 2, 3 in this order: all reasons at once, and one after the other is taken away. */
    t.i = 35;
    CHECK(reads(plainly(&t, 0, 10081, UINT64_MAX), BOUGHLADDER_BAD_SHAPE, 0, 0, 0));
    CHECK(reads(plainly(&t, 0, 720, 820), BOUGHLADDER_BAD_SHAPE, 0, 0, 0));
    CHECK(reads(plainly(&t, 7, 10081, 820), BOUGHLADDER_BAD_SHAPE, 0, 0, 0));
    t.i = 36;
    CHECK(reads(plainly(&t, 0, 10081, UINT64_MAX), BOUGHLADDER_NO_ANIMAL, 0, 0, 0));
    CHECK(reads(plainly(&t, 0, 720, 820), BOUGHLADDER_NO_ANIMAL, 0, 0, 0));
    for (uint64_t animal = 7; animal <= 8; animal++) {
        CHECK(reads(plainly(&t, animal, 10081, 820), BOUGHLADDER_BAD_TIME, 0, 0, 0));
        CHECK(reads(plainly(&t, animal, 720, UINT64_MAX), BOUGHLADDER_BAD_TIME, 0, 0, 0));
    }

    /* Two lengths that are too large for the memory, so no word may be read. */
    CHECK(reads(boughladder_plain_read(t.items, SIZE_MAX - 3, 7, 720, 820), BOUGHLADDER_BAD_SHAPE, 0, 0, 0));
    CHECK(reads(boughladder_plain_read(t.items, (size_t)UINT32_MAX + 5, 7, 720, 820), BOUGHLADDER_BAD_SHAPE, 0, 0, 0));
    give_back(&t);

    /* Every length to 40 and those about 16384. The last place is looked at, and the one behind it is not. */
    for (size_t l = 0; l <= 16392; l += l == 40 ? 16336 : 1) {
        int good = l % 4 == 0 && l >= 4 && l <= 16384;
        t = lend(0, 0, l);
        if (l >= 4) put(&t, l / 4 - 1, 7);
        CHECK(reads(plainly(&t, 7, 720, 810), good ? 0 : BOUGHLADDER_BAD_SHAPE, good ? BOUGHLADDER_FRESH : 0,
                    good ? 5 : 0, good ? 10 : 0));
        if (good) {
            t.i -= 4;
            CHECK(reads(plainly(&t, 7, 720, 820), t.i == 0 ? BOUGHLADDER_BAD_SHAPE : 0, 0, 0, 0));
        }
        give_back(&t);
    }
}

/* Plain read on memory that no call has made: its own walk decides. */
static void plain_walks(void) {
    Table t = lend(16, 4, 36), before = lend(16, 4, 36);
    size_t place = 0;

    /* Each place is walked to, over vacant places and over taken ones. */
    for (place = 0; place < 9; place++) {
        memset(t.items, 0, 8 * t.i);
        put(&t, place, 7);
        CHECK(reads(plainly(&t, 7, 720, 820), 0, BOUGHLADDER_FRESH, 5, 0));
        for (size_t other = 0; other < 9; other++)
            if (other != place) put(&t, other, 100 + other);
        CHECK(reads(plainly(&t, 7, 720, 820), 0, BOUGHLADDER_FRESH, 5, 0));
        CHECK(reads(plainly(&t, 9, 720, 820), 0, BOUGHLADDER_ABSENT, 0, 0));
    }

    /* Twins: the first place, fresh, old, ahead or retired, and whatever the other one is. */
    put(&t, 2, 7), put(&t, 6, 7);
    t.items[4 * 6 + 1] = 6, t.items[4 * 6 + 2] = 110;
    CHECK(reads(plainly(&t, 7, 720, 820), 0, BOUGHLADDER_FRESH, 5, 0));
    CHECK(reads(plainly(&t, 7, 720, 821), 0, BOUGHLADDER_OLD, 0, -1));
    t.items[4 * 2 + 2] = 900;
    CHECK(reads(plainly(&t, 7, 720, 820), 0, BOUGHLADDER_AHEAD, 0, 0));
    t.items[4 * 2 + 2] = UINT64_MAX;
    CHECK(reads(plainly(&t, 7, 720, 820), 0, BOUGHLADDER_OLD, 0, LEAST));
    t.items[4 * 2] = 0;
    CHECK(reads(plainly(&t, 7, 720, 820), 0, BOUGHLADDER_FRESH, 6, 10));
    t.items[4 * 2] = 7, t.items[4 * 2 + 2] = 100, t.items[4 * 6 + 2] = UINT64_MAX;
    CHECK(reads(plainly(&t, 7, 720, 820), 0, BOUGHLADDER_FRESH, 5, 0));
    t.items[4 * 6 + 2] = 110;

    /* A permission word modulo 2^32; a permission 0 is one too; any recent word. */
    put(&t, 2, 7);
    t.items[4 * 2 + 1] = 4294967301u;
    CHECK(reads(plainly(&t, 7, 720, 820), 0, BOUGHLADDER_FRESH, 5, 0));
    t.items[4 * 2 + 1] = UINT64_MAX;
    CHECK(reads(plainly(&t, 7, 720, 820), 0, BOUGHLADDER_FRESH, UINT32_MAX, 0));
    CHECK(reads(plainly(&t, 7, 720, 821), 0, BOUGHLADDER_OLD, 0, -1));
    t.items[4 * 2 + 1] = 0;
    for (uint64_t recent = 0; recent < 3; recent++) {
        t.items[4 * 2 + 3] = recent - 1;
        CHECK(reads(plainly(&t, 7, 720, 820), 0, BOUGHLADDER_FRESH, 0, 0));
    }

    /* Where read refuses or misses her, the walk goes on. */
    CHECK(boughladder_fresh(LENT(t)) == 0);
    for (uint64_t animal = 6; animal <= 8; animal++)
        CHECK(boughladder_set(LENT(t), animal, 5, 100, 100).refusal == 0);
    copy(&before, &t);
    for (size_t k = 0; k < 4; k++) t.counters[k] = 1;
    CHECK(reads(boughladder_read(LENT(t), 7, 720, 820), BOUGHLADDER_BUSY, 0, 0, 0));
    CHECK(reads(plainly(&t, 7, 720, 820), 0, BOUGHLADDER_FRESH, 5, 0));
    copy(&t, &before);
    memset(t.slots, 0xa5, 4 * t.s);
    CHECK(reads(boughladder_read(LENT(t), 7, 720, 820), BOUGHLADDER_DAMAGED, 0, 0, 0));
    CHECK(reads(plainly(&t, 7, 720, 820), 0, BOUGHLADDER_FRESH, 5, 0));
    memset(t.slots, 0, 4 * t.s);
    CHECK(reads(boughladder_read(LENT(t), 7, 720, 820), 0, BOUGHLADDER_ABSENT, 0, 0));
    CHECK(reads(plainly(&t, 7, 720, 820), 0, BOUGHLADDER_FRESH, 5, 0));

    /* Slots and counters of wrong lengths are no refusal. */
    t.s = 12, t.c = 0;
    CHECK(reads(boughladder_read(LENT(t), 7, 720, 820), BOUGHLADDER_BAD_SHAPE, 0, 0, 0));
    CHECK(reads(plainly(&t, 7, 720, 820), 0, BOUGHLADDER_FRESH, 5, 0));
    CHECK(memcmp(t.items, before.items, 8 * t.i) == 0);
    give_back(&t), give_back(&before);
}

/* Lengths: each wrong one, beside good and wrong ones, and the first run is told. Some are too large for the memory, so
   no word may be read. */
static void wrong_lengths(void) {
    static const size_t s[14] = {64, 0,    1,     4,     12,       63,           65,
                                 96, 8191, 12288, 16384, SIZE_MAX, SIZE_MAX - 3, (size_t)UINT32_MAX + 65};
    static const size_t c[6] = {5, 0, 1025, 2048, SIZE_MAX, (size_t)UINT32_MAX + 6};
    static const size_t i[9] = {48, 0, 3, 46, 47, 16388, SIZE_MAX, SIZE_MAX - 3, (size_t)UINT32_MAX + 49};
    Table t = lend(64, 5, 48);
    for (int a = 0; a < 14; a++)
        for (int b = 0; b < 6; b++)
            for (int d = 0; d < 9; d++) {
                size_t at = a > 0 ? 0 : b > 0 ? 1 : d > 0 ? 2 : 0;
                uint32_t shape_only = a + b + d == 0 ? BOUGHLADDER_OK : BOUGHLADDER_BAD_SHAPE;
                BoughladderTable lent = {s[a] == 0 ? NULL : t.slots, s[a], c[b] == 0 ? NULL : t.counters, c[b],
                                         i[d] == 0 ? NULL : t.items, i[d]};
                BoughladderJudgement r = boughladder_table_judge(&lent);
                CHECK(judges(r, shape_only == 0 ? BOUGHLADDER_SOUND : BOUGHLADDER_WRONG_LENGTH, at));
                CHECK(boughladder_table_plan(&lent, 7, 5, 100, 100).refusal == shape_only);
                if (shape_only == 0) continue;
                CHECK(boughladder_table_step_move(&lent, one_move(0, 1, 4), 7, 5, 100, 100) == shape_only);
                CHECK(boughladder_table_step_enter(&lent, 0, 0, 7, 5, 100, 100) == shape_only);
            }
    give_back(&t);
}

/* A table of 16 buckets, 5 counters and 12 places, of which 2, 6, 10 and 11 are vacant, and 3 is retired. */
static Table herd_of_8(void) {
    Table t = lend(64, 5, 48);
    CHECK(boughladder_fresh(LENT(t)) == 0);
    for (uint32_t a = 1; a <= 10; a++) CHECK(boughladder_set(LENT(t), a, a, 100, 100).refusal == 0);
    t.items[4 * 3 + 2] = UINT64_MAX;
    CHECK(boughladder_delete(LENT(t), 3) == 0 && boughladder_delete(LENT(t), 7) == 0);
    return t;
}

/* The first slot that points to a place, or as many slots as there are. */
static size_t slot_of(const Table *t, size_t place) {
    size_t slot = 0;
    while (slot < t->s && (t->slots[slot] == 0 || t->slots[slot] % 65536 != place)) slot++;
    return slot;
}

/* From that slot on the first free one where that word belongs, or as many slots as there are. */
static size_t room_for(const Table *t, uint32_t word, size_t slot) {
    while (slot < t->s && (t->slots[slot] != 0 || !belongs(t, slot, word))) slot++;
    return slot;
}

/* The same animal at a second place, which was vacant, with a slot of its own: the first free one from that slot on.
   Says which, or as many slots as there are if there is none. */
static size_t double_up(Table *t, size_t place, size_t second, size_t slot) {
    uint32_t word = tag_of(t->items[4 * place]) * 65536 + (uint32_t)second;
    for (size_t k = 0; k < 4; k++) t->items[4 * second + k] = t->items[4 * place + k];
    slot = room_for(t, word, slot);
    if (slot < t->s) t->slots[slot] = word;
    return slot;
}

/* Conditions 2 and 3 in each slot and each counter, a second one behind it or not. */
static void words_judged(void) {
    static const uint32_t damaged[6] = {1, 65535, 65536 + 12, 65536 * 256, 0xdeadbeefu, UINT32_MAX};
    Table t = herd_of_8(), before = herd_of_8(), few;
    CHECK(told(&t, BOUGHLADDER_SOUND, 0));
    for (size_t slot = 0; slot < t.s; slot++) {
        for (int d = 0; d < 6; d++) {
            t.slots[slot] = damaged[d];
            CHECK(told(&t, BOUGHLADDER_DAMAGED_WORD, slot));
            t.slots[t.s - 1] = damaged[d];
            CHECK(told(&t, BOUGHLADDER_DAMAGED_WORD, slot));
            copy(&t, &before);
        }
        /* The smallest tag, the largest tag and the last place are no damage: these only point to nobody. */
        t.slots[slot] = 65536 + 2;
        CHECK(told(&t, BOUGHLADDER_STRAY_SLOT, slot));
        t.slots[slot] = 255 * 65536 + 11;
        CHECK(told(&t, BOUGHLADDER_STRAY_SLOT, slot));
        copy(&t, &before);
    }
    for (size_t k = 0; k < t.c; k++) {
        t.counters[k]++;
        CHECK(told(&t, BOUGHLADDER_ODD_COUNTER, k));
        t.counters[t.c - 1] = UINT32_MAX;
        CHECK(told(&t, BOUGHLADDER_ODD_COUNTER, k));
        copy(&t, &before);
    }
    /* Any even number will do, and the largest is followed by 0. */
    for (size_t k = 0; k < t.c; k++) t.counters[k] = UINT32_MAX - 1;
    CHECK(told(&t, BOUGHLADDER_SOUND, 0));
    CHECK(sets(boughladder_set(LENT(t), 1, 9, 200, 200), 0, 0, 0));
    CHECK(told(&t, BOUGHLADDER_SOUND, 0));
    give_back(&t), give_back(&before);

    /* A counter that no call looks at: two buckets, and it is not one of the first two. */
    few = lend(8, 4, 4);
    CHECK(boughladder_fresh(LENT(few)) == 0);
    few.counters[3] = 7;
    CHECK(boughladder_set(LENT(few), 7, 5, 100, 100).refusal == 0);
    CHECK(told(&few, BOUGHLADDER_ODD_COUNTER, 3));
    few.counters[3] = 8;
    CHECK(told(&few, BOUGHLADDER_SOUND, 0));
    give_back(&few);
}

/* Conditions 4 and 5: each entry in each free slot, moved there or copied; for a vacant place the entry that number 0
   would have, also in the buckets that it would have. */
static void slots_judged(void) {
    Table t = herd_of_8(), before = herd_of_8();
    for (size_t place = 0; place < 12; place++) {
        size_t old = slot_of(&t, place);
        uint64_t animal = t.items[4 * place];
        uint32_t word = animal != 0 ? t.slots[old] : tag_of(0) * 65536 + (uint32_t)place;
        for (size_t slot = 0; slot < t.s; slot++) {
            int home = belongs(&t, slot, word);
            if (t.slots[slot] != 0) continue;
            t.slots[slot] = word;
            if (animal == 0) {
                CHECK(told(&t, BOUGHLADDER_STRAY_SLOT, slot));
            } else {
                CHECK(told(&t, home ? BOUGHLADDER_NOT_ONE_SLOT : BOUGHLADDER_STRAY_SLOT, home ? place : slot));
                t.slots[old] = 0;
                CHECK(told(&t, home ? BOUGHLADDER_SOUND : BOUGHLADDER_STRAY_SLOT, home ? 0 : slot));
                if (home)
                    CHECK(alike(boughladder_read(LENT(t), animal, 720, 100),
                                boughladder_read(LENT(before), animal, 720, 100)));
                /* The next tag, which is not hers. */
                t.slots[slot] = word / 65536 == 255 ? word - 65536 : word + 65536;
                CHECK(told(&t, BOUGHLADDER_STRAY_SLOT, slot));
            }
            copy(&t, &before);
        }
    }
    /* A stray in another's slot, so that her place has none; and a second stray. */
    for (size_t place = 0; place < 10; place++) {
        size_t slot = slot_of(&t, place), last = t.s - 1;
        if (slot == t.s) continue;
        t.slots[slot] = 65536 * 9 + 2;
        CHECK(told(&t, BOUGHLADDER_STRAY_SLOT, slot));
        t.slots[last] = 65536 * 9 + 2;
        CHECK(told(&t, BOUGHLADDER_STRAY_SLOT, slot));
        copy(&t, &before);
    }
    /* No slot for one place, for two, and two slots for the other. */
    for (size_t place = 0; place < 10; place++)
        for (size_t other = 0; other < 10; other++) {
            size_t lower = place < other ? place : other;
            if (before.items[4 * place] == 0 || before.items[4 * other] == 0) continue;
            t.slots[slot_of(&t, place)] = 0;
            CHECK(told(&t, BOUGHLADDER_NOT_ONE_SLOT, place));
            if (place != other) {
                uint32_t word = t.slots[slot_of(&t, other)];
                t.slots[room_for(&t, word, 0)] = word;
                CHECK(told(&t, BOUGHLADDER_NOT_ONE_SLOT, lower));
                while (slot_of(&t, other) < t.s) t.slots[slot_of(&t, other)] = 0;
                CHECK(told(&t, BOUGHLADDER_NOT_ONE_SLOT, lower));
            }
            copy(&t, &before);
        }
    give_back(&t), give_back(&before);
}

/* Conditions 6, 7 and 8: each place. */
static void places_judged(void) {
    static const uint64_t values[5] = {1, UINT32_MAX, (uint64_t)UINT32_MAX + 1, UINT64_MAX - 1, UINT64_MAX};
    static const size_t vacant[4] = {2, 6, 10, 11};
    Table t = herd_of_8(), before = herd_of_8();
    for (size_t place = 0; place < 10; place++)
        for (int v = 0; v < 4 && before.items[4 * place] != 0; v++) {
            size_t second = vacant[v], lower = place < second ? place : second, slot = 0;
            /* In each free slot of both buckets. */
            for (; (slot = double_up(&t, place, second, slot)) < t.s; slot++) {
                CHECK(told(&t, BOUGHLADDER_TWIN, lower));
                /* Other words make no other animal. */
                t.items[4 * second + 1] = 99, t.items[4 * second + 2] = UINT64_MAX, t.items[4 * second + 3] = 0;
                CHECK(told(&t, BOUGHLADDER_TWIN, lower));
                /* A third one, or another pair. */
                if (v > 0) {
                    CHECK(double_up(&t, place == 9 ? 9 : 8, 2, 0) < t.s);
                    CHECK(told(&t, BOUGHLADDER_TWIN, lower < 2 ? lower : 2));
                }
                copy(&t, &before);
            }
            /* It has found no free slot any more: that she has none is told first. */
            CHECK(told(&t, BOUGHLADDER_NOT_ONE_SLOT, second));
            copy(&t, &before);
        }
    /* Numbers that differ only in their high half are others, and one whose low half is 0 is a number. */
    for (uint64_t high = 1; high <= 2; high++)
        CHECK(boughladder_set(LENT(t), 7 + (high << 32), 1, 100, 100).refusal == 0);
    CHECK(boughladder_set(LENT(t), (uint64_t)1 << 32, 1, 100, 100).refusal == 0 && t.items[4 * 10] >> 32 == 1);
    CHECK(told(&t, BOUGHLADDER_SOUND, 0));
    t.slots[slot_of(&t, 10)] = 0;
    CHECK(told(&t, BOUGHLADDER_NOT_ONE_SLOT, 10));
    copy(&t, &before);

    for (size_t place = 0; place < 12; place++) {
        int is_vacant = before.items[4 * place] == 0;
        for (int v = 0; v < 5; v++)
            for (size_t part = 1; part < 4; part++) {
                int wide = part == 1 && v > 1;
                t.items[4 * place + part] = values[v];
                CHECK(told(&t, wide ? 7 : is_vacant ? 8 : 0, wide || is_vacant ? place : 0));
                /* Beside a lower vacant place that is not all 0, 7 is told, and of 8 the lower. */
                if (place > 2) {
                    t.items[4 * 2 + 3] = 1;
                    CHECK(told(&t, wide ? 7 : 8, wide ? place : 2));
                }
                /* The last place as well. */
                t.items[4 * 11 + 1] = UINT64_MAX;
                CHECK(told(&t, 7, wide ? place : 11));
                copy(&t, &before);
            }
        /* All three words of a vacant place, its permission wide. */
        if (is_vacant) {
            for (size_t part = 1; part < 4; part++) t.items[4 * place + part] = UINT64_MAX;
            CHECK(told(&t, BOUGHLADDER_WIDE_PERMISSION, place));
            t.items[4 * place + 1] = UINT32_MAX;
            CHECK(told(&t, BOUGHLADDER_VACANT_NOT_ZERO, place));
            copy(&t, &before);
        }
    }
    /* Retired, old or ahead of all minutes, with any recent word: sound, and read takes her as plain read does. */
    for (int v = 0; v < 5; v++) {
        t.items[2] = values[v], t.items[3] = values[4 - v];
        CHECK(told(&t, BOUGHLADDER_SOUND, 0));
        agree(&t);
    }
    give_back(&t), give_back(&before);
}

/* All conditions at once, each later one at a lower number or as low; and one after the other is put right. */
static void conditions_in_turn(void) {
    Table t = herd_of_8();
    uint32_t word_of_9 = t.slots[slot_of(&t, 8)], word_of_6 = t.slots[slot_of(&t, 5)];
    size_t slot_of_9 = slot_of(&t, 8), stray = 0, twin;
    while (t.slots[stray] != 0 || belongs(&t, stray, word_of_6)) stray++;
    t.items[4 * 2 + 2] = 1;
    t.items[4 * 4 + 1] = (uint64_t)UINT32_MAX + 1;
    twin = double_up(&t, 5, 10, 0);
    t.slots[slot_of_9] = 0;
    t.slots[stray] = word_of_6;
    t.counters[4]++;
    CHECK(t.slots[63] == 0);
    t.slots[63] = 65535;
    for (size_t s = 63; s <= 64; s++)
        for (size_t c = 0; c <= 5; c += 5)
            for (size_t i = 47; i <= 48; i++) {
                t.s = s, t.c = c, t.i = i;
                CHECK(s == 64 && c == 5 && i == 48 ? told(&t, BOUGHLADDER_DAMAGED_WORD, 63)
                                                   : told(&t, BOUGHLADDER_WRONG_LENGTH, s == 63 ? 0 : c == 0 ? 1 : 2));
            }
    t.slots[63] = 0;
    CHECK(told(&t, BOUGHLADDER_ODD_COUNTER, 4));
    t.counters[4]++;
    CHECK(told(&t, BOUGHLADDER_STRAY_SLOT, stray));
    t.slots[stray] = 0;
    CHECK(told(&t, BOUGHLADDER_NOT_ONE_SLOT, 8));
    t.slots[slot_of_9] = word_of_9;
    CHECK(told(&t, BOUGHLADDER_TWIN, 5));
    t.slots[twin] = 0, memset(t.items + 4 * 10, 0, 32);
    CHECK(told(&t, BOUGHLADDER_WIDE_PERMISSION, 4));
    t.items[4 * 4 + 1] = UINT32_MAX;
    CHECK(told(&t, BOUGHLADDER_VACANT_NOT_ZERO, 2));
    t.items[4 * 2 + 2] = 0;
    CHECK(told(&t, BOUGHLADDER_SOUND, 0));
    agree(&t);
    give_back(&t);
}

/* The largest table and the smallest, all places taken; and the last slot, counter and place. */
static void ends_judged(void) {
    Table t = lend(8192, 1024, 16384), before = lend(8192, 1024, 16384), u = lend(8, 1, 4);
    uint32_t word;
    CHECK(boughladder_fresh(LENT(t)) == 0);
    for (uint64_t a = 1; a <= 4096; a++) CHECK(boughladder_set(LENT(t), a * a, 1, 100, 100).refusal == 0);
    CHECK(sets(boughladder_set(LENT(t), 2, 1, 100, 100), BOUGHLADDER_NO_PLACE, 0, 0));
    CHECK(told(&t, BOUGHLADDER_SOUND, 0));
    copy(&before, &t);
    t.slots[8191] = 65536 + 4096;
    CHECK(told(&t, BOUGHLADDER_DAMAGED_WORD, 8191));
    t.slots[8191] = 65536 * 256;
    CHECK(told(&t, BOUGHLADDER_DAMAGED_WORD, 8191));
    copy(&t, &before), t.counters[1023] = 1;
    CHECK(told(&t, BOUGHLADDER_ODD_COUNTER, 1023));
    copy(&t, &before), t.slots[8191] = t.slots[slot_of(&t, 4095)] ^ 65536 * 128;
    CHECK(told(&t, BOUGHLADDER_STRAY_SLOT, 8191));
    copy(&t, &before), t.slots[slot_of(&t, 4095)] = 0;
    CHECK(told(&t, BOUGHLADDER_NOT_ONE_SLOT, 4095));
    copy(&t, &before), t.items[16381] = UINT64_MAX;
    CHECK(told(&t, BOUGHLADDER_WIDE_PERMISSION, 4095));
    copy(&t, &before);
    CHECK(boughladder_delete(LENT(t), 4096 * 4096) == 0);
    CHECK(told(&t, BOUGHLADDER_SOUND, 0));
    t.items[16383] = 1;
    CHECK(told(&t, BOUGHLADDER_VACANT_NOT_ZERO, 4095));
    CHECK(double_up(&t, 4094, 4095, 0) < t.s && told(&t, BOUGHLADDER_TWIN, 4094));
    give_back(&t), give_back(&before);

    CHECK(boughladder_fresh(LENT(u)) == 0);
    CHECK(told(&u, BOUGHLADDER_SOUND, 0));
    CHECK(boughladder_set(LENT(u), 7, 5, 100, 100).refusal == 0);
    CHECK(told(&u, BOUGHLADDER_SOUND, 0));
    /* With two buckets every slot is a home. */
    word = u.slots[slot_of(&u, 0)];
    for (size_t slot = 0; slot < 8; slot++) {
        memset(u.slots, 0, 32);
        u.slots[slot] = word;
        CHECK(told(&u, BOUGHLADDER_SOUND, 0));
        CHECK(reads(boughladder_read(LENT(u), 7, 720, 820), 0, BOUGHLADDER_FRESH, 5, 0));
    }
    give_back(&u);
}

/* The counter that a cut has left odd, or as many as there are. */
static size_t odd_counter(const Table *t) {
    size_t k = 0;
    while (k < t->c && t->counters[k] % 2 == 0) k++;
    return k;
}

enum { SETTING, DELETING, EVICTING };

/* A call cut at every k. It makes `before` stores in whole steps, moves of four stores or clears of one, and between
   them no counter is odd. Then come the stores of one entry, the first and the last of them to its counter. Judge says
   yes where no counter is odd, and else 3 and that counter; fresh makes it sound again. What it says of half an entry
   whose counter is made even by hand stands in `half`, a digit for each of its stores: the condition, of that place. */
static void cut_judged(const Table *whole, int call, uint64_t animal, uint64_t before, uint64_t step, const char *half,
                       size_t place) {
    uint64_t stores = before + strlen(half);
    for (uint64_t k = 0; k <= stores + 1; k++) {
        Table t = lend(whole->s, whole->c, whole->i);
        int even = k >= stores || (k <= before && k % step == 0);
        copy(&t, whole);
        if (call == DELETING) CHECK(boughladder_delete_cut(LENT(t), animal, k) == 0);
        else if (call == EVICTING) CHECK(boughladder_evict_cut(LENT(t), 0, k).victim == animal);
        else CHECK(boughladder_set_cut(LENT(t), animal, 9, 200, 200, k).refusal == 0);
        CHECK((odd_counter(&t) == t.c) == even);
        CHECK(even ? told(&t, BOUGHLADDER_SOUND, 0) : told(&t, BOUGHLADDER_ODD_COUNTER, odd_counter(&t)));
        if (!even && k > before) {
            uint32_t condition = (uint32_t)(half[k - before - 1] - '0');
            t.counters[odd_counter(&t)]++;
            CHECK(told(&t, condition, condition == 0 ? 0 : place));
        } else if (!even) {
            /* In a move: nothing yet, two slots for one place, or only the last store is wanted. */
            t.counters[odd_counter(&t)]++;
            CHECK(k % 4 == 2 ? judged(&t).condition == BOUGHLADDER_NOT_ONE_SLOT : is_sound(&t));
            CHECK(judges(verdict(&t), judged(&t).condition, judged(&t).at));
        }
        CHECK(boughladder_fresh(LENT(t)) == 0 && told(&t, BOUGHLADDER_SOUND, 0));
        give_back(&t);
    }
}

static void cuts_judged(void) {
    static const uint64_t herd[8] = {358, 687, 1012, 1334, 248, 734, 913, 1710};
    static const uint64_t small[12] = {1, 5, 9, 13, 12, 16, 20, 24, 2, 6, 10, 14};
    Table t = herd_of_8();
    cut_judged(&t, SETTING, 11, 0, 1, "0555500", 2);
    cut_judged(&t, SETTING, 5, 0, 1, "00000", 4); /* an update: half an entry looks whole */
    cut_judged(&t, SETTING, 4, 0, 1, "00000", 3); /* the same over one that is retired */
    cut_judged(&t, DELETING, 5, 0, 1, "0588800", 4);
    cut_judged(&t, DELETING, 4, 0, 1, "0588800", 3);
    cut_judged(&t, EVICTING, 1, 8, 1, "0588000", 0); /* eight clears; so her recent word is 0 already */
    t.items[4 * 3 + 3] = 0;
    cut_judged(&t, EVICTING, 4, 2, 1, "0588000", 3); /* two are passed; 4, retired, was not here lately */
    give_back(&t);

    t = lend(16, 4, 36);
    CHECK(boughladder_fresh(LENT(t)) == 0);
    for (uint32_t k = 0; k < 8; k++) CHECK(boughladder_set(LENT(t), herd[k], k, 100, 100).refusal == 0);
    CHECK(told(&t, BOUGHLADDER_SOUND, 0));
    cut_judged(&t, SETTING, 5, 4, 4, "0555500", 8);
    CHECK(sets(boughladder_set(LENT(t), 5, 9, 100, 100), 0, 5, 1) && told(&t, BOUGHLADDER_SOUND, 0));
    give_back(&t);

    t = lend(16, 1, 52);
    CHECK(boughladder_fresh(LENT(t)) == 0);
    for (uint32_t k = 0; k < 12; k++) CHECK(boughladder_set(LENT(t), small[k], k, 100, 100).refusal == 0);
    /* What is moved is retired, and stays so. */
    for (size_t k = 0; k < 12; k++) t.items[4 * k + 2] = UINT64_MAX;
    cut_judged(&t, SETTING, 17, 8, 4, "0555500", 12);
    CHECK(sets(boughladder_set(LENT(t), 17, 9, 100, 100), 0, 12, 2) && told(&t, BOUGHLADDER_SOUND, 0));
    for (size_t k = 0; k < 12; k++)
        CHECK(reads(boughladder_read(LENT(t), small[k], 720, 100), 0, BOUGHLADDER_OLD, 0, LEAST));
    agree(&t);
    give_back(&t);
}

/* N = 4: buckets 0, 1 and 3 are full, and 2 is empty. 17, of buckets 0 and 1, needs two moves. */
static Table crowd(size_t counters, size_t places) {
    static const uint64_t small[12] = {1, 5, 9, 13, 12, 16, 20, 24, 2, 6, 10, 14};
    Table t = lend(16, counters, 4 * places);
    CHECK(boughladder_fresh(LENT(t)) == 0);
    for (uint32_t k = 0; k < 12; k++) CHECK(boughladder_set(LENT(t), small[k], k, 100, 100).refusal == 0);
    return t;
}

/* A plan of so many moves, and its steps without a call between: they leave what the set leaves. After each of them the
   table is sound. */
static BoughladderPlan carried_out(const Table *before, uint64_t animal, size_t count) {
    Table t = copied(before), whole = copied(before);
    BoughladderPlan plan = planned(before, animal, 7, 110, 130);
    BoughladderSetting set = boughladder_set(LENT(whole), animal, 7, 110, 130);
    CHECK(plan.refusal == 0 && plan.count == count && set.refusal == 0 && set.moves == count);
    for (size_t k = 0; k < plan.count; k++)
        CHECK(moved(&t, plan.moves[k], animal, 110, 130) == 0 && told(&t, BOUGHLADDER_SOUND, 0));
    CHECK(entered(&t, plan.place, plan.slot, animal, 7, 110, 130) == 0 && told(&t, BOUGHLADDER_SOUND, 0));
    CHECK(same(&t, &whole));
    give_back(&t), give_back(&whole);
    return plan;
}

/* Plans by number: none, one, two and four moves; and what can't be planned. */
static void plans(void) {
    static const uint64_t herd[8] = {358, 687, 1012, 1334, 248, 734, 913, 1710};
    static const uint64_t large[20] = {58, 186, 353, 512, 31,  63,  159, 239, 368, 69,
                                       286, 414, 464, 100, 180, 371, 593, 119, 215, 344};
    static const uint64_t stamps[4] = {100, 0, 130, UINT64_MAX};
    Table t = lend(16, 4, 36);
    BoughladderPlan plan;
    CHECK(boughladder_fresh(LENT(t)) == 0);
    plan = carried_out(&t, 358, 0);
    CHECK(plan.place == 0 && plan.slot == 0);
    for (uint32_t k = 0; k < 8; k++) CHECK(boughladder_set(LENT(t), herd[k], k, 100, 100).refusal == 0);
    plan = carried_out(&t, 5, 1);
    CHECK(moves_to(plan.moves[0], 2, 2, 12) && plan.place == 8 && plan.slot == 2);
    /* The lowest vacant place; and of a bucket with free slots the lowest. */
    CHECK(boughladder_delete(LENT(t), 734) == 0 && boughladder_delete(LENT(t), 913) == 0);
    plan = carried_out(&t, 5, 0);
    CHECK(plan.place == 5 && plan.slot == 5);
    /* A number whose low half is 0 is a number. */
    t.items[4 * 5] = (uint64_t)1 << 32;
    CHECK(planned(&t, 5, 7, 110, 130).place == 6);
    give_back(&t);

    t = crowd(4, 13);
    plan = carried_out(&t, 17, 2);
    CHECK(moves_to(plan.moves[0], 13, 225, 8) && moves_to(plan.moves[1], 0, 62, 13));
    CHECK(plan.place == 12 && plan.slot == 0);
    /* A damaged word beside the free slot that the search finds. */
    t.slots[11] = 7;
    CHECK(planned(&t, 17, 7, 110, 130).refusal == BOUGHLADDER_DAMAGED);
    t.slots[11] = 0;
    /* Who is held: in the same minute, by a later list, by a late one, and where she is retired. 12 comes before 5. */
    for (int full = 0; full < 2; full++)
        for (int k = 0; k < 4; k++) {
            t.items[2] = stamps[k], t.items[4 * 12] = full ? 99 : 0;
            CHECK(planned(&t, 1, 7, 110, 110).refusal == BOUGHLADDER_NOT_AS_PLANNED);
            CHECK(planned(&t, 17, 7, 110, 110).refusal == (full ? BOUGHLADDER_NO_PLACE : BOUGHLADDER_OK));
        }
    give_back(&t);

    t = lend(64, 8, 88);
    CHECK(boughladder_fresh(LENT(t)) == 0);
    for (uint32_t k = 0; k < 20; k++) CHECK(boughladder_set(LENT(t), large[k], k, 100, 100).refusal == 0);
    plan = carried_out(&t, 625, 4);
    CHECK(moves_to(plan.moves[0], 9, 173, 12) && moves_to(plan.moves[1], 6, 247, 9));
    CHECK(moves_to(plan.moves[2], 3, 189, 6) && moves_to(plan.moves[3], 63, 51, 3));
    CHECK(plan.place == 20 && plan.slot == 63);
    CHECK(boughladder_set(LENT(t), 625, 1, 100, 100).refusal == 0);
    CHECK(planned(&t, 721, 7, 110, 130).refusal == BOUGHLADDER_NO_ROOM);
    give_back(&t);

    /* The largest table: many tags to their other buckets, and the last place. */
    t = lend(8192, 1024, 16384);
    CHECK(boughladder_fresh(LENT(t)) == 0);
    for (size_t k = 0; k < 12; k++) {
        uint64_t animal = (k + 1) * 0x123456789u;
        size_t from, other;
        CHECK(boughladder_set(LENT(t), animal, 5, 100, 100).refusal == 0);
        from = slot_of(&t, k), other = other_bucket(&t, from / 4, tag_of(animal));
        CHECK(moved(&t, one_move(from, tag_of(animal), 4 * other + 3), 17, 110, 130) == 0 && slot_of(&t, k) != from);
        CHECK(reads(boughladder_read(LENT(t), animal, 720, 820), 0, BOUGHLADDER_FRESH, 5, 0));
    }
    plan = carried_out(&t, 17, 0);
    CHECK(entered(&t, 4095, plan.slot + 3, 17, 7, 110, 130) == 0 && is_sound(&t));
    give_back(&t);
}

/* Constants, where a store ends the program: the calls that change nothing may be lent them, and a move the items. */
static void read_only(void) {
    static const uint32_t slots[16] = {65536, 65537, 131074, 65539, 65540, 65541, 65542, 65543,
                                       0,     0,     0,      0,     0,     0,     0,     0};
    static const uint32_t counters[4] = {16, 0, 0, 0};
    static const uint64_t items[36] = {358, 0, 100, 1, 687, 1, 100, 1, 1012, 2, 100, 1, 1334, 3, 100, 1, 248,  4,
                                       100, 1, 734, 5, 100, 1, 913, 6, 100,  1, 1710, 7, 100, 1, 0,   0, 0,    0};
    uint8_t list[BOUGHLADDER_LIST_BYTES(8)];
    uint32_t own_slots[16], own_counters[4];
    BoughladderPlan plan = boughladder_plan(slots, 16, counters, 4, items, 36, 5, 9, 100, 100);
    CHECK(plan.refusal == 0 && plan.count == 1 && plan.place == 8 && plan.slot == 2);
    CHECK(moves_to(plan.moves[0], 2, 2, 12));
    CHECK(boughladder_plan(slots, 16, counters, 4, items, 36, 358, 9, 100, 100).refusal == BOUGHLADDER_NOT_AS_PLANNED);
    CHECK(boughladder_read(slots, 16, counters, 4, items, 36, 1012, 720, 100).permission == 2);
    CHECK(boughladder_plain_read(items, 36, 1012, 720, 100).permission == 2);
    CHECK(finds(boughladder_find(slots, 16, counters, 4, items, 36, 1012), 0, BOUGHLADDER_AT_PLACE, 2));
    CHECK(lists(boughladder_list(slots, 16, counters, 4, items, 36, list, sizeof list), 0, 8));
    CHECK(judges(boughladder_judge(slots, 16, counters, 4, items, 36), BOUGHLADDER_SOUND, 0));
    memcpy(own_slots, slots, sizeof slots), memcpy(own_counters, counters, sizeof counters);
    CHECK(boughladder_step_move(own_slots, 16, own_counters, 4, items, 36, plan.moves[0], 5, 9, 100, 100) == 0);
    CHECK(own_slots[12] == 131074 && own_slots[2] == 0);
}

/* The crowd with a free slot in each bucket, 2, 5, 8, 9 and 14, and three damaged words where 17 does not look. Places
   2, 5, 10, 12 and 13 are vacant; the number at the last, 14, has a low half of 0. */
static Table thinned(void) {
    Table t = crowd(4, 15);
    CHECK(boughladder_delete(LENT(t), 9) == 0 && boughladder_delete(LENT(t), 16) == 0);
    CHECK(boughladder_delete(LENT(t), 10) == 0);
    t.slots[10] = 9, t.slots[11] = 256 * 65536 + 9, t.slots[15] = 225 * 65536 + 15;
    t.items[4 * 14] = (uint64_t)1 << 32;
    return t;
}

/* What a step of 17 says, a move or, without one, the final store: with every earlier reason to refuse, and as one
   after the other is taken away. */
static int in_turn(const Table *before, const BoughladderMove *move, size_t place, size_t slot, uint32_t refusal) {
    static const uint32_t turns_before_12[5] = {1, 2, 3, 8, 4};
    Table t = copied(before);
    int holds = 1;
    for (int first = 0; first <= 5; first++) {
        uint32_t must = first < 5 ? turns_before_12[first] : refusal;
        uint64_t animal = first <= 1 ? 0 : 17, issued = first <= 2 ? 131 : 110;
        copy(&t, before);
        t.i = before->i - (first == 0), t.counters[0] += first <= 3;
        if (first <= 4) t.slots[7] = 65535;
        holds = holds && must == (move != NULL ? moved(&t, *move, animal, issued, 130)
                                               : entered(&t, place, slot, animal, 7, issued, 130));
    }
    give_back(&t);
    return holds;
}

/* Each way to 12 by itself, and what is good. Some numbers would be good if they were cut to fewer bits. */
static void ways_to_12(void) {
    static const size_t wide = (size_t)1 << 32, half = (size_t)1 << 63;
    const struct {
        size_t from;
        uint32_t tag;
        size_t to;
        uint32_t refusal;
    } steps[] = {
        {13, 225, 8, 0}, {13, 225, 9, 0}, {12, 86, 2, 0}, {6, tag_of(20), 2, 0},
        /* The source is not there. */
        {16, 225, 8, 12}, {13 + wide, 225, 8, 12}, {13 + half, 225, 8, 12}, {SIZE_MAX, 225, 8, 12},
        /* The destination is not there. */
        {13, 225, 16, 12}, {13, 225, 8 + wide, 12}, {13, 225, 8 + half, 12}, {13, 225, SIZE_MAX, 12},
        /* The source is free. */
        {9, 0, 14, 12}, {9, 225, 14, 12}, {9, 1, 14, 12},
        /* The source is damaged: no tag, a tag or a place that is too large. */
        {10, 0, 14, 12}, {10, 9, 14, 12}, {11, 256, 14, 12}, {11, 0, 14, 12}, {11, 1, 14, 12}, {15, 225, 8, 12},
        /* Another tag; all but two have the destination in the other bucket as well. */
        {13, 224, 8, 12}, {13, 226, 8, 12}, {13, 0, 8, 12}, {13, 225 + 256, 8, 12}, {13, 225 + 65536, 8, 12},
        {13, 225u << 24, 8, 12}, {13, UINT32_MAX, 8, 12},
        /* The destination is taken. */
        {13, 225, 10, 12}, {13, 225, 11, 12}, {13, 225, 12, 12}, {13, 225, 13, 12},
        /* The destination is in the entry's own bucket, or in a third one. */
        {13, 225, 14, 12}, {13, 225, 2, 12}, {13, 225, 5, 12}, {12, 86, 8, 12}, {12, 86, 5, 12}};
    const struct {
        size_t place, slot;
        uint32_t refusal;
    } stores[] = {
        {12, 2, 0}, {13, 2, 0}, {2, 2, 0}, {10, 5, 0}, {5, 5, 0},
        /* The place is taken. */
        {0, 2, 12}, {11, 5, 12}, {14, 2, 12},
        /* The place is not there. */
        {15, 2, 12}, {12 + 65536, 2, 12}, {12 + wide, 2, 12}, {12 + half, 2, 12}, {12 + half / 2, 2, 12},
        {SIZE_MAX, 2, 12}, {SIZE_MAX / 4, 2, 12},
        /* The slot is taken, or in a bucket that is not hers. */
        {12, 0, 12}, {12, 4, 12}, {12, 6, 12}, {12, 8, 12}, {12, 10, 12}, {12, 14, 12},
        /* The slot is not there. */
        {12, 16, 12}, {12, 2 + wide, 12}, {12, 2 + half, 12}, {12, SIZE_MAX, 12}};
    Table t = thinned();
    for (size_t k = 0; k < sizeof steps / sizeof steps[0]; k++) {
        BoughladderMove move = one_move(steps[k].from, steps[k].tag, steps[k].to);
        CHECK(in_turn(&t, &move, 0, 0, steps[k].refusal));
    }
    for (size_t k = 0; k < sizeof stores / sizeof stores[0]; k++)
        CHECK(in_turn(&t, NULL, stores[k].place, stores[k].slot, stores[k].refusal));
    /* She is held, in either bucket: no final store; but a move. */
    for (size_t slot = 2; slot <= 5; slot += 3) {
        BoughladderMove move = one_move(13, 225, 8);
        CHECK(entered(&t, 12, slot, 17, 7, 110, 130) == 0);
        CHECK(in_turn(&t, NULL, 13, 7 - slot, 12) && in_turn(&t, NULL, 12, slot, 12));
        CHECK(in_turn(&t, &move, 0, 0, 0));
        CHECK(planned(&t, 17, 7, 110, 130).refusal == BOUGHLADDER_NOT_AS_PLANNED);
        CHECK(boughladder_delete(LENT(t), 17) == 0);
    }
    /* The words behind what is lent are no place, though they are 0. */
    t.i = 4 * 12;
    CHECK(entered(&t, 12, 2, 17, 7, 110, 130) == BOUGHLADDER_NOT_AS_PLANNED && t.items[4 * 12] == 0);
    give_back(&t);
}

/* Every slot to every slot, by its tag and by others; every place with every slot, absent or held. */
static void every_step(void) {
    Table t = thinned(), before = thinned();
    unsigned long made = 0;
    for (size_t from = 0; from < 18; from++)
        for (size_t to = 0; to < 18; to++)
            for (int k = 0; k < 4; k++) {
                uint32_t tag = from < 16 && k < 3 ? t.slots[from] / 65536 : 225;
                made += moved(&t, one_move(from, k == 1 ? tag + 4 : k == 2 ? tag + 256 : tag, to), 17, 110, 130) == 0;
                copy(&t, &before);
            }
    /* 1, 5, 13, 12, 20, 24 and 2 have one free slot to go to; 6 has two, and is tried twice by its tag, 225. */
    CHECK(made == 7 + 2 * 2);
    made = 0;
    for (size_t place = 0; place < 17; place++)
        for (size_t slot = 0; slot < 18; slot++)
            for (uint64_t animal = 17; animal <= 37; animal += 20) {
                made += entered(&t, place, slot, animal, 7, 110, 130) == 0;
                CHECK(entered(&t, place, slot, 13, 7, 110, 130) == BOUGHLADDER_NOT_AS_PLANNED);
                copy(&t, &before);
            }
    /* Five vacant places, two free slots of both buckets, two animals. */
    CHECK(made == 5 * 2 * 2);
    give_back(&t), give_back(&before);
}

/* What a step does not ask for. */
static void not_asked(void) {
    Table t = crowd(4, 14);
    /* The entry that is moved is busy, its counter wraps, and its place is vacant or holds another one. */
    for (uint32_t count = 0; count < 8; count++) {
        t.counters[2] = 7 - 4 * count, t.items[4 * 9] = count % 3 == 0 ? 6 : count % 3 == 1 ? 0 : 99;
        CHECK(moved(&t, count % 2 == 0 ? one_move(13, 225, 8) : one_move(8, 225, 13), 17, 110, 130) == 0);
        CHECK(t.counters[2] == 9 - 4 * count);
    }
    t.items[4 * 9] = 6, t.counters[2] = 6;
    /* Another word beside the destination is damaged, and lower slots are free. */
    t.slots[9] = UINT32_MAX;
    CHECK(moved(&t, one_move(13, 225, 11), 17, 110, 130) == 0 && moved(&t, one_move(11, 225, 13), 17, 110, 130) == 0);
    t.slots[9] = 0;
    CHECK(moved(&t, one_move(13, 225, 8), 17, 110, 130) == 0 && moved(&t, one_move(0, 62, 13), 17, 110, 130) == 0);
    /* A slot points to the vacant place already, something is left in its words, and a lower place is vacant. */
    t.slots[10] = 65536 + 13, memset(t.items + 4 * 13 + 1, 0xa5, 24);
    CHECK(entered(&t, 13, 0, 17, 0, 0, 0) == 0);
    CHECK(t.items[4 * 13 + 1] == 0 && t.items[4 * 13 + 2] == 0 && t.items[4 * 13 + 3] == 1);
    /* Her slot is lost: who is absent to a read is absent to a step, and has a second place then, as by a set. */
    t.slots[10] = 0, t.slots[0] = 0;
    CHECK(planned(&t, 17, 7, 110, 130).refusal == 0);
    CHECK(entered(&t, 12, 0, 17, UINT32_MAX, UINT64_MAX - 1, UINT64_MAX - 1) == 0);
    CHECK(t.items[4 * 12 + 1] == UINT32_MAX && told(&t, BOUGHLADDER_NOT_ONE_SLOT, 13));
    give_back(&t);

    /* One of her tag and her buckets, or even with the low half of her number: that does not make her held. */
    t = lend(16, 4, 16);
    CHECK(boughladder_fresh(LENT(t)) == 0 && boughladder_set(LENT(t), 50, 5, 100, 100).refusal == 0);
    CHECK(tag_of(50) == tag_of(198) && planned(&t, 198, 7, 110, 130).refusal == 0);
    t.items[0] = 198 + ((uint64_t)1 << 32);
    CHECK(planned(&t, 198, 7, 110, 130).refusal == 0 && entered(&t, 2, 14, 198, 7, 110, 130) == 0);
    CHECK(boughladder_delete(LENT(t), 198) == 0);
    t.items[0] = 50;
    CHECK(entered(&t, 1, 13, 198, 7, 110, 130) == 0 && told(&t, BOUGHLADDER_SOUND, 0));
    CHECK(planned(&t, 198, 7, 110, 130).refusal == BOUGHLADDER_NOT_AS_PLANNED);
    give_back(&t);
}

/* xorshift: the same garbage in every run. */
static uint64_t state = 88172645463325252u;

static uint64_t any(void) {
    state ^= state << 13, state ^= state >> 7, state ^= state << 17;
    return state;
}

static uint64_t edge(void) {
    switch (any() % 6) {
        case 0: return any();
        case 1: return any() % 10090;
        case 2: return UINT64_MAX - any() % 3;
        default: return any() % 40;
    }
}

/* Changes one thing of a table that calls have made; it may stay sound. */
static void tamper(Table *t) {
    size_t slot = any() % t->s, from = any() % t->s, place = any() % (t->i / 4);
    while (any() % 20 != 0 && t->slots[from] == 0) from = any() % t->s;
    switch (any() % 10) {
        case 0: t->slots[slot] ^= (uint32_t)1 << any() % 32; break;
        case 1: t->slots[slot] = t->slots[from], t->slots[from] = 0; break;
        case 2: t->slots[from ^ any() % 4] = t->slots[from]; break;
        case 3: t->counters[any() % t->c] += (uint32_t)(any() % 3); break;
        case 4: t->items[4 * place] = edge(); break;
        case 5: t->items[4 * place + 1] = edge() << any() % 2 * 32; break;
        case 6: t->items[4 * place + 2 + any() % 2] = edge(); break;
        case 7: t->slots[slot] = tag_of(0) * 65536 + (uint32_t)place; break;
        default: /* a twin, where that place is vacant and that slot free; a change before may have damaged the word */
            if (t->slots[from] == 0 || t->slots[from] % 65536 >= t->i / 4 || t->items[4 * place] != 0) break;
            t->items[4 * place] = t->items[4 * (t->slots[from] % 65536)];
            t->slots[from ^ (1 + any() % 3)] = t->slots[from] / 65536 * 65536 + (uint32_t)place;
    }
}

/* Garbage of some kind: words of any value, words that look right, few words, or a table that calls have made, in which
   some animals are retired and a few things were changed. Says whether it is such a table, in which only recent words
   and stamps were changed. */
static int spoil(Table *t) {
    unsigned kind = any() % 8;
    uint64_t places = t->i / 4 == 0 ? 1 : t->i / 4;
    if (kind > 3) {
        int made = boughladder_fresh(LENT(*t)) == 0;
        uint64_t n = made ? any() % 60 : 0;
        for (; n > 0; n--)
            CHECK(boughladder_set(LENT(*t), any() % 40, (uint32_t)n, any() % 40, 40).refusal != 1);
        for (size_t k = 3; k < t->i; k += 4)
            if (!made || t->items[k - 3] != 0) {
                t->items[k] = any() % 2;
                if (any() % 6 == 0) t->items[k - 1] = UINT64_MAX;
            }
        if (kind > 4)
            for (n = made ? 1 + any() % 3 : 0; n > 0; n--) tamper(t);
        return made && kind == 4;
    }
    for (size_t k = 0; k < t->s; k++)
        t->slots[k] = kind == 0 ? (uint32_t)any()
                      : kind == 1 || any() % 4 == 0 ? (uint32_t)((any() % 255 + 1) * 65536 + any() % places) : 0;
    for (size_t k = 0; k < t->c; k++)
        t->counters[k] = kind == 0 ? (uint32_t)any() : any() % 9 == 0 ? 7 : UINT32_MAX - 1;
    for (size_t k = 0; k < t->i; k++) t->items[k] = kind == 3 && any() % 2 ? 0 : edge();
    return 0;
}

/* A number that may be good, that of a good one with a bit more, or any. */
static size_t about(size_t good, size_t count) {
    switch (any() % 8) {
        case 0: return (size_t)edge();
        case 1: return good + ((size_t)1 << (16 + any() % 48));
        case 2: return count == 0 ? 0 : any() % count;
        default: return good;
    }
}

/* A move that may be good. */
static BoughladderMove any_move(const Table *t) {
    size_t from = 0, to = 0;
    uint32_t tag = 0;
    if (wrong_run(t) == 3) {
        for (int tries = 0; tries < 8 && t->slots[from] == 0; tries++) from = any() % t->s;
        tag = t->slots[from] / 65536;
        to = 4 * other_bucket(t, from / 4, tag) + any() % 4;
    }
    if (any() % 8 == 0) tag ^= (uint32_t)1 << any() % 32;
    from = about(from, t->s), to = about(to, t->s);
    return one_move(from, tag, to);
}

/* A place that may be vacant, and a slot that may be free and the animal's. */
static size_t any_place(const Table *t) {
    size_t place = 0;
    if (wrong_run(t) == 3)
        for (int tries = 0; tries < 8 && t->items[4 * place] != 0; tries++) place = any() % (t->i / 4);
    return about(place, t->i / 4);
}

static size_t any_slot(const Table *t, uint64_t animal) {
    size_t slot = 0;
    if (wrong_run(t) == 3) {
        Homes h = homes_of(t, animal);
        slot = h.slots[any() % 8];
        for (int tries = 0; tries < 8 && t->slots[slot] != 0; tries++) slot = h.slots[any() % 8];
    }
    return about(slot, t->s);
}

/* How many sets on garbage were late, how many replaced what is retired, how often serve met that, how often plain read
   walked on where read refuses, what judge said, and what plan and the steps said. */
static unsigned long late, replaced, met_retired, walked_on, conditions[9], plans_by[13], moves_by[13], stores_by[13];

/* Every call on garbage: a refusal changes nothing, and the largest cut is the whole call. After a yes no call finds a
   damaged word or a busy counter, and what it leaves gets a yes. */
static void garbage(size_t s, size_t c, size_t i) {
    Table t = lend(s, c, i), before = lend(s, c, i), whole = lend(s, c, i);
    size_t bytes = any() % 3 == 0 ? any() % 64 : 5 * i, hand = (size_t)(any() % 3 == 0 ? edge() : any() % (i / 4 + 1));
    uint8_t *buffer = (uint8_t *)block(bytes);
    uint64_t animal = edge(), limit = edge(), now = edge(), k = any() % 12;
    uint64_t issued = any() % 4 == 0 ? edge() : any() % (now % 40 + 1);
    uint32_t permission = (uint32_t)any(), refusal, cut;
    BoughladderReading r, served, walk;
    BoughladderFinding found;
    BoughladderJudgement judgement;
    int made, yes;
    BoughladderSetting set, set_cut;
    BoughladderPlan plan, must;
    BoughladderEvicting out, out_cut;
    BoughladderListing list;
    memset(buffer, 0xee, bytes);
    made = spoil(&t);
    copy(&before, &t);

    judgement = judged(&t);
    yes = judgement.condition == BOUGHLADDER_SOUND;
    CHECK(told(&t, judgement.condition, judgement.at) && (yes || !made));
    conditions[judgement.condition]++;
    r = boughladder_read(LENT(t), animal, limit, now);
    CHECK(same(&t, &before) && r.refusal <= 10 && in_range(r, limit) && of_a_place(&t, r, animal, limit, now));
    CHECK((r.refusal == BOUGHLADDER_BAD_SHAPE) == (judgement.condition == BOUGHLADDER_WRONG_LENGTH));
    CHECK(!yes || r.refusal <= 3);
    walk = plainly(&t, animal, limit, now);
    CHECK(same(&t, &before) && alike(walk, walked(&t, animal, limit, now)) && (!yes || alike(walk, r)));
    walked_on += walk.kind != BOUGHLADDER_ABSENT && r.refusal != 0;
    served = boughladder_serve(LENT(t), animal, limit, now);
    CHECK(alike(served, r));
    CHECK(same(&t, &before) || r.kind == BOUGHLADDER_FRESH);
    CHECK(!yes || is_sound(&t));
    copy(&t, &before);
    found = boughladder_find(LENT(t), animal);
    CHECK(found.refusal <= 10 && same(&t, &before));

    set = boughladder_set(LENT(t), animal, permission, issued, now);
    CHECK(set.refusal <= 11 && (set.refusal == 0 || same(&t, &before)));
    if (found.kind == BOUGHLADDER_AT_PLACE) {
        /* Where she is held, only the stamp tells whether a list is late, and what is retired has no minute. */
        uint64_t stamp = before.items[4 * found.place + 2];
        int later = stamp > issued && stamp != UINT64_MAX, minutes = issued <= now && now != UINT64_MAX;
        CHECK(set.refusal == (uint32_t)(!minutes ? BOUGHLADDER_BAD_TIME : later ? BOUGHLADDER_LATE : BOUGHLADDER_OK));
        CHECK(r.refusal != 0 || alike(r, owed(before.items + 4 * found.place, limit, now)));
        met_retired += r.refusal == 0 && stamp == UINT64_MAX, replaced += set.refusal == 0 && stamp == UINT64_MAX;
    }
    CHECK(!yes || (set.refusal != BOUGHLADDER_DAMAGED && set.refusal != BOUGHLADDER_BUSY && is_sound(&t)));
    if (yes && set.refusal == 0)
        CHECK(reads(boughladder_read(LENT(t), animal, 720, issued), 0, BOUGHLADDER_FRESH, permission, 720));
    late += set.refusal == BOUGHLADDER_LATE;
    copy(&whole, &t), copy(&t, &before);
    set_cut = boughladder_set_cut(LENT(t), animal, permission, issued, now, BOUGHLADDER_ALL_STORES);
    CHECK(sets(set_cut, set.refusal, set.visits, set.moves) && same(&t, &whole));
    copy(&t, &before);
    set_cut = boughladder_set_cut(LENT(t), animal, permission, issued, now, k);
    CHECK(sets(set_cut, set.refusal, set.visits, set.moves) && (k > 0 || same(&t, &before)));
    copy(&t, &before);

    /* Plan refuses as set does, but any held animal is 12; its steps one after the other are the set. */
    plan = boughladder_plan(LENT(t), animal, permission, issued, now), must = owed_plan(&t, animal, issued, now);
    CHECK(plans_alike(&plan, &must) && same(&t, &before));
    plans_by[must.refusal]++;
    if (found.kind == BOUGHLADDER_AT_PLACE && (set.refusal == 0 || set.refusal == BOUGHLADDER_LATE))
        CHECK(plan.refusal == BOUGHLADDER_NOT_AS_PLANNED);
    else CHECK(plan.refusal == set.refusal && plan.count == set.moves);
    if (plan.refusal == 0) {
        for (size_t n = 0; n < plan.count; n++) CHECK(moved(&t, plan.moves[n], animal, issued, now) == 0);
        CHECK(entered(&t, plan.place, plan.slot, animal, permission, issued, now) == 0 && same(&t, &whole));
        copy(&t, &before);
    }
    /* Any steps: they are judged by what they find. */
    for (uint64_t steps = r.refusal == BOUGHLADDER_BAD_SHAPE ? any() % 2 : 3; steps > 0; steps--) {
        served = boughladder_read(LENT(t), animal, limit, now);
        if (any() % 3 != 0) {
            refusal = moved(&t, any_move(&t), animal, issued, now);
            moves_by[refusal % 13]++;
            CHECK(!yes || alike(boughladder_read(LENT(t), animal, limit, now), served));
        } else {
            size_t place = any_place(&t), slot = any_slot(&t, animal);
            refusal = entered(&t, place, slot, animal, permission, issued, now);
            stores_by[refusal % 13]++;
            if (yes && refusal == 0)
                CHECK(reads(boughladder_read(LENT(t), animal, 720, issued), 0, BOUGHLADDER_FRESH, permission, 720));
        }
        CHECK(!yes || refusal != 0 || is_sound(&t));
    }
    copy(&t, &before);

    refusal = boughladder_delete(LENT(t), animal);
    CHECK(refusal <= 10 && (refusal == 0 || same(&t, &before)));
    CHECK(!yes || (refusal != BOUGHLADDER_DAMAGED && refusal != BOUGHLADDER_BUSY && is_sound(&t)));
    if (yes && refusal == 0) CHECK(reads(boughladder_read(LENT(t), animal, 720, 720), 0, BOUGHLADDER_ABSENT, 0, 0));
    copy(&whole, &t), copy(&t, &before);
    cut = boughladder_delete_cut(LENT(t), animal, BOUGHLADDER_ALL_STORES);
    CHECK(cut == refusal && same(&t, &whole));
    copy(&t, &before);
    cut = boughladder_delete_cut(LENT(t), animal, k);
    CHECK(cut == refusal && (k > 0 || same(&t, &before)));
    copy(&t, &before);

    out = boughladder_evict(LENT(t), hand);
    CHECK(out.refusal < 10 && (out.refusal == 0 || (out.hand == hand && same(&t, &before))));
    CHECK(!yes || (out.refusal != BOUGHLADDER_DAMAGED && out.refusal != BOUGHLADDER_BUSY && is_sound(&t)));
    copy(&whole, &t), copy(&t, &before);
    out_cut = boughladder_evict_cut(LENT(t), hand, BOUGHLADDER_ALL_STORES);
    CHECK(evicts(out_cut, out.refusal, out.victim, out.looked, out.hand) && same(&t, &whole));
    copy(&t, &before);
    out_cut = boughladder_evict_cut(LENT(t), hand, k);
    CHECK(evicts(out_cut, out.refusal, out.victim, out.looked, out.hand) && (k > 0 || same(&t, &before)));
    copy(&t, &before);

    list = boughladder_list(LENT(t), buffer, bytes);
    CHECK(same(&t, &before) && (list.refusal == 0 ? 20 * list.count <= bytes : list.count == 0));
    refusal = boughladder_fresh(LENT(t));
    CHECK(refusal == r.refusal || r.refusal != 1);
    CHECK(refusal == 1 ? same(&t, &before) : refusal == 0);
    CHECK(told(&t, refusal == 1 ? BOUGHLADDER_WRONG_LENGTH : BOUGHLADDER_SOUND, refusal == 1 ? judgement.at : 0));
    free(buffer), give_back(&t), give_back(&before), give_back(&whole);
}

/* A table as another workshop may build it: any of the places and of the home slots, any even counters, any stamps and
   recent words. */
static Table built(void) {
    Table t = lend((size_t)8 << any() % 4, 1 + any() % 6, 4 * (1 + any() % 12));
    for (size_t k = 0; k < t.c; k++) t.counters[k] = (uint32_t)any() / 2 * 2;
    for (size_t place = 0; place < t.i / 4; place++) {
        uint64_t animal = 1 + any() % 40;
        uint32_t word = tag_of(animal) * 65536 + (uint32_t)place;
        if (any() % 3 == 0 || plainly(&t, animal, 0, 0).kind != BOUGHLADDER_ABSENT) continue;
        t.items[4 * place] = animal, t.items[4 * place + 1] = (uint32_t)any();
        t.items[4 * place + 2] = edge(), t.items[4 * place + 3] = edge();
        for (int tries = 0; tries < 100 && slot_of(&t, place) == t.s; tries++) {
            size_t slot = any() % t.s;
            if (t.slots[slot] == 0 && belongs(&t, slot, word)) t.slots[slot] = word;
        }
        if (slot_of(&t, place) == t.s) memset(t.items + 4 * place, 0, 32);
    }
    return t;
}

/* It gets a yes, and finished calls on it answer as on a table of our own: none finds it damaged or busy, plain read
   agrees with read after each of them, and it gets a yes again. */
static void another_workshop(int tables) {
    for (; tables > 0; tables--) {
        Table t = built();
        size_t hand = 0;
        CHECK(told(&t, BOUGHLADDER_SOUND, 0));
        agree(&t);
        for (int calls = 0; calls < 8; calls++) {
            uint64_t animal = 1 + any() % 40, now = any() % 900;
            uint32_t permission = (uint32_t)any(), refusal;
            BoughladderReading r;
            BoughladderEvicting out;
            switch (any() % 5) {
                case 0:
                case 1:
                    refusal = boughladder_set(LENT(t), animal, permission, now, now).refusal;
                    r = boughladder_read(LENT(t), animal, 720, now);
                    CHECK(refusal == 0 ? reads(r, 0, BOUGHLADDER_FRESH, permission, 720)
                                       : refusal == BOUGHLADDER_LATE ? r.kind == BOUGHLADDER_AHEAD
                                                                     : r.kind == BOUGHLADDER_ABSENT);
                    break;
                case 2:
                    r = boughladder_read(LENT(t), animal, 720, now);
                    refusal = boughladder_delete(LENT(t), animal);
                    CHECK((refusal == BOUGHLADDER_NOBODY) == (r.kind == BOUGHLADDER_ABSENT));
                    CHECK(reads(boughladder_read(LENT(t), animal, 720, now), 0, BOUGHLADDER_ABSENT, 0, 0));
                    break;
                case 3:
                    r = boughladder_read(LENT(t), animal, 720, now);
                    CHECK(alike(boughladder_serve(LENT(t), animal, 720, now), r));
                    refusal = r.refusal;
                    break;
                default:
                    out = boughladder_evict(LENT(t), hand);
                    refusal = out.refusal, hand = out.hand;
                    CHECK(refusal != 0 || plainly(&t, out.victim, 0, 0).kind == BOUGHLADDER_ABSENT);
            }
            CHECK(refusal == 0 || (refusal >= 5 && refusal <= 7) || refusal == BOUGHLADDER_LATE);
            CHECK(told(&t, BOUGHLADDER_SOUND, 0));
            agree(&t);
        }
        give_back(&t);
    }
}

/* Whether all animals but one read as they did. */
static int others_kept(const Table *t, const Table *before, uint64_t animal) {
    for (size_t k = 0; k < t->i; k += 4) {
        uint64_t other = before->items[k];
        BoughladderReading r = boughladder_read(LENT(*before), other, 720, 130);
        if (other != animal && !alike(boughladder_read(LENT(*t), other, 720, 130), r)) return 0;
    }
    return 1;
}

/* A call between two steps. */
static void between(Table *t, size_t *hand) {
    uint64_t animal = t->items[4 * (any() % (t->i / 4))], other = any() | 1;
    BoughladderEvicting out;
    switch (any() % 5) {
        case 0: CHECK(boughladder_serve(LENT(*t), animal, 720, 130).refusal == (animal == 0 ? 2 : 0)); break;
        case 1: CHECK(boughladder_delete(LENT(*t), animal) == (animal == 0 ? 2u : 0u)); break;
        case 2: CHECK(boughladder_set(LENT(*t), other, 5, 110, 130).refusal <= 6); break;
        case 3: CHECK(moved(t, any_move(t), other, 110, 130) % 12 == 0); break;
        default:
            out = boughladder_evict(LENT(*t), *hand);
            CHECK(out.refusal == 0);
            *hand = out.hand;
    }
}

/* How many moves the plans in crowded tables had; how many steps were too late. */
static unsigned long planned_moves[5], stale;

/* Tables full of scattered numbers. The last animals come in steps: first without a call between, then with some. After
   each step the table is sound, and no other animal's answer has changed. */
static void crowded(int tables) {
    for (; tables > 0; tables--) {
        size_t slots = (size_t)16 << any() % 4, hand = 0;
        Table t = lend(slots, 1 + any() % 8, 4 * slots), before = lend(slots, t.c, 4 * slots);
        BoughladderPlan plan;
        CHECK(boughladder_fresh(LENT(t)) == 0);
        for (size_t k = 0; k < slots / 16 * 15; k++)
            CHECK(boughladder_set(LENT(t), any() | 1, 5, 100, 100).refusal % 6 == 0);
        for (int tries = 0; tries < 12; tries++) {
            uint64_t animal = any() | 1;
            plan = planned(&t, animal, 7, 110, 130);
            if (plan.refusal != 0) {
                CHECK(refuses(&t, animal, 110, 130, plan.refusal));
                hand = boughladder_evict(LENT(t), hand).hand;
            } else {
                planned_moves[plan.count]++;
                CHECK(carried_out(&t, animal, plan.count).slot == plan.slot);
                CHECK(boughladder_set(LENT(t), animal, 7, 110, 130).refusal == 0);
            }
        }
        for (int tries = 0; tries < 12; tries++) {
            uint64_t animal = any() | 1;
            uint32_t refusal = 0;
            plan = planned(&t, animal, 7, 110, 130);
            if (plan.refusal != 0) plan.count = 0;
            for (size_t k = 0; k <= plan.count && refusal == 0; k++) {
                if (any() % 2 == 0) between(&t, &hand);
                copy(&before, &t);
                refusal = k < plan.count ? moved(&t, plan.moves[k], animal, 110, 130)
                                         : entered(&t, plan.place, plan.slot, animal, 7, 110, 130);
                CHECK(refusal % 12 == 0 && told(&t, BOUGHLADDER_SOUND, 0) && others_kept(&t, &before, animal));
            }
            stale += plan.refusal == 0 && refusal != 0;
        }
        give_back(&t), give_back(&before);
    }
}

/* A run of calls over a table, and the same calls over the runs of a copy: the same replies and the same words. Without
   cuts plain read agrees with read after each of them, and judge says yes; with cuts it tells the odd counter. */
static void twins(int rounds, int cuts_too) {
    Table a = lend(32, 4, 40), b = lend(32, 4, 40);
    BoughladderTable t = {a.slots, a.s, a.counters, a.c, a.items, a.i};
    uint8_t one[BOUGHLADDER_LIST_BYTES(10)], other[BOUGHLADDER_LIST_BYTES(10)];
    size_t hand = 0, place;
    CHECK(boughladder_table_fresh(&t) == 0 && boughladder_fresh(LENT(b)) == 0);
    for (int round = 0; round < rounds; round++) {
        uint64_t animal = any() % 14, now = any() % 900, issued = any() % 900, k = any() % 9;
        uint32_t permission = (uint32_t)any(), refusal;
        unsigned what = any() % 40;
        BoughladderReading r;
        BoughladderFinding f;
        BoughladderSetting s, s_table;
        BoughladderPlan p, p_table;
        BoughladderMove m;
        BoughladderEvicting e;
        BoughladderListing l;
        size_t slot;
        memset(one, 0xee, sizeof one), memset(other, 0xee, sizeof other);
        switch (!cuts_too ? what % 11 : what < 15 ? what : what % 4 * 2) {
            case 0:
                s = boughladder_set(LENT(b), animal, permission, issued, now);
                s_table = boughladder_table_set(&t, animal, permission, issued, now);
                CHECK(sets(s_table, s.refusal, s.visits, s.moves));
                break;
            case 1:
                /* No call: who is at that place is retired from here on. */
                place = any() % (a.i / 4);
                if (a.items[4 * place] != 0) a.items[4 * place + 2] = b.items[4 * place + 2] = BOUGHLADDER_RETIRED_MARK;
                break;
            case 2:
                r = boughladder_serve(LENT(b), animal, 720, now);
                CHECK(alike(boughladder_table_serve(&t, animal, 720, now), r));
                break;
            case 3:
                f = boughladder_find(LENT(b), animal);
                CHECK(finds(boughladder_table_find(&t, animal), f.refusal, f.kind, f.place));
                break;
            case 4:
                r = boughladder_read(LENT(b), animal, 720, now);
                CHECK(alike(boughladder_table_read(&t, animal, 720, now), r));
                r = boughladder_plain_read(b.items, b.i, animal, 720, now);
                CHECK(alike(boughladder_table_plain_read(&t, animal, 720, now), r));
                break;
            case 5:
                refusal = boughladder_delete(LENT(b), animal);
                CHECK(boughladder_table_delete(&t, animal) == refusal);
                break;
            case 6:
                e = boughladder_evict(LENT(b), hand);
                CHECK(evicts(boughladder_table_evict(&t, hand), e.refusal, e.victim, e.looked, e.hand));
                hand = e.hand;
                break;
            case 7:
                l = boughladder_list(LENT(b), other, sizeof other - 20 * (k % 3));
                CHECK(lists(boughladder_table_list(&t, one, sizeof one - 20 * (k % 3)), l.refusal, l.count));
                break;
            case 8:
                p = boughladder_plan(LENT(b), animal, permission, issued, now);
                p_table = boughladder_table_plan(&t, animal, permission, issued, now);
                CHECK(plans_alike(&p_table, &p));
                break;
            case 9:
                m = any_move(&b);
                refusal = boughladder_step_move(LENT(b), m, animal, permission, issued, now);
                CHECK(boughladder_table_step_move(&t, m, animal, permission, issued, now) == refusal);
                break;
            case 10:
                place = any_place(&b), slot = any_slot(&b, animal);
                refusal = boughladder_step_enter(LENT(b), place, slot, animal, permission, issued, now);
                CHECK(boughladder_table_step_enter(&t, place, slot, animal, permission, issued, now) == refusal);
                break;
            case 11:
                s = boughladder_set_cut(LENT(b), animal, permission, issued, now, k);
                s_table = boughladder_table_set_cut(&t, animal, permission, issued, now, k);
                CHECK(sets(s_table, s.refusal, s.visits, s.moves));
                break;
            case 12:
                s = boughladder_set(LENT(b), animal, permission, issued, now);
                s_table = boughladder_table_set_cut(&t, animal, permission, issued, now, BOUGHLADDER_ALL_STORES);
                CHECK(sets(s_table, s.refusal, s.visits, s.moves));
                break;
            case 13:
                refusal = boughladder_delete_cut(LENT(b), animal, k);
                CHECK(boughladder_table_delete_cut(&t, animal, k) == refusal);
                break;
            default:
                e = boughladder_evict_cut(LENT(b), hand, k);
                CHECK(evicts(boughladder_table_evict_cut(&t, hand, k), e.refusal, e.victim, e.looked, e.hand));
                hand = e.hand;
        }
        CHECK(same(&a, &b) && memcmp(one, other, sizeof one) == 0);
        if (!cuts_too) agree(&a);
        else CHECK(odd_counter(&a) == a.c ? told(&a, 0, 0) : told(&a, BOUGHLADDER_ODD_COUNTER, odd_counter(&a)));
        /* A cut may leave a counter odd, and then all is busy: begin again now and then. */
        if (any() % 50 == 0) CHECK(boughladder_table_fresh(&t) == boughladder_fresh(LENT(b)) && same(&a, &b));
    }
    give_back(&a), give_back(&b);
}

int main(int n, char **words) {
    int rounds = n > 1 ? atoi(words[1]) : 400;
    layout(), hashes(), shapes(), sizes(), nothing_lent(), lanes(), texts(), records();
    ages(), lefts(), issues(), turns(0), turns(1), retired(), retired_replaced();
    moves(), clocks(), the_list(), cuts(), plain(), plain_walks();
    wrong_lengths(), words_judged(), slots_judged(), places_judged(), conditions_in_turn(), ends_judged();
    cuts_judged(), plans(), read_only(), ways_to_12(), every_step(), not_asked();
    crowded(20), twins(3000, 1), twins(300, 0), another_workshop(60);
    /* Each length from 0 on, of one run beside two good ones. */
    for (size_t l = 0; l <= 2100; l++) {
        garbage(l, 1 + any() % 8, 4 * (1 + any() % 8));
        garbage((size_t)8 << any() % 4, l, 4 * (1 + any() % 8));
        garbage((size_t)8 << any() % 4, 1 + any() % 8, l);
    }
    for (int round = 0; round < rounds; round++) {
        garbage(any() % 5000, any() % 1200, any() % 5000);
        garbage((size_t)8 << any() % 11, 1 + any() % 1024, 4 * (1 + any() % 1024));
        for (int small = 0; small < 8; small++) garbage((size_t)8 << any() % 4, 1 + any() % 4, 4 * (1 + any() % 24));
    }
    CHECK(late > 0 && replaced > 0 && met_retired > 0 && walked_on > 0);
    for (int k = 0; k < 9; k++) CHECK(conditions[k] > 0);
    for (int k = 0; k < 5; k++) CHECK(planned_moves[k] > 0);
    for (int k = 0; k < 13; k++) {
        int step = k <= 4 || k == 8 || k == 12;
        CHECK((plans_by[k] > 0) == (step || k == 5 || k == 6));
        CHECK((moves_by[k] > 0) == step && (stores_by[k] > 0) == step);
    }
    CHECK(stale > 0);
    if (failed != 0) {
        printf("%lu checks failed\n", failed);
        return 1;
    }
    printf("%lu checks passed\n", passed);
    return 0;
}
