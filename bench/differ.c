/*
 * differ.c: the same random calls on the proved table, on the anchor and on the second C table, with equal memory.
 * After EVERY call, in every shape, all fields of the reply and all words of the three runs are compared (and, after a
 * list, all bytes of the buffer). The second table has read, serve, plain_read, set, delete, plan and the two steps; its other
 * calls are the anchor's.
 * Use: differ [seed [percent]], the percent being the share of 5.1 million calls. It ends with 1 at the first difference.
 *
 * An episode is one shape, one herd and one kind of memory:
 *     clean    fresh, then whole calls; the herd grows and shrinks between empty and full
 *     cut      as clean, and some calls are cut after a random number k of stores
 *     poked    as cut, and now and then one random word is overwritten by a random one
 *     garbage  all three runs hold random words from the start
 * The numbers of a herd are scattered, or of one length in bytes, or of every length; those of a length have edges and bytes
 * of 0 among them. For a hash may take short numbers, or bytes of 0, another way.
 * Limits and minutes are often such that the answer turns there: stamped now, the last good minute, as long overdue as is
 * told, and where a difference of 64 bits turns over. The turns that were met are counted, and in a whole run (100 percent or
 * more) none may be missing.
 * In every episode one entry in RETIRE_SHARE is retired when it has been set: its stamp becomes the mark, as if it were a
 * standing permission from before version 4. No call stores that number. As stamps are no condition of the judge, a clean
 * table stays clean.
 *
 * Sets are made in steps, too. Four plans are in hand, and the steps come
 *     at once    one after the other, right behind their plan
 *     between    with other calls between, until they are made or the plan is stale
 *     again      out of turn, or once more
 *     suited     from no plan, but from the words of the table: so they can mostly be made
 *     slipped    as one of these, with a slip in one thing: beside the planned number, far above it, or another animal
 * Behind each plan its steps are made on one copy of our memory and a set on another (on M 4096 behind some of them). Both must
 * leave the same words; where the plan is refused the set is, with the same number, but 12 is an update or 11. And `due` tells
 * the refusal of each plan and step once more, from the words of the wish, and what alone stood against it.
 * Where the memory is not clean, some searches of sets and plans end at the first or the last visit of a level (`aim`).
 *
 * Behind each call come plain reads of our memory, before its words are compared, so that a word that they write shows:
 *     clean    where finished calls from fresh have made the table, in an episode of any kind: of the call's animal, of 0,
 *              of one that is held and of a random one, each beside our read, the same in every field
 *     other    of one that stands in the item words and of a random one, each beside both C walks
 * On M 4096, where a walk is long, the first of a clean table comes behind every call, the others behind one in LARGE_SHARE.
 *
 * And then our memory is judged, by ours and by the second table, and where it is not long by the anchor too:
 *     clean    behind every call that has written: it must be a yes. And with one fault, planted and put back: the verdict
 *              must tell its condition, and whom it was planted at
 *     other    as it is, with a fault or two more, and with other lengths
 * On M 4096 that comes behind one call in JUDGE_SHARE.
 */
#include "anchor.h"
#include "second.h"

#include <inttypes.h>
#include <stdio.h>
#include <stdlib.h>
#include <string.h>

#define GUARD 8 /* 64-bit words before, between and behind the runs, which nobody may change */
#define BLOCK (4 * GUARD + 4096 + 512 + 16384)
#define BUFFER (20 * 4096 + 64)
#define POOL 9000
#define LARGE_SHARE 8
#define JUDGE_SHARE 64
#define NOWHERE SIZE_MAX
#define FAR (UINT64_C(1) << 62) /* minutes overdue; beyond them the answer stays the same */
#define MARK UINT64_MAX /* the stamp of a retired entry */
#define RETIRE_SHARE 8
#define IN_HAND 4 /* plans */

enum { OURS, ANCHOR, SECOND, TABLES };
enum { CLEAN, CUT, POKED, GARBAGE, KINDS };
enum { FRESH, READ, SERVE, PLAIN, FIND, SET, SETCUT, DELETE, DELETECUT, EVICT, EVICTCUT, LIST, PLAN, MOVE, ENTER, CALLS };
static const char *const call_names[CALLS] = {"fresh", "read", "serve", "plain_read", "find", "set", "set_cut", "delete",
                                              "delete_cut", "evict", "evict_cut", "list", "plan", "step_move", "step_enter"};
static const char *const table_names[TABLES] = {"ours", "anchor", "second"};
static const char *const kind_names[KINDS] = {"clean", "cut", "poked", "garbage"};

/* What a set met that was stored or refused 11: the held stamp beside the minute of issue, or a retired entry and which issue. */
enum { NOBODY, EARLIER, EQUAL, LATER, MARK_AT_0, MARK_AT_LAST, MARK_NOW, MARK_BEFORE, MEETINGS };
static const char *const meeting_names[MEETINGS] = {"none held",
                                                    "earlier",
                                                    "equal",
                                                    "later",
                                                    "retired, issued at 0",
                                                    "retired, issued at 2^64 - 2",
                                                    "retired, issued now",
                                                    "retired, issued before now"};

/* What read says where plain is asked the same on memory that is not clean. */
enum { ALIKE, BUSY, DAMAGED, UNSEEN, ELSEWHERE, BESIDES };
static const char *const beside_names[BESIDES] = {"the same", "refused 8", "refused 4", "absent, and plain finds her",
                                                  "another permission or stamp"};

/* Where a question meets a stamp: the minutes left, then other turns. The first ones stand in the order of `overdue`. */
enum { WHOLE = 7, LIMIT_0, RETIRED, NEARLY, OLDEST, TURNS };
static const uint64_t overdue[WHOLE] = {UINT64_MAX, 0, 1, FAR - 1, FAR, FAR + 1, 2 * FAR}; /* modulo 2^64 */
static const char *const turn_names[TURNS] = {"1", "0", "-1", "-2^62 + 1", "-2^62", "a minute less", "2^63 overdue",
                                              "the whole limit", "limit 0", "retired", "stamp 2^64 - 2", "age 2^64 - 2"};

/* The plain reads behind the calls; on memory that is not clean, what the places that were found are like, too. */
typedef struct {
    uint64_t asked, by_answer[4], by_refusal[4], by_turn[TURNS], shorter, last, wide, twins;
} Plains;

/* What is judged: tables that must get a yes, with one fault or not; other memory, as it is or bent. */
enum { LEFT_CLEAN, PLANTED, LEFT_OTHER, BENT, JUDGED };
static const char *const judged_names[JUDGED] = {"clean tables, each a yes,",
                                                 "one fault in a clean table, each told as planted,", "other memory",
                                                 "any memory with faults and other lengths"};

/* Where a step comes from. */
enum { AT_ONCE, BETWEEN, AGAIN, SUITED, SLIPPED, ORIGINS };
static const char *const origin_names[ORIGINS] = {"at once", "between", "again", "suited", "slipped"};

/* What stands against a move and against a final store, a bit each. */
enum { FROM_OUT = 1, TO_OUT = 2, NO_ENTRY = 4, BAD_ENTRY = 8, OTHER_TAG = 16, TAKEN = 32, OTHER_BUCKET = 64 };
enum { HELD = 1, PLACE_OUT = 2, SLOT_OUT = 4, NOT_VACANT = 8, NOT_FREE = 16, NO_HOME = 32 };

/* What alone stood against one that was refused 12. What is above so many bits would do if it were cut to them. */
enum { BY_FROM, BY_TO, BY_BOTH, BY_FREE, BY_FREE_0, BY_TAG_0, BY_TAG_256, BY_PLACE_M, BY_TAG, BY_TAG_8, BY_TAG_16, BY_TAKEN,
       BY_DAMAGE, BY_OWN, BY_THIRD, MOVE_ABOVE, MOVE_SEVERAL = MOVE_ABOVE + 4, MOVE_WAYS };
static const char *const move_ways[MOVE_WAYS] = {
    "source outside", "destination outside", "both outside", "source free", "source free, tag 0 planned", "source's tag 0",
    "source's tag above 255", "source's place M or more", "another tag", "tag above 8 bits", "tag above 16 bits",
    "destination taken", "destination damaged", "into its own bucket", "into a third bucket", "source above 16 bits",
    "source above 32 bits", "destination above 16 bits", "destination above 32 bits", "several"};
enum { BY_HELD, BY_PLACE, BY_SLOT, BY_PLACE_AND_SLOT, BY_LIVE, BY_WORD, BY_BUCKET, ENTER_ABOVE, ENTER_SEVERAL = ENTER_ABOVE + 4,
       ENTER_WAYS };
static const char *const enter_ways[ENTER_WAYS] = {
    "held", "place outside", "slot outside", "both outside", "place not vacant", "slot not free", "in neither bucket",
    "place above 16 bits", "place above 32 bits", "slot above 16 bits", "slot above 32 bits", "several"};

/* What did not stand against one that was made. */
enum { OF_ODD, WHILE_HELD, HERSELF, MOVE_MADES };
static const char *const move_mades[MOVE_MADES] = {"its counter odd", "the animal held", "her own entry"};
enum { HIGHER_PLACE, HIGHER_SLOT, OTHER_HOME, TO_0, ENTER_MADES };
static const char *const enter_mades[ENTER_MADES] = {"not the lowest vacant place", "not the lowest free slot",
                                                     "the other bucket where the first has room", "the counter comes to 0"};

/* The first and the last visit of each level. */
enum { VISIT_ENDS = 10 };
static const uint64_t visit_ends[VISIT_ENDS] = {1, 2, 3, 10, 11, 42, 43, 170, 171, 682};
static const char *const end_names[VISIT_ENDS] = {"1", "2", "3", "10", "11", "42", "43", "170", "171", "682"};

/* One table: its block of memory, and where the runs lie in it. */
typedef struct {
    uint64_t block[BLOCK];
    uint32_t *slots, *counters;
    uint64_t *items;
    uint8_t buffer[BUFFER];
} Table;

/* A reply of any call. */
typedef struct {
    uint64_t refusal, kind, permission, place, slot, visits, moves, victim, looked, hand, count, records[4][3];
    int64_t left;
} Reply;

/* The arguments of any call. */
typedef struct {
    int call;
    size_t sl, cl, il, hand, buffer_length;
    uint64_t animal, limit, issued, now, k;
    uint32_t permission;
    BoughladderMove move;
    size_t place, slot;
    int origin; /* of a step */
} Call;

/* A plan in hand, and which step comes next; a call that is no plan means none. */
typedef struct {
    Call call;
    Reply told;
    uint64_t next;
} Plan;

static Table tables[TABLES], *const ours = &tables[OURS], in_steps, in_one; /* the last two: copies of ours */
static Plan in_hand[IN_HAND], *hurried /* it is carried out now */, *stepping /* the last step was its next */;
static uint64_t pool[POOL];
static size_t n, v, m, pool_size, used; /* used: 64-bit words of the block in use */
static uint64_t state, seed = 1, percent = 100;
static uint64_t calls, words, by_call[CALLS], by_refusal[13], by_moves[5], by_load[11], by_kind[KINDS], by_answer[4];
static uint64_t by_turn[TURNS], by_meeting[2][MEETINGS] /* by cut */, by_mark[CALLS];
static uint64_t most_visits, large_calls, stopped_cuts, issued_later, asked_after, bytes;
static uint64_t by_beside[BESIDES], by_bytes[CALLS][9][2]; /* by the bytes of the number: all, those held or stored */
static int clean; /* whether finished calls from fresh have made the table, all with the lengths that fresh got; marks aside */
static Plains plains[2]; /* by clean */
static uint64_t by_plan[3][5]; /* by N 2, 4 and more: the moves of plans */
static uint64_t by_due[3][14][2] /* plan and steps, by the refusal and whether another stood behind it; 13: 4 by the search */;
static uint64_t by_origin[ORIGINS][2] /* made, refused 12 */, by_move[MOVE_WAYS], by_enter[ENTER_WAYS], carried_out;
static uint64_t by_move_made[MOVE_MADES], by_enter_made[ENTER_MADES], by_end[VISIT_ENDS];
static uint64_t by_verdict[JUDGED][9], by_anchor, judge_state; /* its own draws, so that the calls stay the same */

static uint64_t any(void) { /* splitmix64 */
    uint64_t z = (state += UINT64_C(0x9e3779b97f4a7c15));
    z = (z ^ (z >> 30)) * UINT64_C(0xbf58476d1ce4e5b9);
    z = (z ^ (z >> 27)) * UINT64_C(0x94d049bb133111eb);
    return z ^ (z >> 31);
}

static uint64_t below(uint64_t bound) { return any() % bound; }
static int one_in(uint64_t count) { return below(count) == 0; }
static unsigned a_length(void) { return 1 + (unsigned)below(8); }

/* A number with so many bytes in use: at an edge, with bytes of 0 at its lower end or anywhere below the highest, or
   scattered. The edges of all lengths are 256^k - 1, 256^k and 256^k + 1. */
static uint64_t a_number(unsigned length) {
    uint64_t least = UINT64_C(1) << 8 * (length - 1), most = UINT64_MAX >> (64 - 8 * length), number = any() & most;
    switch (below(8)) {
    case 0: return one_in(3) ? most : least + below(2);
    case 1: number &= UINT64_MAX << 8 * below(length); break;
    case 2:
        for (unsigned i = 0; i + 1 < length; i++)
            if (one_in(2)) number &= ~(UINT64_C(255) << 8 * i);
    }
    return number < least ? number | least : number;
}

static unsigned bytes_of(uint64_t number) {
    unsigned length = 0;
    for (; number != 0; number >>= 8) length++;
    return length;
}

/* A herd of one length, of every length, or scattered. Short numbers are few: one that the herd has already gives way to a
   longer one. */
static void gather(void) {
    uint64_t herd = below(16);
    for (size_t i = 0, k; i < pool_size; i++) {
        unsigned length = herd < 8 ? 1 + (unsigned)herd : a_length();
        do {
            pool[i] = herd < 12 ? a_number(length) : any();
            length += length < 8;
            for (k = 0; pool[k] != pool[i];) k++;
        } while (k < i);
    }
}

static void lay_out(Table *t) {
    uint64_t *p = t->block + GUARD;
    t->slots = (uint32_t *)p;
    p += 4 * n / 2 + GUARD;
    t->counters = (uint32_t *)p;
    p += (v + 1) / 2 + GUARD;
    t->items = p;
    p += 4 * m + GUARD;
    used = (size_t)(p - t->block);
}

static uint64_t an_animal(void) {
    if (one_in(300)) return 0;
    if (one_in(50)) return a_number(a_length());
    return pool[below(pool_size)];
}

static uint32_t a_slot_word(void) {
    switch (below(16)) {
    case 0: return (uint32_t)any();
    case 1: return (uint32_t)below(65536);                                       /* tag 0 */
    case 2: return (uint32_t)((256 + below(3)) << 16 | below(m));                /* tag above 255 */
    case 3: return (uint32_t)((1 + below(255)) << 16 | (m - 1 + below(3)));      /* place about M */
    case 4: case 5: return 0;
    default: return (uint32_t)((1 + below(255)) << 16 | below(m));
    }
}

static uint64_t an_item_word(size_t i) {
    switch (i % 4) {
    case 0: return one_in(4) ? 0 : pool[below(pool_size)];
    case 1: return one_in(3) ? any() : below(UINT64_C(1) << 32);
    case 2: return one_in(8) ? UINT64_MAX - below(3) : one_in(8) ? any() : one_in(8) ? below(3) : 20000 + below(14000);
    default: return one_in(3) ? any() : below(2);
    }
}

/* The hash of the order, to aim garbage at an animal's home slots. */
static uint32_t hash(uint64_t animal) {
    uint32_t h = 2166136261u;
    for (int i = 0; i < 8; i++) h = (h ^ (uint32_t)(animal >> (8 * i) & 255)) * 16777619u;
    return h;
}

static uint32_t tag_of(uint64_t animal) { return hash(animal) >> 24 ? hash(animal) >> 24 : 1; }
static uint32_t spread(uint32_t tag, size_t buckets) { return (tag * 1540483477u & (uint32_t)(buckets - 1)) | 1u; }

static int is_damaged(uint32_t word, size_t places) {
    return word != 0 && (word >> 16 == 0 || word >> 16 > 255 || (word & 65535) >= places);
}

/* Fills a table with random words: some wholly random, some nearly good. */
static void garbage(void) {
    uint64_t wild = below(3), bad = 1 + below(200), odd = 1 + below(20);
    for (size_t i = 0; i < 4 * m; i++) ours->items[i] = wild == 0 ? any() : an_item_word(i);
    for (size_t i = 0; i < v; i++) {
        ours->counters[i] = one_in(4) ? UINT32_MAX - (uint32_t)below(4) : (uint32_t)any();
        if (!one_in(odd)) ours->counters[i] &= ~UINT32_C(1);
    }
    for (size_t i = 0; i < 4 * n; i++)
        ours->slots[i] = wild == 0 || one_in(bad) ? a_slot_word()
                        : one_in(6)              ? 0
                                                 : (uint32_t)((1 + below(255)) << 16 | below(m));
    if (wild == 0) return;
    for (size_t i = 0; i < m; i++) /* most places also stand in a home slot, some in two */
        for (int twice = 0; twice < 2; twice++)
            if (ours->items[4 * i] != 0 && (twice ? one_in(5) : !one_in(4))) {
                uint32_t h = hash(ours->items[4 * i]), tag = h >> 24 ? h >> 24 : 1, b = h & (uint32_t)(n - 1);
                if (one_in(2)) b ^= ((tag * 1540483477u) & (uint32_t)(n - 1)) | 1u;
                ours->slots[4 * b + below(4)] = tag << 16 | (uint32_t)i;
            }
}

/* Overwrites one word, of all tables alike. */
static void poke(void) {
    size_t i;
    switch (below(3)) {
    case 0:
        i = below(4 * n);
        ours->slots[i] = a_slot_word();
        for (int k = 1; k < TABLES; k++) tables[k].slots[i] = ours->slots[i];
        break;
    case 1:
        i = below(v);
        ours->counters[i] = one_in(4) ? (uint32_t)any() : (uint32_t)any() << 1;
        for (int k = 1; k < TABLES; k++) tables[k].counters[i] = ours->counters[i];
        break;
    default:
        i = below(4 * m);
        ours->items[i] = an_item_word(i);
        for (int k = 1; k < TABLES; k++) tables[k].items[i] = ours->items[i];
    }
    clean = 0;
}

/* Before a set or a plan: its search shall end at the first or the last visit of a level, by free slots or by damage. Where
   that bucket is an earlier visit's, too, it ends wherever it will. */
static void aim(uint64_t animal) {
    uint32_t list[682], first = hash(animal) & (uint32_t)(n - 1), other = first ^ spread(tag_of(animal), n);
    uint64_t end, how = below(4);
    uint8_t seen[2048] = {0};
    do end = visit_ends[below(VISIT_ENDS)];
    while (end > n);
    for (uint32_t i = 0; i < end; i++) {
        uint32_t parent = i > 1 ? list[(i - 2) / 4] : 0;
        list[i] = i == 0 ? first : i == 1 ? other : parent ^ spread(ours->slots[4 * parent + (i - 2) % 4] >> 16, n);
        uint32_t *four = ours->slots + 4 * list[i];
        if (i + 1 == end && !seen[list[i]]) {
            if (how > 0) four[below(4)] = 0, four[below(4)] = 0;
            if (how < 2) four[below(4)] = UINT32_C(256) << 16;
            break;
        }
        for (int k = 0; k < 4; k++)
            if (four[k] == 0 || is_damaged(four[k], m)) four[k] = (uint32_t)((1 + below(255)) << 16 | below(m));
        seen[list[i]] = 1;
    }
    ours->counters[(first < other ? first : other) % v] &= ~UINT32_C(1);
    ours->items[4 * below(m)] = 0;
    for (int k = 1; k < TABLES; k++) memcpy(tables[k].block, ours->block, 8 * used);
    clean = 0;
}

static Reply of_reading(BoughladderReading x) {
    Reply r;
    memset(&r, 0, sizeof r);
    r.refusal = x.refusal; r.kind = x.kind; r.permission = x.permission; r.left = x.left;
    return r;
}

static Reply make(const Call *c, int who, Table *t) {
    BoughladderTable second = {t->slots, c->sl, t->counters, c->cl, t->items, c->il};
    Reply r;
    memset(&r, 0, sizeof r);
#define TABLE t->slots, c->sl, t->counters, c->cl, t->items, c->il
#define EITHER(name, ...) (who == OURS ? boughladder_##name(__VA_ARGS__) : anchor_##name(__VA_ARGS__))
#define ANY(name, ...) (who == SECOND ? second_##name(&second, __VA_ARGS__) : EITHER(name, TABLE, __VA_ARGS__))
    switch (c->call) {
    case FRESH: r.refusal = EITHER(fresh, TABLE); break;
    case READ: return of_reading(ANY(read, c->animal, c->limit, c->now));
    case SERVE: return of_reading(ANY(serve, c->animal, c->limit, c->now));
    case PLAIN:
        return of_reading(who == SECOND ? second_plain_read(&second, c->animal, c->limit, c->now)
                                        : EITHER(plain_read, t->items, c->il, c->animal, c->limit, c->now));
    case FIND: {
        BoughladderFinding x = EITHER(find, TABLE, c->animal);
        r.refusal = x.refusal; r.kind = x.kind; r.place = x.place;
        break;
    }
    case SET: case SETCUT: {
        BoughladderSetting x =
            c->call == SET ? ANY(set, c->animal, c->permission, c->issued, c->now)
                           : EITHER(set_cut, TABLE, c->animal, c->permission, c->issued, c->now, c->k);
        r.refusal = x.refusal; r.visits = x.visits; r.moves = x.moves;
        break;
    }
    case DELETE: r.refusal = ANY(delete, c->animal); break;
    case DELETECUT: r.refusal = EITHER(delete_cut, TABLE, c->animal, c->k); break;
    case EVICT: case EVICTCUT: {
        BoughladderEvicting x = c->call == EVICT ? EITHER(evict, TABLE, c->hand) : EITHER(evict_cut, TABLE, c->hand, c->k);
        r.refusal = x.refusal; r.victim = x.victim; r.looked = x.looked; r.hand = x.hand;
        break;
    }
    case PLAN: {
        BoughladderPlan x = ANY(plan, c->animal, c->permission, c->issued, c->now);
        r.refusal = x.refusal; r.count = x.count; r.place = x.place; r.slot = x.slot;
        for (int i = 0; i < 4; i++)
            r.records[i][0] = x.moves[i].from, r.records[i][1] = x.moves[i].tag, r.records[i][2] = x.moves[i].to;
        break;
    }
    case MOVE: r.refusal = ANY(step_move, c->move, c->animal, c->permission, c->issued, c->now); break;
    case ENTER: r.refusal = ANY(step_enter, c->place, c->slot, c->animal, c->permission, c->issued, c->now); break;
    default: {
        BoughladderListing x = EITHER(list, TABLE, t->buffer, c->buffer_length);
        r.refusal = x.refusal; r.count = x.count;
    }
    }
    return r;
}

static void tell(const char *who, const Reply *r) {
    printf("  %-6s refusal %" PRIu64 " kind %" PRIu64 " permission %" PRIu64 " left %" PRId64 " place %" PRIu64 " visits %" PRIu64
           " moves %" PRIu64 " victim %" PRIu64 " looked %" PRIu64 " hand %" PRIu64 " count %" PRIu64 "\n",
           who, r->refusal, r->kind, r->permission, r->left, r->place, r->visits, r->moves, r->victim, r->looked, r->hand,
           r->count);
    printf("         slot %" PRIu64, r->slot);
    for (int i = 0; i < 4; i++)
        printf(" move %" PRIu64 " %" PRIu64 " %" PRIu64, r->records[i][0], r->records[i][1], r->records[i][2]);
    printf("\n");
}

static void tell_call(const Call *c, const char *where, int kind) {
    printf("DIFFERENCE %s call %" PRIu64 ", seed %" PRIu64 ", memory %s, N %zu V %zu M %zu\n", where, calls, seed, kind_names[kind], n, v, m);
    printf("  %s lengths %zu %zu %zu animal %" PRIu64 " permission %" PRIu32 " limit %" PRIu64 " issued %" PRIu64 " now %" PRIu64
           " hand %zu k %" PRIu64 " buffer %zu\n",
           call_names[c->call], c->sl, c->cl, c->il, c->animal, c->permission, c->limit, c->issued, c->now, c->hand, c->k,
           c->buffer_length);
    printf("  move %zu %" PRIu32 " %zu place %zu slot %zu\n", c->move.from, c->move.tag, c->move.to, c->place, c->slot);
}

static void differs(const Call *c, const Reply *a, const Reply *b, int who, int kind) {
    const Table *other = &tables[who];
    const char *name = table_names[who];
    tell_call(c, "at", kind);
    tell("ours", a);
    tell(name, b);
    int told = 0;
    for (size_t i = 0; i < 4 * n; i++)
        if (ours->slots[i] != other->slots[i] && told++ < 10)
            printf("  slot %zu: ours %" PRIu32 " %s %" PRIu32 "\n", i, ours->slots[i], name, other->slots[i]);
    for (size_t i = 0; i < v; i++)
        if (ours->counters[i] != other->counters[i] && told++ < 10)
            printf("  counter %zu: ours %" PRIu32 " %s %" PRIu32 "\n", i, ours->counters[i], name, other->counters[i]);
    for (size_t i = 0; i < 4 * m; i++)
        if (ours->items[i] != other->items[i] && told++ < 10)
            printf("  item word %zu: ours %" PRIu64 " %s %" PRIu64 "\n", i, ours->items[i], name, other->items[i]);
    for (size_t i = 0; i < BUFFER; i++)
        if (ours->buffer[i] != other->buffer[i] && told++ < 10)
            printf("  buffer byte %zu: ours %u %s %u\n", i, ours->buffer[i], name, other->buffer[i]);
    if (told == 0) printf("  the runs are equal; the reply or a word outside the runs differs\n");
    exit(1);
}

static int writes(const Call *c) {
    return c->call != READ && c->call != PLAIN && c->call != FIND && c->call != LIST && c->call != PLAN;
}

/* A length that is wrong or shorter; never one that is both good and longer than the memory. A call that writes gets only
   wrong ones where the memory is to stay clean. */
static void bend_lengths(Call *c, int kind) {
    static const size_t odd_sl[] = {0, 4, 7, 9, 12, 16384, 8196, 24, SIZE_MAX, (size_t)1 << 33};
    static const size_t odd_cl[] = {0, 1025, SIZE_MAX, (size_t)1 << 32};
    static const size_t odd_il[] = {0, 1, 3, 16388, 32768, SIZE_MAX - 3, (size_t)1 << 34};
    switch (below(kind == CLEAN && writes(c) ? 3 : 6)) {
    case 0: c->sl = odd_sl[below(10)]; break;
    case 1: c->cl = odd_cl[below(4)]; break;
    case 2: c->il = odd_il[below(7)]; break;
    case 3: c->sl = n > 2 ? 2 * n : 8; break;
    case 4: c->cl = 1 + below(v); break;
    default: c->il = below(4 * m + 1);
    }
}

static uint64_t a_limit(void) {
    return one_in(10) ? 10079 + below(3) : one_in(10) ? below(2) : one_in(35) ? any() : below(10081);
}

/* A now at or beside a turn of the answer about such a stamp; modulo 2^64, so that now and then it is ahead. */
static uint64_t a_turn(uint64_t stamp, uint64_t limit) {
    static const uint64_t far[] = {0, 0, FAR, 2 * FAR};
    if (one_in(8)) return UINT64_MAX - below(3); /* of a small stamp as old as can be */
    uint64_t turn = stamp + (one_in(3) ? 0 : limit);
    turn += far[below(4)];
    return turn - 1 + below(3);
}

/* A minute of issue: mostly before now, often now, and now and then after it or long ago. */
static uint64_t an_issue(uint64_t now) {
    if (one_in(25)) return one_in(2) ? now + 1 + below(3) : one_in(2) ? any() : UINT64_MAX - below(3);
    if (one_in(25)) return below(3);
    return one_in(3) ? now : now - below(now < 5000 ? now + 1 : 5000);
}

/* Before a set is made: what it will meet, if it comes so far. */
static int meeting(const Call *c) {
    BoughladderFinding f = anchor_find(ours->slots, c->sl, ours->counters, c->cl, ours->items, c->il, c->animal);
    if (f.refusal != 0 || f.kind != BOUGHLADDER_AT_PLACE) return NOBODY;
    uint64_t stamp = ours->items[4 * f.place + 2];
    if (stamp == MARK)
        return c->issued == 0 ? MARK_AT_0 : c->issued == MARK - 1 ? MARK_AT_LAST : c->issued == c->now ? MARK_NOW : MARK_BEFORE;
    return stamp < c->issued ? EARLIER : stamp == c->issued ? EQUAL : LATER;
}

/* A random slot, free or occupied, or a random vacant place; or NOWHERE. */
static size_t a_slot(int occupied) {
    for (size_t i = 0, from = below(4 * n); i < 4 * n; i++)
        if ((ours->slots[(from + i) % (4 * n)] != 0) == occupied) return (from + i) % (4 * n);
    return NOWHERE;
}

static size_t a_vacant_place(void) {
    for (size_t i = 0, from = below(m); i < m; i++)
        if (ours->items[4 * ((from + i) % m)] == 0) return (from + i) % m;
    return NOWHERE;
}

/* A free slot of a bucket, or any of it. */
static size_t a_slot_in(size_t bucket) {
    size_t from = below(4);
    for (size_t i = 0; i < 4; i++)
        if (ours->slots[4 * bucket + (from + i) % 4] == 0) return 4 * bucket + (from + i) % 4;
    return 4 * bucket + from;
}

/* Whoever stands at a slot, as if it could be moved: also where it is free or damaged. */
static void suit_move(Call *c) {
    size_t from = a_slot(!one_in(12)), i = 0;
    if (from == NOWHERE) from = below(4 * n);
    if (!clean && one_in(2)) {
        while (i < 4 * n && !is_damaged(ours->slots[(from + i) % (4 * n)], m)) i++;
        from = (from + i) % (4 * n);
    }
    uint32_t tag = ours->slots[from] >> 16;
    c->call = MOVE;
    c->move = (BoughladderMove){from, tag, a_slot_in(from / 4 ^ spread(tag, n))};
}

/* The animal into a vacant place and a free slot, where there are any. */
static void suit_enter(Call *c) {
    size_t place = a_vacant_place(), first = hash(c->animal) & (uint32_t)(n - 1);
    c->call = ENTER;
    c->place = place == NOWHERE ? below(m) : place;
    c->slot = a_slot_in(one_in(2) ? first : first ^ spread(tag_of(c->animal), n));
}

/* A number that is not the planned one: beside it, in the next bucket, with a bit above 16 more, about the end of the run, or
   any. */
static uint64_t another(uint64_t planned, uint64_t length) {
    uint64_t bits = below(64);
    switch (below(8)) {
    case 0: return planned + 1;
    case 1: return planned - 1;
    case 2: return planned + 4;
    case 3: return planned - 4;
    case 4: case 5: return planned + (UINT64_C(1) << (16 + bits % 48));
    case 6: return length + below(6) - 1;
    default: return one_in(2) ? UINT64_MAX - below(4) : any() >> bits;
    }
}

static uint32_t another_tag(uint32_t planned) {
    switch (below(6)) {
    case 0: return planned + 1;
    case 1: return planned - 1;
    case 2: case 3: return planned + (UINT32_C(1) << (8 + below(24)));
    case 4: return (uint32_t)(one_in(2) ? 0 : 255 + below(2));
    default: return (uint32_t)any();
    }
}

/* A slip in one thing. */
static void slip(Call *c) {
    size_t kept = c->move.from;
    c->origin = SLIPPED;
    if (one_in(12)) c->animal = an_animal();
    else if (c->call == ENTER && one_in(2)) c->place = another(c->place, m);
    else if (c->call == ENTER) c->slot = another(c->slot, 4 * n);
    else switch (below(5)) {
    case 0: c->move.tag = another_tag(c->move.tag); break;
    case 1: c->move.from = another(c->move.from, 4 * n); break;
    case 2: c->move.to = another(c->move.to, 4 * n); break;
    case 3: c->move.to = one_in(2) ? a_slot_in(c->move.from / 4 % n) : a_slot(0); break;
    default: c->move.from = c->move.to, c->move.to = kept;
    }
}

/* A step of a plan: a move, or behind the last the final store. */
static void step_of(Call *c, const Plan *plan, uint64_t which) {
    const uint64_t *record = plan->told.records[which % 4];
    c->call = which < plan->told.count ? MOVE : ENTER;
    c->animal = plan->call.animal, c->permission = plan->call.permission;
    c->issued = plan->call.issued, c->now = plan->call.now;
    c->move = (BoughladderMove){record[0], (uint32_t)record[1], record[2]};
    c->place = plan->told.place, c->slot = plan->told.slot;
}

static void a_step(Call *c) {
    Plan *plan = hurried ? hurried : &in_hand[below(IN_HAND)];
    Call own = *c;
    stepping = NULL;
    int done = plan->next > plan->told.count;
    if (hurried || (plan->call.call == PLAN && (done ? one_in(6) : !one_in(3)))) {
        int next = hurried || (!done && !one_in(6));
        step_of(c, plan, next ? plan->next : below(plan->told.count + 1));
        if (next) stepping = plan;
        c->origin = hurried ? AT_ONCE : next ? BETWEEN : AGAIN;
        if (!hurried && one_in(6)) c->permission = own.permission, c->issued = own.issued, c->now = own.now;
    } else {
        c->origin = SUITED;
        if (one_in(3)) suit_enter(c);
        else suit_move(c);
    }
    if (hurried || !one_in(3)) return;
    stepping = NULL;
    do slip(c);
    while (one_in(6));
}

/* An animal whose buckets are full, if a few draws find one: her plan has moves. */
static uint64_t a_crowded_animal(void) {
    uint64_t animal = 0, full = 0;
    for (int tries = 0; tries < 6 && full < 8; tries++) {
        animal = one_in(2) ? pool[below(pool_size)] : a_number(a_length());
        size_t first = hash(animal) & (uint32_t)(n - 1), other = first ^ spread(tag_of(animal), n);
        full = 0;
        for (int i = 0; i < 4; i++) full += (ours->slots[4 * first + i] != 0) + (ours->slots[4 * other + i] != 0);
    }
    return animal;
}

static Call a_call(int kind, int growing, size_t hand, const Call *last) {
    Call c;
    memset(&c, 0, sizeof c);
    c.sl = 4 * n; c.cl = v; c.il = 4 * m;
    c.hand = hand;
    c.animal = an_animal();
    c.permission = (uint32_t)any();
    c.limit = a_limit();
    c.now = one_in(100) ? UINT64_MAX - below(3) : one_in(100) ? below(3) : 20000 + below(14000);
    if (one_in(200)) c.now += any() << 32; /* a small minute, if somebody keeps 32 bits of it */
    c.issued = an_issue(c.now);
    if (one_in(4)) { /* an animal that has a place, and often a minute at which the answer turns, or an issue at her stamp */
        const uint64_t *item = ours->items + 4 * below(m);
        if (item[0] != 0) c.animal = item[0];
        if (one_in(2)) c.now = a_turn(item[2], c.limit);
        if (item[2] == MARK ? one_in(3) : !one_in(3)) c.issued = item[2] - 1 + below(3);
        if (c.issued > c.now && !one_in(10)) c.now = c.issued + below(2);
    } else if (one_in(8)) { /* the same animal again: a read after a refusal, a list that comes twice */
        c.animal = last->animal;
        if (one_in(2)) c.issued = last->issued, c.now = last->now;
    }
    c.k = one_in(6) ? below(5000) : one_in(30) ? UINT64_MAX - below(2) : below(26);
    uint64_t dice = below(100);
    if (dice < 12) c.call = READ;
    else if (dice < 14) c.call = PLAIN;
    else if (dice < 22) c.call = SERVE;
    else if (dice < 26) c.call = FIND;
    else if (dice < (growing ? 86u : 46u)) c.call = SET;
    else if (dice < (growing ? 92u : 84u)) c.call = DELETE;
    else if (dice < 98) c.call = EVICT;
    else if (dice < 99) c.call = LIST;
    else c.call = one_in(60) ? FRESH : READ;
    if (kind != CLEAN && one_in(kind == CUT ? 150 : 12)) {
        if (c.call == SET) c.call = SETCUT;
        if (c.call == DELETE) c.call = DELETECUT;
        if (c.call == EVICT) c.call = EVICTCUT;
    }
    if (kind == CUT && one_in(40)) { /* a cut at or above the number of stores is the whole call */
        if (c.call == SET) { c.call = SETCUT; c.k = 23 + below(3); }
        if (c.call == DELETE) { c.call = DELETECUT; c.k = 7; }
    }
    if (c.call == SET && one_in(4)) {
        c.call = PLAN;
        if (!one_in(3)) c.animal = a_crowded_animal();
    }
    if (hurried || one_in(7)) a_step(&c);
    if (one_in(60)) c.hand = one_in(3) ? m + below(2) : one_in(20) ? SIZE_MAX : below(m);
    if (one_in(150)) bend_lengths(&c, kind);
    c.buffer_length = one_in(2) ? BUFFER : below(20 * m + 20);
    return c;
}

/* Returns how many places are live (counted, for the table of loads). */
static size_t live_places(void) {
    size_t live = 0;
    for (size_t i = 0; i < m; i++) live += ours->items[4 * i] != 0;
    return live;
}

static int has_lengths(const Call *c) { return c->sl == 4 * n && c->cl == v && c->il == 4 * m; }

/* After a call: whether the table is clean. */
static int stays_clean(const Call *c, const Reply *told) {
    if (told->refusal != 0 || !writes(c)) return clean;
    if (c->call == FRESH) return has_lengths(c);
    return clean && has_lengths(c) && c->call != SETCUT && c->call != DELETECUT && c->call != EVICTCUT;
}

/* A limit and a minute for a stamp: good ones, bad ones, and those at which the answer turns. */
static void a_time(Call *q, uint64_t stamp) {
    q->limit = a_limit();
    if (one_in(60)) q->limit += any() << 32; /* a good limit, if somebody keeps 32 bits of it */
    q->now = one_in(2) ? a_turn(stamp, q->limit) : one_in(8) ? any() : 20000 + below(14000);
}

/* The item words of a live place, or place 0. The places fill from the lowest on: below the number of live ones it is near. */
static const uint64_t *a_live_place(size_t live) {
    size_t p = below(live < m ? live + 1 : m);
    while (p > 0 && ours->items[4 * p] == 0) p--;
    return ours->items + 4 * p;
}

/* Retires the entry that was set, of all tables alike; the hand may have passed it. */
static void retire(const Call *c) {
    BoughladderFinding f = anchor_find(ours->slots, c->sl, ours->counters, c->cl, ours->items, c->il, c->animal);
    uint64_t recent = below(2);
    for (int k = 0; k < TABLES && f.kind == BOUGHLADDER_AT_PLACE; k++)
        tables[k].items[4 * f.place + 2] = MARK, tables[k].items[4 * f.place + 3] = recent;
}

/* Whether a call met a retired entry, a serve one where a store would show; a plan or a final store is refused 12 by it. Ours
   was made; the anchor's memory is as before. */
static int met_mark(const Call *c, const Reply *told) {
    const Table *t = &tables[ANCHOR];
    size_t place = 0, places = c->il / 4;
    if (told->refusal != 0 && (told->refusal != 12 || c->call == MOVE)) return 0;
    switch (c->call) {
    case FRESH: return 0;
    case MOVE: place = t->slots[c->move.from] & 65535; break;
    case LIST:
        while (place < places && (t->items[4 * place] == 0 || t->items[4 * place + 2] != MARK)) place++;
        break;
    case PLAIN:
        while (place < places && t->items[4 * place] != c->animal) place++;
        break;
    case EVICT: case EVICTCUT: place = (told->hand + places - 1) % places; break;
    default: {
        BoughladderFinding f = anchor_find(t->slots, c->sl, t->counters, c->cl, t->items, c->il, c->animal);
        place = f.kind == BOUGHLADDER_AT_PLACE ? f.place : places;
    }
    }
    if (place == places) return 0;
    const uint64_t *item = t->items + 4 * place;
    return item[2] == MARK && (c->call != SERVE || item[3] != 1);
}

static int alike(BoughladderReading a, BoughladderReading b) {
    return a.refusal == b.refusal && a.kind == b.kind && a.permission == b.permission && a.left == b.left;
}

static void plain_differs(const Call *q, BoughladderReading plain, const char *who, BoughladderReading other, int kind) {
    printf("DIFFERENCE of the plain read behind call %" PRIu64 ", seed %" PRIu64 ", memory %s%s, N %zu V %zu M %zu\n", calls, seed,
           kind_names[kind], clean ? ", clean" : "", n, v, m);
    printf("  items length %zu animal %" PRIu64 " limit %" PRIu64 " now %" PRIu64 "\n", q->il, q->animal, q->limit, q->now);
    Reply a = of_reading(plain), b = of_reading(other);
    tell("plain", &a);
    tell(who, &b);
    for (size_t p = 0; p < m; p++)
        if (ours->items[4 * p] == q->animal && q->animal != 0)
            printf("  she stands at place %zu: permission %" PRIu64 " stamp %" PRIu64 "\n", p, ours->items[4 * p + 1],
                   ours->items[4 * p + 2]);
    exit(1);
}

/* A question that was not refused and met such a stamp. */
static void count_turn(uint64_t *turns, const Call *q, uint64_t stamp) {
    uint64_t age = q->now - stamp;
    turns[RETIRED] += stamp == MARK;
    turns[NEARLY] += stamp == MARK - 1;
    if (stamp > q->now) return;
    for (int i = 0; i < WHOLE; i++) turns[i] += age - q->limit == overdue[i];
    turns[WHOLE] += age == 0;
    turns[LIMIT_0] += age == 0 && q->limit == 0;
    turns[OLDEST] += age == UINT64_MAX - 1;
}

/* Twins: her number stands at another place behind the first. */
static void count_plain(const Call *q, BoughladderReading plain) {
    Plains *p = &plains[clean];
    p->asked++;
    p->by_refusal[plain.refusal]++;
    if (plain.refusal != 0) return;
    p->by_answer[plain.kind]++;
    p->shorter += q->il < 4 * m;
    if (plain.kind == BOUGHLADDER_ABSENT) return;
    const uint64_t *item = ours->items, *end = item + q->il;
    while (item[0] != q->animal) item += 4;
    count_turn(p->by_turn, q, item[2]);
    if (clean) return;
    p->last += item + 4 == end;
    p->wide += item[1] > UINT32_MAX;
    for (item += 4; item < end; item += 4)
        if (item[0] == q->animal) {
            p->twins++;
            break;
        }
}

/* A plain read of our memory, beside what it must agree with. */
static void ask_plainly(const Call *q, int kind) {
    const BoughladderTable t = {ours->slots, 4 * n, ours->counters, v, ours->items, q->il};
    BoughladderReading plain = boughladder_table_plain_read(&t, q->animal, q->limit, q->now);
    BoughladderReading read = boughladder_table_read(&t, q->animal, q->limit, q->now);
    if (clean) {
        if (!alike(plain, read)) plain_differs(q, plain, "read", read, kind);
    } else {
        BoughladderReading one = anchor_plain_read(t.items, t.items_length, q->animal, q->limit, q->now);
        BoughladderReading two = second_plain_read(&t, q->animal, q->limit, q->now);
        if (!alike(plain, one)) plain_differs(q, plain, "anchor", one, kind);
        if (!alike(plain, two)) plain_differs(q, plain, "second", two, kind);
        int found = plain.refusal == 0 && plain.kind != BOUGHLADDER_ABSENT;
        if (alike(plain, read)) by_beside[ALIKE]++;
        else if (read.refusal == 8) by_beside[BUSY]++;
        else if (read.refusal == 4) by_beside[DAMAGED]++;
        else if (read.refusal == 0 && found) by_beside[read.kind == BOUGHLADDER_ABSENT ? UNSEEN : ELSEWHERE]++;
        else plain_differs(q, plain, "read", read, kind); /* whom read finds, plain finds */
    }
    count_plain(q, plain);
}

/* The conditions of a move, by the words of wish 7. Where the source is free, the planned tag is taken for the entry's. */
static unsigned against_move(const Table *t, const Call *c, BoughladderMove move) {
    unsigned broken = 0;
    if (move.from >= c->sl) broken |= FROM_OUT;
    if (move.to >= c->sl) broken |= TO_OUT;
    if (!(broken & TO_OUT) && t->slots[move.to] != 0) broken |= TAKEN;
    if (broken & FROM_OUT) return broken;
    uint32_t word = t->slots[move.from], tag = word == 0 ? move.tag : word >> 16;
    if (word == 0) broken |= NO_ENTRY;
    if (is_damaged(word, c->il / 4)) broken |= BAD_ENTRY;
    if (tag != move.tag) broken |= OTHER_TAG;
    if (!(broken & TO_OUT) && move.to / 4 != (move.from / 4 ^ spread(tag, c->sl / 4))) broken |= OTHER_BUCKET;
    return broken;
}

static void count_move(const Table *t, const Call *c) {
    const BoughladderMove *move = &c->move;
    uint32_t word = move->from < c->sl ? t->slots[move->from] : 0, tag = word >> 16;
    switch (against_move(t, c, *move)) {
    case FROM_OUT: by_move[BY_FROM]++; break;
    case TO_OUT: by_move[BY_TO]++; break;
    case FROM_OUT | TO_OUT: by_move[BY_BOTH]++; break;
    case NO_ENTRY: by_move[move->tag == 0 ? BY_FREE_0 : BY_FREE]++; break;
    case BAD_ENTRY: by_move[tag == 0 ? BY_TAG_0 : tag > 255 ? BY_TAG_256 : BY_PLACE_M]++; break;
    case OTHER_TAG: by_move[(move->tag & 65535) == tag ? BY_TAG_16 : (move->tag & 255) == tag ? BY_TAG_8 : BY_TAG]++; break;
    case TAKEN: by_move[is_damaged(t->slots[move->to], c->il / 4) ? BY_DAMAGE : BY_TAKEN]++; break;
    case OTHER_BUCKET: by_move[move->to / 4 == move->from / 4 ? BY_OWN : BY_THIRD]++; break;
    default: by_move[MOVE_SEVERAL]++;
    }
    for (int i = 0; i < 4; i++) {
        BoughladderMove cut = *move;
        *(i < 2 ? &cut.from : &cut.to) &= i % 2 ? UINT32_MAX : UINT16_MAX;
        by_move[MOVE_ABOVE + i] += !against_move(t, c, cut);
    }
}

/* Whether a home slot leads to the animal. */
static int is_held(const Table *t, const Call *c) {
    uint32_t tag = tag_of(c->animal), first = hash(c->animal) & (uint32_t)(c->sl / 4 - 1);
    for (uint32_t i = 0; i < 8; i++) {
        uint32_t word = t->slots[4 * (i < 4 ? first : first ^ spread(tag, c->sl / 4)) + i % 4];
        if (word >> 16 == tag && (word & 65535) < c->il / 4 && t->items[4 * (word & 65535)] == c->animal) return 1;
    }
    return 0;
}

/* Those of the final store. */
static unsigned against_enter(const Table *t, const Call *c, size_t place, size_t slot) {
    size_t first = hash(c->animal) & (uint32_t)(c->sl / 4 - 1), other = first ^ spread(tag_of(c->animal), c->sl / 4);
    unsigned broken = is_held(t, c) ? HELD : 0;
    if (place >= c->il / 4) broken |= PLACE_OUT;
    else if (t->items[4 * place] != 0) broken |= NOT_VACANT;
    if (slot >= c->sl) return broken | SLOT_OUT;
    if (t->slots[slot] != 0) broken |= NOT_FREE;
    if (slot / 4 != first && slot / 4 != other) broken |= NO_HOME;
    return broken;
}

static void count_enter(const Table *t, const Call *c) {
    switch (against_enter(t, c, c->place, c->slot)) {
    case HELD: by_enter[BY_HELD]++; break;
    case PLACE_OUT: by_enter[BY_PLACE]++; break;
    case SLOT_OUT: by_enter[BY_SLOT]++; break;
    case PLACE_OUT | SLOT_OUT: by_enter[BY_PLACE_AND_SLOT]++; break;
    case NOT_VACANT: by_enter[BY_LIVE]++; break;
    case NOT_FREE: by_enter[BY_WORD]++; break;
    case NO_HOME: by_enter[BY_BUCKET]++; break;
    default: by_enter[ENTER_SEVERAL]++;
    }
    for (int i = 0; i < 4; i++) {
        size_t most = i % 2 ? UINT32_MAX : UINT16_MAX;
        by_enter[ENTER_ABOVE + i] += !against_enter(t, c, i < 2 ? c->place & most : c->place, i < 2 ? c->slot : c->slot & most);
    }
}

static size_t lowest_vacant(const Table *t, const Call *c) {
    size_t place = 0;
    while (place < c->il / 4 && t->items[4 * place] != 0) place++;
    return place;
}

/* The refusal of a plan or a step by the words of the documents; of a plan that comes to the search, 0. *later is whether
   another one stood behind it. */
static uint64_t due(Table *t, const Call *c, int *later) {
    static const uint64_t turns[] = {1, 2, 3, 8, 4, 12, 5};
    int bad[7] = {0}, i = 0;
    bad[0] = c->sl < 8 || c->sl > 8192 || (c->sl & (c->sl - 1)) != 0 || c->cl < 1 || c->cl > 1024 || c->il < 4 ||
             c->il > 16384 || c->il % 4 != 0;
    bad[1] = c->animal == 0;
    bad[2] = c->now == UINT64_MAX || c->issued > c->now;
    if (!bad[0]) {
        uint32_t first = hash(c->animal) & (uint32_t)(c->sl / 4 - 1), other = first ^ spread(tag_of(c->animal), c->sl / 4);
        bad[3] = t->counters[(first < other ? first : other) % c->cl] % 2 != 0;
        for (int k = 0; k < 4; k++)
            bad[4] |= is_damaged(t->slots[4 * first + k], c->il / 4) || is_damaged(t->slots[4 * other + k], c->il / 4);
        bad[5] = (c->call == MOVE    ? against_move(t, c, c->move)
                  : c->call == ENTER ? against_enter(t, c, c->place, c->slot)
                                     : (unsigned)is_held(t, c)) != 0;
        if (c->call == PLAN) bad[6] = lowest_vacant(t, c) == c->il / 4;
    }
    while (i < 7 && !bad[i]) i++;
    *later = 0;
    for (int k = i + 1; k < 7; k++) *later |= bad[k];
    if (i == 6) { /* the search, if place 0 were vacant */
        uint64_t number = t->items[0];
        t->items[0] = 0;
        *later = anchor_plan(t->slots, c->sl, t->counters, c->cl, t->items, c->il, c->animal, 0, 0, 0).refusal != 0;
        t->items[0] = number;
    }
    return i < 7 ? turns[i] : 0;
}

static void count_made(const Table *t, const Call *c) {
    uint32_t first = hash(c->animal) & (uint32_t)(c->sl / 4 - 1), other = first ^ spread(tag_of(c->animal), c->sl / 4);
    if (c->call == MOVE) {
        size_t a = c->move.from / 4, b = c->move.to / 4;
        by_move_made[OF_ODD] += t->counters[(a < b ? a : b) % c->cl] % 2;
        by_move_made[WHILE_HELD] += (uint64_t)is_held(t, c);
        by_move_made[HERSELF] += t->items[4 * (t->slots[c->move.from] & 65535)] == c->animal;
        return;
    }
    size_t lowest = c->slot & ~(size_t)3, room = 4 * first;
    while (t->slots[lowest] != 0) lowest++;
    while (room < 4 * first + 4 && t->slots[room] != 0) room++;
    by_enter_made[HIGHER_PLACE] += c->place != lowest_vacant(t, c);
    by_enter_made[HIGHER_SLOT] += c->slot != lowest;
    by_enter_made[OTHER_HOME] += c->slot / 4 == other && room < 4 * first + 4;
    by_enter_made[TO_0] += t->counters[(first < other ? first : other) % c->cl] == UINT32_MAX - 1;
}

/* A plan or a step was made on ours; the anchor's memory is as before. */
static void review(const Call *c, const Reply *told, int kind) {
    Table *t = &tables[ANCHOR];
    int later, by_search;
    uint64_t refusal = due(t, c, &later);
    by_search = c->call == PLAN && refusal == 0 && (told->refusal == 4 || told->refusal == 6);
    if (told->refusal != refusal && !by_search) {
        tell_call(c, "from what is due, at", kind);
        tell("ours", told);
        printf("  due    refusal %" PRIu64 "\n", refusal);
        exit(1);
    }
    by_due[c->call - PLAN][by_search && told->refusal == 4 ? 13 : told->refusal][later]++;
    if (c->call == PLAN && told->refusal == 0 && told->count < 5) by_plan[n == 2 ? 0 : n == 4 ? 1 : 2][told->count]++;
    if (c->call != PLAN && (told->refusal == 0 || told->refusal == 12)) by_origin[c->origin][told->refusal == 12]++;
    if (c->call != PLAN && told->refusal == 0) count_made(t, c);
    if (c->call == MOVE && told->refusal == 12) count_move(t, c);
    if (c->call == ENTER && told->refusal == 12) count_enter(t, c);
}

/* Behind a plan: its steps on one copy of our memory, a set on another. */
static void carry_out(const Call *c, const Reply *plan, int kind) {
    Plan made = {*c, *plan, 0};
    Call step = *c, set = *c;
    Reply last = *plan;
    memcpy(in_steps.block, ours->block, 8 * used);
    memcpy(in_one.block, ours->block, 8 * used);
    for (uint64_t i = 0; i <= plan->count && last.refusal == 0; i++) {
        step_of(&step, &made, i);
        last = make(&step, OURS, &in_steps);
    }
    set.call = SET;
    Reply whole = make(&set, OURS, &in_one);
    int held = plan->refusal == 12, same = memcmp(in_steps.block, in_one.block, 8 * used) == 0;
    carried_out++;
    for (int i = 0; i < VISIT_ENDS; i++) by_end[i] += whole.visits == visit_ends[i];
    if (held ? whole.refusal == 11 || (whole.refusal == 0 && whole.visits == 0)
             : same && last.refusal == whole.refusal && plan->count == whole.moves)
        return;
    tell_call(c, "between the steps and a set, behind", kind);
    tell("plan", plan);
    tell("step", &last);
    tell("set", &whole);
    exit(1);
}

/* What comes of a plan or a step: a plan is taken in hand, and carried out at once or later; a step leads on, or shows that the
   plan is stale. */
static void go_on(const Call *c, const Reply *told) {
    if (c->call == PLAN && told->refusal == 0) {
        Plan *plan = &in_hand[below(IN_HAND)];
        *plan = (Plan){*c, *told, 0};
        hurried = has_lengths(c) && one_in(2) ? plan : NULL;
    } else if ((c->call == MOVE || c->call == ENTER) && stepping) {
        stepping->next += told->refusal == 0 || (told->refusal == 12 && one_in(2));
        if (told->refusal != 0 || c->call == ENTER) hurried = NULL;
    }
}

/* The plain reads behind a call. */
static void audit(const Call *c, int kind, size_t live, int all) {
    static const size_t wrong[] = {0, 1, 2, 3, 5, 16385, 16387, 16388, 32768, SIZE_MAX - 3, ((size_t)1 << 32) + 4,
                                   ((size_t)1 << 34) + 4};
    Call q = *c;
    q.il = !one_in(16) ? 4 * m : clean || one_in(2) ? wrong[below(12)] : 1 + below(4 * m);
    if (clean && c->call == MOVE && c->move.to < 4 * n) /* rather of whom it has moved */
        q.animal = ours->items[4 * (ours->slots[c->move.to] & 65535)];
    if (clean) a_time(&q, c->issued), ask_plainly(&q, kind);
    if (!all) return;
    if (clean) {
        q.animal = 0;
        a_time(&q, 0), ask_plainly(&q, kind);
    }
    const uint64_t *item = a_live_place(live);
    q.animal = item[0];
    a_time(&q, item[2]), ask_plainly(&q, kind);
    switch (below(8)) {
    case 0: q.animal ^= UINT64_C(1) << below(64); break; /* a number that differs from hers in one bit */
    case 1: q.animal = c->animal; break;
    case 2: q.animal = ours->items[below(4 * m)]; break; /* any item word: a stamp is no number */
    default: q.animal = an_animal();
    }
    a_time(&q, item[2]), ask_plainly(&q, kind);
}

/* The words that a planted fault has overwritten. */
static struct {
    uint32_t *narrow;
    uint64_t *wide, was;
} kept[32];
static size_t kept_count;

static void plant32(uint32_t *word, uint32_t value) {
    kept[kept_count].narrow = word;
    kept[kept_count++].was = *word;
    *word = value;
}

static void plant64(uint64_t *word, uint64_t value) {
    kept[kept_count].narrow = NULL;
    kept[kept_count].wide = word;
    kept[kept_count++].was = *word;
    *word = value;
}

static void put_back(void) {
    while (kept_count > 0) {
        kept_count--;
        if (kept[kept_count].narrow) *kept[kept_count].narrow = (uint32_t)kept[kept_count].was;
        else *kept[kept_count].wide = kept[kept_count].was;
    }
}

/* The word of an animal at a place goes into a random free slot of her two buckets, or of the others. */
static size_t plant_slot(uint64_t animal, size_t place, int at_home) {
    uint32_t h = hash(animal), tag = h >> 24 ? h >> 24 : 1, first = h & (uint32_t)(n - 1);
    uint32_t other = first ^ (((tag * 1540483477u) & (uint32_t)(n - 1)) | 1u);
    for (size_t i = 0, from = below(4 * n); i < 4 * n; i++) {
        size_t slot = (from + i) % (4 * n);
        if (ours->slots[slot] != 0 || (slot / 4 == first || slot / 4 == other) != at_home) continue;
        plant32(ours->slots + slot, tag << 16 | (uint32_t)place);
        return slot;
    }
    return NOWHERE;
}

/* Plants a fault that breaks such a condition of a clean table, 2 to 8, and none before it. Returns whom it concerns, or
   NOWHERE where the table has nobody for it. */
static size_t plant(uint64_t condition) {
    size_t slot = a_slot(1), vacant = a_vacant_place(), place = below(m), free;
    uint32_t word = slot == NOWHERE ? 0 : ours->slots[slot], tag = 1 + (uint32_t)below(255);
    size_t theirs = slot == NOWHERE ? NOWHERE : word & 65535; /* the place of an animal */
    uint64_t *item = theirs < m ? ours->items + 4 * theirs : NULL;
    switch (condition) {
    case 2:
        slot = below(4 * n);
        switch (below(4)) {
        case 0: plant32(ours->slots + slot, (uint32_t)(1 + below(65535))); break;
        case 1: plant32(ours->slots + slot, (uint32_t)((256 + below(65280)) << 16 | place)); break;
        case 2: plant32(ours->slots + slot, tag << 16 | (uint32_t)m); break;
        default: plant32(ours->slots + slot, tag << 16 | (uint32_t)(m + below(65536 - m)));
        }
        return slot;
    case 3:
        slot = below(v);
        plant32(ours->counters + slot, ours->counters[slot] + 1);
        return slot;
    case 4:
        if (one_in(4)) { /* a vacant place, as if 0 were an animal, or with any tag */
            if (vacant == NOWHERE || (free = plant_slot(0, vacant, 1)) == NOWHERE) return NOWHERE;
            if (one_in(2)) plant32(ours->slots + free, tag << 16 | (uint32_t)vacant);
            return free;
        }
        if (!item) return NOWHERE;
        switch (below(3)) {
        case 0: plant32(ours->slots + slot, (tag == word >> 16 ? tag % 255 + 1 : tag) << 16 | (uint32_t)theirs); return slot;
        case 1: plant64(item, 0); return slot;
        default: /* in a bucket that is not hers */
            free = plant_slot(item[0], theirs, 0);
            if (free != NOWHERE) plant32(ours->slots + slot, 0);
            return free;
        }
    case 5:
        switch (below(3)) {
        case 0:
            if (slot != NOWHERE) plant32(ours->slots + slot, 0);
            return theirs;
        case 1: return item && plant_slot(item[0], theirs, 1) != NOWHERE ? theirs : NOWHERE;
        default: /* she may be held, too: 5 comes before 6 */
            if (vacant != NOWHERE) plant64(ours->items + 4 * vacant, item && one_in(2) ? item[0] : any() | 1);
            return vacant;
        }
    case 6:
        if (!item || vacant == NOWHERE || plant_slot(item[0], vacant, 1) == NOWHERE) return NOWHERE;
        plant64(ours->items + 4 * vacant, item[0]);
        return theirs < vacant ? theirs : vacant;
    case 7:
        plant64(ours->items + 4 * place + 1, one_in(3) ? UINT64_C(1) << 32 : (1 + below(UINT32_MAX)) << 32 | tag);
        return place;
    default:
        if (vacant != NOWHERE) /* a mark too, but not as a permission: that would be 7 */
            plant64(ours->items + 4 * vacant + 1 + tag % 3,
                    tag % 3 != 0 && one_in(4) ? MARK : one_in(3) ? UINT32_MAX : 1 + below(9));
        return vacant;
    }
}

static void misjudged(const Call *q, BoughladderJudgement told, const char *who, uint64_t condition, size_t at, int kind) {
    printf("DIFFERENCE of a verdict behind call %" PRIu64 ", seed %" PRIu64 ", memory %s%s, N %zu V %zu M %zu, %zu words planted\n",
           calls, seed, kind_names[kind], clean ? ", clean" : "", n, v, m, kept_count);
    printf("  lengths %zu %zu %zu\n  ours   condition %" PRIu32 " at %zu\n  %-6s condition %" PRIu64 " at %zu\n", q->sl,
           q->cl, q->il, told.condition, told.at, who, condition, at);
    exit(1);
}

/* The verdict on our memory. */
static BoughladderJudgement judge(const Call *q, int what, int kind) {
    const BoughladderTable t = {ours->slots, q->sl, ours->counters, q->cl, ours->items, q->il};
    BoughladderJudgement told = boughladder_judge(t.slots, q->sl, t.counters, q->cl, t.items, q->il), two = second_judge(&t);
    if (told.condition != two.condition || told.at != two.at) misjudged(q, told, "second", two.condition, two.at, kind);
    if (one_in(1 + n * m / 1000)) {
        BoughladderJudgement one = anchor_judge(t.slots, q->sl, t.counters, q->cl, t.items, q->il);
        if (told.condition != one.condition || told.at != one.at) misjudged(q, told, "anchor", one.condition, one.at, kind);
        by_anchor++;
    }
    by_verdict[what][told.condition]++;
    return told;
}

/* The verdicts behind a call. */
static void judge_all(int kind, int written) {
    Call q;
    memset(&q, 0, sizeof q);
    q.call = SET, q.sl = 4 * n, q.cl = v, q.il = 4 * m;
    if (clean ? written : one_in(4)) {
        BoughladderJudgement told = judge(&q, clean ? LEFT_CLEAN : LEFT_OTHER, kind);
        if (clean && (told.condition != 0 || told.at != 0)) misjudged(&q, told, "must", 0, 0, kind);
    }
    if (clean && one_in(8)) {
        uint64_t condition = 1 + below(8);
        size_t at;
        if (condition == 1) {
            do bend_lengths(&q, CLEAN);
            while (one_in(2));
            at = q.sl != 4 * n ? 0 : q.cl != v ? 1 : 2;
        } else {
            at = plant(condition);
        }
        if (at != NOWHERE) {
            BoughladderJudgement told = judge(&q, PLANTED, kind);
            if (told.condition != condition || told.at != at) misjudged(&q, told, "must", condition, at, kind);
        }
        put_back();
    } else if (one_in(8)) {
        do plant(2 + below(7));
        while (kept_count < 16 && one_in(3));
        if (one_in(4)) bend_lengths(&q, GARBAGE);
        judge(&q, BENT, kind);
        put_back();
    }
}

static void episode(int large, int kind, uint64_t length) {
    if (large) {
        static const size_t shapes[][3] = {{2048, 1024, 4096}, {1024, 500, 4096}, {512, 1024, 4096}, {2048, 77, 4096}};
        const size_t *shape = shapes[below(4)];
        n = shape[0]; v = shape[1]; m = shape[2];
    } else {
        n = (size_t)2 << below(6);
        v = one_in(3) ? 1 + below(3) : 1 + below(2 * n);
        m = one_in(2) ? 1 + below(300) : 1 + below(5 * n);
        if (m > 300) m = 300;
    }
    size_t room = 4 * n < m ? 4 * n : m;
    pool_size = room + room / 3 + 3;
    gather();
    for (int k = 0; k < TABLES; k++) lay_out(&tables[k]);
    lay_out(&in_steps), lay_out(&in_one);
    memset(in_hand, 0, sizeof in_hand);
    hurried = NULL;
    int zeros = one_in(2); /* around the runs, as if a slot were free and a place vacant there */
    for (size_t i = 0; i < used; i++) ours->block[i] = zeros ? 0 : any();
    if (kind == GARBAGE) garbage();
    for (size_t i = 0; i < BUFFER; i++) ours->buffer[i] = (uint8_t)any();
    for (int k = 1; k < TABLES; k++) {
        memcpy(tables[k].block, ours->block, sizeof ours->block);
        memcpy(tables[k].buffer, ours->buffer, BUFFER);
    }

    size_t hand = 0, load = 0;
    int growing = 1, late = 0;
    clean = 0;
    Call c;
    memset(&c, 0, sizeof c);
    uint64_t turn = 1 + below(large ? 12000 : 6 * room + 20);
    for (uint64_t i = 0; i < length; i++) {
        if (turn-- == 0) {
            growing = one_in(2);
            turn = 1 + below(large ? 8000 : 6 * room + 20);
        }
        if (kind == POKED && one_in(40)) poke();
        Call last = c;
        c = a_call(kind, growing, hand, &last);
        if (i == 0 && kind != GARBAGE) { c.call = FRESH; c.sl = 4 * n; c.cl = v; c.il = 4 * m; }
        if (kind == CUT && one_in(3000)) c.call = FRESH; /* or the busy counters would stop everything */
        if (i % 16 == 0) load = live_places();
        int setting = c.call == SET || c.call == SETCUT, met = setting ? meeting(&c) : NOBODY;
        int aimed = kind >= POKED && (c.call == PLAN || c.call == SET) && one_in(large ? 8 : 100);
        if (aimed) aim(c.animal);
        Reply told = make(&c, OURS, ours);
        calls++;
        clean = stays_clean(&c, &told);
        if (c.call == PLAN || c.call == MOVE || c.call == ENTER) review(&c, &told, kind);
        int marked = met_mark(&c, &told);
        if (c.call == PLAN && (!large || aimed || one_in(LARGE_SHARE))) carry_out(&c, &told, kind);
        go_on(&c, &told);
        audit(&c, kind, load, !large || i % LARGE_SHARE == 0);
        if (!large || i % JUDGE_SHARE == 0) {
            uint64_t drawn = state;
            state = judge_state;
            judge_all(kind, writes(&c) && told.refusal == 0);
            judge_state = state;
            state = drawn;
        }
        for (int k = 1; k < TABLES; k++) {
            Reply other = make(&c, k, &tables[k]);
            int same = memcmp(&told, &other, sizeof told) == 0 && memcmp(ours->block, tables[k].block, 8 * used) == 0;
            words += 4 * n + v + 4 * m;
            if (c.call == LIST) {
                same = same && memcmp(ours->buffer, tables[k].buffer, BUFFER) == 0;
                bytes += BUFFER;
            }
            if (!same) differs(&c, &told, &other, k, kind);
        }
        by_call[c.call]++;
        by_mark[c.call] += (uint64_t)marked;
        uint64_t *by_length = by_bytes[c.call][bytes_of(c.animal)];
        by_length[0]++;
        by_length[1] += told.refusal == 11 || (told.refusal == 0 && (told.kind != 0 || c.call == SET || c.call == DELETE || c.call >= PLAN));
        by_kind[kind]++;
        large_calls += (uint64_t)large;
        by_refusal[told.refusal]++;
        by_load[10 * load / room > 10 ? 10 : 10 * load / room]++;
        if ((c.call == READ || c.call == SERVE) && told.refusal == 0) {
            by_answer[told.kind]++;
            asked_after += late && c.animal == last.animal;
            BoughladderFinding f = anchor_find(ours->slots, c.sl, ours->counters, c.cl, ours->items, c.il, c.animal);
            if (f.kind == BOUGHLADDER_AT_PLACE) count_turn(by_turn, &c, ours->items[4 * f.place + 2]);
        }
        late = told.refusal == 11;
        if (setting && (told.refusal == 0 || late)) by_meeting[c.call == SETCUT][met]++;
        issued_later += setting && told.refusal == 3 && c.now != UINT64_MAX;
        if (setting && told.refusal == 0 && told.visits > 0) {
            by_moves[told.moves]++;
            if (told.visits > most_visits) most_visits = told.visits;
        }
        if ((c.call == SETCUT || c.call == DELETECUT || c.call == EVICTCUT) && told.refusal == 0) stopped_cuts++;
        if ((c.call == EVICT || c.call == EVICTCUT) && told.refusal == 0) hand = told.hand;
        if ((c.call == SET || c.call == ENTER) && told.refusal == 0 && one_in(RETIRE_SHARE)) retire(&c);
    }
}

/* In a whole run each of these counts must come up: a 0 would mean that a rule was never tried. */
static int missing;

static void tell_counts(const char *const *names, const uint64_t *counts, int from, int to) {
    for (int i = from; i < to; i++) {
        printf("  %s: %" PRIu64, names[i], counts[i]);
        missing += counts[i] == 0 && percent >= 100;
    }
}

int main(int argc, char **argv) {
    if (argc > 1) seed = strtoull(argv[1], NULL, 10);
    if (argc > 2) percent = strtoull(argv[2], NULL, 10);
    state = seed;
    judge_state = ~seed;
    while (by_kind[CLEAN] + by_kind[CUT] + by_kind[POKED] < 33000 * percent)
        episode(0, (int)below(3), 1 + below(9000));
    while (by_kind[GARBAGE] < 11000 * percent) episode(0, GARBAGE, 1 + below(200));
    for (int i = 0; i < 30; i++) episode(1, i < 12 ? CLEAN : i < 20 ? CUT : i < 26 ? POKED : GARBAGE, 220 * percent);

    printf("differ: seed %" PRIu64 ", %" PRIu64 " calls on three tables (%" PRIu64 " of them on N 512 to 2048 with M 4096), no difference\n", seed, calls, large_calls);
    printf("compared after every call: all fields of the reply, all words of the runs (%" PRIu64 " words), list buffers (%" PRIu64 " bytes)\n", words, bytes);
    printf("memory:");
    for (int i = 0; i < KINDS; i++) printf("  %s %" PRIu64, kind_names[i], by_kind[i]);
    printf("\ncalls:");
    for (int i = 0; i < CALLS; i++) printf("  %s %" PRIu64, call_names[i], by_call[i]);
    printf("\nrefusals:");
    for (int i = 0; i < 13; i++) printf("  %d: %" PRIu64, i, by_refusal[i]);
    printf("\nsets that were stored or refused 11, by the held stamp:");
    tell_counts(meeting_names, by_meeting[0], 0, MEETINGS);
    printf("\n  cut:");
    tell_counts(meeting_names, by_meeting[1], 0, MEETINGS);
    printf("\ncalls that met a retired entry (serve: one whose recent word is not 1; list: one at least):");
    tell_counts(call_names, by_mark, FRESH + 1, CALLS);
    printf("\nsets refused 3 for an issue after now: %" PRIu64 "\nreads and serves of the animal right after 11: %" PRIu64, issued_later, asked_after);
    printf("\nread and serve:  absent %" PRIu64 "  fresh %" PRIu64 "  old %" PRIu64 "  ahead %" PRIu64, by_answer[0], by_answer[1], by_answer[2], by_answer[3]);
    printf("\n  left:");
    tell_counts(turn_names, by_turn, 0, TURNS);
    printf("\nby the bytes of the animal's number that are in use (in brackets: she was held, stored or planned for):");
    static const int shown[] = {READ, SERVE, SET, DELETE, PLAN, MOVE, ENTER};
    for (int i = 0; i < 7; i++) {
        printf("\n  %s", call_names[shown[i]]);
        for (int k = 1; k < 9; k++)
            printf("  %d: %" PRIu64 " (%" PRIu64 ")", k, by_bytes[shown[i]][k][0], by_bytes[shown[i]][k][1]);
    }
    printf("\nplain reads behind every call, on M 4096 one behind each of a clean table and all of them behind one in %d:", LARGE_SHARE);
    for (int i = 1; i >= 0; i--) {
        const Plains *p = &plains[i];
        printf("\n  %s %" PRIu64 ":  absent %" PRIu64 "  fresh %" PRIu64 "  old %" PRIu64 "  ahead %" PRIu64,
               i ? "on clean tables, each as read," : "on other memory, each as both C walks,", p->asked, p->by_answer[0],
               p->by_answer[1], p->by_answer[2], p->by_answer[3]);
        for (int k = 1; k < 4; k++) printf("  %d: %" PRIu64, k, p->by_refusal[k]);
        printf("\n    left:");
        tell_counts(turn_names, p->by_turn, 0, TURNS);
    }
    printf("\n    at the last place %" PRIu64 "  permission word above 32 bits %" PRIu64 "  twins behind her %" PRIu64
           "  shorter items %" PRIu64, plains[0].last, plains[0].wide, plains[0].twins, plains[0].shorter);
    printf("\n    where read says:");
    for (int i = 0; i < BESIDES; i++) printf("  %s %" PRIu64, beside_names[i], by_beside[i]);
    printf("\njudged behind the calls, on M 4096 behind one in %d, by ours and second alike, and %" PRIu64 " times by anchor too:",
           JUDGE_SHARE, by_anchor);
    for (int i = 0; i < JUDGED; i++) {
        uint64_t all = 0;
        for (int k = 0; k < 9; k++) all += by_verdict[i][k];
        printf("\n  %s %" PRIu64 ":  yes: %" PRIu64, judged_names[i], all, by_verdict[i][0]);
        for (int k = 1; k < 9; k++) printf("  %d: %" PRIu64, k, by_verdict[i][k]);
    }
    printf("\nmoves of new entries:");
    for (int i = 0; i < 5; i++) printf("  %d: %" PRIu64, i, by_moves[i]);
    printf("\nplans and steps, by refusal (in brackets: another one stood behind it):");
    static const int turns[] = {0, 1, 2, 3, 8, 4, 12, 5, 13, 6};
    for (int i = 0; i < 3; i++) {
        printf("\n  %s", call_names[PLAN + i]);
        for (int k = 0; k < (i == 0 ? 10 : 7); k++) {
            const uint64_t *count = by_due[i][turns[k]];
            int last = k == 0 || k > 7 || (i > 0 && k == 6);
            if (turns[k] == 13) printf("  4 by the search: %" PRIu64, count[0]);
            else printf("  %d: %" PRIu64, turns[k], count[0] + count[1]);
            if (!last) printf(" (%" PRIu64 ")", count[1]);
            missing += percent >= 100 && (count[0] + count[1] == 0 || (!last && count[1] == 0));
        }
    }
    static const char *const up_to_4[] = {"0", "1", "2", "3", "4"};
    static const int longest[] = {0, 2, 4}; /* the buckets of a chain differ, and it does not pass the other home */
    for (int i = 0; i < 3; i++) {
        printf("\n  moves of plans on N %s:", i == 0 ? "2" : i == 1 ? "4" : "8 to 2048");
        tell_counts(up_to_4, by_plan[i], 0, longest[i] + 1);
    }
    printf("\n  carried out on one copy, and a set on another: %" PRIu64 "; its visits:", carried_out);
    tell_counts(end_names, by_end, 0, VISIT_ENDS);
    printf("\n  steps that were made (in brackets: refused 12):");
    for (int i = 0; i < ORIGINS; i++) {
        printf("  %s: %" PRIu64 " (%" PRIu64 ")", origin_names[i], by_origin[i][0], by_origin[i][1]);
        missing += percent >= 100 && (by_origin[i][0] == 0 || (i != AT_ONCE && by_origin[i][1] == 0));
    }
    printf("\n  moves that were made:");
    tell_counts(move_mades, by_move_made, 0, MOVE_MADES);
    printf("\n  final stores that were made:");
    tell_counts(enter_mades, by_enter_made, 0, ENTER_MADES);
    printf("\n  what alone stood against a move:");
    tell_counts(move_ways, by_move, 0, MOVE_WAYS);
    printf("\n  against the final store:");
    tell_counts(enter_ways, by_enter, 0, ENTER_WAYS);
    printf("\nmost visits: %" PRIu64 "\ncut calls that were not refused: %" PRIu64 "\n", most_visits, stopped_cuts);
    printf("calls by load (live places of min(M, 4N), in tenths):");
    for (int i = 0; i < 11; i++) printf("  %d0%%: %" PRIu64, i, by_load[i]);
    printf("\n");
    if (missing > 0) printf("MISSING: %d of the counts above that must come up are 0\n", missing);
    return missing > 0;
}
