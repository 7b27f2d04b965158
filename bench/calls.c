/*
 * calls.c: writes a file of calls for the replay program. The same seed gives the same file.
 *     calls [SEED [COUNT]]        COUNT calls (100,000) as a gate makes them in a day
 *     calls --any [SEED [COUNT]]  about COUNT lines at the edges of the language: right, nearly right and wrong
 *
 * The replay program holds at most 1,024 places, and 100,000 calls must fit into 2 MiB. So the day has a herd of 960 for
 * 1,024 places and 1,024 slots, and scattered animal numbers of at most five digits.
 */
#include <inttypes.h>
#include <stdio.h>
#include <stdlib.h>
#include <string.h>

#define HERD 960
#define LONGEST 70000 /* characters of the longest tail of a line: more than 16 bits count */
#define FAR (UINT64_C(1) << 62) /* minutes overdue; beyond them the answer stays the same */
#define MARK UINT64_MAX /* the stamp of a retired entry: no set stores it, a dump or a poke brings it */

static uint64_t state;

static uint64_t any(void) { /* xorshift64* */
    state ^= state >> 12;
    state ^= state << 25;
    state ^= state >> 27;
    return state * UINT64_C(2685821657736338717);
}

static uint64_t below(uint64_t bound) { return (any() >> 11) % bound; }
static int one_in(uint64_t count) { return below(count) == 0; }

/* A day at the gate. Nine in ten that come are of the herd. An animal that is deleted makes room for a newcomer, and one
   that the hand took is set again when her next update comes: so some 890 are held at a time, seven slots in eight.
   A list comes within two minutes of its issue; one in fifty comes hours late, and is mostly refused (11). */
static void a_day(uint64_t count) {
    unsigned herd[HERD], *leaving = NULL;
    for (uint64_t made = 0; made < count; made++) {
        unsigned now = (unsigned)(made * 1440 / count), permission = (unsigned)below(3);
        unsigned stranger = 1 + (unsigned)below(65535), *animal = herd + below(HERD);
        unsigned late = (unsigned)below(one_in(50) ? 720 : 3), issued = late < now ? now - late : 0;
        uint64_t kind = below(100);
        if (made == 0) {
            puts("fresh 1024 256 4096");
        } else if (made % 20000 == 19999) {
            puts(made % 40000 == 39999 ? "dump" : "list 20480");
        } else if (made <= HERD || leaving != NULL) {
            animal = made <= HERD ? herd + made - 1 : leaving;
            leaving = NULL;
            *animal = stranger;
            printf("set %u %u %u %u\n", *animal, permission, issued, now);
        } else if (kind < 72) {
            printf("serve %u 720 %u\n", one_in(10) ? stranger : *animal, now);
        } else if (kind < 84) {
            printf("read %u 720 %u\n", one_in(10) ? stranger : *animal, now);
        } else if (kind < 97) {
            printf("set %u %u %u %u\n", *animal, permission, issued, now);
        } else if (kind < 99) {
            printf("delete %u\n", *animal);
            leaving = animal;
        } else {
            puts("evict");
        }
    }
}

/* From here on the edges. A line is put together from words, each of which may go wrong by itself. */
static char line[5 * LONGEST];
static size_t used;

static const char *const edges[] = {
    "18446744073709551614", "18446744073709551615", "18446744073709551616", "18446744073709551625",
    "18446744073709551610", "20000000000000000000", "99999999999999999999", "184467440737095516150",
    "340282366920938463463374607431768211456", "9223372036854775807", "9223372036854775808", "4611686018427387904",
    "-4611686018427387904", "4294967294", "4294967295", "4294967296", "0", "1", "00", "65536", "10080", "10081", "81919",
    "81920", "81921", "8192", "8196", "16384", "1024", "1025", "4096", "4100", "-0", "-1", "+1", "1.", "1,024", "0x10",
    "1e3", "1_0", "'1'", "standing", "set", "\v1", "1\f", "\xc2\xa0", "\r", "1\r", "\\", "/", ":", "9:", "\xef\xbb\xbf",
    "standig", "evict", "slots", "99999999999999999999x", "x99999999999999999999", "plain", "judge", "plan",
    "move", "enter", "..",
};

static void put(const char *text) {
    size_t length = strlen(text);
    memcpy(line + used, text, length);
    used += length;
}

static void put_many(char c, size_t count) {
    memset(line + used, c, count);
    used += count;
}

static size_t a_length(void) { return one_in(20) ? LONGEST : below(3000); }

/* One word, or none, or two. */
static void word(const char *text) {
    if (one_in(400)) return;
    do {
        static const char *const gaps[] = {"\t", "  ", " \t ", "", "\t\t"};
        put(one_in(40) ? gaps[below(5)] : used == 0 ? "" : " ");
        put(text);
    } while (one_in(400));
}

static const char *an_edge(void) { return edges[below(sizeof edges / sizeof *edges)]; }

static void number(uint64_t value) {
    char text[128];
    if (one_in(60)) value += UINT64_C(1) << 32; /* the same, if somebody keeps 32 bits of it */
    int digits = one_in(50) ? (int)below(100) : 1; /* with zeros before it */
    snprintf(text, sizeof text, "%0*" PRIu64, digits, value);
    word(one_in(80) ? an_edge() : text);
}

/* In a long line most words must be right, or it is never understood. */
static void right_number(uint64_t value) {
    char text[24];
    snprintf(text, sizeof text, " %" PRIu64, value);
    put(text);
}

/* The lengths of the runs, a factor that scatters the animals, the animal of the last set and its minute of issue. */
static uint64_t slots = 16, counters = 4, items = 20, factor = 1, last = 1, last_issued = 500;
static enum { WHOLE, CUT, POKED } mood;
static const char *const runs[] = {"slots", "counters", "items"};

static uint64_t an_animal(void) { return one_in(5) ? last : (1 + below(items / 2 + 2)) * factor; }
static uint64_t a_minute(void) { return 500 + below(1000); }

/* 1; about a power of 256, for numbers at the edges and with bytes of 0; or of any length in bytes. For a hash may take
   short numbers, or bytes of 0, another way. */
static uint64_t a_factor(void) {
    uint64_t kind = below(4), shift = 8 * below(8);
    if (kind == 0) return 1;
    if (kind == 1) return (UINT64_C(256) << shift) - 1 + below(shift < 56 ? 3 : 1);
    return any() >> shift | 1;
}

static void fresh(void) {
    static const uint64_t strange[] = {0, 3, 4, 5, 12, 1023, 1024, 1025, 4096, 4100, 8192, 8196, 16384, 32768};
    word("fresh");
    if (one_in(3)) { /* mostly refused: then the table there was goes on */
        for (int i = 0; i < 3; i++) number(one_in(2) ? strange[below(14)] : 8 * (1 + below(3)));
        return;
    }
    int large = one_in(30);
    slots = large ? 8192 : UINT64_C(8) << below(3);
    counters = large ? 1024 : 1 + below(8);
    items = large ? 4096 : 4 * (1 + below(slots));
    factor = a_factor();
    mood = below(3);
    number(slots), number(counters), number(items);
}

static void poke(void) {
    word("poke");
    switch (below(3)) {
    case 0:
        word("slots");
        number(below(slots + 2));
        number(one_in(8) ? any() >> below(64) : below(3) * 65536 * below(257) + below(items / 4 + 1));
        break;
    case 1:
        word("counters");
        number(below(counters + 1));
        number(one_in(2) ? 2 * below(3) : UINT32_MAX - 2 + below(4));
        break;
    default:
        word("items");
        if (one_in(2)) { /* a stamp becomes the mark, or the last minute */
            number(4 * below(items / 4) + 2);
            number(MARK - one_in(4));
            break;
        }
        number(below(items + 2));
        number(one_in(4) ? any() >> below(64) : one_in(2) ? an_animal() : below(3));
    }
}

/* An animal, a permission and the two minutes: mostly issued before now, and some long before. Of the same animal as the last
   one, it is often issued about the same minute. */
static void an_entry(uint64_t animal) {
    uint64_t now = one_in(60) ? UINT64_MAX - below(2) : a_minute();
    uint64_t issued = one_in(3) ? now : one_in(12) ? now + below(3) : one_in(12) ? any() : now - below(500);
    if (one_in(6)) issued = below(3);
    if (animal == last && !one_in(4)) {
        issued = last_issued - 1 + below(3);
        if (issued > now && !one_in(8)) now = issued;
    }
    if (issued <= now) last = animal, last_issued = issued;
    number(one_in(150) ? 0 : animal);
    number(one_in(20) ? UINT32_MAX - 2 + below(5) : below(5));
    number(issued);
    number(now);
}

static void a_set(void) {
    word("set");
    an_entry(an_animal());
    if (one_in(30)) word("standing"); /* not understood since version 4 */
}

static uint32_t hash(uint64_t animal) {
    uint32_t h = 2166136261u;
    for (int i = 0; i < 8; i++) h = (h ^ (uint32_t)(animal >> 8 * i & 255)) * 16777619u;
    return h;
}

/* Where an animal belongs. */
typedef struct {
    uint32_t tag, first, other;
} Homes;

static uint32_t other_bucket(uint32_t bucket, uint32_t tag) { return bucket ^ (tag * 1540483477u % ((uint32_t)slots / 4) | 1); }

static Homes homes_of(uint64_t animal) {
    uint32_t h = hash(animal), tag = h >> 24 ? h >> 24 : 1, first = h % ((uint32_t)slots / 4);
    Homes home = {tag, first, other_bucket(first, tag)};
    return home;
}

/* A number of a step: mostly as it should be, else beside it, with a bit above 16 more, about the end, or the largest. */
static void planned(uint64_t value, uint64_t end) {
    uint64_t bit = UINT64_C(1) << (16 + below(48));
    if (!one_in(10)) number(value);
    else if (one_in(3)) number(value - 1 + below(3));
    else if (one_in(3)) number(end - 1 + below(3));
    else number(one_in(3) ? UINT64_MAX - below(2) : value + bit);
}

static void a_move(uint64_t from, uint64_t tag, uint64_t to) {
    word("move");
    planned(from, slots), planned(tag, 256), planned(to, slots);
    an_entry(an_animal());
}

static void an_enter(uint64_t place, uint64_t slot, uint64_t animal) {
    word("enter");
    planned(place, items / 4), planned(slot, slots);
    an_entry(animal);
}

/* A step of a plan that nobody made: of an animal who may stand in a slot of hers, or might go there. */
static void a_step(void) {
    uint64_t animal = an_animal(), from = below(4), to = below(4), place = below(items / 4 + 1);
    Homes home = homes_of(animal);
    int back = one_in(4);
    from += 4 * (back ? home.other : home.first), to += 4 * (back ? home.first : home.other);
    if (one_in(3)) an_enter(place, from, animal);
    else a_move(from, home.tag, to);
}

static void a_write(void) {
    if (mood != WHOLE && one_in(8)) word("cut"), number(below(24));
    switch (below(10)) { /* mostly sets, so that the small tables fill up */
    case 0: word("delete"), number(an_animal()); break;
    case 1: word("evict"); break;
    default: a_set();
    }
}

/* A now at or beside a turn of the answer about the last set: issued now, the last good minute, as long overdue as is told,
   and where a difference of 64 bits turns over. */
static uint64_t a_turn(uint64_t limit) {
    static const uint64_t far[] = {0, 0, FAR, 2 * FAR};
    if (one_in(last_issued < 3 ? 3 : 20)) return UINT64_MAX - 1 - below(2);
    uint64_t turn = last_issued + (one_in(3) ? 0 : limit);
    turn += far[below(4)];
    return turn - 1 + below(3);
}

/* Mostly well-formed: the slips come from word, number and a_line. */
static void an_ask(void) {
    static const char *const asks[] = {"read", "serve", "plain"};
    uint64_t limit = one_in(2) ? 720 : one_in(3) ? below(2) : one_in(2) ? below(1000) : 10079 + below(3);
    int turn = one_in(2);
    word(asks[below(3)]);
    number(one_in(40) ? 0 : turn ? last : an_animal());
    number(limit);
    number(turn ? a_turn(limit) : one_in(60) ? UINT64_MAX - below(2) : a_minute());
}

static uint64_t of_any_size(void) {
    uint64_t bits = below(64);
    return any() >> bits;
}

/* A run of any length, the right one too, none, and a word more than the program holds. */
static void a_run(void) {
    static const uint64_t most[] = {8192, 1024, 4096};
    uint64_t which = below(3), length = which == 0 ? slots : which == 1 ? counters : items;
    if (one_in(20)) length = most[which] + below(2);
    else if (length > 200 && !one_in(8)) length = below(9);
    else if (one_in(3)) length = below(2 * length + 2);
    else if (one_in(4)) length = 0;
    int slips = length < 50 && one_in(3), zeros = one_in(2) || length > 200;
    word(runs[which]);
    for (; length > 0; length--) {
        uint64_t value = zeros ? 0 : one_in(4) ? of_any_size() : which == 2 && one_in(6) ? MARK : below(3);
        if (slips) number(value);
        else right_number(which < 2 ? (uint32_t)value : value);
    }
    if (one_in(6)) word(an_edge());
}

static int judging; /* the next call */

static void a_call(void) {
    uint64_t kind = below(100);
    if (judging || one_in(25)) word("judge"), judging = 0;
    else if (one_in(mood == POKED ? 60 : 400)) a_run(), judging = one_in(2);
    else if (one_in(150)) fresh();
    else if (one_in(15)) word("plan"), an_entry(an_animal());
    else if (one_in(12)) a_step();
    else if (kind < 45) a_write();
    else if (kind < 80) an_ask();
    else if (kind < 84) word("hand"), number(below(items / 4 + 1));
    else if (kind < 88) {
        word("list");
        number(one_in(2) ? below(5 * items + 21) : one_in(2) ? 20 * below(items / 4 + 1) : 81919 + below(3));
    } else if (kind < 91) word("dump");
    else if (mood == POKED || kind > 98) poke(), judging = one_in(2);
    else a_write();
}

static void end_line(void) {
    if (one_in(30)) put(one_in(2) ? " # set 1 1 1 1" : "#");
    if (one_in(600)) put_many('#', a_length());
    if (used > 0 && one_in(60)) line[below(used)] = (char)below(256); /* a NUL or a line end, too */
    if (one_in(8)) put_many('\r', one_in(20) ? 2 : 1);
    put("\n");
    fwrite(line, 1, used, stdout);
}

static void a_line(void) {
    used = 0;
    if (one_in(100)) word("cut"), number(below(24)); /* before any call, or alone */
    if (!one_in(60)) a_call();
    if (one_in(40)) used = below(used + 1); /* it ends early */
    if (one_in(100)) number(a_minute()); /* a word too many */
    if (one_in(300)) put_many(" \t0a"[below(4)], a_length());
    end_line();
}

/* A dump, as another workshop builds its table: each animal at a place of her own, in a free slot of her two buckets. */
static uint64_t dump[3][256], lengths[3];

/* Returns the slot, or that behind the last where both buckets are full. */
static uint64_t enter(uint64_t place, uint64_t animal) {
    Homes home = homes_of(animal);
    for (uint64_t from = below(8), i = from; i < from + 8; i++) {
        uint64_t *slot = dump[0] + 4 * (i % 8 < 4 ? home.first : home.other) + i % 4;
        if (*slot != 0) continue;
        uint64_t *item = dump[2] + 4 * place;
        *slot = (uint64_t)home.tag << 16 | place;
        if (animal == 0) return (uint64_t)(slot - dump[0]);
        item[0] = last = animal, item[1] = below(5), item[2] = last_issued = a_minute(), item[3] = below(2);
        if (one_in(3)) item[2] = MARK - one_in(8); /* or the last minute */
        return (uint64_t)(slot - dump[0]);
    }
    return slots;
}

/* One fault. Each condition of the judge has its own, but not every fault breaks it. */
static void a_fault(void) {
    static const uint64_t damage[] = {1, 65535, UINT64_C(256) << 16, UINT64_C(65535) << 16};
    uint64_t place = below(items / 4), *item = dump[2] + 4 * place, *slot = dump[0] + below(slots), which = below(3);
    uint64_t right = which == 0 ? slots : which == 1 ? counters : items, few = below(3), tag = (1 + below(255)) << 16;
    uint64_t kept = *slot, twin = 0;
    switch (below(8)) {
    case 0: lengths[which] = one_in(4) ? 0 : one_in(3) ? 2 * right : one_in(2) ? right / 2 : right - 1; break;
    case 1: *slot = one_in(2) ? damage[below(4)] : tag | (items / 4 - few / 2); break;
    case 2: dump[1][below(counters)] = which == 0 ? UINT32_MAX - few : few; break;
    case 3: /* another tag, a vacant place, or another slot */
        if (one_in(2)) *slot ^= *slot != 0 ? UINT64_C(65536) << below(8) : tag | place;
        else which = below(slots), *slot = dump[0][which], dump[0][which] = kept;
        break;
    case 4: /* a slot that is lost, or two for one place; or one for a vacant place, as if 0 were an animal */
        if (one_in(2)) *slot = 0;
        else enter(place, item[0]);
        break;
    case 5: /* twins */
        while (twin < items / 4 && dump[2][4 * twin] != 0) twin++;
        if (twin < items / 4 && item[0] != 0) enter(twin, item[0]);
        break;
    case 6: item[1] = one_in(2) ? UINT32_MAX + few : UINT64_C(1) << (32 + below(32)); break;
    default: item[item[0] == 0 ? 1 + below(3) : below(4)] = few;
    }
}

/* The three lines of a dump, with faults or without, and then the verdict. In a crowded one a few slots are free, so that a
   plan has moves. */
static void a_dump(void) {
    int crowded = one_in(8);
    slots = UINT64_C(8) << (crowded ? 2 : below(3)), counters = 1 + below(8), factor = a_factor();
    items = crowded ? 4 * slots : 4 * (1 + below(slots));
    lengths[0] = slots, lengths[1] = counters, lengths[2] = items;
    memset(dump, 0, sizeof dump);
    for (uint64_t i = 0; i < counters; i++) dump[1][i] = (uint32_t)of_any_size() & ~UINT32_C(1);
    uint64_t most = crowded ? slots - 1 - below(4) : items / 4;
    for (uint64_t place = 0, k = 1; place < most && k < 2 * slots; k++) {
        uint64_t slot = !crowded && one_in(3) ? slots : enter(place, k * factor);
        place += !crowded || slot < slots; /* in a crowded one, the next animal is tried where no slot takes her */
    }
    for (uint64_t faults = below(crowded ? 2 : 3); faults > 0; faults--) a_fault();
    for (int which = 0; which < 3; which++) {
        if (one_in(30)) continue;
        uint64_t slip = one_in(12) ? below(lengths[which] + 1) : UINT64_MAX;
        used = 0;
        put(runs[which]);
        for (uint64_t i = 0; i < lengths[which]; i++)
            if (i == slip) number(dump[which][i]), word(an_edge());
            else right_number(dump[which][i]);
        end_line();
    }
    judging = !one_in(8);
}

/* Steps that suit the dump, as far as it was loaded as it stands and the steps before were made. Returns how many. */
static uint64_t steps_on_dump(void) {
    uint64_t count = one_in(2) ? 0 : 1 + below(9);
    for (uint64_t steps = count; steps > 0; steps--) {
        uint64_t from = below(slots), place = below(items / 4), animal = (items / 4 + 1 + below(items / 4)) * factor;
        for (uint64_t i = 0; i < slots && dump[0][from] == 0 && !one_in(9); i++) from = (from + 1) % slots;
        uint64_t tag = dump[0][from] >> 16, to = 4 * other_bucket((uint32_t)from / 4, (uint32_t)tag) + below(4);
        used = 0;
        if (one_in(3)) {
            word("plan"), an_entry(animal);
        } else if (dump[2][4 * place] == 0) {
            an_enter(place, enter(place, animal), animal);
        } else {
            for (int i = 0; i < 3 && dump[0][to] != 0; i++) to = to / 4 * 4 + (to + 1) % 4;
            a_move(from, tag, to);
            if (dump[0][to] == 0) dump[0][to] = dump[0][from], dump[0][from] = 0;
        }
        end_line();
    }
    return count;
}

/* A table by its slot words alone: all entries of a bucket lead to the next of a chain, and the last bucket has the free slot.
   So the plan of an animal is known, and its steps follow. Returns how many lines it has. */
static uint64_t a_chain(void) {
    slots = 32, counters = 1 + below(8), items = 4 * (1 + below(8)), factor = a_factor();
    uint64_t animal = an_animal(), moves = below(5), free = below(4), to;
    Homes home = homes_of(animal);
    uint32_t chain[5] = {home.first}, leads[8], seen = 1u << home.first | 1u << home.other, tag;
    for (int b = 0; b < 8; b++) leads[b] = 1 + (uint32_t)below(255);
    for (uint64_t k = 0; k <= moves; k++) { /* the last leads on, too, but it isn't followed */
        do tag = 1 + (uint32_t)below(255);
        while (seen >> other_bucket(chain[k], tag) & 1);
        leads[chain[k]] = tag;
        if (k < moves) chain[k + 1] = other_bucket(chain[k], tag), seen |= 1u << chain[k + 1];
    }
    leads[home.other] = home.tag; /* back to the first */
    used = 0;
    word("fresh"), number(slots), number(counters), number(items), end_line();
    used = 0;
    put("slots");
    for (uint64_t i = 0; i < slots; i++) right_number(i == 4 * chain[moves] + free ? 0 : leads[i / 4] << 16 | below(items / 4));
    end_line();
    used = 0;
    word("plan"), an_entry(animal), end_line();
    to = 4 * chain[moves] + free;
    for (uint64_t k = moves; k > 0; k--, to = 4 * chain[k]) {
        used = 0;
        a_move(4 * chain[k - 1], leads[chain[k - 1]], to), end_line();
    }
    used = 0;
    an_enter(0, to, animal), end_line();
    return moves + 4;
}

/* The first lines have no table, and in the first of all 1 comes before 2 and 3. The last line shows every word; its line
   end may be missing, or half of it. */
static void the_edges(uint64_t seed, uint64_t count) {
    static const char *const ends[] = {"\n", "", "\r\n", "\r"};
    if (seed % 3 == 0) fputs("\xef\xbb\xbf", stdout); /* the byte order mark */
    for (uint64_t made = 1; made < count; made++)
        if (made == 1) puts("plain 0 10081 1");
        else if (made == 40) puts("fresh 16 4 20");
        else if (one_in(mood == POKED ? 12 : 400)) a_dump(), made += 2 + steps_on_dump();
        else if (made > 40 && one_in(100)) made += a_chain() - 1;
        else a_line();
    printf("dump%s", ends[seed % 4]);
}

int main(int arguments, char **argument) {
    int edge = arguments > 1 && strcmp(argument[1], "--any") == 0;
    uint64_t seed = arguments > 1 + edge ? strtoull(argument[1 + edge], NULL, 10) : 1;
    uint64_t count = arguments > 2 + edge ? strtoull(argument[2 + edge], NULL, 10) : 100000;
    state = (seed + 1) * UINT64_C(11400714819323198485);
    if (edge) the_edges(seed, count);
    else a_day(count);
    return 0;
}
