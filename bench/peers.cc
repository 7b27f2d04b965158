/*
 * peers.cc: nanoseconds a read, ours and those of known hash maps, with a herd and questions as speed.c has them.
 * A peer maps an animal to its permission and stamp, and its read is the lookup and then the judgement of what is left by
 * the order's rules. It makes none of our refusals. Each peer is told beforehand that M animals may come and hashes by
 * its default, which does for scattered numbers: libcuckoo, tsl and std by std::hash, the number itself; absl by its own.
 * libcuckoo's find locks two buckets and copies the value: that is its find. A peer whose header is missing is left out.
 * Each round times one portion of reads on every map, another one first each time, and the best round counts; the sums of
 * all answers must be equal. Use: peers [rounds].
 */
#if __has_include(<libcuckoo/cuckoohash_map.hh>)
#include <libcuckoo/cuckoohash_map.hh>
#define HAVE_LIBCUCKOO
#endif
#if __has_include(<tsl/hopscotch_map.h>)
#include <tsl/hopscotch_map.h>
#define HAVE_TSL
#endif
#if __has_include(<absl/container/flat_hash_map.h>) && !defined(WITHOUT_ABSL)
#include <absl/container/flat_hash_map.h>
#define HAVE_ABSL
#endif

#include <algorithm>
#include <cstdio>
#include <cstdlib>
#include <memory>
#include <unordered_map>
#include <vector>

#include "herd.h"

static Table ours;

struct Item {
    uint32_t permission;
    uint64_t stamp;
};

/* Fresh, old or ahead, as the order says it of a held animal, and what is left: no less than -2^62. */
static BoughladderReading judge(const Item &item, uint64_t limit, uint64_t now) {
    if (item.stamp > now) { /* the mark is later than every minute, so it is looked for only here */
        if (item.stamp == BOUGHLADDER_RETIRED_MARK) return {0, BOUGHLADDER_OLD, 0, BOUGHLADDER_LEAST_LEFT};
        return {0, BOUGHLADDER_AHEAD, 0, 0};
    }
    uint64_t age = now - item.stamp;
    if (age > limit) return {0, BOUGHLADDER_OLD, 0, -(int64_t)std::min(age - limit, UINT64_C(1) << 62)};
    return {0, BOUGHLADDER_FRESH, item.permission, (int64_t)(limit - age)};
}

template <class Map>
static BoughladderReading read(const Map &map, uint64_t animal, uint64_t limit, uint64_t now) {
    auto found = map.find(animal);
    if (found == map.end()) return {0, BOUGHLADDER_ABSENT, 0, 0};
    return judge(found->second, limit, now);
}

static BoughladderReading read(const Table &table, uint64_t animal, uint64_t limit, uint64_t now) {
    const Table *t = &table;
    return boughladder_read(TABLE, animal, limit, now);
}

static void fill(Table &table) { table = ours; }

/* In place order, which is the order in which the herd came. */
template <class Map> static void fill(Map &map) {
    map.clear();
    map.reserve(M);
    for (size_t p = 0; p < M; p++) {
        const uint64_t *words = ours.items + 4 * p;
        if (words[0] != 0) map.insert_or_assign(words[0], Item{(uint32_t)words[1], words[2]});
    }
}

static size_t slots(const Table &) { return 4 * N; }
template <class Map> static size_t slots(const Map &map) { return map.bucket_count(); }

#ifdef HAVE_LIBCUCKOO
typedef libcuckoo::cuckoohash_map<uint64_t, Item> Cuckoo;

static BoughladderReading read(const Cuckoo &map, uint64_t animal, uint64_t limit, uint64_t now) {
    Item item;
    if (!map.find(animal, item)) return {0, BOUGHLADDER_ABSENT, 0, 0};
    return judge(item, limit, now);
}

static size_t slots(const Cuckoo &map) { return map.capacity(); }
#endif

/* One column of the table. */
struct Column {
    const char *name;
    double best = 0;
    uint64_t sum = 0; /* of all answers */
    explicit Column(const char *n) : name(n) {}
    virtual ~Column() {}
    virtual void take_herd() = 0;
    virtual double reads() = 0;
    virtual size_t room() const = 0;
};

template <class Map> struct Of : Column {
    Map map;
    explicit Of(const char *n) : Column(n), map() {}
    void take_herd() override { fill(map); }
    size_t room() const override { return slots(map); }
    double reads() override {
        double start = now_ns();
        for (size_t i = 0; i < READS; i++) {
            BoughladderReading r = read(map, asked[i], LIMIT, NOW);
            sum += r.kind + r.permission + r.left + r.refusal;
        }
        return (now_ns() - start) / READS;
    }
};

int main(int argc, char **argv) {
    static const unsigned loads[] = {25, 50, 75, 90, 95};
    int rounds = argc > 1 ? atoi(argv[1]) : 150;
    std::vector<std::unique_ptr<Column>> columns;
    columns.emplace_back(new Of<Table>("ours"));
#ifdef HAVE_LIBCUCKOO
    columns.emplace_back(new Of<Cuckoo>("libcuckoo"));
#else
    puts("left out: libcuckoo::cuckoohash_map is not installed (apt-get install libcuckoo-dev)");
#endif
#ifdef HAVE_TSL
    columns.emplace_back(new Of<tsl::hopscotch_map<uint64_t, Item>>("tsl"));
#else
    puts("left out: tsl::hopscotch_map is not installed (apt-get install libtsl-hopscotch-map-dev)");
#endif
#ifdef HAVE_ABSL
    columns.emplace_back(new Of<absl::flat_hash_map<uint64_t, Item>>("absl"));
#else
    puts("left out: absl::flat_hash_map is not installed (apt-get install libabsl-dev pkg-config)");
#endif
    columns.emplace_back(new Of<std::unordered_map<uint64_t, Item>>("std"));

    printf("read, nine in ten held; N %d, V %d, M %d; best of %d rounds; nanoseconds a read, and ours / peer\n\n", N, V, M,
           rounds);
    printf("| Load |");
    for (auto &c : columns) printf(c == columns[0] ? " %s |" : " %s | ratio |", c->name);
    printf("\n|---|");
    for (auto &c : columns) printf(c == columns[0] ? "---|" : "---|---|");
    puts("");
    for (unsigned load : loads) {
        settle(&ours, load);
        choose_questions();
        for (auto &c : columns) {
            c->take_herd();
            c->best = 1e30;
        }
        for (int round = 0; round < rounds; round++)
            for (size_t i = 0; i < columns.size(); i++) {
                Column &c = *columns[(i + (size_t)round) % columns.size()];
                double spent = c.reads();
                if (spent < c.best) c.best = spent;
            }
        printf("| %u %% |", load);
        for (auto &c : columns) {
            printf(" %.1f |", c->best);
            if (c != columns[0]) printf(" %.2f |", columns[0]->best / c->best);
        }
        puts("");
        for (auto &c : columns)
            if (c->sum != columns[0]->sum) {
                printf("DIFFERENCE between ours and %s\n", c->name);
                return 1;
            }
    }
    printf("\nslots at 95 %% (for std, chains):");
    for (auto &c : columns) printf(" %s %zu", c->name, c->room());
    puts("\nlibcuckoo's find takes two locks. Hashes: std::hash, the number itself (libcuckoo, tsl, std); absl's own (absl).");
    return 0;
}
