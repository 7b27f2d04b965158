/*
 * replayed.c: the replay program once more, in plain C over the anchor, to compare with the proved one.
 * It was written from docs/replay-format.md: the same bytes, the same status. Use: replayed [--echo] [FILE].
 */
#include "anchor.h"

#include <stdio.h>
#include <string.h>

#define FILE_MOST 2097152 /* docs/DECISIONS.md: the largest file that the proved program takes */
#define SLOTS_MOST 8192
#define COUNTERS_MOST 1024
#define ITEMS_MOST 4096
#define BUFFER_MOST 81920
#define WORDS 9 /* one more than the longest call has, a run aside, so that a word too many is seen */

/* The longest answer is a dump of the largest table: 11 characters for a 32-bit word with its space, 21 for a 64-bit one. */
#define ANSWER_MOST (64 + 11 * (SLOTS_MOST + COUNTERS_MOST) + 21 * ITEMS_MOST)
#define ECHO_WORD 20 /* no word of a call is longer, leading zeros aside */
#define ECHO_MOST (32 + WORDS * (ECHO_WORD + 1))

typedef struct {
    const char *at;
    size_t length;
} Word;

static uint32_t slots[SLOTS_MOST], counters[COUNTERS_MOST];
static uint64_t items[ITEMS_MOST], hand;
static size_t slots_length, counters_length, items_length; /* 0 until the first fresh */
static uint8_t buffer[BUFFER_MOST];
static char file[FILE_MOST + 1], answers[4 * ANSWER_MOST], *out = answers;
static const char *why; /* the last line that was not understood: why */
static int echo, status;

#define TABLE slots, slots_length, counters, counters_length, items, items_length
#define TELL(text) tell(text, sizeof(text) - 1)

static void tell(const char *text, size_t length) {
    memcpy(out, text, length);
    out += length;
}

static void tell_number(uint64_t number) {
    char digits[20], *first = digits + sizeof digits;
    do *--first = (char)('0' + number % 10);
    while ((number /= 10) != 0);
    tell(first, (size_t)(digits + sizeof digits - first));
}

static void tell_next(uint64_t number) {
    *out++ = ' ';
    tell_number(number);
}

static void tell_left(int64_t left) {
    *out++ = ' ';
    if (left < 0) *out++ = '-';
    tell_number(left < 0 ? -(uint64_t)left : (uint64_t)left);
}

static int tell_refusal(uint32_t refusal) {
    if (refusal == 0) return 0;
    TELL("refused");
    tell_next(refusal);
    return 1;
}

/* Names are literals, so that the compiler compares them in a register or two. */
static inline int is(Word word, const char *name) {
    return word.length == strlen(name) && memcmp(word.at, name, strlen(name)) == 0;
}

static int misunderstood(const char *reason) {
    why = reason;
    return 0;
}

static int digits_only(Word word) {
    for (size_t i = 0; i < word.length; i++)
        if (word.at[i] < '0' || word.at[i] > '9') return 0;
    return 1;
}

static int number_of(Word word, uint64_t most, uint64_t *number) {
    uint64_t n = 0;
    for (size_t i = 0; i < word.length; i++) {
        uint64_t digit = (uint64_t)(unsigned char)word.at[i] - '0';
        if (digit > 9) return misunderstood("unknown word");
        if (i >= 19 && (n > UINT64_MAX / 10 || 10 * n > UINT64_MAX - digit)) /* 19 digits always fit */
            return misunderstood(digits_only(word) ? "number too large" : "unknown word");
        n = 10 * n + digit;
    }
    *number = n;
    return n <= most || misunderstood("number too large");
}

/* Each of the calls below gets the words behind its name, and gives 0 where they are not understood. The words are read
   from left to right, and the first that no form of the call takes tells why. */
static int next_number(const Word *words, size_t count, size_t i, uint64_t most, uint64_t *number) {
    return i < count ? number_of(words[i], most, number) : misunderstood("too few numbers");
}

static int ends_at(const Word *words, size_t count, size_t i) {
    return i >= count || misunderstood(digits_only(words[i]) ? "too many numbers" : "unknown word");
}

static int numbers_of(const Word *words, size_t count, size_t wanted, uint64_t *numbers) {
    for (size_t i = 0; i < wanted; i++)
        if (!next_number(words, count, i, UINT64_MAX, numbers + i)) return 0;
    return ends_at(words, count, wanted);
}

/* So many numbers, and then an animal, a permission and the two minutes. */
static int entry_of(const Word *words, size_t count, size_t before, uint64_t *numbers) {
    for (size_t i = 0; i < before + 4; i++)
        if (!next_number(words, count, i, i == before + 1 ? UINT32_MAX : UINT64_MAX, numbers + i)) return 0;
    return ends_at(words, count, before + 4);
}

static int fresh(const Word *words, size_t count) {
    uint64_t n[3];
    if (!numbers_of(words, count, 3, n)) return 0;
    int held = n[0] <= SLOTS_MOST && n[1] <= COUNTERS_MOST && n[2] <= ITEMS_MOST;
    if (tell_refusal(held ? anchor_fresh(slots, n[0], counters, n[1], items, n[2]) : BOUGHLADDER_BAD_SHAPE)) return 1;
    slots_length = n[0];
    counters_length = n[1];
    items_length = n[2];
    hand = 0;
    TELL("fresh");
    return 1;
}

enum { READ, SERVE, PLAIN };

static int ask(const Word *words, size_t count, int how) {
    uint64_t n[3];
    if (!numbers_of(words, count, 3, n)) return 0;
    BoughladderReading r = how == SERVE  ? anchor_serve(TABLE, n[0], n[1], n[2])
                           : how == READ ? anchor_read(TABLE, n[0], n[1], n[2])
                                         : anchor_plain_read(items, items_length, n[0], n[1], n[2]);
    if (tell_refusal(r.refusal)) return 1;
    if (r.kind == BOUGHLADDER_FRESH) {
        TELL("fresh");
        tell_next(r.permission);
        tell_left(r.left);
    } else if (r.kind == BOUGHLADDER_OLD) {
        TELL("old");
        tell_left(r.left);
    } else if (r.kind == BOUGHLADDER_AHEAD) {
        TELL("ahead");
    } else {
        TELL("absent");
    }
    return 1;
}

/* Set, delete and evict: k is NULL for the whole call, else how many stores are made. */
static int set(const Word *words, size_t count, const uint64_t *k) {
    uint64_t n[4];
    if (!entry_of(words, count, 0, n)) return 0;
    BoughladderSetting s = k ? anchor_set_cut(TABLE, n[0], (uint32_t)n[1], n[2], n[3], *k)
                             : anchor_set(TABLE, n[0], (uint32_t)n[1], n[2], n[3]);
    if (tell_refusal(s.refusal)) return 1;
    TELL("stored");
    tell_next(s.visits);
    tell_next(s.moves);
    return 1;
}

static int delete(const Word *words, size_t count, const uint64_t *k) {
    uint64_t animal;
    if (!numbers_of(words, count, 1, &animal)) return 0;
    if (!tell_refusal(k ? anchor_delete_cut(TABLE, animal, *k) : anchor_delete(TABLE, animal))) TELL("deleted");
    return 1;
}

static int evict(const Word *words, size_t count, const uint64_t *k) {
    if (!ends_at(words, count, 0)) return 0;
    BoughladderEvicting e = k ? anchor_evict_cut(TABLE, hand, *k) : anchor_evict(TABLE, hand);
    hand = e.hand;
    if (tell_refusal(e.refusal)) return 1;
    TELL("evicted");
    tell_next(e.victim);
    tell_next(e.looked);
    tell_next(e.hand);
    return 1;
}

static int write_call(const Word *words, size_t count, const uint64_t *k) {
    if (is(words[0], "set")) return set(words + 1, count - 1, k);
    if (is(words[0], "delete")) return delete(words + 1, count - 1, k);
    if (is(words[0], "evict")) return evict(words + 1, count - 1, k);
    return misunderstood("unknown word");
}

static int plan(const Word *words, size_t count) {
    uint64_t n[4];
    if (!entry_of(words, count, 0, n)) return 0;
    BoughladderPlan p = anchor_plan(TABLE, n[0], (uint32_t)n[1], n[2], n[3]);
    if (tell_refusal(p.refusal)) return 1;
    TELL("planned");
    tell_next(p.place);
    tell_next(p.slot);
    for (size_t i = 0; i < p.count; i++) {
        tell_next(p.moves[i].from);
        tell_next(p.moves[i].tag);
        tell_next(p.moves[i].to);
    }
    return 1;
}

static int move(const Word *words, size_t count) {
    uint64_t n[7];
    if (!entry_of(words, count, 3, n)) return 0;
    BoughladderMove m = {n[0], n[1] > UINT32_MAX ? 0 : (uint32_t)n[1], n[2]}; /* no entry has a tag so large, and none has 0 */
    if (!tell_refusal(anchor_step_move(TABLE, m, n[3], (uint32_t)n[4], n[5], n[6]))) TELL("moved");
    return 1;
}

static int enter(const Word *words, size_t count) {
    uint64_t n[6];
    if (!entry_of(words, count, 2, n)) return 0;
    if (!tell_refusal(anchor_step_enter(TABLE, n[0], n[1], n[2], (uint32_t)n[3], n[4], n[5]))) TELL("entered");
    return 1;
}

static int list(const Word *words, size_t count) {
    uint64_t length;
    if (!next_number(words, count, 0, BUFFER_MOST, &length) || !ends_at(words, count, 1)) return 0;
    BoughladderListing l = anchor_list(TABLE, buffer, length);
    if (tell_refusal(l.refusal)) return 1;
    TELL("listed");
    tell_next(l.count);
    for (size_t i = 0; i < 20 * l.count; i++) {
        if (i % 20 == 0) *out++ = '\n';
        *out++ = "0123456789abcdef"[buffer[i] >> 4];
        *out++ = "0123456789abcdef"[buffer[i] & 15];
    }
    return 1;
}

static int poke(const Word *words, size_t count) {
    uint64_t n[2];
    if (count == 0) return misunderstood("too few numbers");
    int to_slots = is(words[0], "slots"), to_counters = is(words[0], "counters");
    if (!to_slots && !to_counters && !is(words[0], "items")) return misunderstood("unknown word");
    if (!numbers_of(words + 1, count - 1, 2, n)) return 0;
    int narrow = n[1] <= UINT32_MAX, poked;
    if (to_slots) {
        if ((poked = n[0] < slots_length && narrow)) slots[n[0]] = (uint32_t)n[1];
    } else if (to_counters) {
        if ((poked = n[0] < counters_length && narrow)) counters[n[0]] = (uint32_t)n[1];
    } else {
        if ((poked = n[0] < items_length)) items[n[0]] = n[1];
    }
    if (poked) TELL("poked");
    else TELL("no such word");
    return 1;
}

static int dump(const Word *words, size_t count) {
    if (!ends_at(words, count, 0)) return 0;
    TELL("slots");
    for (size_t i = 0; i < slots_length; i++) tell_next(slots[i]);
    TELL("\ncounters");
    for (size_t i = 0; i < counters_length; i++) tell_next(counters[i]);
    TELL("\nitems");
    for (size_t i = 0; i < items_length; i++) tell_next(items[i]);
    return 1;
}

/* Digits and letters are all above '#', so that one comparison is enough for them. */
static inline int in_word(unsigned char c) { return c > '#' || (c != ' ' && c != '\t' && c != '#'); }

/* The next word; its length is 0 where the line has no more. */
static inline Word next_word(const char *at, const char *end) {
    while (at < end && (*at == ' ' || *at == '\t')) at++;
    Word word = {at, 0};
    while (at < end && in_word((unsigned char)*at)) at++;
    word.length = (size_t)(at - word.at);
    return word;
}

static int is_run(Word name) { return is(name, "slots") || is(name, "counters") || is(name, "items"); }

/* A run's words, however many follow its name. They are put into the run when all of them are understood. */
static int load(Word name, const char *end) {
    static uint64_t words[SLOTS_MOST];
    int to_slots = is(name, "slots"), to_counters = is(name, "counters");
    size_t most = to_slots ? SLOTS_MOST : to_counters ? COUNTERS_MOST : ITEMS_MOST, length = 0;
    for (Word word = name; (word = next_word(word.at + word.length, end)).length > 0;) {
        uint64_t number;
        if (!number_of(word, to_slots || to_counters ? UINT32_MAX : UINT64_MAX, &number)) return 0;
        if (length < most) words[length] = number;
        length++;
    }
    if (tell_refusal(length > most ? BOUGHLADDER_BAD_SHAPE : BOUGHLADDER_OK)) return 1;
    for (size_t i = 0; i < length; i++) {
        if (to_slots) slots[i] = (uint32_t)words[i];
        else if (to_counters) counters[i] = (uint32_t)words[i];
        else items[i] = words[i];
    }
    *(to_slots ? &slots_length : to_counters ? &counters_length : &items_length) = length;
    TELL("loaded");
    return 1;
}

static int judge(const Word *words, size_t count) {
    if (!ends_at(words, count, 0)) return 0;
    BoughladderJudgement j = anchor_judge(TABLE);
    if (j.condition == 0) {
        TELL("yes");
    } else {
        TELL("no");
        tell_next(j.condition);
        tell_next(j.at);
    }
    return 1;
}

static int set_hand(const Word *words, size_t count) {
    uint64_t set;
    if (!numbers_of(words, count, 1, &set)) return 0;
    hand = set;
    TELL("hand");
    return 1;
}

static int cut(const Word *words, size_t count) {
    uint64_t k;
    if (!next_number(words, count, 0, UINT64_MAX, &k)) return 0;
    return count > 1 ? write_call(words + 1, count - 1, &k) : misunderstood("too few numbers");
}

/* The words, and where their line ends: a run may have more of them. */
static int answer(const Word *words, size_t count, const char *end) {
    if (is(words[0], "serve")) return ask(words + 1, count - 1, SERVE);
    if (is(words[0], "read")) return ask(words + 1, count - 1, READ);
    if (is(words[0], "cut")) return cut(words + 1, count - 1);
    if (is(words[0], "fresh")) return fresh(words + 1, count - 1);
    if (is(words[0], "list")) return list(words + 1, count - 1);
    if (is(words[0], "poke")) return poke(words + 1, count - 1);
    if (is(words[0], "dump")) return dump(words + 1, count - 1);
    if (is(words[0], "hand")) return set_hand(words + 1, count - 1);
    if (is(words[0], "plain")) return ask(words + 1, count - 1, PLAIN);
    if (is(words[0], "judge")) return judge(words + 1, count - 1);
    if (is(words[0], "plan")) return plan(words + 1, count - 1);
    if (is(words[0], "move")) return move(words + 1, count - 1);
    if (is(words[0], "enter")) return enter(words + 1, count - 1);
    if (is_run(words[0])) return load(words[0], end);
    return write_call(words, count, NULL);
}

/* The line's number and its call. Of a line that will not be understood it may be anything, but not long. */
static void tell_call(uint64_t number, const Word *words, size_t count) {
    tell_number(number);
    TELL(":");
    int run = is_run(words[0]);
    for (size_t i = 0; i < (run ? 1 : count); i++) {
        Word word = words[i];
        while (word.length > 1 && *word.at == '0') word.at++, word.length--;
        *out++ = ' ';
        tell(word.at, word.length < ECHO_WORD ? word.length : ECHO_WORD);
    }
    if (run) TELL(" ..");
    TELL(" -> ");
}

static void tell_line(uint64_t number, const Word *words, size_t count, const char *end) {
    char *start = out;
    if (echo) tell_call(number, words, count);
    if (!answer(words, count, end)) {
        out = start;
        status = 2;
        TELL("line");
        tell_next(number);
        TELL(": not understood: ");
        tell(why, strlen(why));
    }
    *out++ = '\n';
}

static size_t split(const char *at, const char *end, Word *words) {
    size_t count = 0;
    while (count < WORDS) {
        words[count] = next_word(at, end);
        if (words[count].length == 0) break;
        at = words[count].at + words[count].length;
        count++;
    }
    return count;
}

static int hand_out(void) {
    size_t length = (size_t)(out - answers);
    out = answers;
    return fwrite(answers, 1, length, stdout) == length;
}

static int replay(const char *at, const char *end) {
    Word words[WORDS];
    for (uint64_t number = 1; at < end; number++) {
        const char *feed = memchr(at, '\n', (size_t)(end - at)), *stop = feed ? feed : end;
        if (stop > at && stop[-1] == '\r') stop--; /* docs/DECISIONS.md: of a last line without LF, too */
        size_t count = split(at, stop, words);
        if (count > 0) {
            tell_line(number, words, count, stop);
            if (out > answers + sizeof answers - ECHO_MOST - ANSWER_MOST && !hand_out()) return 0;
        }
        at = feed ? feed + 1 : end;
    }
    return hand_out() && fflush(stdout) == 0;
}

int main(int arguments, char **argument) {
    echo = arguments > 1 && strcmp(argument[1], "--echo") == 0;
    const char *name = arguments > 1 + echo ? argument[1 + echo] : "-";
    if (arguments > 2 + echo || strncmp(name, "--", 2) == 0) {
        fputs("usage: replayed [--echo] [FILE]\n", stderr);
        return 1;
    }
    FILE *from = strcmp(name, "-") == 0 ? stdin : fopen(name, "rb");
    size_t length = from ? fread(file, 1, sizeof file, from) : 0;
    if (!from || ferror(from)) {
        perror(name);
        return 1;
    }
    if (length > FILE_MOST) {
        fprintf(stderr, "replayed: more than %d bytes, nothing was replayed\n", FILE_MOST);
        return 1;
    }
    size_t mark = length >= 3 && memcmp(file, "\xEF\xBB\xBF", 3) == 0 ? 3 : 0; /* the byte order mark */
    if (!replay(file + mark, file + length)) {
        perror("replayed: the answers could not be written");
        return 1;
    }
    return status;
}
