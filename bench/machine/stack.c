/* Says how many bytes of stack each entry needs on the worst inputs that are known, on the machine that it is compiled for, and whether the header's
 * figure covers them: the stack below the caller is painted, the entry is called, and the lowest word that lost its paint is found. */
#include "claspwillow.h"
#include "machine.h"

enum { WORDS = 1 << 20, ROOM = 294912, HEIGHT = 128, PAINTED = 3 << 20 };

/* Whatever number a call gives. */
enum { ANY = 0x7FFFFFFF };

static const uint64_t PAINT = 0xA5A5A5A5A5A5A5A5;

static _Alignas(8) uint64_t work[WORDS];
static uint8_t input[ROOM], out[ROOM], script[1 << 21], keys[33 * 64], entries[1 << 16], log[ROOM + 4096];
static uint64_t length;
static uint32_t context, result;

/* Where the next record goes, and its number. */
static void begin(void) { length = 0; }

static void put16(uint32_t number) {
    input[length++] = (uint8_t)number;
    input[length++] = (uint8_t)(number >> 8);
}

static void put32(uint32_t number) {
    put16(number);
    put16(number >> 16);
}

static void leaf(uint32_t kind, uint32_t number) {
    put16(8);
    put16(kind);
    put32(number);
}

static void wrapper(uint32_t kind, uint32_t child) {
    put16(6);
    put16(kind);
    put16(child);
}

static void pair(uint32_t kind, uint32_t left, uint32_t right) {
    put16(8);
    put16(kind);
    put16(left);
    put16(right);
}

/* A policy of depth 16: Ors, each of a key and the rest, above a threshold of 16 of 16 keys. */
static void ors(void) {
    uint32_t records = 0;
    begin();
    for (; records < 16; records++) {
        leaf(3, records);
    }
    put16(40);
    put16(12);
    put16(16);
    put16(16);
    for (uint32_t i = 0; i < 16; i++) {
        put16(i);
    }
    for (int i = 0; i < 14; i++) {
        leaf(3, ++records);
        put16(16);
        put16(11);
        put16(records);
        put16(records - 1);
        put32(1);
        put32(1);
        records++;
    }
}

/* A policy of 64 records: thresholds of n of n within each other, the inner one the first child of the outer one or the last. */
static void thresholds(int inner_first) {
    static const uint32_t sizes[] = {15, 16, 16, 16};
    uint32_t records = 0, inner = 0;
    begin();
    for (uint32_t level = 0; level < 4; level++) {
        const uint32_t n = sizes[level], leaves = level == 0 ? n : n - 1, first = records;
        for (uint32_t i = 0; i < leaves; i++) {
            leaf(3, records++);
        }
        put16(8 + 2 * n);
        put16(12);
        put16(n);
        put16(n);
        for (uint32_t i = 0; i < n; i++) {
            const uint32_t place = inner_first ? 0 : n - 1;
            put16(level > 0 && i == place ? inner : first + i - (level > 0 && inner_first));
        }
        inner = records++;
    }
}

/* Trees that are 128 high: a key, checked, which is 2 high, and a fragment for each level above it. */
static uint32_t key(void) {
    begin();
    leaf(34, 7);
    wrapper(44, 0);
    return 2;
}

static void wrapped(void) {
    uint32_t i = key();
    for (int height = 3; height <= HEIGHT; height++, i++) {
        wrapper(48, i - 1);
    }
}

static void thresholds_of_one(void) {
    uint32_t i = key();
    for (int height = 3; height <= HEIGHT; height++, i++) {
        put16(10);
        put16(56);
        put16(1);
        put16(1);
        put16(i - 1);
    }
}

static void alternatives(int deep_left) {
    uint32_t i = key();
    for (int height = 3; height <= HEIGHT; height++, i += 2) {
        put16(4);
        put16(32);
        pair(54, deep_left ? i - 1 : i, deep_left ? i : i - 1);
    }
}

static void conjunctions(void) {
    uint32_t i = key();
    for (int height = 3; height <= HEIGHT; height++, i += 3) {
        put16(4);
        put16(33);
        wrapper(46, i);
        pair(50, i + 1, i - 1);
    }
}

static void compile(void) {
    _Alignas(8) uint64_t bytes, cost, nodes;
    uint32_t never;
    result = claspwillow_compile(context, input, length, out, ROOM, work, claspwillow_compile_work(), &bytes, &cost, &never, &nodes);
}

static void choose(void) {
    _Alignas(8) uint64_t bytes, cost, nodes;
    uint32_t never;
    result = claspwillow_choose(context, input, length, work, claspwillow_choose_work(), &bytes, &cost, &never, &nodes);
}

static void write_chosen(void) {
    _Alignas(8) uint64_t bytes;
    result = claspwillow_write(out, ROOM, work, claspwillow_write_work(), &bytes);
}

static void to_new(void) {
    _Alignas(8) uint64_t bytes;
    result = claspwillow_to_new(input, length, out, ROOM, &bytes);
}

static void to_old(void) {
    _Alignas(8) uint64_t bytes;
    result = claspwillow_to_old(input, length, out, ROOM, &bytes);
}

static void check(void) {
    uint32_t ty;
    result = claspwillow_check(context, input, length, work, claspwillow_check_work(), &ty);
}

static void write_script(void) {
    _Alignas(8) uint64_t bytes;
    result = claspwillow_script(context, input, length, keys, sizeof keys, keys, sizeof keys, keys, sizeof keys, keys, sizeof keys, script,
                                sizeof script, work, claspwillow_script_work(), &bytes);
}

static void differ(void) {
    _Alignas(8) uint64_t differences;
    result = claspwillow_differ(context, input, length, input, length, out, ROOM, work, claspwillow_differ_work(), &differences);
}

static void witness(void) {
    _Alignas(8) uint64_t smallest, largest;
    uint32_t found;
    result = claspwillow_witness(context, input, length, work, claspwillow_witness_work(), &found, &smallest, &largest);
}

static void write_index(void) {
    _Alignas(8) uint64_t bytes;
    result = claspwillow_index(context, input, length, entries, sizeof entries, work, claspwillow_index_work(), &bytes);
}

/* Of the index that was written. */
static void find(void) {
    _Alignas(8) uint64_t bytes;
    uint32_t found, record;
    result = claspwillow_index(context, input, length, entries, sizeof entries, work, claspwillow_index_work(), &bytes);
    result = claspwillow_find(context, input, length, entries, bytes, 1, work, claspwillow_find_work(), &found, &record);
}

/* For a policy of one key. */
static void accept(void) {
    static const uint8_t policy[] = {8, 0, 3, 0, 7, 0, 0, 0};
    result = claspwillow_accept(context, policy, sizeof policy, input, length, work, claspwillow_accept_work());
}

static uint8_t *little(uint8_t *to, uint32_t number) {
    for (int i = 0; i < 4; i++) {
        *to++ = (uint8_t)(number >> (8 * i));
    }
    return to;
}

/* A log with the tree, a table of keys, and one spend that starts with a stack of 100 empty elements and expects an abort. */
static void replay(void) {
    _Alignas(8) uint64_t replayed;
    uint8_t *to = little(little(log, context), (uint32_t)length);
    to = little(little(little(little(to, sizeof keys), 0), 0), 0);
    for (uint64_t i = 0; i < length; i++) {
        *to++ = input[i];
    }
    for (uint64_t i = 0; i < sizeof keys; i++) {
        *to++ = keys[i];
    }
    to = little(little(to, 1), 100);
    for (int i = 0; i < 100; i++) {
        to = little(to, 0);
    }
    to = little(to, 0);
    *to++ = 0;
    result = claspwillow_replay(log, (uint64_t)(to - log), out, ROOM, work, claspwillow_replay_work(), &replayed);
}

/* The bytes below this function's own frame that the call touches. */
static __attribute__((noinline)) uint32_t touched(void (*entry)(void)) {
    volatile uint64_t *top = (volatile uint64_t *)(((__UINTPTR_TYPE__)__builtin_frame_address(0) & ~(__UINTPTR_TYPE__)7) - 256);
    int depth;
    for (int i = 0; i < PAINTED / 8; i++) {
        top[-i] = PAINT;
    }
    entry();
    for (depth = PAINTED / 8 - 1; depth > 0 && top[-depth] == PAINT; depth--) {
    }
    return 256 + 8 * (uint32_t)depth;
}

/* The most that an entry touches over both contexts and the inputs so far. */
static uint32_t most;
static int failed;

/* Of a call that touched so much; `expected` is the number that it must have given, or ANY. */
static void take(uint32_t depth, uint32_t expected) {
    most = depth > most ? depth : most;
    if (expected != ANY && result != expected) {
        say("an input gives number ");
        say_number(result);
        say("\n");
        failed = 1;
    }
}

static void measure(void (*entry)(void), uint32_t expected) {
    for (context = 0; context < 2; context++) {
        take(touched(entry), expected);
    }
}

/* The writing takes what a choice left. */
static void measure_writing(void) {
    for (context = 0; context < 2; context++) {
        choose();
        take(touched(write_chosen), CLASPWILLOW_DONE);
    }
}

static void report(const char *entry, uint32_t figure) {
    say(entry);
    say(": ");
    say_number(most);
    say(" bytes of stack, and the header says ");
    say_number(figure);
    say("\n");
    failed |= most > figure;
    most = 0;
}

/* The entries that move a policy, each with the header's figure. */
static const struct {
    const char *name;
    void (*call)(void);
    uint32_t figure;
} movers[] = {
    {"to_new", to_new, CLASPWILLOW_TO_NEW_STACK},
    {"to_old", to_old, CLASPWILLOW_TO_OLD_STACK},
};

/* The entries that take a tree, each with the number that it gives for those that are 128 high, and the header's figure. */
static const struct {
    const char *name;
    void (*call)(void);
    uint32_t expected, figure;
} tall[] = {
    {"check", check, CLASPWILLOW_DONE, CLASPWILLOW_CHECK_STACK},
    {"script", write_script, CLASPWILLOW_DONE, CLASPWILLOW_SCRIPT_STACK},
    {"differ", differ, CLASPWILLOW_DONE, CLASPWILLOW_DIFFER_STACK},
    {"witness", witness, CLASPWILLOW_DONE, CLASPWILLOW_WITNESS_STACK},
    {"replay", replay, CLASPWILLOW_DONE, CLASPWILLOW_REPLAY_STACK},
    {"index", write_index, CLASPWILLOW_DONE, CLASPWILLOW_INDEX_STACK},
    {"find", find, CLASPWILLOW_DONE, CLASPWILLOW_FIND_STACK},
    {"accept", accept, ANY, CLASPWILLOW_ACCEPT_STACK},
};

int machine_run(void) {
    ors();
    measure(compile, CLASPWILLOW_CACHE_FULL);
    for (int first = 0; first < 2; first++) {
        thresholds(first);
        measure(compile, CLASPWILLOW_DONE);
    }
    report("compile", CLASPWILLOW_COMPILE_STACK);
    ors();
    measure(choose, CLASPWILLOW_CACHE_FULL);
    for (int first = 0; first < 2; first++) {
        thresholds(first);
        measure(choose, CLASPWILLOW_DONE);
    }
    report("choose", CLASPWILLOW_CHOOSE_STACK);
    for (int first = 0; first < 2; first++) {
        thresholds(first);
        measure_writing();
    }
    report("write", CLASPWILLOW_WRITE_STACK);
    for (uint32_t i = 0; i < sizeof movers / sizeof *movers; i++) {
        ors();
        measure(movers[i].call, CLASPWILLOW_DONE);
        for (int first = 0; first < 2; first++) {
            thresholds(first);
            measure(movers[i].call, CLASPWILLOW_DONE);
        }
        report(movers[i].name, movers[i].figure);
    }
    for (uint32_t i = 0; i < sizeof tall / sizeof *tall; i++) {
        void (*const call)(void) = tall[i].call;
        const uint32_t expected = tall[i].expected;
        wrapped();
        measure(call, expected);
        thresholds_of_one();
        measure(call, expected);
        alternatives(0);
        measure(call, expected);
        alternatives(1);
        measure(call, expected);
        conjunctions();
        measure(call, expected);
        report(tall[i].name, tall[i].figure);
    }
    return failed;
}
