/* Runs the stored answers of the Rust on the machine that it is compiled for, and says what differs. It stands on no C library: bench/machines links
 * it with the kit's own tools for machines that the host need not have one for, and holds what it says on each against what it says on the others.
 *
 * Memory is lent dirty and with fences behind it. What the list has no answers for, the checks and the scripts of its trees, goes into a digest. */
#include "claspwillow.h"
#include "machine.h"

static const char list[] = {
#embed "../../crates/oracle_replay/data/compile.txt"
};

enum { WORDS = 1 << 20, ROOM = 294912, FENCE = 16, ENTRIES = 300 };

static _Alignas(8) uint64_t work[WORDS + FENCE];
static uint8_t policy[ROOM], wanted[ROOM], out[ROOM + FENCE], script[1 << 21];
static uint8_t keys[33 * ENTRIES], hashes20[20 * ENTRIES], hashes32[32 * ENTRIES];

static uint64_t digest = 0xCBF29CE484222325, dirt = 0x5DEECE66D;
static unsigned answers, differences, checks, scripts, lengths;

static void say_hex(uint64_t number, int digits) {
    char text[16];
    for (int i = digits - 1; i >= 0; i--) {
        text[i] = "0123456789ABCDEF"[number & 15];
        number >>= 4;
    }
    machine_write(text, (uint32_t)digits);
}

/* FNV-1a over the bytes of a number, lowest first. */
static void fold(uint64_t number, int bytes) {
    for (int i = 0; i < bytes; i++) {
        digest = (digest ^ ((number >> (8 * i)) & 255)) * 0x100000001B3;
    }
}

static uint64_t next_dirt(void) {
    dirt ^= dirt << 13;
    dirt ^= dirt >> 7;
    dirt ^= dirt << 17;
    return dirt;
}

/* Makes the first `words` words of work memory and `room` bytes of output dirty, and puts fences behind them. */
static uint64_t lend(uint64_t words, uint64_t room) {
    const uint64_t stain = next_dirt();
    for (uint64_t i = 0; i < words + FENCE; i++) {
        work[i] = i < words ? stain : ~stain;
    }
    for (uint64_t i = 0; i < room + FENCE; i++) {
        out[i] = (uint8_t)(i < room ? stain : ~stain);
    }
    return stain;
}

/* Whether work memory is zero, output past `bytes` as it was, and both fences as well. */
static int left_well(uint64_t stain, uint64_t words, uint64_t room, uint64_t bytes) {
    for (uint64_t i = 0; i < words + FENCE; i++) {
        if (work[i] != (i < words ? 0 : ~stain)) {
            return 0;
        }
    }
    for (uint64_t i = bytes; i < room + FENCE; i++) {
        if (out[i] != (uint8_t)(i < room ? stain : ~stain)) {
            return 0;
        }
    }
    return 1;
}

static void differ(const char *what, uint32_t line) {
    differences++;
    say("line ");
    say_number(line);
    say(" of the stored list: ");
    say(what);
    say("\n");
}

/* The value of a hexadecimal digit, or 16. */
static unsigned digit(char c) {
    return c >= '0' && c <= '9' ? (unsigned)(c - '0') : c >= 'A' && c <= 'F' ? (unsigned)(c - 'A' + 10) : 16;
}

/* Each of these reads one word of the list from *at on, and the byte behind it. */
static uint64_t read_number(uint32_t *at, unsigned base) {
    uint64_t number = 0;
    while (digit(list[*at]) < base) {
        number = number * base + digit(list[(*at)++]);
    }
    *at += list[*at] == '-' ? 2 : 1;
    return number;
}

static uint64_t read_bytes(uint32_t *at, uint8_t *bytes) {
    uint64_t count = 0;
    while (digit(list[*at]) < 16) {
        bytes[count++] = (uint8_t)(digit(list[*at]) * 16 + digit(list[*at + 1]));
        *at += 2;
    }
    *at += list[*at] == '-' ? 2 : 1;
    return count;
}

static int same(const uint8_t *x, const uint8_t *y, uint64_t count) {
    for (uint64_t i = 0; i < count; i++) {
        if (x[i] != y[i]) {
            return 0;
        }
    }
    return 1;
}

/* Checks the tree in `wanted` and writes its script; what they give goes into the digest. */
static void tree(uint32_t context, uint64_t length, uint32_t line) {
    _Alignas(8) uint64_t bytes = next_dirt(), stain = lend(claspwillow_check_work(), 0);
    uint32_t ty = (uint32_t)stain;
    uint32_t number = claspwillow_check(context, wanted, length, work, claspwillow_check_work(), &ty);
    if (number != CLASPWILLOW_DONE || !left_well(stain, claspwillow_check_work(), 0, 0)) {
        differ("its tree does not pass the check", line);
    }
    fold(ty, 4);
    checks++;
    stain = lend(claspwillow_script_work(), 0);
    number = claspwillow_script(context, wanted, length, keys, sizeof keys, hashes20, sizeof hashes20, hashes32, sizeof hashes32, hashes20,
                                sizeof hashes20, script, sizeof script, work, claspwillow_script_work(), &bytes);
    if ((number != CLASPWILLOW_DONE && number != CLASPWILLOW_NO_ENTRY) || !left_well(stain, claspwillow_script_work(), 0, 0)) {
        differ("its tree has no script", line);
    }
    fold(number, 4);
    for (uint64_t i = 0; i < bytes; i++) {
        fold(script[i], 1);
    }
    scripts += number == CLASPWILLOW_DONE;
}

/* Runs the case that begins at *at. */
static void answer(uint32_t *at, uint32_t line) {
    const uint32_t context = (uint32_t)read_number(at, 10);
    const uint64_t length = read_bytes(at, policy);
    const uint32_t number = (uint32_t)read_number(at, 10);
    const uint64_t bytes = read_bytes(at, wanted);
    const uint32_t never = list[*at] == '-';
    const uint64_t cost = read_number(at, 16);
    const uint64_t nodes = read_number(at, 10);
    const uint64_t words = claspwillow_compile_work(), room = bytes + line % 64;
    const uint64_t stain = lend(words, room);
    _Alignas(8) uint64_t got_bytes = stain, got_cost = stain, got_nodes = stain;
    uint32_t got_never = (uint32_t)stain;
    const uint32_t got =
        claspwillow_compile(context, policy, length, out, room, work, words, &got_bytes, &got_cost, &got_never, &got_nodes);
    answers++;
    if (got != number || got_bytes != bytes || got_cost != cost || got_never != never || got_nodes != nodes || !same(out, wanted, bytes)) {
        differ("another answer", line);
    } else if (!left_well(stain, words, room, bytes)) {
        differ("memory is not left as it must be", line);
    }
    if (answers <= 2) {
        say("the desk's policy in context ");
        say_number(context);
        say(": number ");
        say_number(got);
        say(", tree ");
        for (uint64_t i = 0; i < got_bytes; i++) {
            say_hex(out[i], 2);
        }
        say(", cost bits ");
        say_hex(got_cost, 16);
        say(", ");
        say_number((uint32_t)got_nodes);
        say(" nodes\n");
    }
    if (number == CLASPWILLOW_DONE) {
        tree(context, bytes, line);
    }
}

static void expect(uint32_t got, uint32_t number, const char *what) {
    lengths++;
    if (got != number) {
        differences++;
        say(what);
        say(": number ");
        say_number(got);
        say(", not ");
        say_number(number);
        say("\n");
    }
}

/* Lengths over 2^32, of which no byte past the true ones is looked at: read as 32 bits they would give other numbers. */
static void long_lengths(void) {
    const uint64_t far = (uint64_t)1 << 32, words = claspwillow_compile_work();
    _Alignas(8) uint64_t bytes, cost, nodes;
    uint32_t never, ty;
    const uint32_t context = CLASPWILLOW_SEGWIT_V0;
    for (uint32_t i = 0; i < 8 * 65; i++) {
        policy[i] = (const uint8_t[]){8, 0, 3, 0, 7, 0, 0, 0}[i % 8];
    }
    expect(claspwillow_compile(context, policy, far + 8, out, ROOM, work, words, &bytes, &cost, &never, &nodes), CLASPWILLOW_POLICY_TOO_LARGE,
           "a policy of 2^32 + 8 bytes");
    expect(claspwillow_compile(context, policy, 8, out, far, work, words, &bytes, &cost, &never, &nodes), CLASPWILLOW_DONE, "room of 2^32 bytes");
    for (uint32_t i = 0; i < 4 * 4097; i++) {
        wanted[i] = (const uint8_t[]){4, 0, 33, 0}[i % 4];
    }
    expect(claspwillow_check(context, wanted, far + 4, work, claspwillow_check_work(), &ty), CLASPWILLOW_TREE_TOO_LARGE, "a tree of 2^32 + 4 bytes");
    expect(claspwillow_script(context, out, 18, keys, far, hashes20, 0, hashes32, 0, hashes20, 0, script, far, work, claspwillow_script_work(), &bytes),
           CLASPWILLOW_DONE, "2^32 bytes of keys, and of room for a script");
}

int machine_run(void) {
    uint32_t at = 0, line = 1;
    for (uint32_t i = 0; i < sizeof keys; i++) {
        keys[i] = (uint8_t)(i % 33 == 0 ? 2 : i / 33 + 1);
    }
    for (uint32_t i = 0; i < sizeof hashes20; i++) {
        hashes20[i] = (uint8_t)(i / 20 + 3);
    }
    for (uint32_t i = 0; i < sizeof hashes32; i++) {
        hashes32[i] = (uint8_t)(i / 32 + 5);
    }
    if (claspwillow_compile_work() > WORDS || claspwillow_check_work() > WORDS || claspwillow_script_work() > WORDS) {
        say("an entry asks for more work memory than there is\n");
        return 1;
    }
    while (at < sizeof list) {
        /* Of the list each EVERY-th line, and the desk's policy. */
        if (list[at] == '#' || (line > 3 && line % EVERY != 0)) {
            while (list[at++] != '\n') {
            }
        } else {
            answer(&at, line);
        }
        line++;
    }
    long_lengths();
    say_number(answers);
    say(" answers, ");
    say_number(checks);
    say(" checks and ");
    say_number(scripts);
    say(" scripts of their trees (digest ");
    say_hex(digest, 16);
    say("), ");
    say_number(lengths);
    say(" lengths over 2^32: ");
    say_number(differences);
    say(" differences\n");
    return differences != 0;
}
