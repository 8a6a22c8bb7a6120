/* Claspwillow: the proved entries, as C calls them. docs/ENTRIES.md says what each number means.
 * Lengths have 64 bits on every machine, and `work` and the results begin at a multiple of 8 bytes. */
#ifndef CLASPWILLOW_H
#define CLASPWILLOW_H

#include <stdint.h>

#ifdef __cplusplus
extern "C" {
#endif

/* The numbers that a call gives. */
enum {
    CLASPWILLOW_DONE = 0,
    CLASPWILLOW_BAD_CONTEXT = 1,
    CLASPWILLOW_BAD_WORK = 2,
    CLASPWILLOW_BAD_POLICY = 3,
    CLASPWILLOW_ZERO_WEIGHT = 4,
    CLASPWILLOW_POLICY_TOO_LARGE = 5,
    CLASPWILLOW_NODES_FULL = 6,
    CLASPWILLOW_TABLE_FULL = 7,
    CLASPWILLOW_CACHE_FULL = 8,
    CLASPWILLOW_FUEL_SPENT = 9,
    CLASPWILLOW_NOT_A_COST = 10,
    CLASPWILLOW_LIMITS_EXCEEDED = 11,
    CLASPWILLOW_TOP_LEVEL_NON_SAFE = 12,
    CLASPWILLOW_OUTPUT_TOO_SMALL = 13,
    CLASPWILLOW_BAD_TREE = 14, /* of a replay, a broken log too */
    CLASPWILLOW_ILL_TYPED = 15,
    CLASPWILLOW_TREE_TOO_LARGE = 16,
    CLASPWILLOW_NO_ENTRY = 17,
    CLASPWILLOW_KEY_TOO_LARGE = 18,
    CLASPWILLOW_TREE_TOO_TALL = 19,
    CLASPWILLOW_OTHER_INDEX = 20,
    CLASPWILLOW_TOO_MANY_VARIABLES = 21,
    CLASPWILLOW_NOT_BASE_B = 22,
    CLASPWILLOW_UNSAFE = 23,
    CLASPWILLOW_MALLEABLE = 24,
    CLASPWILLOW_LOCALLY_INVALID = 25,
    CLASPWILLOW_OTHER_MEANING = 26
};

/* The contexts. */
enum {
    CLASPWILLOW_SEGWIT_V0 = 0,
    CLASPWILLOW_TAPSCRIPT = 1
};

/* The stack in bytes that covers each entry's worst known input, on every machine where bench/machines has measured it; no proof speaks of the stack. */
enum {
    CLASPWILLOW_COMPILE_STACK = 655360,
    CLASPWILLOW_CHOOSE_STACK = 1245184,
    CLASPWILLOW_WRITE_STACK = 16384,
    CLASPWILLOW_CHECK_STACK = 4096,
    CLASPWILLOW_SCRIPT_STACK = 131072,
    CLASPWILLOW_DIFFER_STACK = 131072,
    CLASPWILLOW_WITNESS_STACK = 8192,
    CLASPWILLOW_REPLAY_STACK = 131072,
    CLASPWILLOW_INDEX_STACK = 8192,
    CLASPWILLOW_FIND_STACK = 8192,
    CLASPWILLOW_ACCEPT_STACK = 65536,
    CLASPWILLOW_TO_NEW_STACK = 32768,
    CLASPWILLOW_TO_OLD_STACK = 32768
};

/* Compiles a policy. Writes the records of its tree to the front of `out`, and gives how many bytes they are in *bytes, the bits of the tree's
 * cost (a double) in *cost and the nodes used in *nodes. Where no witness satisfies the tree, *never is 1 and *cost 0; else *never is 0. On a
 * refusal all four are 0 and `out` is as it was.
 * `work` is lent: claspwillow_compile_work() words, of any content; they are all zero afterwards, whatever the call gives. */
uint32_t claspwillow_compile(uint32_t context, const uint8_t *policy, uint64_t policy_len, uint8_t *out, uint64_t out_len, uint64_t *work,
                             uint64_t work_len, uint64_t *bytes, uint64_t *cost, uint32_t *never, uint64_t *nodes);

/* The one length of `work`, in words, that claspwillow_compile takes. */
uint64_t claspwillow_compile_work(void);

/* The first half of claspwillow_compile: searches, and leaves the chosen tree in `work`. Gives how many bytes it has in *bytes, and the other three as
 * claspwillow_compile does; CLASPWILLOW_OUTPUT_TOO_SMALL is given for more than 4,096 records alone. On a refusal all four are 0.
 * `work` is lent: claspwillow_choose_work() words, of any content. Afterwards it holds the tree and nothing else: how many bytes it has in word 0, then
 * the bytes, eight to a word, the least significant first, then zeros; on a refusal it is all zero. */
uint32_t claspwillow_choose(uint32_t context, const uint8_t *policy, uint64_t policy_len, uint64_t *work, uint64_t work_len, uint64_t *bytes,
                            uint64_t *cost, uint32_t *never, uint64_t *nodes);

/* The one length of `work`, in words, that claspwillow_choose takes. */
uint64_t claspwillow_choose_work(void);

/* The second half: writes the tree that `work` holds, whoever filled it, to the front of `out`, and gives how many bytes it is in *bytes. Memory that
 * holds no tree is CLASPWILLOW_BAD_WORK. On a refusal *bytes is 0 and `out` is as it was.
 * `work` is lent: claspwillow_write_work() words; they are all zero afterwards, whatever the call gives. */
uint32_t claspwillow_write(uint8_t *out, uint64_t out_len, uint64_t *work, uint64_t work_len, uint64_t *bytes);

/* The one length of `work`, in words, that claspwillow_write takes. */
uint64_t claspwillow_write_work(void);

/* Checks a fragment tree and gives its root's packed type in *ty (0 on a refusal).
 * `work` is lent: claspwillow_check_work() words, of any content; they are all zero afterwards, whatever the call gives. */
uint32_t claspwillow_check(uint32_t context, const uint8_t *tree, uint64_t tree_len, uint64_t *work, uint64_t work_len, uint32_t *ty);

/* The one length of `work`, in words, that claspwillow_check takes. */
uint64_t claspwillow_check_work(void);

/* Writes the script of a fragment tree to the front of `out`, and gives how many bytes it is in *bytes. Keys and hashes come from tables, entry i
 * at i times its size: `keys` has entries of 33 bytes (context 0) or 32 (context 1), `key_hashes` the keys' HASH160 values of 20, `hashes32` of
 * 32 (SHA256 and HASH256), `hashes20` of 20 (RIPEMD160 and HASH160). On a refusal *bytes is 0 and `out` is as it was.
 * `work` is lent: claspwillow_script_work() words, of any content; they are all zero afterwards, whatever the call gives. */
uint32_t claspwillow_script(uint32_t context, const uint8_t *tree, uint64_t tree_len, const uint8_t *keys, uint64_t keys_len,
                            const uint8_t *key_hashes, uint64_t key_hashes_len, const uint8_t *hashes32, uint64_t hashes32_len,
                            const uint8_t *hashes20, uint64_t hashes20_len, uint8_t *out, uint64_t out_len, uint64_t *work, uint64_t work_len,
                            uint64_t *bytes);

/* The one length of `work`, in words, that claspwillow_script takes. */
uint64_t claspwillow_script_work(void);

/* Lists what differs between two fragment trees: from the roots, children left to right, the first place on each path where kind, number, k, n or
 * keys differ. A difference is 8 bytes at the front of `out`, the record's number in `left` and that in `right`, 4 bytes each, the least
 * significant first; *differences says how many there are. On a refusal *differences is 0 and `out` is as it was.
 * `work` is lent: claspwillow_differ_work() words, of any content; they are all zero afterwards, whatever the call gives. */
uint32_t claspwillow_differ(uint32_t context, const uint8_t *left, uint64_t left_len, const uint8_t *right, uint64_t right_len, uint8_t *out,
                            uint64_t out_len, uint64_t *work, uint64_t work_len, uint64_t *differences);

/* The one length of `work`, in words, that claspwillow_differ takes. */
uint64_t claspwillow_differ_work(void);

/* What a spend of a fragment tree costs: *found is 1 if there is a way to satisfy the tree, and *smallest and *largest are then the fewest and
 * the most bytes of a witness that does; else, and on a refusal, all three are 0.
 * `work` is lent: claspwillow_witness_work() words, of any content; they are all zero afterwards, whatever the call gives. */
uint32_t claspwillow_witness(uint32_t context, const uint8_t *tree, uint64_t tree_len, uint64_t *work, uint64_t work_len, uint32_t *found,
                             uint64_t *smallest, uint64_t *largest);

/* The one length of `work`, in words, that claspwillow_witness takes. */
uint64_t claspwillow_witness_work(void);

/* Runs every recorded spend of a log again (docs/ENTRIES.md has the log's form). Writes a report of 8 bytes for each entry to the front of
 * `reports`, in the log's order: the entry's number, then 0 if the run agrees with what was recorded, 1 if it differs, 2 if the outcomes are
 * mismatched or 3 if it is too large, 4 bytes each, the least significant first; *entries says how many there are. On a refusal *entries is 0
 * and `reports` is as it was.
 * `work` is lent: claspwillow_replay_work() words, of any content; they are all zero afterwards, whatever the call gives. */
uint32_t claspwillow_replay(const uint8_t *log, uint64_t log_len, uint8_t *reports, uint64_t reports_len, uint64_t *work, uint64_t work_len,
                            uint64_t *entries);

/* The one length of `work`, in words, that claspwillow_replay takes. */
uint64_t claspwillow_replay_work(void);

/* Writes the index of a fragment tree to the front of `out`: 16 bytes for each record, record 0 first, and in *bytes how many in all. An entry is the
 * packed type, the height, the first byte and the length of the record's fragment in the script, 4 bytes each, the least significant first. On a
 * refusal *bytes is 0 and `out` is as it was.
 * `work` is lent: claspwillow_index_work() words, of any content; they are all zero afterwards, whatever the call gives. */
uint32_t claspwillow_index(uint32_t context, const uint8_t *tree, uint64_t tree_len, uint8_t *out, uint64_t out_len, uint64_t *work,
                           uint64_t work_len, uint64_t *bytes);

/* The one length of `work`, in words, that claspwillow_index takes. */
uint64_t claspwillow_index_work(void);

/* Looks byte `at` of a tree's script up, the first being 0: *found is 1 if the script has it, and *record is then the record of the innermost fragment
 * that holds it; else, and on a refusal, both are 0. 20 is given where `index` is not what claspwillow_index writes for the tree.
 * `work` is lent: claspwillow_find_work() words, of any content; they are all zero afterwards, whatever the call gives. */
uint32_t claspwillow_find(uint32_t context, const uint8_t *tree, uint64_t tree_len, const uint8_t *index, uint64_t index_len, uint64_t at,
                          uint64_t *work, uint64_t work_len, uint32_t *found, uint32_t *record);

/* The one length of `work`, in words, that claspwillow_find takes. */
uint64_t claspwillow_find_work(void);

/* Whether a fragment tree from elsewhere stands for a policy: 0 exactly if both are read, the tree is of base B, safe and not malleable, every
 * fragment in it is locally valid, both have at most 12 variables together, and the two mean the same under every assignment to them.
 * `work` is lent: claspwillow_accept_work() words, of any content; they are all zero afterwards, whatever the call gives. */
uint32_t claspwillow_accept(uint32_t context, const uint8_t *policy, uint64_t policy_len, const uint8_t *tree, uint64_t tree_len, uint64_t *work,
                            uint64_t work_len);

/* The one length of `work`, in words, that claspwillow_accept takes. */
uint64_t claspwillow_accept_work(void);

/* Moves a policy to the form in which keys have 64 bits: every record of kind 3 becomes one of kind 19, all else stays, and so does the order. Writes
 * the moved policy to the front of `out`, and gives how many bytes it is in *bytes. On a refusal *bytes is 0 and `out` is as it was. */
uint32_t claspwillow_to_new(const uint8_t *policy, uint64_t policy_len, uint8_t *out, uint64_t out_len, uint64_t *bytes);

/* Moves a policy to the form in which keys have 32 bits, every record of kind 19 becoming one of kind 3; 18 is given if a key is over 4,294,967,295.
 * Else as claspwillow_to_new. */
uint32_t claspwillow_to_old(const uint8_t *policy, uint64_t policy_len, uint8_t *out, uint64_t out_len, uint64_t *bytes);

#ifdef __cplusplus
}
#endif

#endif
