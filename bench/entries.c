/* Calls the entries as a C program does, through the header: document 01's whole case is compiled, and its tree checked and written as a script. */
#include <stdio.h>
#include <stdlib.h>

#include "claspwillow.h"

int main(void) {
    static const uint8_t policy[] = {0x08, 0x00, 0x03, 0x00, 0x07, 0x00, 0x00, 0x00};
    const uint64_t compile_words = claspwillow_compile_work();
    const uint64_t check_words = claspwillow_check_work();
    const uint64_t script_words = claspwillow_script_work();
    uint64_t *work = malloc((size_t)compile_words * sizeof *work);
    static const uint8_t keys[8 * 33];
    uint8_t tree[64], script[64];
    /* On i686 a uint64_t may otherwise begin at any multiple of 4. */
    uint64_t bytes __attribute__((aligned(8))), cost __attribute__((aligned(8))), nodes __attribute__((aligned(8)));
    uint64_t i;
    uint32_t number, never, ty;

    if (work == NULL) {
        fputs("entries: no memory\n", stderr);
        return 1;
    }
    number = claspwillow_compile(CLASPWILLOW_SEGWIT_V0, policy, sizeof policy, tree, sizeof tree, work, compile_words, &bytes, &cost, &never,
                                 &nodes);
    printf("the whole case: number %u, tree", (unsigned)number);
    for (i = 0; i < bytes; i++) {
        printf(" %02X", (unsigned)tree[i]);
    }
    if (never == 1) {
        printf(", cost never");
    } else {
        printf(", cost bits %016llX", (unsigned long long)cost);
    }
    printf(", %u nodes", (unsigned)nodes);
    if (number == CLASPWILLOW_DONE) {
        number = claspwillow_check(CLASPWILLOW_SEGWIT_V0, tree, bytes, work, check_words, &ty);
        printf("; its check: number %u, type %u", (unsigned)number, (unsigned)ty);
    }
    if (number == CLASPWILLOW_DONE) {
        const uint64_t records = bytes;
        number = claspwillow_script(CLASPWILLOW_SEGWIT_V0, tree, records, keys, sizeof keys, keys, 0, keys, 0, keys, 0, script, sizeof script,
                                    work, script_words, &bytes);
        printf("; its script: number %u, %u bytes", (unsigned)number, (unsigned)bytes);
        if (bytes > 0) {
            printf(" from %02X to %02X", (unsigned)script[0], (unsigned)script[bytes - 1]);
        }
    }
    putchar('\n');
    free(work);
    return number == CLASPWILLOW_DONE ? 0 : 1;
}
