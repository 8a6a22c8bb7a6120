/* The start of a program, its way out and its writing, by the Linux kernel's own calls or by a page's two functions (wasm32); and what compilers call
 * of a C library without being asked: copies of memory, and divisions and conversions that a machine of 32 bits has no instruction for. */
#include "machine.h"

#if defined __wasm32__

__attribute__((import_module("host"), import_name("write"))) void host_write(const char *bytes, uint32_t count);

void machine_write(const char *bytes, uint32_t count) { host_write(bytes, count); }

__attribute__((export_name("run"))) int run(void) { return machine_run(); }

#else

typedef __UINTPTR_TYPE__ word;

#if defined __x86_64__
__asm__(".globl _start\n_start: xorl %ebp, %ebp\n andq $-16, %rsp\n call start\n hlt\n");
enum { WRITE = 1, EXIT = 60 };
static word call(word number, word x, word y, word z) {
    __asm__ volatile("syscall" : "+a"(number) : "D"(x), "S"(y), "d"(z) : "rcx", "r11", "memory");
    return number;
}
#elif defined __i386__
__asm__(".globl _start\n_start: xorl %ebp, %ebp\n andl $-16, %esp\n call start\n hlt\n");
enum { WRITE = 4, EXIT = 1 };
static word call(word number, word x, word y, word z) {
    __asm__ volatile("int $0x80" : "+a"(number) : "b"(x), "c"(y), "d"(z) : "memory");
    return number;
}
#elif defined __aarch64__
__asm__(".globl _start\n_start: mov x29, xzr\n bl start\n brk #1\n");
enum { WRITE = 64, EXIT = 93 };
static word call(word number, word x, word y, word z) {
    register word r8 __asm__("x8") = number;
    register word r0 __asm__("x0") = x;
    register word r1 __asm__("x1") = y;
    register word r2 __asm__("x2") = z;
    __asm__ volatile("svc #0" : "+r"(r0) : "r"(r8), "r"(r1), "r"(r2) : "memory");
    return r0;
}
#elif defined __arm__
__asm__(".globl _start\n_start: mov r11, #0\n bl start\n udf #0\n");
enum { WRITE = 4, EXIT = 1 };
static word call(word number, word x, word y, word z) {
    register word r7 __asm__("r7") = number;
    register word r0 __asm__("r0") = x;
    register word r1 __asm__("r1") = y;
    register word r2 __asm__("r2") = z;
    __asm__ volatile("svc #0" : "+r"(r0) : "r"(r7), "r"(r1), "r"(r2) : "memory");
    return r0;
}
#endif

void machine_write(const char *bytes, uint32_t count) { call(WRITE, 1, (word)bytes, count); }

void start(void) { call(EXIT, (word)machine_run(), 0, 0); }

#endif

void say(const char *text) {
    uint32_t count = 0;
    while (text[count] != 0) {
        count++;
    }
    machine_write(text, count);
}

void say_number(uint32_t number) {
    char text[10];
    int at = 10;
    do {
        text[--at] = (char)('0' + number % 10);
        number /= 10;
    } while (number != 0);
    machine_write(text + at, (uint32_t)(10 - at));
}

typedef __SIZE_TYPE__ size;

void *memcpy(void *to, const void *from, size count) {
    for (size i = 0; i < count; i++) {
        ((uint8_t *)to)[i] = ((const uint8_t *)from)[i];
    }
    return to;
}

void *memmove(void *to, const void *from, size count) {
    if ((size)to <= (size)from) {
        return memcpy(to, from, count);
    }
    while (count-- > 0) {
        ((uint8_t *)to)[count] = ((const uint8_t *)from)[count];
    }
    return to;
}

/* Whole words where they fit: work memory is cleared by this. */
void *memset(void *to, int value, size count) {
    const size word = (size)-1 / 255 * (uint8_t)value;
    size i = 0;
    for (; i < count && ((size)to + i) % sizeof word != 0; i++) {
        ((uint8_t *)to)[i] = (uint8_t)value;
    }
    for (; i + sizeof word <= count; i += sizeof word) {
        *(size *)((uint8_t *)to + i) = word;
    }
    for (; i < count; i++) {
        ((uint8_t *)to)[i] = (uint8_t)value;
    }
    return to;
}

#if defined __i386__ || defined __arm__

uint64_t divide(uint64_t number, uint64_t by, uint64_t *rest) {
    uint64_t quotient = 0;
    *rest = 0;
    for (int i = 63; i >= 0; i--) {
        *rest = *rest << 1 | (number >> i & 1);
        if (*rest >= by) {
            *rest -= by;
            quotient |= (uint64_t)1 << i;
        }
    }
    return quotient;
}

#endif

#if defined __i386__

uint64_t __udivdi3(uint64_t number, uint64_t by) {
    uint64_t rest;
    return divide(number, by, &rest);
}

uint64_t __umoddi3(uint64_t number, uint64_t by) {
    uint64_t rest;
    divide(number, by, &rest);
    return rest;
}

#elif defined __arm__

/* The quotient in the low half, the remainder in the high one. */
uint64_t __aeabi_uidivmod(uint32_t number, uint32_t by) {
    uint64_t rest;
    const uint64_t quotient = divide(number, by, &rest);
    return rest << 32 | quotient;
}

uint32_t __aeabi_uidiv(uint32_t number, uint32_t by) {
    uint64_t rest;
    return (uint32_t)divide(number, by, &rest);
}

/* The quotient in the first two registers, the remainder in the next two. */
__asm__(".globl __aeabi_uldivmod\n__aeabi_uldivmod: push {r11, lr}\n sub sp, sp, #16\n add r12, sp, #8\n str r12, [sp]\n bl divide\n"
        " ldrd r2, r3, [sp, #8]\n add sp, sp, #16\n pop {r11, pc}\n");

/* Both halves are exact, so that their sum is rounded once. */
__attribute__((pcs("aapcs"))) double __aeabi_ul2d(uint64_t number) {
    return (double)(uint32_t)(number >> 32) * 4294967296.0 + (double)(uint32_t)number;
}

#endif
