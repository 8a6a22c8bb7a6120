/* The integers that include/claspwillow.h uses, where there is no C library. */
#ifndef MACHINE_STDINT_H
#define MACHINE_STDINT_H

typedef __UINT8_TYPE__ uint8_t;
typedef __UINT32_TYPE__ uint32_t;
typedef __UINT64_TYPE__ uint64_t;

#endif
