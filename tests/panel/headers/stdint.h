/* The fixed widths that the C face uses, on x86-64: the kit's clang comes with no headers. */
#ifndef TESTS_STDINT_H
#define TESTS_STDINT_H

typedef unsigned char uint8_t;
typedef unsigned int uint32_t;
typedef unsigned long uint64_t;

#endif
