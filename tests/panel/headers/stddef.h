/* The size that the C face uses, on x86-64: the kit's clang comes with no headers. */
#ifndef TESTS_STDDEF_H
#define TESTS_STDDEF_H

typedef unsigned long size_t;

#endif
