/* For the toolchain's compiler, which brings no headers: what include/jilbaroof.h and calls.c use of each, and no more. */
typedef __SIZE_TYPE__ size_t;
#define NULL ((void *)0)
