/* For the test alone, on x86-64: the kit's compiler comes without C headers. A program of your own uses its system's. */
#ifndef STAND_IN_STDDEF_H
#define STAND_IN_STDDEF_H
typedef __SIZE_TYPE__ size_t;
#ifdef __cplusplus
#define NULL 0
#else
#define NULL ((void *)0)
#endif
#endif
