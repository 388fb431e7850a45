/* For the test alone, on x86-64: the kit's compiler comes without C headers. A program of your own uses its system's. */
#ifndef STAND_IN_STDINT_H
#define STAND_IN_STDINT_H
typedef __UINT8_TYPE__ uint8_t;
typedef __UINT32_TYPE__ uint32_t;
typedef __UINTPTR_TYPE__ uintptr_t;
#endif
