/*
 * Which level of x86-64 this processor has. The library and the program that starts the file tool choose a build by it.
 *
 * The lists have what x86-64-v2 adds to x86-64, and x86-64-v3 to x86-64-v2: leaf and bit of the instruction cpuid, in its
 * register ebx for leaf 7 and ecx for the others, and the name in /proc/cpuinfo. The Makefile and the tests read the names
 * from here.
 */
#ifndef HUNKRAVY_LEVEL_H
#define HUNKRAVY_LEVEL_H

#include <cpuid.h>
#include <stdint.h>

#define LEVEL_2(OLDER_FEATURE)                                                                    \
    OLDER_FEATURE(1, bit_SSE3, pni)                                                               \
    OLDER_FEATURE(1, bit_SSSE3, ssse3)                                                            \
    OLDER_FEATURE(1, bit_CMPXCHG16B, cx16)                                                        \
    OLDER_FEATURE(1, bit_SSE4_1, sse4_1)                                                          \
    OLDER_FEATURE(1, bit_SSE4_2, sse4_2)                                                          \
    OLDER_FEATURE(1, bit_POPCNT, popcnt)                                                          \
    OLDER_FEATURE(0x80000001, bit_LAHF_LM, lahf_lm)

#define LEVEL_3(FEATURE)                                                                          \
    FEATURE(1, bit_AVX, avx)                                                                      \
    FEATURE(1, bit_F16C, f16c)                                                                    \
    FEATURE(1, bit_FMA, fma)                                                                      \
    FEATURE(1, bit_MOVBE, movbe)                                                                  \
    FEATURE(1, bit_OSXSAVE, xsave)                                                                \
    FEATURE(7, bit_AVX2, avx2)                                                                    \
    FEATURE(7, bit_BMI, bmi1)                                                                     \
    FEATURE(7, bit_BMI2, bmi2)                                                                    \
    FEATURE(0x80000001, bit_LZCNT, abm)

/* Returns whether the processor has the features of a leaf that a level adds. */
static int has_leaf(int level, unsigned leaf)
{
#define OF_LEAF(LEAF, BIT, NAME) (leaf == (LEAF) ? (unsigned)(BIT) : 0U) |
    const unsigned needed = level == 2 ? LEVEL_2(OF_LEAF) 0U : LEVEL_3(OF_LEAF) 0U;
#undef OF_LEAF
    unsigned eax, ebx, ecx, edx;
    return __get_cpuid_count(leaf, 0, &eax, &ebx, &ecx, &edx) && ((leaf == 7 ? ebx : ecx) & needed) == needed;
}

/* Returns whether the system saves the registers of AVX. */
static int saves_avx(void)
{
    uint32_t low, high;
    __asm__("xgetbv" : "=a"(low), "=d"(high) : "c"(0));
    return (low & 6) == 6;
}

/* Returns the level that the processor and the system have: 3, 2, or 0 for an older one, which no build runs on. */
static int level_here(void)
{
    if (!has_leaf(2, 1) || !has_leaf(2, 0x80000001)) {
        return 0;
    }
    return has_leaf(3, 1) && has_leaf(3, 7) && has_leaf(3, 0x80000001) && saves_avx() ? 3 : 2;
}

#endif
