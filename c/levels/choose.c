/*
 * The names of the library's functions, over its builds for two processor levels.
 *
 * Each name branches on a flag, which a constructor sets once: to the build for x86-64-v3 if the processor and the system
 * have that level, and otherwise, or before that, to the one for x86-64-v2. No table names the functions, so a linker can
 * drop those that a program does not call. join.sh compiles this file and writes exports.h, a line EXPORT(NAME) for each
 * function. With HUNKRAVY_LEVEL the library is one build alone, and nothing is chosen.
 */
#if !defined HUNKRAVY_LEVEL || HUNKRAVY_LEVEL > 1
#include "level.h"
#endif

int hunkravy_level(void);

#ifdef HUNKRAVY_LEVEL

int hunkravy_level(void)
{
#if HUNKRAVY_LEVEL > 1
    if (level_here() < HUNKRAVY_LEVEL) {
        return 0;
    }
#endif
    return HUNKRAVY_LEVEL;
}

#else

int hunkravy_level(void)
{
    return level_here();
}

__attribute__((used)) static char hunkravy_has_level_3;

__attribute__((constructor)) static void choose(void)
{
    hunkravy_has_level_3 = level_here() == 3;
}

#define EXPORT(NAME) \
    void hunkravy_##NAME(void); \
    __attribute__((naked)) void hunkravy_##NAME(void) \
    { \
        __asm__("cmpb $0, hunkravy_has_level_3(%rip)\n jne hunkravy_v3_" #NAME "\n jmp hunkravy_v2_" #NAME); \
    }
#include "exports.h"

#endif
