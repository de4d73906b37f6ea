/*
 * Runs the build of the file tool for this processor's level. Both builds are in one program, and each one's `main` has a name
 * of its own. On a processor that no build runs on, the status is 127. After the version it prints the level, and the KIT that
 * proved both builds.
 */
#include "../c/levels/level.h"

#include <stdio.h>
#include <string.h>

int main_v2(int count, char **arguments, char **environment);
int main_v3(int count, char **arguments, char **environment);

int main(int count, char **arguments, char **environment)
{
    const int level = level_here();
    if (level == 0) {
        (void)fputs("hunkravy: this processor is too old: x86-64-v2 is needed (SSE4.2, POPCNT)\n", stderr);
        return 127;
    }
    const int status = (level == 3 ? main_v3 : main_v2)(count, arguments, environment);
    if (status == 0 && count == 2 && strcmp(arguments[1], "--version") == 0) {
        return printf("built for x86-64-v%d\ncipher proved by %s\n", level, KIT) < 0 || fflush(stdout) != 0;
    }
    return status;
}
