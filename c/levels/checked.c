/*
 * The checked functions that gcc calls with -D_FORTIFY_SOURCE, for C libraries that lack them, such as musl. They are an
 * object of their own in the static library, and the shared one has those of glibc. A program exports none of them to its
 * shared libraries.
 */
#include <stdlib.h>
#include <string.h>

#define OWN __attribute__((weak, visibility("hidden")))
OWN void *__memcpy_chk(void *to, const void *from, size_t length, size_t room);
OWN char *__stpcpy_chk(char *to, const char *from, size_t room);

void *__memcpy_chk(void *to, const void *from, size_t length, size_t room)
{
    if (length > room) {
        abort();
    }
    return memcpy(to, from, length);
}

char *__stpcpy_chk(char *to, const char *from, size_t room)
{
    const size_t length = strlen(from);
    return (char *)__memcpy_chk(to, from, length + 1, room) + length;
}
