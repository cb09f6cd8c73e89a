/* Checks that print what does not hold, and a last line. For a C file of its own, compiled as C or as C++. */
#include <stdio.h>
#include <string.h>

static int checks, failures;

static void check(int holds, const char *what, const char *file, int line)
{
    checks++;
    if (!holds) {
        failures++;
        printf("%s:%d: %s\n", file, line, what);
    }
}
#define CHECK(what) check((what), #what, __FILE__, __LINE__)

static int checked(const char *of)
{
    printf("%d checks of %s, %d fail\n", checks, of, failures);
    return failures != 0;
}
