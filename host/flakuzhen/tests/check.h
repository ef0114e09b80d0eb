/* What the C programs here share: facts that must hold, and a count of those that do not. */
#include <stdio.h>

static int wrong = 0;

static void check(int holds, const char *what)
{
    if (!holds) {
        printf("wrong: %s\n", what);
        wrong++;
    }
}
#define CHECK(fact) check((fact) != 0, #fact)
