/* Numbers at random and what has to hold of them, for the programs whose name PROGRAM is. */
#ifndef ODD_H
#define ODD_H

#include <stdint.h>
#include <stdio.h>
#include <stdlib.h>

static uint64_t seed;

static uint32_t any(void)
{
    seed = seed * 6364136223846793005u + 1442695040888963407u;
    return (uint32_t)(seed >> 32);
}

static void expect(int holds, const char *what)
{
    if (!holds) {
        printf("%s: %s\n", PROGRAM, what);
        exit(1);
    }
}

#endif
