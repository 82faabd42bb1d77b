/* What the clients hold: each claim is counted, and one that fails is named with its place. In what C99 and C++ share. */
#ifndef HOLD_H
#define HOLD_H

#include <stdio.h>

static unsigned held = 0, failed = 0;

static void hold(int so, const char *what, const char *file, int line)
{
    held++;
    if (!so) {
        failed++;
        fprintf(stderr, "%s:%d: it is not so that %s\n", file, line, what);
    }
}

#define HOLD(so) hold((so), #so, __FILE__, __LINE__)

/* The last line of a client, and its exit status. */
static int told(void)
{
    printf("%u held, %u failed\n", held, failed);
    return failed != 0;
}

#endif
