/* What the C tests share: expectations counted, the closing line that says how many held, and buffers seen to be untouched. */
#ifndef EXPECT_H
#define EXPECT_H

#include <stddef.h>
#include <stdint.h>
#include <stdio.h>

static unsigned passed, failed;

static void expect(int holds, const char *name)
{
    if (holds) {
        passed++;
    } else {
        failed++;
        printf("FAILED: %s\n", name);
    }
}

/* What buffers are filled with before a call. */
#define FILL 0x55

/* Whether every byte from the first to the last is still what the buffer was filled with. */
static inline int untouched(const uint8_t *buffer, size_t first, size_t end)
{
    while (first < end && buffer[first] == FILL) {
        first++;
    }
    return first == end;
}

/* Prints the closing line; the exit status of main. */
static int close_tests(void)
{
    printf("%u passed, %u failed\n", passed, failed);
    return failed == 0 ? 0 : 1;
}

#endif
