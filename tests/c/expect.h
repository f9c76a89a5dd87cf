/* What the tests share: expectations, counted, and the calls' last refusal. */
#ifndef EXPECT_H
#define EXPECT_H

#include <hulemartob.h>
#include <stdio.h>
#include <string.h>

static int tried, failed;
static hulemartob_error error;

static void expect(int met, const char *what, int line) {
    tried += 1;
    if (!met) {
        failed += 1;
        printf("line %d: %s\n", line, what);
    }
}
#define EXPECT(met) expect((met), #met, __LINE__)

static int refused(uint64_t number, uint64_t value) { return error.number == number && error.value == value; }

/* How many were tried, and how many not met. */
static int ended(void) {
    printf("%d tried, %d not met\n", tried, failed);
    return failed != 0;
}

#endif
