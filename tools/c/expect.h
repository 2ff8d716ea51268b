/* expect.h: what a program of this folder expects of a call. Where it is not so, the program says where, and ends with 1. */
#ifndef EXPECT_H
#define EXPECT_H
#include "ccollect.h"
#include <stdio.h>
#include <stdlib.h>

static inline void expect_status(cc_status status, cc_status wanted, const char *call, const char *file, int line) {
    if (status == wanted) return;
    printf("%s:%d: %s answered \"%s\", not \"%s\"\n", file, line, call, cc_status_text(status), cc_status_text(wanted));
    exit(1);
}

static inline void expect_truth(int is_so, const char *what, const char *file, int line) {
    if (is_so) return;
    printf("%s:%d: this is not so: %s\n", file, line, what);
    exit(1);
}

/* The call answers this status. */
#define WANT(call, wanted) expect_status((call), (wanted), #call, __FILE__, __LINE__)
/* The call answers CC_OK. */
#define TRY(call) WANT(call, CC_OK)
/* This is so. */
#define HOLDS(what) expect_truth((what) ? 1 : 0, #what, __FILE__, __LINE__)
#endif
