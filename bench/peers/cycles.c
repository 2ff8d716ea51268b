/* Cycles made, let go and collected by the library, for a comparison with other languages: bench/peers/run.sh.
 *
 *   cycles [SIZE [LIVE]]: 200000 and 100000 where they are left out. 2 SIZE + LIVE is at most 1000000, the limit.
 *
 * Each line is one shape: its name, and the nanoseconds for each object to make it and let it go, and to collect it. A tab is
 * between them. Collecting is cc_settle, and what was told is fetched. The time is the processor's. */
#include "ccollect.h"
#include <stdio.h>
#include <stdlib.h>
#include <time.h>

static void check(uint32_t status, const char *call, int line) {
    if (status == CC_OK) return;
    fprintf(stderr, "cycles.c:%d: %s answered %u\n", line, call, status);
    exit(1);
}
#define TRY(call) check((call), #call, __LINE__)

static const cc_object nothing = {0, 0, 0, CC_NOTHING};
static cc_collector c = CC_COLLECTOR_CLOSED;

static double now(void) { return (double)clock() * (1e9 / CLOCKS_PER_SEC); }

/* A cycle of so many natives. Two roots take turns, so that one still holds the last where the next is made. */
static void make_natives(unsigned natives) {
    cc_object first, last, made;
    TRY(cc_new_native(&c, 0, 1, &first));
    last = first;
    for (unsigned i = 1; i < natives; i++) {
        TRY(cc_new_native(&c, (uint16_t)(1 + i % 2), 1, &made));
        TRY(cc_store(&c, &made, 0, &last));
        last = made;
    }
    TRY(cc_store(&c, &first, 0, &last));
}

/* The native holds a script object, which holds the reflector of another native. */
static void link_by_script(const cc_object *native, const cc_object *other) {
    cc_object closure, reflector;
    TRY(cc_new_plain(&c, 0, 1, &closure));
    TRY(cc_wrap(&c, other, &reflector));
    TRY(cc_store(&c, &closure, 0, &reflector));
    TRY(cc_store(&c, native, 0, &closure));
}

/* A cycle of so many natives, each with a script object and a reflector between it and the next. */
static void make_with_script(unsigned natives) {
    cc_object first, last, made;
    TRY(cc_new_native(&c, 0, 1, &first));
    last = first;
    for (unsigned i = 1; i < natives; i++) {
        TRY(cc_new_native(&c, (uint16_t)(1 + i % 2), 1, &made));
        link_by_script(&made, &last);
        last = made;
    }
    link_by_script(&first, &last);
}

static void let_go(void) {
    for (uint16_t r = 0; r < 3; r++) TRY(cc_set_native_root(&c, r, &nothing));
    TRY(cc_set_script_root(&c, 0, &nothing));
}

/* Those that live: a chain of natives. */
static void make_live(unsigned live) {
    cc_object last = nothing, made;
    for (unsigned i = 0; i < live; i++) {
        TRY(cc_new_native(&c, (uint16_t)(3 + i % 2), 1, &made));
        TRY(cc_store(&c, &made, 0, &last));
        last = made;
    }
    TRY(cc_settle(&c));
}

static unsigned long fetch(void) {
    cc_told told;
    unsigned long freed = 0;
    while (cc_next_told(&c, &told) == CC_OK) freed += told.what == CC_FREED;
    return freed;
}

/* So many cycles of so many natives each, beside so many that live. */
static void run(const char *name, unsigned cycles, unsigned natives, int has_script, unsigned live) {
    const unsigned long objects = (unsigned long)cycles * natives * (has_script ? 3 : 1);
    uint64_t natives_left, scripts_left;
    TRY(cc_open(&c, 1000000, 1000000));
    make_live(live);
    (void)fetch();
    const double start = now();
    for (unsigned i = 0; i < cycles; i++) {
        if (has_script)
            make_with_script(natives);
        else
            make_natives(natives);
        let_go();
    }
    const double made = now();
    TRY(cc_settle(&c));
    const unsigned long freed = fetch();
    const double end = now();
    TRY(cc_natives(&c, &natives_left));
    TRY(cc_scripts(&c, &scripts_left));
    if (freed != objects || natives_left != live || scripts_left != 0) {
        fprintf(stderr, "cycles.c: %s: %lu of %lu objects were freed\n", name, freed, objects);
        exit(1);
    }
    cc_close(&c);
    printf("%s%s\t%.0f\t%.0f\n", name, live != 0 ? ", beside others that live" : "", (made - start) / (double)objects,
           (end - made) / (double)objects);
}

int main(int count, char **words) {
    const unsigned size = count > 1 ? (unsigned)strtoul(words[1], NULL, 10) : 200000;
    const unsigned live = count > 2 ? (unsigned)strtoul(words[2], NULL, 10) : 100000;
    for (unsigned beside = 0; beside < 2; beside++) {
        run("cycles of two", size, 2, 0, beside * live);
        run("one ring", 1, size, 0, beside * live);
        run("cycles with script", size, 1, 1, beside * live);
        run("one ring with script", 1, size, 1, beside * live);
    }
    return 0;
}
