/* Roots by the million.
 *
 * A native and a script object are held by a million roots, of which every other one is released and given out again. Each root
 * in use holds what it was given, each one that was released is refused, places are given out again before there are more of
 * them, and both objects go with the last root.
 *
 *   many [ROOTS]: 1000000 where it is left out. */
#include "ccollect.h"
#include "expect.h"

static const cc_object nothing = {0, 0, 0, CC_NOTHING};
static cc_collector c = CC_COLLECTOR_CLOSED;
static cc_object held_by[2];

static void expect_held(const cc_root *root, const cc_object *x) {
    cc_object found;
    TRY(cc_held(&c, root, &found));
    HOLDS(found.kind == x->kind && found.number == x->number && found.key == x->key && found.mark == x->mark);
}

static uint64_t count_objects(void) {
    uint64_t natives, scripts;
    TRY(cc_natives(&c, &natives));
    TRY(cc_scripts(&c, &scripts));
    return natives + scripts;
}

int main(int count, char **words) {
    const uint32_t many = count > 1 ? (uint32_t)strtoul(words[1], NULL, 10) : 1000000;
    cc_root *const roots = malloc(many * sizeof *roots), *const released = malloc(many * sizeof *released);
    cc_object found;
    cc_told told;
    HOLDS(roots != NULL && released != NULL);
    /* as many objects as there may be: a root is none */
    TRY(cc_open(&c, 1, 1));
    TRY(cc_new_native(&c, 0, 0, &held_by[0]));
    TRY(cc_new_plain(&c, 0, 0, &held_by[1]));
    for (uint32_t i = 0; i < many; i++) TRY(cc_hold(&c, &held_by[i % 2], &roots[i]));
    for (uint32_t i = 0; i < many; i += 2) {
        TRY(cc_release(&c, &roots[i]));
        released[i] = roots[i];
    }
    /* the place of a native gets a script object, and the other way round */
    for (uint32_t i = 0; i < many; i += 2) {
        TRY(cc_hold(&c, &held_by[i / 2 % 2], &roots[i]));
        HOLDS(roots[i].index < many);
    }
    TRY(cc_set_native_root(&c, 0, &nothing));
    TRY(cc_set_script_root(&c, 0, &nothing));
    TRY(cc_settle(&c));
    HOLDS(count_objects() == 2);
    WANT(cc_next_told(&c, &told), CC_NONE);
    for (uint32_t i = 0; i < many; i++) {
        expect_held(&roots[i], &held_by[(i % 2 == 0 ? i / 2 : i) % 2]);
        if (i % 2 == 0) {
            WANT(cc_held(&c, &released[i], &found), CC_GONE);
            WANT(cc_release(&c, &released[i]), CC_GONE);
        }
    }
    printf("%lu roots hold two objects\n", (unsigned long)many);
    for (uint32_t i = many; i-- > 0;) TRY(cc_release(&c, &roots[i]));
    TRY(cc_settle(&c));
    HOLDS(count_objects() == 0);
    for (unsigned i = 0; i < 2; i++) {
        TRY(cc_next_told(&c, &told));
        HOLDS(told.what == CC_FREED);
    }
    WANT(cc_next_told(&c, &told), CC_NONE);
    cc_close(&c);
    free(roots);
    free(released);
    printf("they were released, and both objects are gone\n");
    return 0;
}
