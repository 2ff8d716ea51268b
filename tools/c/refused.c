/* Each allocation refused in turn.
 *
 * A program makes objects, wraps, holds, refers weakly, sets entries and collects. It is run again and again, with its first
 * allocation refused, then its second, and so on; then the same with two and with five in a row. Whatever is refused: what the
 * roots reach is as it was, and the program asks again and goes on. At the end it settles. Nothing may be left, each object was
 * told as freed once, and all memory was given back.
 *
 *   refused [WAYS]: with 1 in a row alone where WAYS is 1, with 1 and 2 where it is 2, else with all three.
 *
 * This file has ccollect_heap.c within it, with malloc and free counted. So it is built without it. */
#include <stdlib.h>

static long blocks; /* that malloc gave and free did not get */

static void *counted_malloc(size_t size) {
    void *block = malloc(size);
    if (block != NULL) blocks++;
    return block;
}

static void *counted_realloc(void *old, size_t size) {
    void *block = realloc(old, size);
    if (block != NULL && old == NULL) blocks++;
    return block;
}

static void counted_free(void *block) {
    if (block != NULL) blocks--;
    free(block);
}

#define malloc counted_malloc
#define realloc counted_realloc
#define free counted_free
#include "ccollect_heap.c"
#undef malloc
#undef realloc
#undef free

#include "ccollect.h"
#include "expect.h"
#include <string.h>

static const cc_object nothing = {0, 0, 0, CC_NOTHING};

/* Which allocations are refused: so many in a row, from this one on. They are counted from 1. */
static long asked, first_refused, in_a_row;

static int refuses(void) {
    asked++;
    return asked >= first_refused && asked < first_refused + in_a_row;
}

/* What the program knows. */
enum { ELEMENTS = 6, ROUNDS = 3, MADE = ELEMENTS * ROUNDS, PLAIN_MADE = 3 * MADE + ROUNDS, REFLECTORS = MADE };

struct program {
    cc_collector c;
    cc_object native[ELEMENTS], reflector[ELEMENTS], listener[ELEMENTS], note[ELEMENTS], proxy[ELEMENTS], map;
    cc_root held[ELEMENTS];
    cc_weak weak[ELEMENTS];
    bool is_held[ELEMENTS];
    unsigned freed_natives[MADE + 1], freed_scripts[PLAIN_MADE + 1];
    unsigned natives_made, scripts_made, reflectors_freed;
    long refusals, given_up, told_given_up;
};

/* A picture of what the roots reach: a number that the objects, their slots and the entries of the map make up. */

struct picture {
    cc_object seen[64];
    unsigned count;
    uint64_t sum;
};

static void mix(struct picture *p, uint64_t number) {
    p->sum = (p->sum ^ number) * 1099511628211u;
    p->sum ^= p->sum >> 29;
}

static void see(struct picture *p, const cc_object *x) {
    mix(p, (uint64_t)x->kind << 32 | x->number);
    if (x->kind == CC_NOTHING) return;
    for (unsigned i = 0; i < p->count; i++)
        if (p->seen[i].kind == x->kind && p->seen[i].number == x->number) return;
    HOLDS(p->count < sizeof p->seen / sizeof p->seen[0]);
    p->seen[p->count++] = *x;
}

static uint64_t take_picture(struct program *m) {
    struct picture p = {.sum = 14695981039346656037u};
    cc_object x;
    uint16_t slots;
    for (uint16_t r = 0; r < ELEMENTS; r++) {
        TRY(cc_native_root(&m->c, r, &x));
        see(&p, &x);
        TRY(cc_script_root(&m->c, r, &x));
        see(&p, &x);
        if (m->is_held[r]) {
            TRY(cc_held(&m->c, &m->held[r], &x));
            see(&p, &x);
        }
    }
    for (unsigned i = 0; i < p.count; i++) {
        TRY(cc_slots(&m->c, &p.seen[i], &slots));
        mix(&p, slots);
        for (uint16_t j = 0; j < slots; j++) {
            TRY(cc_slot(&m->c, &p.seen[i], j, &x));
            see(&p, &x);
        }
        uint64_t data;
        TRY(cc_data(&m->c, &p.seen[i], &data));
        mix(&p, data);
        if (p.seen[i].kind == CC_REFLECTOR) {
            TRY(cc_unwrap(&m->c, &p.seen[i], &x));
            see(&p, &x);
        }
    }
    if (m->map.kind != CC_NOTHING && cc_is_there(&m->c, &m->map) == CC_OK)
        for (unsigned i = 0; i < p.count; i++)
            if (p.seen[i].kind == CC_SCRIPT || p.seen[i].kind == CC_REFLECTOR) {
                TRY(cc_entry(&m->c, &m->map, &p.seen[i], &x));
                mix(&p, (uint64_t)x.kind << 32 | x.number);
            }
    return p.sum;
}

static void fetch(struct program *m) {
    cc_told told;
    while (cc_next_told(&m->c, &told) == CC_OK) {
        if (told.what == CC_ABANDONED) m->told_given_up++;
        if (told.what != CC_FREED) continue;
        /* each element and its reflector were given a number, and of script objects the listeners */
        HOLDS(told.data == 1000u * told.kind + told.number || (told.kind == CC_SCRIPT && told.data == 0));
        if (told.kind == CC_NATIVE) {
            HOLDS(told.number < sizeof m->freed_natives / sizeof m->freed_natives[0]);
            m->freed_natives[told.number]++;
        } else if (told.kind == CC_SCRIPT) {
            HOLDS(told.number < sizeof m->freed_scripts / sizeof m->freed_scripts[0]);
            m->freed_scripts[told.number]++;
        } else
            m->reflectors_freed++;
    }
}

/* A call that is asked again until there is memory for it. Where there was none, what the roots reach is as it was. */
#define ASK(m, call)                                                                                  \
    do {                                                                                              \
        uint64_t before_;                                                                             \
        uint32_t answer_;                                                                             \
        while (before_ = picture_before(m), (answer_ = (call)) == CC_NO_MEMORY)                       \
            after_refusal(m, before_, #call, __LINE__);                                               \
        expect_status(answer_, CC_OK, #call, __FILE__, __LINE__);                                     \
        fetch(m);                                                                                     \
    } while (0)

/* The same of a collection, which leaves what the roots reach also where it is done. */
#define COLLECT(m, call)                                        \
    do {                                                        \
        const uint64_t first_ = take_picture(m);                \
        ASK(m, call);                                           \
        if (first_ != take_picture(m)) {                        \
            printf("%s changed what the roots reach\n", #call); \
            exit(1);                                            \
        }                                                       \
    } while (0)

/* None is taken where nothing can be refused any more. */
static uint64_t picture_before(struct program *m) {
    return asked < first_refused + in_a_row - 1 ? take_picture(m) : 0;
}

static void after_refusal(struct program *m, uint64_t before, const char *call, int line) {
    m->refusals++;
    fetch(m);
    if (m->refusals > in_a_row || take_picture(m) != before) {
        printf("refused.c:%d: allocation %ld was refused, and %s left another graph, or was refused for ever\n", line,
               first_refused, call);
        exit(1);
    }
}

static void give_number(struct program *m, const cc_object *x) {
    ASK(m, cc_set_data(&m->c, x, 1000u * x->kind + x->number));
}

static void make_element(struct program *m, uint16_t i) {
    cc_object found;
    /* root 0 still holds the one before, which must stay there where this one finds no memory */
    ASK(m, cc_new_native(&m->c, 0, 2, &m->native[i]));
    m->natives_made++;
    ASK(m, cc_set_native_root(&m->c, i, &m->native[i]));
    give_number(m, &m->native[i]);
    ASK(m, cc_hold(&m->c, &m->native[i], &m->held[i]));
    m->is_held[i] = true;
    TRY(cc_weak_of(&m->c, &m->native[i], &m->weak[i]));
    ASK(m, cc_wrap(&m->c, &m->native[i], &m->reflector[i]));
    ASK(m, cc_set_script_root(&m->c, 0, &m->reflector[i]));
    give_number(m, &m->reflector[i]);
    ASK(m, cc_new_plain(&m->c, 1, 2, &m->listener[i]));
    m->scripts_made++;
    give_number(m, &m->listener[i]);
    ASK(m, cc_store(&m->c, &m->listener[i], 0, &m->reflector[i]));
    ASK(m, cc_store(&m->c, &m->native[i], 0, &m->listener[i]));
    ASK(m, cc_new_plain(&m->c, 3, 1, &m->note[i]));
    m->scripts_made++;
    ASK(m, cc_store(&m->c, &m->note[i], 0, &m->listener[i]));
    ASK(m, cc_set_entry(&m->c, &m->map, &m->reflector[i], &m->note[i]));
    ASK(m, cc_new_proxy(&m->c, 4, &m->listener[i], &m->proxy[i]));
    m->scripts_made++;
    ASK(m, cc_set_entry(&m->c, &m->map, &m->proxy[i], &m->note[i]));
    TRY(cc_entry(&m->c, &m->map, &m->proxy[i], &found));
    HOLDS(found.number == m->note[i].number);
    if (i > 0) ASK(m, cc_store(&m->c, &m->native[i], 1, &m->native[i - 1]));
}

static void ask_why(struct program *m, const cc_object *x) {
    cc_step step;
    uint32_t led;
    ASK(m, cc_why(&m->c, x, &led));
    HOLDS(led == 1);
    while (cc_next_step(&m->c, &step) == CC_OK) continue;
    HOLDS(step.kind == x->kind && step.number == x->number);
}

static void go_through_slices(struct program *m) {
    uint32_t over = 0, running = 0;
    for (unsigned i = 0; over == 0 && i < 1000; i++) {
        /* one that is given up is over too, and the next slice begins another */
        COLLECT(m, cc_slice(&m->c, 3, &over));
        TRY(cc_running(&m->c, &running));
        HOLDS(running == 1 - over);
    }
    HOLDS(over == 1);
}

static void go_through_marking(struct program *m) {
    uint32_t over = 0, marking = 0;
    for (unsigned i = 0; over == 0 && i < 1000; i++) {
        COLLECT(m, cc_mark(&m->c, 3, &over));
        TRY(cc_marking(&m->c, &marking));
        HOLDS(marking == 1 - over);
    }
    HOLDS(over == 1);
}

/* The weak references of a round answer that their natives have ended, and no memory is asked for. */
static void follow_none(struct program *m) {
    const long before = asked;
    cc_object found;
    cc_root root;
    for (uint16_t i = 0; i < ELEMENTS; i++) {
        WANT(cc_upgrade(&m->c, &m->weak[i], &root, &found), CC_NONE);
        WANT(cc_upgrade_into(&m->c, 1, &m->weak[i], &found), CC_NONE);
    }
    HOLDS(asked == before);
}

/* One round: six elements, of which each holds the one before; half of them are let go, then the rest. */
static void go_round(struct program *m) {
    uint32_t over;
    ASK(m, cc_new_map(&m->c, 2, &m->map));
    m->scripts_made++;
    for (uint16_t i = 0; i < ELEMENTS; i++) make_element(m, i);
    ask_why(m, &m->note[ELEMENTS - 1]);
    for (uint16_t i = 0; i < ELEMENTS; i++) ASK(m, cc_set_native_root(&m->c, i, &nothing));
    for (uint16_t r = 0; r < ELEMENTS; r++)
        if (r != 2) ASK(m, cc_set_script_root(&m->c, r, &nothing));
    COLLECT(m, cc_gc(&m->c));
    for (uint16_t i = ELEMENTS / 2; i < ELEMENTS; i++) {
        ASK(m, cc_release(&m->c, &m->held[i]));
        m->is_held[i] = false;
    }
    COLLECT(m, cc_gc(&m->c));
    go_through_slices(m);
    go_through_marking(m);
    ask_why(m, &m->note[0]);
    /* a marking goes on, and collect brings it to its end; then a collection runs, and mark brings that to its end */
    ASK(m, cc_mark(&m->c, 1, &over));
    COLLECT(m, cc_collect(&m->c));
    ASK(m, cc_slice(&m->c, 2, &over));
    COLLECT(m, cc_mark(&m->c, 2, &over));
    /* a collection runs while the rest is let go, and gc brings it to its end */
    ASK(m, cc_slice(&m->c, 2, &over));
    for (uint16_t i = 0; i < ELEMENTS / 2; i++) {
        ASK(m, cc_release(&m->c, &m->held[i]));
        m->is_held[i] = false;
    }
    COLLECT(m, cc_gc(&m->c));
    COLLECT(m, cc_settle(&m->c));
    follow_none(m);
}

static void check_end(struct program *m) {
    uint64_t natives, scripts;
    unsigned freed = 0;
    ASK(m, cc_set_script_root(&m->c, 2, &nothing));
    ASK(m, cc_settle(&m->c));
    TRY(cc_scripts(&m->c, &scripts));
    TRY(cc_natives(&m->c, &natives));
    HOLDS(scripts == 0 && natives == 0);
    for (unsigned i = 0; i < sizeof m->freed_natives / sizeof m->freed_natives[0]; i++) {
        HOLDS(m->freed_natives[i] <= 1);
        freed += m->freed_natives[i];
    }
    HOLDS(m->natives_made == MADE && freed == MADE);
    freed = 0;
    for (unsigned i = 0; i < sizeof m->freed_scripts / sizeof m->freed_scripts[0]; i++) {
        HOLDS(m->freed_scripts[i] <= 1);
        freed += m->freed_scripts[i];
    }
    HOLDS(m->scripts_made == PLAIN_MADE && freed == PLAIN_MADE && m->reflectors_freed == REFLECTORS);
}

static void open_collector(struct program *m) {
    uint32_t status;
    while ((status = cc_open(&m->c, 1000, 1000)) == CC_NO_MEMORY) {
        HOLDS(blocks == 0 && ++m->refusals <= in_a_row);
        WANT(cc_gc(&m->c), CC_CLOSED);
    }
    expect_status(status, CC_OK, "cc_open", __FILE__, __LINE__);
}

static void close_collector(struct program *m) {
    cc_close(&m->c);
    if (blocks == 0) return;
    printf("allocation %ld was refused, and %ld blocks were not given back\n", first_refused, blocks);
    exit(1);
}

/* A native is brought back into the first root without number, for which memory is wanted. */
static void bring_back(struct program *m) {
    cc_object kept, found;
    cc_weak weak;
    cc_root root;
    ASK(m, cc_new_native(&m->c, 0, 2, &kept));
    ASK(m, cc_store(&m->c, &kept, 0, &kept));
    TRY(cc_weak_of(&m->c, &kept, &weak));
    ASK(m, cc_set_native_root(&m->c, 0, &nothing));
    ASK(m, cc_upgrade(&m->c, &weak, &root, &found));
    TRY(cc_held(&m->c, &root, &found));
    HOLDS(found.kind == CC_NATIVE && found.number == kept.number);
}

/* A collector is closed with all that it has, while a collection runs. */
static void close_in_the_middle(struct program *m) {
    uint32_t over, running;
    bring_back(m);
    ASK(m, cc_new_map(&m->c, 2, &m->map));
    for (uint16_t i = 0; i < ELEMENTS; i++) make_element(m, i);
    ASK(m, cc_release(&m->c, &m->held[0]));
    m->is_held[0] = false;
    ASK(m, cc_gc(&m->c));
    ASK(m, cc_slice(&m->c, 4, &over));
    TRY(cc_running(&m->c, &running));
    HOLDS(running == 1 && over == 0);
}

/* NOTHING IS FETCHED, and no memory is there any more. Each collection is given up, which is told, until there is no room for
 * what the next one could tell: from then on none does anything. What was told is all there, and once it is fetched they go on. */
static void fetch_nothing(struct program *m) {
    cc_object made;
    cc_told told;
    long given_up = 0;
    uint32_t status, over;
    memset(m, 0, sizeof *m);
    first_refused = in_a_row = 0;
    open_collector(m);
    TRY(cc_new_native(&m->c, 0, 1, &made));
    TRY(cc_store(&m->c, &made, 0, &made));
    TRY(cc_set_native_root(&m->c, 0, &nothing));
    asked = 0;
    first_refused = 1;
    in_a_row = 1000000;
    while ((status = cc_collect(&m->c)) == CC_NO_MEMORY) HOLDS(++given_up < 1000000);
    HOLDS(status == CC_UNFETCHED && given_up > 0);
    WANT(cc_slice(&m->c, 1, &over), CC_UNFETCHED);
    WANT(cc_settle(&m->c), CC_UNFETCHED);
    WANT(cc_gc(&m->c), CC_UNFETCHED);
    WANT(cc_mark(&m->c, 1, &over), CC_UNFETCHED);
    TRY(cc_is_there(&m->c, &made));
    while (cc_next_told(&m->c, &told) == CC_OK) {
        HOLDS(told.what == CC_ABANDONED);
        given_up--;
    }
    HOLDS(given_up == 0);
    WANT(cc_collect(&m->c), CC_NO_MEMORY);
    first_refused = in_a_row = 0;
    TRY(cc_settle(&m->c));
    WANT(cc_is_there(&m->c, &made), CC_GONE);
    close_collector(m);
    printf("nothing was fetched, and nothing was lost\n");
}

/* One run of the program. Whether an allocation was refused in it. */
static bool run(long first, long row, struct program *m) {
    memset(m, 0, sizeof *m);
    asked = 0;
    first_refused = first;
    in_a_row = row;
    open_collector(m);
    for (unsigned i = 0; i < ROUNDS; i++) go_round(m);
    check_end(m);
    close_collector(m);
    const long refusals = m->refusals, given_up = m->told_given_up;
    memset(m, 0, sizeof *m);
    m->refusals = refusals;
    m->told_given_up = given_up;
    open_collector(m);
    close_in_the_middle(m);
    close_collector(m);
    return asked >= first;
}

int main(int count, char **words) {
    static const long rows[] = {1, 2, 5};
    static struct program m;
    unsigned ways = count > 1 ? (unsigned)strtoul(words[1], NULL, 10) : 3;
    cc_heap_refuses = refuses;
    for (unsigned i = 0; i < ways && i < sizeof rows / sizeof rows[0]; i++) {
        long first = 1, answered = 0, given_up = 0;
        for (; run(first, rows[i], &m); first++) {
            answered += m.refusals;
            given_up += m.told_given_up;
        }
        printf("%ld allocations, each refused, %ld in a row: %ld times CC_NO_MEMORY, %ld collections given up\n", first - 1,
               rows[i], answered, given_up);
    }
    printf("no object was lost, and no memory\n");
    fetch_nothing(&m);
    return 0;
}
