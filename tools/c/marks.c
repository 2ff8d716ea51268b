/* Marks, texts, the version, and an allocator of the program's own.
 *
 * - Collectors that are opened one after another, and by several threads at one time, never have the same mark: an object, a root
 *   and a weak reference that were kept of a closed one are CC_FOREIGN to the next, also where it stands in the same place and
 *   has made the same objects.
 * - Where no mark is left cc_open answers so.
 * - Each status has a text, and no two have the same.
 * - CC_VERSION and CC_VERSION_TEXT say the same.
 *
 * The three functions of memory are this program's, and count: each collector that is closed gave back all. So ccollect_heap.c is
 * within it, without its own three, and the program is built without that file. */
#define CC_OWN_MEMORY
#include "ccollect_heap.c"
#include "expect.h"
#include <pthread.h>
#include <stdatomic.h>
#include <string.h>

/* An allocator of its own. */

struct tried { bool ok; void *p; };
struct tried rattle_alloc(size_t n, size_t align);
struct tried rattle_realloc(void *p, size_t kept, size_t n, size_t align);
void rattle_dealloc(void *p);

static atomic_long blocks; /* that were taken and not given back */

struct tried rattle_alloc(size_t n, size_t align) {
    struct tried tried = {false, NULL};
    if (align > 16 || (tried.p = malloc(n != 0 ? n : 1)) == NULL) return tried;
    tried.ok = true;
    blocks++;
    return tried;
}

struct tried rattle_realloc(void *p, size_t kept, size_t n, size_t align) {
    struct tried tried = rattle_alloc(n, align);
    if (!tried.ok || p == NULL) return tried;
    memcpy(tried.p, p, kept < n ? kept : n);
    rattle_dealloc(p);
    return tried;
}

void rattle_dealloc(void *p) {
    if (p != NULL) blocks--;
    free(p);
}

/* One collector after another, in one place. */

struct kept {
    cc_object native, plain;
    cc_root root;
    cc_weak weak;
};

static struct kept make(cc_collector *c) {
    struct kept made;
    TRY(cc_open(c, 100, 100));
    TRY(cc_new_native(c, 0, 1, &made.native));
    TRY(cc_new_plain(c, 0, 1, &made.plain));
    TRY(cc_hold(c, &made.native, &made.root));
    TRY(cc_weak_of(c, &made.native, &made.weak));
    return made;
}

static void keep_over_a_close(void) {
    cc_collector c = CC_COLLECTOR_CLOSED;
    const struct kept before = make(&c);
    WANT(cc_open(&c, 100, 100), CC_OPEN);
    TRY(cc_is_there(&c, &before.native));
    cc_close(&c);
    HOLDS(blocks == 0);
    const struct kept after = make(&c);
    cc_object found;
    cc_root root;
    uint32_t ended;
    /* but for the mark each is what it was */
    HOLDS(before.native.key == after.native.key && before.native.number == after.native.number);
    HOLDS(before.root.serial == after.root.serial && before.root.index == after.root.index);
    HOLDS(before.native.mark != after.native.mark && before.native.mark != 0 && after.native.mark != 0);
    HOLDS(before.root.mark == before.native.mark && before.weak.mark == before.native.mark);
    WANT(cc_is_there(&c, &before.native), CC_FOREIGN);
    WANT(cc_store(&c, &before.native, 0, &after.plain), CC_FOREIGN);
    WANT(cc_store(&c, &after.native, 0, &before.plain), CC_FOREIGN);
    WANT(cc_set_script_root(&c, 0, &before.plain), CC_FOREIGN);
    WANT(cc_held(&c, &before.root, &found), CC_FOREIGN);
    WANT(cc_release(&c, &before.root), CC_FOREIGN);
    WANT(cc_ended(&c, &before.weak, &ended), CC_FOREIGN);
    WANT(cc_upgrade(&c, &before.weak, &root, &found), CC_FOREIGN);
    TRY(cc_release(&c, &after.root));
    cc_close(&c);
    HOLDS(blocks == 0);
    printf("what was kept of a closed collector is of another one\n");
}

/* A collector that moves to another place. */
static void move(void) {
    static const cc_collector closed = CC_COLLECTOR_CLOSED;
    cc_collector here = CC_COLLECTOR_CLOSED, there;
    const struct kept made = make(&here);
    there = here;
    here = closed;
    WANT(cc_is_there(&here, &made.native), CC_CLOSED);
    TRY(cc_store(&there, &made.native, 0, &made.plain));
    TRY(cc_release(&there, &made.root));
    TRY(cc_settle(&there));
    cc_close(&here);
    TRY(cc_is_there(&there, &made.plain));
    cc_close(&there);
    HOLDS(blocks == 0);
    printf("a collector moves\n");
}

/* Threads that draw at one time. */

enum { THREADS = 8, EACH = 1000 };
static uint64_t marks[THREADS][EACH];

static void *open_many(void *mine) {
    for (unsigned i = 0; i < EACH; i++) {
        cc_collector c = CC_COLLECTOR_CLOSED;
        cc_object made;
        TRY(cc_open(&c, 1, 0));
        TRY(cc_new_native(&c, 0, 0, &made));
        ((uint64_t *)mine)[i] = made.mark;
        cc_close(&c);
    }
    return NULL;
}

static int by_size(const void *a, const void *b) {
    const uint64_t x = *(const uint64_t *)a, y = *(const uint64_t *)b;
    return x < y ? -1 : x > y;
}

static void draw_at_one_time(void) {
    pthread_t threads[THREADS];
    uint64_t *all = &marks[0][0];
    for (unsigned i = 0; i < THREADS; i++) HOLDS(pthread_create(&threads[i], NULL, open_many, marks[i]) == 0);
    for (unsigned i = 0; i < THREADS; i++) HOLDS(pthread_join(threads[i], NULL) == 0);
    qsort(all, (size_t)THREADS * EACH, sizeof *all, by_size);
    for (unsigned i = 1; i < THREADS * EACH; i++) HOLDS(all[i] == all[i - 1] + 1);
    HOLDS(blocks == 0);
    printf("%d collectors of %d threads have marks of their own\n", THREADS * EACH, THREADS);
}

/* The last mark of all. */
static void draw_the_last(void) {
    cc_collector c = CC_COLLECTOR_CLOSED;
    cc_object made;
    cc_last_mark = UINT64_MAX - 1;
    TRY(cc_open(&c, 1, 0));
    TRY(cc_new_native(&c, 0, 0, &made));
    HOLDS(made.mark == UINT64_MAX);
    cc_close(&c);
    WANT(cc_open(&c, 1, 0), CC_FULL);
    WANT(cc_gc(&c), CC_CLOSED);
    WANT(cc_open(&c, 1, 0), CC_FULL);
    TRY(cc_open_with_mark(&c, 5, 1, 0));
    cc_close(&c);
    HOLDS(blocks == 0);
    printf("no mark comes twice\n");
}

/* Where one of these is not so any more, CC_VERSION has to change. */
_Static_assert(sizeof(cc_collector) == 16 && sizeof(cc_object) == 24 && sizeof(cc_root) == 24, "another interface");
_Static_assert(sizeof(cc_weak) == 16 && sizeof(cc_told) == 24 && sizeof(cc_step) == 28, "another interface");

static void read_texts(void) {
    const char *none = cc_status_text(CC_UNFETCHED + 1);
    char version[32];
    HOLDS(none != NULL && none == cc_status_text(UINT32_MAX));
    for (cc_status s = 0; s <= CC_UNFETCHED; s++) {
        const char *text = cc_status_text(s);
        HOLDS(text != NULL && strlen(text) > 3 && strcmp(text, none) != 0);
        for (cc_status t = 0; t < s; t++) HOLDS(strcmp(text, cc_status_text(t)) != 0);
        printf("  %2u: %s\n", (unsigned)s, text);
    }
    snprintf(version, sizeof version, "%d.%d.%d", CC_VERSION / 10000, CC_VERSION / 100 % 100, CC_VERSION % 100);
    HOLDS(strcmp(version, CC_VERSION_TEXT) == 0);
}

int main(void) {
    read_texts();
    keep_over_a_close();
    move();
    draw_at_one_time();
    draw_the_last();
    return 0;
}
