/* Each stop of each call.
 *
 * A table has a row for each status that a call of ccollect.h can answer because of what it is handed, or of what its collector
 * is: the call, its arguments, and the status. Rows with two causes say which of them is answered.
 *
 * Then each call is made with each choice of arguments: objects of each kind, that are there, gone, unlinked, of another collector,
 * made up, and none at all; roots and weak references likewise; and indexes within bounds and beyond. What it has to answer is
 * told by the header's one sentence: CC_CLOSED; of the objects, roots and weak references in the order in which they are handed in
 * CC_FOREIGN, CC_GONE, CC_KIND of each, but CC_KIND first of what is no object; CC_INDEX; CC_FULL.
 *
 * Each of these calls is made while memory is refused, too. CC_NO_MEMORY comes of those calls alone that the header names, and
 * of each of them; from those but that make an object only where they would be done.
 *
 * A call that is stopped writes none of its out-parameters, and changes nothing that can be read. What comes of want of memory at
 * each single allocation is the matter of refused.c, and the last mark that of marks.c. */
#include "ccollect.h"
#include "expect.h"
#include <stdbool.h>
#include <string.h>

/* THINGS that are handed in. */

enum thing {
    NOTHING,
    NATIVE,        /* with two slots */
    SECOND,        /* with one */
    PLAIN,         /* with one */
    MAP,           /* PLAIN has an entry in it */
    REFLECTOR,     /* of NATIVE, with four slots */
    PROXY,         /* of PLAIN */
    GONE_NATIVE,
    GONE_PLAIN,
    GONE_REFLECTOR,
    UNLINKED,      /* a native that was told as unlinked, and that its reflector still holds */
    LAST,          /* that reflector, which was made last, with four slots */
    OTHER_KEY,     /* NATIVE, with a key that none has */
    OTHER_NUMBER,  /* PLAIN, with a number that none has */
    ALIEN_NATIVE,  /* of the other collector, and so on */
    ALIEN_PLAIN,
    ALIEN_GONE,
    NO_NUMBER,     /* NATIVE, with number 0 */
    NO_KIND,       /* NATIVE, of kind 77 */
    ALIEN_NOTHING, /* of kind CC_NOTHING, with another collector's mark */
    OBJECTS,
    HELD = OBJECTS, /* a root that holds PLAIN */
    RELEASED,      /* one that was released, in the place of HELD */
    ALIEN_ROOT,
    MADE_UP_ROOT,  /* beyond all places */
    ZERO_ROOT,
    ROOTS,
    WEAK = ROOTS,  /* of NATIVE */
    WEAK_ENDED,    /* of GONE_NATIVE */
    WEAK_UNLINKED, /* of UNLINKED */
    WEAK_MADE_UP,  /* of a number that none has */
    ALIEN_WEAK,
    ZERO_WEAK,
    THINGS
};

static cc_object objects[THINGS];
static cc_root roots[THINGS];
static cc_weak weaks[THINGS];

/* THE COLLECTORS: one that is open; one that has made all that it may; one whose queue is full, and which is refused memory; and
 * one that is closed. */
enum which { OPEN, FULL, CROWDED, CLOSED, COLLECTORS };

static cc_collector collectors[COLLECTORS];

/* What a thing is, for the sentence. */
enum what { IS_NONE, IS_NATIVE, IS_PLAIN, IS_MAP, IS_REFLECTOR, IS_PROXY };
static const struct {
    enum what what;
    enum which of;
    bool is_gone, has_ended, is_last;
    uint16_t slots;
} facts[THINGS] = {
    [NATIVE] = {IS_NATIVE, .slots = 2},
    [SECOND] = {IS_NATIVE, .slots = 1},
    [PLAIN] = {IS_PLAIN, .slots = 1},
    [MAP] = {IS_MAP},
    [REFLECTOR] = {IS_REFLECTOR, .slots = 4},
    [PROXY] = {IS_PROXY},
    [GONE_NATIVE] = {IS_NATIVE, .is_gone = true},
    [GONE_PLAIN] = {IS_PLAIN, .is_gone = true},
    [GONE_REFLECTOR] = {IS_REFLECTOR, .is_gone = true},
    [UNLINKED] = {IS_NATIVE, .is_gone = true},
    [LAST] = {IS_REFLECTOR, .is_last = true, .slots = 4},
    [OTHER_KEY] = {IS_NATIVE, .is_gone = true},
    [OTHER_NUMBER] = {IS_PLAIN, .is_gone = true},
    [ALIEN_NATIVE] = {IS_NATIVE, FULL, .slots = 1},
    [ALIEN_PLAIN] = {IS_PLAIN, FULL, .slots = 1},
    [ALIEN_GONE] = {IS_NATIVE, FULL, .is_gone = true},
    [RELEASED] = {.is_gone = true},
    [ALIEN_ROOT] = {.of = FULL},
    [MADE_UP_ROOT] = {.is_gone = true},
    [ZERO_ROOT] = {.of = CLOSED},
    [WEAK_ENDED] = {.has_ended = true},
    [WEAK_UNLINKED] = {.has_ended = true},
    [WEAK_MADE_UP] = {.has_ended = true},
    [ALIEN_WEAK] = {.of = FULL},
    [ZERO_WEAK] = {.of = CLOSED},
};

/* Fetches all that waits. How many objects were freed, and how many natives unlinked. */
static unsigned freed, unlinked;

static void fetch(cc_collector *c) {
    cc_told told;
    freed = unlinked = 0;
    while (cc_next_told(c, &told) == CC_OK) {
        if (told.what == CC_FREED) freed++;
        if (told.what == CC_UNLINKED) unlinked++;
    }
}

static void build_open(cc_collector *c) {
    cc_object *const o = objects;
    TRY(cc_open(c, 10000, 10000));
    /* what is gone */
    TRY(cc_new_native(c, 5, 0, &o[GONE_NATIVE]));
    TRY(cc_weak_of(c, &o[GONE_NATIVE], &weaks[WEAK_ENDED]));
    TRY(cc_set_native_root(c, 5, &o[NOTHING]));
    TRY(cc_new_plain(c, 0, 1, &o[GONE_PLAIN]));
    TRY(cc_new_native(c, 1, 1, &o[SECOND]));
    TRY(cc_wrap(c, &o[SECOND], &o[GONE_REFLECTOR]));
    /* what is there */
    TRY(cc_new_native(c, 0, 2, &o[NATIVE]));
    TRY(cc_new_plain(c, 0, 1, &o[PLAIN]));
    TRY(cc_new_map(c, 1, &o[MAP]));
    TRY(cc_wrap(c, &o[NATIVE], &o[REFLECTOR]));
    TRY(cc_set_script_root(c, 2, &o[REFLECTOR]));
    TRY(cc_new_proxy(c, 3, &o[PLAIN], &o[PROXY]));
    TRY(cc_set_entry(c, &o[MAP], &o[PLAIN], &o[REFLECTOR]));
    TRY(cc_set_data(c, &o[NATIVE], 11));
    TRY(cc_set_data(c, &o[PLAIN], 12));
    TRY(cc_set_data(c, &o[REFLECTOR], 13));
    TRY(cc_hold(c, &o[NATIVE], &roots[RELEASED]));
    TRY(cc_release(c, &roots[RELEASED]));
    TRY(cc_hold(c, &o[PLAIN], &roots[HELD]));
    HOLDS(roots[HELD].index == roots[RELEASED].index);
    TRY(cc_weak_of(c, &o[NATIVE], &weaks[WEAK]));
    /* what is unlinked, and held by a script object */
    TRY(cc_new_native(c, 5, 0, &o[UNLINKED]));
    TRY(cc_weak_of(c, &o[UNLINKED], &weaks[WEAK_UNLINKED]));
    TRY(cc_wrap(c, &o[UNLINKED], &o[LAST]));
    TRY(cc_store(c, &o[LAST], 0, &o[LAST]));
    TRY(cc_set_native_root(c, 5, &o[NOTHING]));
    TRY(cc_gc(c));
    fetch(c);
    HOLDS(freed == 3 && unlinked == 0);
    TRY(cc_collect(c));
    fetch(c);
    HOLDS(freed == 0 && unlinked == 1);
    /* what is made up */
    o[OTHER_KEY] = o[NO_NUMBER] = o[NO_KIND] = o[NATIVE];
    o[OTHER_NUMBER] = o[PLAIN];
    o[OTHER_KEY].key = 4000000000u;
    o[OTHER_NUMBER].number = 999;
    o[NO_NUMBER].number = 0;
    o[NO_KIND].kind = 77;
    roots[MADE_UP_ROOT] = roots[HELD];
    roots[MADE_UP_ROOT].index = 4294967295u;
    weaks[WEAK_MADE_UP] = weaks[WEAK];
    weaks[WEAK_MADE_UP].number = 999;
}

/* All that it may make is made, and one of it is gone. */
static void build_full(cc_collector *c) {
    TRY(cc_open(c, 2, 1));
    TRY(cc_new_native(c, 0, 1, &objects[ALIEN_GONE]));
    TRY(cc_new_native(c, 0, 1, &objects[ALIEN_NATIVE]));
    TRY(cc_new_plain(c, 0, 1, &objects[ALIEN_PLAIN]));
    TRY(cc_hold(c, &objects[ALIEN_PLAIN], &roots[ALIEN_ROOT]));
    TRY(cc_weak_of(c, &objects[ALIEN_NATIVE], &weaks[ALIEN_WEAK]));
    objects[ALIEN_NOTHING].mark = objects[ALIEN_NATIVE].mark;
    fetch(c);
}

static int refuses(void) { return 1; }

/* Each collection is refused memory, which it tells, until there is no room for what the next one could tell. */
static void build_crowded(cc_collector *c) {
    cc_object made;
    cc_status status;
    TRY(cc_open(c, 1, 1));
    TRY(cc_new_native(c, 0, 1, &made));
    TRY(cc_store(c, &made, 0, &made));
    TRY(cc_set_native_root(c, 0, &objects[NOTHING]));
    cc_heap_refuses = refuses;
    for (unsigned i = 0; (status = cc_collect(c)) == CC_NO_MEMORY; i++) HOLDS(i < 1000000);
    cc_heap_refuses = NULL;
    HOLDS(status == CC_UNFETCHED);
}

static void close_all(void) {
    for (unsigned i = 0; i < COLLECTORS; i++) cc_close(&collectors[i]);
}

static void build(void) {
    close_all();
    build_open(&collectors[OPEN]);
    build_full(&collectors[FULL]);
    build_crowded(&collectors[CROWDED]);
}

/* CALLS. */

enum call {
    OPENS, OPENS_WITH_MARK,
    NEW_NATIVE, NEW_PLAIN, NEW_MAP, NEW_PROXY,
    SET_NATIVE_ROOT, SET_SCRIPT_ROOT, NATIVE_ROOT, SCRIPT_ROOT, HOLD, RELEASE, HELD_BY,
    WEAK_OF, UPGRADE, UPGRADE_INTO, ENDED,
    SLOTS, SLOT, STORE, MOVE_SLOT,
    WRAP, UNWRAP, PRESERVE, REFLECTOR_OF, IS_PRESERVED, KIND, DELEGATE,
    SET_ENTRY, UNSET_ENTRY, ENTRY,
    NEXT_OBJECT, NEXT_ENTRY,
    SLICE, COLLECT, GC, MARK, MARKING, SETTLE, RUNNING, FORGET,
    NEXT_TOLD, IS_THERE, NATIVES, SCRIPTS, HAS_SUSPECTS, BYTES, IS_DUE, WHY, NEXT_STEP, DATA, SET_DATA,
    CALLS
};

/* What a parameter takes. */
enum takes {
    NONE,
    ANY, A_NATIVE, A_SCRIPT, A_REFLECTOR, A_MAP,    /* an object */
    ANY_OBJECT, ANY_NATIVE, ANY_SCRIPT, CONTENT,    /* or nothing; what a slot of the first takes, or nothing */
    A_ROOT, A_WEAK,
    ROOT_NUMBER, COUNT, SLOT_OF_X, SLOT_OF_Y, LIMIT /* a number */
};

static const struct {
    const char *name;
    enum takes x, y, z, i, j;
} shapes[CALLS] = {
    [OPENS] = {"cc_open", .i = LIMIT, .j = LIMIT},
    [OPENS_WITH_MARK] = {"cc_open_with_mark", .i = LIMIT, .j = LIMIT},
    [NEW_NATIVE] = {"cc_new_native", .i = ROOT_NUMBER, .j = COUNT},
    [NEW_PLAIN] = {"cc_new_plain", .i = ROOT_NUMBER, .j = COUNT},
    [NEW_MAP] = {"cc_new_map", .i = ROOT_NUMBER},
    [NEW_PROXY] = {"cc_new_proxy", .x = A_SCRIPT, .i = ROOT_NUMBER},
    [SET_NATIVE_ROOT] = {"cc_set_native_root", .x = ANY_NATIVE, .i = ROOT_NUMBER},
    [SET_SCRIPT_ROOT] = {"cc_set_script_root", .x = ANY_SCRIPT, .i = ROOT_NUMBER},
    [NATIVE_ROOT] = {"cc_native_root", .i = ROOT_NUMBER},
    [SCRIPT_ROOT] = {"cc_script_root", .i = ROOT_NUMBER},
    [HOLD] = {"cc_hold", ANY},
    [RELEASE] = {"cc_release", A_ROOT},
    [HELD_BY] = {"cc_held", A_ROOT},
    [WEAK_OF] = {"cc_weak_of", A_NATIVE},
    [UPGRADE] = {"cc_upgrade", A_WEAK},
    [UPGRADE_INTO] = {"cc_upgrade_into", A_WEAK, .i = ROOT_NUMBER},
    [ENDED] = {"cc_ended", A_WEAK},
    [SLOTS] = {"cc_slots", ANY},
    [SLOT] = {"cc_slot", ANY, .i = SLOT_OF_X},
    [STORE] = {"cc_store", ANY, CONTENT, .i = SLOT_OF_X},
    [MOVE_SLOT] = {"cc_move_slot", A_NATIVE, A_NATIVE, .i = SLOT_OF_X, .j = SLOT_OF_Y},
    [WRAP] = {"cc_wrap", A_NATIVE},
    [UNWRAP] = {"cc_unwrap", A_SCRIPT},
    [PRESERVE] = {"cc_preserve", A_REFLECTOR},
    [REFLECTOR_OF] = {"cc_reflector", A_NATIVE},
    [IS_PRESERVED] = {"cc_is_preserved", A_REFLECTOR},
    [KIND] = {"cc_kind", A_SCRIPT},
    [DELEGATE] = {"cc_delegate", A_SCRIPT},
    [SET_ENTRY] = {"cc_set_entry", A_MAP, A_SCRIPT, A_SCRIPT},
    [UNSET_ENTRY] = {"cc_unset_entry", A_MAP, A_SCRIPT},
    [ENTRY] = {"cc_entry", A_MAP, A_SCRIPT},
    [NEXT_OBJECT] = {"cc_next_object", ANY_OBJECT},
    [NEXT_ENTRY] = {"cc_next_entry", A_MAP, ANY_SCRIPT},
    [SLICE] = {"cc_slice"},
    [COLLECT] = {"cc_collect"},
    [GC] = {"cc_gc"},
    [MARK] = {"cc_mark"},
    [MARKING] = {"cc_marking"},
    [SETTLE] = {"cc_settle"},
    [RUNNING] = {"cc_running"},
    [FORGET] = {"cc_forget"},
    [NEXT_TOLD] = {"cc_next_told"},
    [IS_THERE] = {"cc_is_there", ANY},
    [NATIVES] = {"cc_natives"},
    [SCRIPTS] = {"cc_scripts"},
    [HAS_SUSPECTS] = {"cc_has_suspects"},
    [BYTES] = {"cc_bytes"},
    [IS_DUE] = {"cc_is_due"},
    [WHY] = {"cc_why", ANY},
    [NEXT_STEP] = {"cc_next_step"},
    [DATA] = {"cc_data", ANY},
    [SET_DATA] = {"cc_set_data", ANY},
};

/* A call with its arguments, and what it has to answer. */
struct row {
    cc_status wanted;
    enum call call;
    enum thing x, y, z;
    uint32_t i, j;
    enum which on;
};

/* What calls write. */
static struct out {
    cc_object object, second;
    cc_root root;
    cc_weak weak;
    cc_told told;
    cc_step step;
    uint64_t wide;
    uint32_t word;
    uint16_t slots;
} out;

static cc_status perform(const struct row *w) {
    cc_collector *const c = &collectors[w->on];
    const cc_object *const x = &objects[w->x], *const y = &objects[w->y], *const z = &objects[w->z];
    const uint16_t i = (uint16_t)w->i, j = (uint16_t)w->j;
    switch (w->call) {
    case OPENS: return cc_open(c, w->i, w->j);
    case OPENS_WITH_MARK: return cc_open_with_mark(c, UINT64_MAX, w->i, w->j);
    case NEW_NATIVE: return cc_new_native(c, i, j, &out.object);
    case NEW_PLAIN: return cc_new_plain(c, i, j, &out.object);
    case NEW_MAP: return cc_new_map(c, i, &out.object);
    case NEW_PROXY: return cc_new_proxy(c, i, x, &out.object);
    case SET_NATIVE_ROOT: return cc_set_native_root(c, i, x);
    case SET_SCRIPT_ROOT: return cc_set_script_root(c, i, x);
    case NATIVE_ROOT: return cc_native_root(c, i, &out.object);
    case SCRIPT_ROOT: return cc_script_root(c, i, &out.object);
    case HOLD: return cc_hold(c, x, &out.root);
    case RELEASE: return cc_release(c, &roots[w->x]);
    case HELD_BY: return cc_held(c, &roots[w->x], &out.object);
    case WEAK_OF: return cc_weak_of(c, x, &out.weak);
    case UPGRADE: return cc_upgrade(c, &weaks[w->x], &out.root, &out.object);
    case UPGRADE_INTO: return cc_upgrade_into(c, i, &weaks[w->x], &out.object);
    case ENDED: return cc_ended(c, &weaks[w->x], &out.word);
    case SLOTS: return cc_slots(c, x, &out.slots);
    case SLOT: return cc_slot(c, x, i, &out.object);
    case STORE: return cc_store(c, x, i, y);
    case MOVE_SLOT: return cc_move_slot(c, x, i, y, j);
    case WRAP: return cc_wrap(c, x, &out.object);
    case UNWRAP: return cc_unwrap(c, x, &out.object);
    case PRESERVE: return cc_preserve(c, x);
    case REFLECTOR_OF: return cc_reflector(c, x, &out.object);
    case IS_PRESERVED: return cc_is_preserved(c, x, &out.word);
    case KIND: return cc_kind(c, x, &out.word);
    case DELEGATE: return cc_delegate(c, x, &out.object);
    case SET_ENTRY: return cc_set_entry(c, x, y, z);
    case UNSET_ENTRY: return cc_unset_entry(c, x, y);
    case ENTRY: return cc_entry(c, x, y, &out.object);
    case NEXT_OBJECT: return cc_next_object(c, x, &out.object);
    case NEXT_ENTRY: return cc_next_entry(c, x, y, &out.object, &out.second);
    case SLICE: return cc_slice(c, 1, &out.word);
    case COLLECT: return cc_collect(c);
    case GC: return cc_gc(c);
    case MARK: return cc_mark(c, 1, &out.word);
    case MARKING: return cc_marking(c, &out.word);
    case SETTLE: return cc_settle(c);
    case RUNNING: return cc_running(c, &out.word);
    case FORGET: return cc_forget(c, &out.word);
    case NEXT_TOLD: return cc_next_told(c, &out.told);
    case IS_THERE: return cc_is_there(c, x);
    case NATIVES: return cc_natives(c, &out.wide);
    case SCRIPTS: return cc_scripts(c, &out.wide);
    case HAS_SUSPECTS: return cc_has_suspects(c, &out.word);
    case BYTES: return cc_bytes(c, &out.wide);
    case IS_DUE: return cc_is_due(c, &out.word);
    case WHY: return cc_why(c, x, &out.word);
    case NEXT_STEP: return cc_next_step(c, &out.step);
    case DATA: return cc_data(c, x, &out.wide);
    case SET_DATA: return cc_set_data(c, x, 1);
    case CALLS: break;
    }
    exit(1);
}

/* A PICTURE of all that can be read of a collector: a number that it makes up. Nothing is fetched for it. */

static void mix(uint64_t *sum, uint64_t number) {
    *sum = (*sum ^ number) * 1099511628211u;
    *sum ^= *sum >> 29;
}

static void mix_object(uint64_t *sum, cc_status status, const cc_object *x) {
    mix(sum, status);
    if (status == CC_OK) mix(sum, (uint64_t)x->kind << 32 | x->number);
}

static uint64_t picture(cc_collector *c) {
    uint64_t sum = 14695981039346656037u, wide = 0;
    cc_object x;
    uint32_t word = 0;
    uint16_t slots;
    for (uint16_t r = 0; r < 8; r++) {
        mix_object(&sum, cc_native_root(c, r, &x), &x);
        mix_object(&sum, cc_script_root(c, r, &x), &x);
    }
    for (unsigned t = 0; t < OBJECTS; t++) {
        const cc_object *const o = &objects[t];
        if (cc_slots(c, o, &slots) != CC_OK) continue;
        for (uint16_t i = 0; i <= slots; i++) mix_object(&sum, cc_slot(c, o, i, &x), &x);
        mix_object(&sum, cc_unwrap(c, o, &x), &x);
        mix_object(&sum, cc_reflector(c, o, &x), &x);
        mix_object(&sum, cc_entry(c, &objects[MAP], o, &x), &x);
        mix_object(&sum, cc_next_object(c, o, &x), &x);
        if (cc_is_preserved(c, o, &word) == CC_OK) mix(&sum, word);
        if (cc_data(c, o, &wide) == CC_OK) mix(&sum, wide);
    }
    for (unsigned t = HELD; t < ROOTS; t++) mix_object(&sum, cc_held(c, &roots[t], &x), &x);
    for (unsigned t = WEAK; t < THINGS; t++)
        if (cc_ended(c, &weaks[t], &word) == CC_OK) mix(&sum, word);
    if (cc_natives(c, &wide) == CC_OK) mix(&sum, wide);
    if (cc_scripts(c, &wide) == CC_OK) mix(&sum, wide);
    if (cc_running(c, &word) == CC_OK) mix(&sum, word);
    if (cc_marking(c, &word) == CC_OK) mix(&sum, word);
    if (cc_has_suspects(c, &word) == CC_OK) mix(&sum, word);
    return sum;
}

/* A ROW IS TRIED. */

static void fail(const struct row *w, const char *how, cc_status answer) {
    printf("stops: %s %s: it answered \"%s\", and \"%s\" was wanted\n", shapes[w->call].name, how, cc_status_text(answer),
           cc_status_text(w->wanted));
    printf("  collector %u, things %u, %u, %u, numbers %lu, %lu\n", w->on, w->x, w->y, w->z, (unsigned long)w->i,
           (unsigned long)w->j);
    exit(1);
}

static bool makes(enum call call) { return call >= NEW_NATIVE && call <= NEW_PROXY; }
static bool opens(enum call call) { return call == OPENS || call == OPENS_WITH_MARK; }
static bool collects(enum call call) { return call == SLICE || call == COLLECT || call == SETTLE; }

/* Whether a call may answer CC_NO_MEMORY. */
static bool wants_memory(const struct row *w) {
    const enum call call = w->call;
    if (makes(call)) return w->on != CLOSED;
    if (w->wanted != CC_OK) return false;
    if (call == WRAP) return w->x != NATIVE; /* which has a reflector */
    if (call == SET_ENTRY) return w->y != PLAIN; /* which has an entry */
    return opens(call) || collects(call) || call == HOLD || call == UPGRADE || call == SET_DATA || call == WHY;
}

static uint64_t pictures[COLLECTORS];
static bool is_built;
static unsigned long wanted_memory[CALLS];

/* What a call answers, with memory or without. Where it stopped, it did nothing. */
static cc_status answer_to(const struct row *w, bool is_refused) {
    struct out before;
    cc_told told;
    if (!is_built) {
        build();
        for (unsigned i = 0; i < COLLECTORS; i++) pictures[i] = picture(&collectors[i]);
    }
    memset(&out, 0x5a, sizeof out);
    memcpy(&before, &out, sizeof out);
    cc_heap_refuses = is_refused ? refuses : NULL;
    const cc_status answer = perform(w);
    cc_heap_refuses = NULL;
    is_built = answer != CC_OK && !(answer == CC_NONE && w->call == UPGRADE_INTO);
    if (!is_built) return answer;
    if (memcmp(&before, &out, sizeof out) != 0) fail(w, "wrote, though it was stopped", answer);
    if (answer == CC_NO_MEMORY) { /* a collection is given up, and there may be a suspect more */
        is_built = false;
        return answer;
    }
    if (picture(&collectors[w->on]) != pictures[w->on]) fail(w, "changed something, though it was stopped", answer);
    if (w->on != CROWDED && cc_next_told(&collectors[w->on], &told) == CC_OK)
        fail(w, "told something, though it was stopped", answer);
    return answer;
}

static void try_row(const struct row *w) {
    cc_status answer = answer_to(w, true);
    if (answer == CC_NO_MEMORY) {
        if (!wants_memory(w)) fail(w, "wants memory", answer);
        wanted_memory[w->call]++;
    } else if (answer != w->wanted)
        fail(w, "answers another status without memory", answer);
    if (w->on == CROWDED) return; /* with memory there is room */
    answer = answer_to(w, false);
    if (answer != w->wanted) fail(w, "answers another status", answer);
}

/* THE TABLE. */

static const struct row table[] = {
    /* cc_open, cc_open_with_mark: open already, before a limit */
    {CC_OPEN, OPENS, .i = 10, .j = 10},
    {CC_OPEN, OPENS, .i = 1000001},
    {CC_LIMIT, OPENS, .i = 1000001, .on = CLOSED},
    {CC_LIMIT, OPENS, .j = 1000001, .on = CLOSED},
    {CC_OPEN, OPENS_WITH_MARK, .i = 10, .j = 10},
    {CC_OPEN, OPENS_WITH_MARK, .j = 1000001},
    {CC_LIMIT, OPENS_WITH_MARK, .i = 1000001, .on = CLOSED},
    {CC_LIMIT, OPENS_WITH_MARK, .j = 1000001, .on = CLOSED},

    /* objects made: the object, then the root, then the slots, then the limit */
    {CC_CLOSED, NEW_NATIVE, .i = 1023, .j = 257, .on = CLOSED},
    {CC_INDEX, NEW_NATIVE, .i = 1023},
    {CC_INDEX, NEW_NATIVE, .j = 257},
    {CC_FULL, NEW_NATIVE, .on = FULL},
    {CC_INDEX, NEW_NATIVE, .i = 1023, .on = FULL},
    {CC_INDEX, NEW_NATIVE, .j = 257, .on = FULL},
    {CC_CLOSED, NEW_PLAIN, .i = 1023, .j = 257, .on = CLOSED},
    {CC_INDEX, NEW_PLAIN, .i = 1023},
    {CC_INDEX, NEW_PLAIN, .j = 257},
    {CC_FULL, NEW_PLAIN, .on = FULL},
    {CC_INDEX, NEW_PLAIN, .i = 1023, .on = FULL},
    {CC_CLOSED, NEW_MAP, .i = 1023, .on = CLOSED},
    {CC_INDEX, NEW_MAP, .i = 1023},
    {CC_FULL, NEW_MAP, .on = FULL},
    {CC_INDEX, NEW_MAP, .i = 1023, .on = FULL},
    {CC_CLOSED, NEW_PROXY, .x = PLAIN, .on = CLOSED},
    {CC_FOREIGN, NEW_PROXY, .x = ALIEN_PLAIN, .i = 1023},
    {CC_FOREIGN, NEW_PROXY, .x = PLAIN, .on = FULL},
    {CC_GONE, NEW_PROXY, .x = GONE_PLAIN, .i = 1023},
    {CC_GONE, NEW_PROXY, .x = GONE_REFLECTOR},
    {CC_KIND, NEW_PROXY, .x = NATIVE, .i = 1023},
    {CC_KIND, NEW_PROXY, .x = NOTHING},
    {CC_INDEX, NEW_PROXY, .x = PLAIN, .i = 1023},
    {CC_INDEX, NEW_PROXY, .x = ALIEN_PLAIN, .i = 1023, .on = FULL},
    {CC_FULL, NEW_PROXY, .x = ALIEN_PLAIN, .on = FULL},
    {CC_KIND, NEW_PROXY, .x = ALIEN_NATIVE, .on = FULL},

    /* numbered roots: the object, then the root */
    {CC_CLOSED, SET_NATIVE_ROOT, .x = NATIVE, .on = CLOSED},
    {CC_FOREIGN, SET_NATIVE_ROOT, .x = ALIEN_NATIVE},
    {CC_FOREIGN, SET_NATIVE_ROOT, .x = ALIEN_PLAIN, .i = 1023},
    {CC_GONE, SET_NATIVE_ROOT, .x = GONE_NATIVE},
    {CC_GONE, SET_NATIVE_ROOT, .x = UNLINKED},
    {CC_GONE, SET_NATIVE_ROOT, .x = GONE_PLAIN, .i = 1023},
    {CC_KIND, SET_NATIVE_ROOT, .x = PLAIN, .i = 1023},
    {CC_INDEX, SET_NATIVE_ROOT, .x = NATIVE, .i = 1023},
    {CC_INDEX, SET_NATIVE_ROOT, .x = NOTHING, .i = 1023},
    {CC_CLOSED, SET_SCRIPT_ROOT, .x = PLAIN, .on = CLOSED},
    {CC_FOREIGN, SET_SCRIPT_ROOT, .x = ALIEN_PLAIN},
    {CC_FOREIGN, SET_SCRIPT_ROOT, .x = ALIEN_NATIVE, .i = 1023},
    {CC_GONE, SET_SCRIPT_ROOT, .x = GONE_PLAIN},
    {CC_GONE, SET_SCRIPT_ROOT, .x = GONE_NATIVE, .i = 1023},
    {CC_KIND, SET_SCRIPT_ROOT, .x = NATIVE, .i = 1023},
    {CC_INDEX, SET_SCRIPT_ROOT, .x = PLAIN, .i = 1023},
    {CC_INDEX, SET_SCRIPT_ROOT, .x = NOTHING, .i = 1023},
    {CC_CLOSED, NATIVE_ROOT, .on = CLOSED},
    {CC_INDEX, NATIVE_ROOT, .i = 1023},
    {CC_CLOSED, SCRIPT_ROOT, .on = CLOSED},
    {CC_INDEX, SCRIPT_ROOT, .i = 1023},

    /* roots without number */
    {CC_CLOSED, HOLD, .x = NATIVE, .on = CLOSED},
    {CC_FOREIGN, HOLD, .x = ALIEN_NATIVE},
    {CC_FOREIGN, HOLD, .x = ALIEN_GONE},
    {CC_GONE, HOLD, .x = GONE_NATIVE},
    {CC_GONE, HOLD, .x = UNLINKED},
    {CC_KIND, HOLD, .x = NOTHING},
    {CC_KIND, HOLD, .x = ALIEN_NOTHING},
    {CC_CLOSED, RELEASE, .x = HELD, .on = CLOSED},
    {CC_FOREIGN, RELEASE, .x = ALIEN_ROOT},
    {CC_FOREIGN, RELEASE, .x = ZERO_ROOT},
    {CC_GONE, RELEASE, .x = RELEASED},
    {CC_GONE, RELEASE, .x = MADE_UP_ROOT},
    {CC_CLOSED, HELD_BY, .x = HELD, .on = CLOSED},
    {CC_FOREIGN, HELD_BY, .x = ALIEN_ROOT},
    {CC_FOREIGN, HELD_BY, .x = ZERO_ROOT},
    {CC_GONE, HELD_BY, .x = RELEASED},
    {CC_GONE, HELD_BY, .x = MADE_UP_ROOT},

    /* weak references: what they are of, then the root, and last that it has ended */
    {CC_CLOSED, WEAK_OF, .x = NATIVE, .on = CLOSED},
    {CC_FOREIGN, WEAK_OF, .x = ALIEN_NATIVE},
    {CC_FOREIGN, WEAK_OF, .x = ALIEN_PLAIN},
    {CC_GONE, WEAK_OF, .x = GONE_NATIVE},
    {CC_GONE, WEAK_OF, .x = UNLINKED},
    {CC_GONE, WEAK_OF, .x = GONE_PLAIN},
    {CC_KIND, WEAK_OF, .x = REFLECTOR},
    {CC_KIND, WEAK_OF, .x = NOTHING},
    {CC_CLOSED, UPGRADE, .x = WEAK, .on = CLOSED},
    {CC_FOREIGN, UPGRADE, .x = ALIEN_WEAK},
    {CC_FOREIGN, UPGRADE, .x = ZERO_WEAK},
    {CC_NONE, UPGRADE, .x = WEAK_ENDED},
    {CC_NONE, UPGRADE, .x = WEAK_UNLINKED},
    {CC_NONE, UPGRADE, .x = WEAK_MADE_UP},
    {CC_CLOSED, UPGRADE_INTO, .x = WEAK, .on = CLOSED},
    {CC_FOREIGN, UPGRADE_INTO, .x = ALIEN_WEAK, .i = 1023},
    {CC_INDEX, UPGRADE_INTO, .x = WEAK, .i = 1023},
    {CC_INDEX, UPGRADE_INTO, .x = WEAK_ENDED, .i = 1023},
    {CC_NONE, UPGRADE_INTO, .x = WEAK_ENDED},
    {CC_NONE, UPGRADE_INTO, .x = WEAK_UNLINKED},
    {CC_CLOSED, ENDED, .x = WEAK, .on = CLOSED},
    {CC_FOREIGN, ENDED, .x = ALIEN_WEAK},
    {CC_FOREIGN, ENDED, .x = ZERO_WEAK},

    /* slots: the objects, then the slots */
    {CC_CLOSED, SLOTS, .x = NATIVE, .on = CLOSED},
    {CC_FOREIGN, SLOTS, .x = ALIEN_PLAIN},
    {CC_GONE, SLOTS, .x = GONE_PLAIN},
    {CC_KIND, SLOTS, .x = NOTHING},
    {CC_CLOSED, SLOT, .x = NATIVE, .on = CLOSED},
    {CC_FOREIGN, SLOT, .x = ALIEN_NATIVE, .i = 65535},
    {CC_GONE, SLOT, .x = GONE_NATIVE, .i = 65535},
    {CC_GONE, SLOT, .x = OTHER_KEY},
    {CC_KIND, SLOT, .x = NO_KIND, .i = 65535},
    {CC_KIND, SLOT, .x = NO_NUMBER},
    {CC_INDEX, SLOT, .x = NATIVE, .i = 2},
    {CC_INDEX, SLOT, .x = MAP, .i = 0},
    {CC_INDEX, SLOT, .x = PROXY, .i = 0},
    {CC_INDEX, SLOT, .x = REFLECTOR, .i = 4},
    {CC_CLOSED, STORE, .x = NATIVE, .y = PLAIN, .on = CLOSED},
    {CC_FOREIGN, STORE, .x = ALIEN_NATIVE, .y = GONE_PLAIN, .i = 65535},
    {CC_FOREIGN, STORE, .x = NATIVE, .y = ALIEN_PLAIN, .i = 65535},
    {CC_GONE, STORE, .x = GONE_NATIVE, .y = ALIEN_PLAIN, .i = 65535},
    {CC_GONE, STORE, .x = NATIVE, .y = GONE_PLAIN, .i = 65535},
    {CC_GONE, STORE, .x = NATIVE, .y = UNLINKED},
    {CC_KIND, STORE, .x = NOTHING, .y = PLAIN},
    {CC_KIND, STORE, .x = NO_KIND, .y = ALIEN_PLAIN},
    {CC_KIND, STORE, .x = PLAIN, .y = NATIVE, .i = 65535},
    {CC_KIND, STORE, .x = NATIVE, .y = NO_KIND, .i = 65535},
    {CC_FOREIGN, STORE, .x = PLAIN, .y = ALIEN_NATIVE},
    {CC_GONE, STORE, .x = PLAIN, .y = GONE_NATIVE},
    {CC_INDEX, STORE, .x = NATIVE, .y = PLAIN, .i = 2},
    {CC_INDEX, STORE, .x = PLAIN, .y = NOTHING, .i = 1},
    {CC_INDEX, STORE, .x = MAP, .y = PLAIN, .i = 0},
    {CC_CLOSED, MOVE_SLOT, .x = NATIVE, .y = SECOND, .on = CLOSED},
    {CC_FOREIGN, MOVE_SLOT, .x = ALIEN_NATIVE, .y = GONE_NATIVE, .i = 9, .j = 9},
    {CC_FOREIGN, MOVE_SLOT, .x = NATIVE, .y = ALIEN_NATIVE, .i = 9, .j = 9},
    {CC_GONE, MOVE_SLOT, .x = GONE_NATIVE, .y = ALIEN_NATIVE, .i = 9, .j = 9},
    {CC_GONE, MOVE_SLOT, .x = NATIVE, .y = GONE_NATIVE, .i = 9, .j = 9},
    {CC_KIND, MOVE_SLOT, .x = PLAIN, .y = GONE_NATIVE, .i = 9, .j = 9},
    {CC_KIND, MOVE_SLOT, .x = NATIVE, .y = REFLECTOR, .i = 9, .j = 9},
    {CC_KIND, MOVE_SLOT, .x = NATIVE, .y = NOTHING},
    {CC_INDEX, MOVE_SLOT, .x = NATIVE, .y = SECOND, .i = 2},
    {CC_INDEX, MOVE_SLOT, .x = NATIVE, .y = SECOND, .j = 1},

    /* reflectors, and questions of script objects */
    {CC_CLOSED, WRAP, .x = NATIVE, .on = CLOSED},
    {CC_FOREIGN, WRAP, .x = ALIEN_PLAIN},
    {CC_GONE, WRAP, .x = GONE_NATIVE},
    {CC_GONE, WRAP, .x = UNLINKED},
    {CC_GONE, WRAP, .x = GONE_REFLECTOR},
    {CC_KIND, WRAP, .x = REFLECTOR},
    {CC_KIND, WRAP, .x = NOTHING},
    {CC_CLOSED, UNWRAP, .x = REFLECTOR, .on = CLOSED},
    {CC_FOREIGN, UNWRAP, .x = ALIEN_NATIVE},
    {CC_GONE, UNWRAP, .x = GONE_REFLECTOR},
    {CC_KIND, UNWRAP, .x = NATIVE},
    {CC_CLOSED, PRESERVE, .x = REFLECTOR, .on = CLOSED},
    {CC_FOREIGN, PRESERVE, .x = ALIEN_PLAIN},
    {CC_GONE, PRESERVE, .x = GONE_REFLECTOR},
    {CC_KIND, PRESERVE, .x = PROXY},
    {CC_KIND, PRESERVE, .x = NATIVE},
    {CC_CLOSED, REFLECTOR_OF, .x = NATIVE, .on = CLOSED},
    {CC_FOREIGN, REFLECTOR_OF, .x = ALIEN_PLAIN},
    {CC_GONE, REFLECTOR_OF, .x = UNLINKED},
    {CC_KIND, REFLECTOR_OF, .x = REFLECTOR},
    {CC_CLOSED, IS_PRESERVED, .x = REFLECTOR, .on = CLOSED},
    {CC_FOREIGN, IS_PRESERVED, .x = ALIEN_PLAIN},
    {CC_GONE, IS_PRESERVED, .x = GONE_REFLECTOR},
    {CC_KIND, IS_PRESERVED, .x = MAP},
    {CC_CLOSED, KIND, .x = PLAIN, .on = CLOSED},
    {CC_FOREIGN, KIND, .x = ALIEN_NATIVE},
    {CC_GONE, KIND, .x = GONE_PLAIN},
    {CC_KIND, KIND, .x = NATIVE},
    {CC_CLOSED, DELEGATE, .x = PROXY, .on = CLOSED},
    {CC_FOREIGN, DELEGATE, .x = ALIEN_NATIVE},
    {CC_GONE, DELEGATE, .x = GONE_PLAIN},
    {CC_KIND, DELEGATE, .x = NATIVE},

    /* entries: the map, the key, the value */
    {CC_CLOSED, SET_ENTRY, .x = MAP, .y = PLAIN, .z = PLAIN, .on = CLOSED},
    {CC_FOREIGN, SET_ENTRY, .x = ALIEN_PLAIN, .y = GONE_PLAIN, .z = NATIVE},
    {CC_FOREIGN, SET_ENTRY, .x = MAP, .y = ALIEN_NATIVE, .z = GONE_PLAIN},
    {CC_FOREIGN, SET_ENTRY, .x = MAP, .y = PLAIN, .z = ALIEN_NATIVE},
    {CC_GONE, SET_ENTRY, .x = GONE_PLAIN, .y = ALIEN_PLAIN, .z = NATIVE},
    {CC_GONE, SET_ENTRY, .x = MAP, .y = GONE_NATIVE, .z = ALIEN_PLAIN},
    {CC_GONE, SET_ENTRY, .x = MAP, .y = PLAIN, .z = GONE_REFLECTOR},
    {CC_KIND, SET_ENTRY, .x = PLAIN, .y = ALIEN_PLAIN, .z = GONE_PLAIN},
    {CC_KIND, SET_ENTRY, .x = NATIVE, .y = GONE_PLAIN, .z = PLAIN},
    {CC_KIND, SET_ENTRY, .x = MAP, .y = NATIVE, .z = ALIEN_PLAIN},
    {CC_KIND, SET_ENTRY, .x = MAP, .y = PLAIN, .z = NATIVE},
    {CC_KIND, SET_ENTRY, .x = MAP, .y = PLAIN, .z = NOTHING},
    {CC_CLOSED, UNSET_ENTRY, .x = MAP, .y = PLAIN, .on = CLOSED},
    {CC_FOREIGN, UNSET_ENTRY, .x = ALIEN_PLAIN, .y = GONE_PLAIN},
    {CC_FOREIGN, UNSET_ENTRY, .x = MAP, .y = ALIEN_NATIVE},
    {CC_GONE, UNSET_ENTRY, .x = GONE_PLAIN, .y = ALIEN_PLAIN},
    {CC_GONE, UNSET_ENTRY, .x = MAP, .y = GONE_PLAIN},
    {CC_KIND, UNSET_ENTRY, .x = PROXY, .y = ALIEN_PLAIN},
    {CC_KIND, UNSET_ENTRY, .x = MAP, .y = NATIVE},
    {CC_CLOSED, ENTRY, .x = MAP, .y = PLAIN, .on = CLOSED},
    {CC_FOREIGN, ENTRY, .x = ALIEN_PLAIN, .y = GONE_PLAIN},
    {CC_FOREIGN, ENTRY, .x = MAP, .y = ALIEN_NATIVE},
    {CC_GONE, ENTRY, .x = GONE_PLAIN, .y = ALIEN_PLAIN},
    {CC_GONE, ENTRY, .x = MAP, .y = GONE_PLAIN},
    {CC_KIND, ENTRY, .x = PLAIN, .y = ALIEN_PLAIN},
    {CC_KIND, ENTRY, .x = MAP, .y = NATIVE},

    /* walks: the map, then the key; and last that there is no more */
    {CC_CLOSED, NEXT_OBJECT, .x = NATIVE, .on = CLOSED},
    {CC_FOREIGN, NEXT_OBJECT, .x = ALIEN_NATIVE},
    {CC_GONE, NEXT_OBJECT, .x = GONE_NATIVE},
    {CC_GONE, NEXT_OBJECT, .x = UNLINKED},
    {CC_KIND, NEXT_OBJECT, .x = NO_KIND},
    {CC_NONE, NEXT_OBJECT, .x = LAST},
    {CC_CLOSED, NEXT_ENTRY, .x = MAP, .y = NOTHING, .on = CLOSED},
    {CC_FOREIGN, NEXT_ENTRY, .x = ALIEN_PLAIN, .y = GONE_PLAIN},
    {CC_FOREIGN, NEXT_ENTRY, .x = MAP, .y = ALIEN_NATIVE},
    {CC_GONE, NEXT_ENTRY, .x = GONE_PLAIN, .y = ALIEN_PLAIN},
    {CC_GONE, NEXT_ENTRY, .x = MAP, .y = GONE_PLAIN},
    {CC_KIND, NEXT_ENTRY, .x = PLAIN, .y = ALIEN_PLAIN},
    {CC_KIND, NEXT_ENTRY, .x = NOTHING, .y = NOTHING},
    {CC_KIND, NEXT_ENTRY, .x = MAP, .y = NATIVE},
    {CC_NONE, NEXT_ENTRY, .x = MAP, .y = PLAIN},
    {CC_NONE, NEXT_ENTRY, .x = MAP, .y = REFLECTOR},

    /* collections and markings: what waits to be fetched */
    {CC_CLOSED, SLICE, .on = CLOSED},
    {CC_UNFETCHED, SLICE, .on = CROWDED},
    {CC_CLOSED, COLLECT, .on = CLOSED},
    {CC_UNFETCHED, COLLECT, .on = CROWDED},
    {CC_CLOSED, GC, .on = CLOSED},
    {CC_UNFETCHED, GC, .on = CROWDED},
    {CC_CLOSED, MARK, .on = CLOSED},
    {CC_UNFETCHED, MARK, .on = CROWDED},
    {CC_CLOSED, SETTLE, .on = CLOSED},
    {CC_UNFETCHED, SETTLE, .on = CROWDED},
    {CC_CLOSED, MARKING, .on = CLOSED},
    {CC_CLOSED, RUNNING, .on = CLOSED},
    {CC_CLOSED, FORGET, .on = CLOSED},

    /* what was told, and questions */
    {CC_CLOSED, NEXT_TOLD, .on = CLOSED},
    {CC_NONE, NEXT_TOLD, .on = OPEN},
    {CC_CLOSED, IS_THERE, .x = NATIVE, .on = CLOSED},
    {CC_FOREIGN, IS_THERE, .x = ALIEN_NATIVE},
    {CC_FOREIGN, IS_THERE, .x = ALIEN_GONE},
    {CC_GONE, IS_THERE, .x = GONE_NATIVE},
    {CC_GONE, IS_THERE, .x = GONE_PLAIN},
    {CC_GONE, IS_THERE, .x = GONE_REFLECTOR},
    {CC_GONE, IS_THERE, .x = UNLINKED},
    {CC_GONE, IS_THERE, .x = OTHER_KEY},
    {CC_GONE, IS_THERE, .x = OTHER_NUMBER},
    {CC_KIND, IS_THERE, .x = NOTHING},
    {CC_KIND, IS_THERE, .x = ALIEN_NOTHING},
    {CC_KIND, IS_THERE, .x = NO_KIND},
    {CC_KIND, IS_THERE, .x = NO_NUMBER},
    {CC_CLOSED, NATIVES, .on = CLOSED},
    {CC_CLOSED, SCRIPTS, .on = CLOSED},
    {CC_CLOSED, HAS_SUSPECTS, .on = CLOSED},
    {CC_CLOSED, BYTES, .on = CLOSED},
    {CC_CLOSED, IS_DUE, .on = CLOSED},
    {CC_CLOSED, WHY, .x = NATIVE, .on = CLOSED},
    {CC_FOREIGN, WHY, .x = ALIEN_NATIVE},
    {CC_GONE, WHY, .x = UNLINKED},
    {CC_KIND, WHY, .x = NOTHING},
    {CC_CLOSED, NEXT_STEP, .on = CLOSED},
    {CC_NONE, NEXT_STEP, .on = OPEN},
    {CC_CLOSED, DATA, .x = PLAIN, .on = CLOSED},
    {CC_FOREIGN, DATA, .x = ALIEN_PLAIN},
    {CC_GONE, DATA, .x = GONE_PLAIN},
    {CC_KIND, DATA, .x = NOTHING},
    {CC_CLOSED, SET_DATA, .x = PLAIN, .on = CLOSED},
    {CC_FOREIGN, SET_DATA, .x = ALIEN_NATIVE},
    {CC_GONE, SET_DATA, .x = GONE_REFLECTOR},
    {CC_KIND, SET_DATA, .x = NO_KIND},
};
enum { ROWS = sizeof table / sizeof table[0] };

/* THE SENTENCE. */

static bool is_script(enum what what) { return what >= IS_PLAIN; }

/* What a slot of x takes. */
static enum takes content_of(enum thing x) { return facts[x].what == IS_NATIVE ? ANY : A_SCRIPT; }

static bool is_of_kind(enum takes takes, enum what what) {
    switch (takes) {
    case A_NATIVE: return what == IS_NATIVE;
    case A_SCRIPT: return is_script(what);
    case A_REFLECTOR: return what == IS_REFLECTOR;
    case A_MAP: return what == IS_MAP;
    default: return true;
    }
}

/* The first cause that a thing gives. */
static cc_status cause_of(enum takes takes, enum thing t, const struct row *w) {
    const bool is_root = takes == A_ROOT, is_weak = takes == A_WEAK;
    if (takes == NONE) return CC_OK;
    if (takes >= ANY_OBJECT && takes <= CONTENT) {
        if (objects[t].kind == CC_NOTHING) return CC_OK;
        takes = takes == CONTENT ? content_of(w->x) : (enum takes)(ANY + (takes - ANY_OBJECT));
    }
    if (!is_root && !is_weak && facts[t].what == IS_NONE) return CC_KIND;
    if (facts[t].of != w->on) return CC_FOREIGN;
    if (facts[t].is_gone) return CC_GONE;
    return is_root || is_weak || is_of_kind(takes, facts[t].what) ? CC_OK : CC_KIND;
}

/* And that a number gives. */
static cc_status cause_by(enum takes takes, uint32_t number, const struct row *w) {
    switch (takes) {
    case ROOT_NUMBER: return number < 1023 ? CC_OK : CC_INDEX;
    case COUNT: return number <= 256 ? CC_OK : CC_INDEX;
    case SLOT_OF_X: return number < facts[w->x].slots ? CC_OK : CC_INDEX;
    case SLOT_OF_Y: return number < facts[w->y].slots ? CC_OK : CC_INDEX;
    case LIMIT: return number <= 1000000 ? CC_OK : CC_LIMIT;
    default: return CC_OK;
    }
}

static cc_status first_cause(const struct row *w) {
    const enum call call = w->call;
    cc_status s;
    if (opens(call) && w->on != CLOSED) return CC_OPEN;
    if (!opens(call) && w->on == CLOSED) return CC_CLOSED;
    if ((s = cause_of(shapes[call].x, w->x, w)) != CC_OK) return s;
    if ((s = cause_of(shapes[call].y, w->y, w)) != CC_OK) return s;
    if ((s = cause_of(shapes[call].z, w->z, w)) != CC_OK) return s;
    if ((s = cause_by(shapes[call].i, w->i, w)) != CC_OK) return s;
    if ((s = cause_by(shapes[call].j, w->j, w)) != CC_OK) return s;
    if (makes(call) && w->on == FULL) return CC_FULL;
    if ((call == UPGRADE || call == UPGRADE_INTO) && facts[w->x].has_ended) return CC_NONE;
    if (call == NEXT_OBJECT && facts[w->x].is_last) return CC_NONE;
    if (call == NEXT_ENTRY && objects[w->y].kind != CC_NOTHING) return CC_NONE; /* there is one entry */
    return call == NEXT_TOLD || call == NEXT_STEP ? CC_NONE : CC_OK;
}

/* EACH CHOICE of arguments. */

struct span {
    unsigned from, to;
};

static struct span things_for(enum takes takes) {
    if (takes == A_ROOT) return (struct span){HELD, ROOTS};
    if (takes == A_WEAK) return (struct span){WEAK, THINGS};
    return (struct span){0, takes == NONE ? 1 : OBJECTS};
}

/* Numbers within the bounds of a parameter and beyond, of which the first is within all of them. */
enum { NUMBERS = 5 };

static uint32_t number_for(enum takes takes, unsigned choice) {
    static const uint32_t root_numbers[] = {0, 7, 1022, 1023, 65535}, counts[] = {0, 1, 256, 257, 65535},
                          slots[] = {0, 1, 2, 4, 65535}, limits[] = {0, 1, 1000000, 1000001, UINT32_MAX};
    switch (takes) {
    case ROOT_NUMBER: return root_numbers[choice];
    case COUNT: return counts[choice];
    case LIMIT: return limits[choice];
    default: return slots[choice];
    }
}

static unsigned long tried, done;

static void try_numbers(struct row w) {
    const unsigned first = shapes[w.call].i == NONE ? 1 : NUMBERS, second = shapes[w.call].j == NONE ? 1 : NUMBERS;
    for (unsigned i = 0; i < first; i++)
        for (unsigned j = 0; j < second; j++) {
            w.i = number_for(shapes[w.call].i, i);
            w.j = number_for(shapes[w.call].j, j);
            w.wanted = first_cause(&w);
            try_row(&w);
            tried++;
            if (w.wanted == CC_OK) done++;
        }
}

static void try_things(struct row w) {
    const struct span xs = things_for(shapes[w.call].x), ys = things_for(shapes[w.call].y), zs = things_for(shapes[w.call].z);
    for (unsigned x = xs.from; x < xs.to; x++)
        for (unsigned y = ys.from; y < ys.to; y++)
            for (unsigned z = zs.from; z < zs.to; z++) {
                w.x = (enum thing)x;
                w.y = (enum thing)y;
                w.z = (enum thing)z;
                try_numbers(w);
            }
}

/* Calls that find room for a while. Each comes to an end of it. */
static void want_memory(void) {
    static const struct row again[] = {
        {.call = NEW_NATIVE}, {.call = NEW_PLAIN}, {.call = NEW_MAP}, {.call = NEW_PROXY, .x = PLAIN},
        {.call = HOLD, .x = PLAIN}, {.call = UPGRADE, .x = WEAK}, {.call = SETTLE, .on = CROWDED},
    };
    for (unsigned i = 0; i < sizeof again / sizeof again[0]; i++) {
        cc_status answer = CC_OK;
        build();
        is_built = false;
        fetch(&collectors[CROWDED]);
        cc_heap_refuses = refuses;
        for (unsigned n = 0; n < 9000 && answer == CC_OK; n++) answer = perform(&again[i]);
        cc_heap_refuses = NULL;
        if (answer != CC_NO_MEMORY) fail(&again[i], "finds memory that is refused", answer);
        wanted_memory[again[i].call]++;
    }
}

int main(void) {
    for (unsigned i = 0; i < ROWS; i++) {
        HOLDS(table[i].on == CROWDED || first_cause(&table[i]) == table[i].wanted);
        try_row(&table[i]);
    }
    printf("%u stops of %u calls are as the table has them\n", (unsigned)ROWS, (unsigned)CALLS);
    for (unsigned call = 0; call < CALLS; call++) {
        struct row w = {.call = (enum call)call};
        try_things(w);
        w.on = CLOSED;
        try_things(w);
        w.on = FULL;
        if (makes(w.call)) try_things(w);
    }
    printf("%lu calls, by each choice of arguments, are stopped as the header says, and %lu are done\n", tried - done, done);
    want_memory();
    unsigned wanting = 0;
    for (unsigned call = 0; call < CALLS; call++)
        if (wanted_memory[call] > 0) wanting++;
    HOLDS(wanting == 15); /* and which of them may was tried by each row */
    printf("%u calls may want memory\n", wanting);
    close_all();
    return 0;
}
