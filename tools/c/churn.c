/* Many operations drawn from a seed, beside a plain model of the objects.
 *
 *   churn [OPERATIONS [SEED]]: 1000000 operations of seed 7 where they are left out.
 *
 * The model is arrays: natives, script objects, their slots and numbers of the program's, the roots, the weak references, the
 * entries of weak maps, and which reflectors are preserved. It frees nothing and counts nothing; it only says what the roots reach.
 * Each operation is done to both.
 *
 * - What a call answers is what the model says: contents of slots, roots and entries, and the status of a call that can't be
 *   done.
 * - What is told as unlinked or freed is not reached at that time, and nothing is freed twice. It comes with its number.
 * - A weak reference gives its native, reached or not, until that was told as unlinked or freed, and nothing from then on.
 * - A script object that nothing led to when a marking began was told as freed by its end, unless cc_wrap answered it meanwhile.
 * - What nothing reached after cc_gc is told as unlinked by the end of the next collection, each native of it; but not where a call
 *   between was handed something that nothing reaches, or a marking began. What was unlinked is freed by the next cc_gc.
 * - After each settle the library has exactly what the model reaches: as many natives and script objects, each of them there
 *   with the contents of the model, and all others gone and told as freed.
 * - The steps of cc_why are steps in the model, and there are none where nothing leads to the object.
 * - A walk comes to each object once that was made and not told as unlinked or freed, and to no other; one over a weak map to each
 *   entry whose key was not told as freed. The bytes held are those of these.
 *
 * Operations are done to objects that are reached, since the contracts speak of these. Some are written that nothing reaches any
 * more, which must change nothing of what is reached. What nothing reaches may come back by a weak reference, as it was written
 * last. A native that was told as unlinked must be refused, and so must objects that are gone, of another collector and made up.
 *
 * The meaning is that of docs/COMMANDS.md. A native refers to what its slots hold, and to its reflector once that is preserved;
 * a reflector to what its slots hold and to its native; a proxy to its delegate. An entry gives its value where map and key are
 * reached, and a key that is a proxy where map and delegate are. A reflector that is no more is made again under its number. */
#include "ccollect.h"
#include "expect.h"
#include <stdbool.h>
#include <string.h>

enum {
    NUMBERED = 12,     /* roots of each kind that are used, of 1023 */
    HELD = 400,        /* roots by cc_hold */
    WEAKS = 200,       /* weak references */
    SEASON = 32768,    /* so many operations more is held than released, then as many less */
    MOST_THINGS = 1 << 16,
    MOST_ENTRIES = 1 << 14,
    MOST_SLOTS = 5,
    MANY = 1500,       /* from so many objects on, roots are emptied more often */
    NATIVE_LIMIT = 3700,
    SCRIPT_LIMIT = 6000, /* so many a collector ever makes of each; then another is opened */
    BETWEEN = 3000,    /* operations between two settles */
    STALE = 64,
    UNUSED = 255       /* in place of a kind: no thing is here */
};

static const cc_object nothing = {0, 0, 0, CC_NOTHING};

/* The numbers are drawn by splitmix64. */
static uint64_t drawing;

static uint64_t draw64(void) {
    uint64_t z = drawing += 0x9e3779b97f4a7c15u;
    z = (z ^ (z >> 30)) * 0xbf58476d1ce4e5b9u;
    z = (z ^ (z >> 27)) * 0x94d049bb133111ebu;
    return z ^ (z >> 31);
}

/* A number from 0 to below - 1. */
static uint32_t draw(uint32_t below) { return (uint32_t)(draw64() % below); }

/* THE MODEL. A thing is known by its place in the array; place 0 is no thing. */

struct thing {
    cc_object object;
    uint8_t what;          /* 0 for a native, else CC_PLAIN, CC_MAP, CC_REFLECTS or CC_PROXY */
    bool is_preserved;     /* of a reflector */
    bool is_freed;         /* told as freed */
    bool is_unlinked;      /* a native that was told as unlinked: gone for each call */
    uint8_t slots;
    uint32_t slot[MOST_SLOTS];
    uint32_t other;        /* a native's reflector, a reflector's native, a proxy's delegate; or 0 */
    uint32_t reached;      /* the number of the last walk that came here */
    uint32_t lost_in;      /* the library's marking that has to free it; or 0 */
    bool is_lost;          /* a native that nothing reached after cc_gc: the next collection has to unlink it */
    uint64_t data;         /* its number of the program's */
};
struct entry {
    uint32_t map, key, value;
};
struct held {
    cc_root root;
    uint32_t thing;
    bool is_used;
};
struct weak {
    cc_weak weak;
    uint32_t thing; /* its native; 0 once that was told as unlinked or freed */
    bool is_used;
};

static struct thing things[MOST_THINGS];
static uint32_t thing_count = 1; /* places that were ever used */
static uint32_t free_places[MOST_THINGS], free_count;
static struct entry entries[MOST_ENTRIES];
static uint32_t entry_count;
static uint32_t native_roots[NUMBERED], script_roots[NUMBERED];
static struct held helds[HELD];
static struct weak weaks[WEAKS];
static uint32_t native_at[NATIVE_LIMIT + 1], script_at[SCRIPT_LIMIT + 1]; /* by number */
static uint32_t live; /* things that were not told as freed */
static uint32_t last_native, last_script; /* the last numbers */
static uint32_t markings; /* that began */
static bool is_marking;   /* whether the last of them goes on */
static bool is_certain;   /* whether what was lost after cc_gc is so still */

static cc_object stale[STALE]; /* objects that are gone for good */
static uint32_t stale_count;

static cc_collector c = CC_COLLECTOR_CLOSED;
static uint64_t mark;
static unsigned long operation;
static unsigned long told_freed, told_unlinked, settles, refused, steps_seen, collectors, most_live, markings_ended, brought_back,
    walked, taken;

static void fail(const char *what, uint32_t t) {
    printf("churn: operation %lu: %s", operation, what);
    if (t != 0) printf(" (%c%u)", " #@~"[things[t].object.kind], things[t].object.number);
    printf("\n");
    exit(1);
}
#define SO(condition, what, thing) do { if (!(condition)) fail((what), (thing)); } while (0)

static bool is_same(const cc_object *x, const cc_object *y) {
    return x->mark == y->mark && x->key == y->key && x->number == y->number && x->kind == y->kind;
}
static const cc_object *object_of(uint32_t t) { return t == 0 ? &nothing : &things[t].object; }
static bool is_thing(const cc_object *x, uint32_t t) {
    return t == 0 ? x->kind == CC_NOTHING : is_same(x, &things[t].object);
}
static bool is_native(uint32_t t) { return things[t].object.kind == CC_NATIVE; }
static bool is_script(uint32_t t) { return t != 0 && !is_native(t); }
static bool has_reflector(uint32_t native) {
    return things[native].other != 0 && !things[things[native].other].is_freed;
}

static uint32_t add_thing(const cc_object *made, uint8_t what, uint8_t slots, uint32_t other) {
    uint32_t t;
    if (free_count > 0)
        t = free_places[--free_count];
    else {
        SO(thing_count < MOST_THINGS, "the model has no place left", 0);
        t = thing_count++;
    }
    things[t] = (struct thing){.object = *made, .what = what, .slots = slots, .other = other};
    if (++live > most_live) most_live = live;
    return t;
}

/* What the roots reach. */

static uint32_t walk;
static uint32_t to_visit[MOST_THINGS], to_visit_count;

static void reach(uint32_t t) {
    if (t == 0 || things[t].reached == walk) return;
    things[t].reached = walk;
    to_visit[to_visit_count++] = t;
}
static bool is_reached(uint32_t t) { return things[t].reached == walk; }

/* What a thing refers to, but for entries. */
static bool refers_to_other(const struct thing *x) {
    return x->other != 0 && (x->object.kind != CC_NATIVE || (!things[x->other].is_freed && things[x->other].is_preserved));
}

/* Goes on from what was come to: through all things, or through script objects alone. */
static void visit(bool natives) {
    do {
        while (to_visit_count > 0) {
            const struct thing *x = &things[to_visit[--to_visit_count]];
            for (unsigned i = 0; i < x->slots; i++) reach(x->slot[i]);
            if (refers_to_other(x) && (natives || is_script(x->other))) reach(x->other);
        }
        for (uint32_t i = 0; i < entry_count; i++) {
            const struct entry *e = &entries[i];
            if (!is_reached(e->map)) continue;
            if (things[e->key].what == CC_PROXY && is_reached(things[e->key].other)) reach(e->key);
            if (is_reached(e->key)) reach(e->value);
        }
    } while (to_visit_count > 0);
}

static void mark_reached(void) {
    walk++;
    to_visit_count = 0;
    for (unsigned r = 0; r < NUMBERED; r++) {
        reach(native_roots[r]);
        reach(script_roots[r]);
    }
    for (unsigned i = 0; i < HELD; i++)
        if (helds[i].is_used) reach(helds[i].thing);
    visit(true);
}

/* WHAT WAS TOLD is fetched after each operation. */

/* What has this name now; none where nothing has it. */
static uint32_t thing_named(uint32_t kind, uint32_t number) {
    if (kind == CC_SCRIPT) return number <= SCRIPT_LIMIT ? script_at[number] : 0;
    uint32_t native = number <= NATIVE_LIMIT ? native_at[number] : 0;
    if (kind == CC_REFLECTOR) return things[native].other;
    return kind == CC_NATIVE ? native : 0;
}

static void end_weaks(uint32_t t) {
    for (unsigned i = 0; i < WEAKS; i++)
        if (weaks[i].thing == t) weaks[i].thing = 0;
}

static void fetch(void) {
    cc_told told;
    uint32_t status;
    bool is_marked = false;
    while ((status = cc_next_told(&c, &told)) == CC_OK) {
        SO(told.what == CC_UNLINKED || told.what == CC_FREED, "a collection was given up, though memory was there", 0);
        uint32_t t = thing_named(told.kind, told.number);
        SO(t != 0, "an object was told that was never made", 0);
        if (!is_marked) mark_reached();
        is_marked = true;
        SO(!is_reached(t), "an object that is reached was told as unlinked or freed", t);
        SO(!things[t].is_freed, "an object was told after it was freed", t);
        SO(told.data == things[t].data, "an object was told with another number", t);
        if (is_native(t)) end_weaks(t);
        if (told.what == CC_UNLINKED) {
            SO(is_native(t), "a script object was told as unlinked", t);
            things[t].is_unlinked = true;
            told_unlinked++;
        } else {
            things[t].is_freed = true;
            told_freed++;
            live--;
            if (told.kind != CC_REFLECTOR) stale[stale_count++ % STALE] = things[t].object;
        }
    }
    SO(status == CC_NONE, "cc_next_told answered another status", 0);
}

/* DRAWN THINGS. Each is reached: it is found by a walk from a root. */

static uint32_t draw_from_root(void) {
    for (unsigned i = 0; i < 8; i++) {
        uint32_t r = draw(2 * NUMBERED + 16), t;
        if (r < NUMBERED)
            t = native_roots[r];
        else if (r < 2 * NUMBERED)
            t = script_roots[r - NUMBERED];
        else {
            const struct held *h = &helds[draw(HELD)];
            t = h->is_used ? h->thing : 0;
        }
        if (t != 0) return t;
    }
    return 0;
}

static uint32_t draw_step(uint32_t t) {
    const struct thing *x = &things[t];
    uint32_t i = draw(x->slots + 2u), next;
    if (i < x->slots)
        next = x->slot[i];
    else
        next = refers_to_other(x) ? x->other : 0;
    return next != 0 ? next : t;
}

static uint32_t draw_reached(void) {
    uint32_t t = draw_from_root();
    if (t == 0) return 0;
    for (uint32_t i = draw(8); i > 0; i--) t = draw_step(t);
    SO(!things[t].is_freed, "an object that is reached was freed", t);
    return t;
}

static uint32_t draw_native(void) {
    for (unsigned i = 0; i < 6; i++) {
        uint32_t t = draw_reached();
        if (t != 0 && is_native(t)) return t;
        if (t != 0 && things[t].what == CC_REFLECTS) return things[t].other;
    }
    return 0;
}

static uint32_t draw_script(void) {
    for (unsigned i = 0; i < 6; i++) {
        uint32_t t = draw_reached();
        if (is_script(t)) return t;
    }
    return 0;
}

static uint32_t draw_map(void) {
    for (unsigned i = 0; i < 6; i++) {
        uint32_t t = script_roots[draw(NUMBERED)];
        if (t != 0 && things[t].what == CC_MAP) return t;
        t = draw_reached();
        if (t != 0 && things[t].what == CC_MAP) return t;
    }
    return 0;
}

/* Which one of them has slots; or none. */
static uint32_t draw_holder(void) {
    for (unsigned i = 0; i < 6; i++) {
        uint32_t t = draw_reached();
        if (t != 0 && things[t].slots > 0) return t;
    }
    return 0;
}

/* Something that nothing reaches, and that is still there. None where none is drawn. */
static uint32_t draw_unreached(void) {
    mark_reached();
    for (unsigned i = 0; i < 32; i++) {
        uint32_t t = draw(thing_count);
        if (t != 0 && things[t].what != UNUSED && !things[t].is_freed && !is_reached(t)) return t;
    }
    return 0;
}

/* OPERATIONS. */

static void open_collector(void) {
    TRY(cc_open_with_mark(&c, ++mark, NATIVE_LIMIT, SCRIPT_LIMIT));
    collectors++;
    memset(native_at, 0, sizeof native_at);
    memset(script_at, 0, sizeof script_at);
    last_native = last_script = 0;
    memset(weaks, 0, sizeof weaks);
}

/* Now and then an object gets a number of the program's. */
static void change_data_of(uint32_t t) {
    things[t].data = draw64();
    TRY(cc_set_data(&c, object_of(t), things[t].data));
}

static void make_native(void) {
    cc_object made;
    uint32_t r = draw(NUMBERED);
    uint8_t slots = (uint8_t)draw(MOST_SLOTS + 1);
    TRY(cc_new_native(&c, (uint16_t)r, slots, &made));
    SO(made.kind == CC_NATIVE && made.mark == mark, "a native is no native of this collector", 0);
    SO(made.number == last_native + 1 && made.number <= NATIVE_LIMIT, "a native has a wrong number", 0);
    last_native = made.number;
    uint32_t t = add_thing(&made, 0, slots, 0);
    native_roots[r] = native_at[made.number] = t;
    if (draw(4) > 0) change_data_of(t);
}

static void add_script(uint32_t r, const cc_object *made, uint8_t what, uint8_t slots, uint32_t other) {
    SO(made->kind == CC_SCRIPT && made->mark == mark && made->number == last_script + 1, "a wrong name", 0);
    last_script = made->number;
    uint32_t t = script_roots[r] = script_at[made->number] = add_thing(made, what, slots, other);
    if (draw(4) == 0) change_data_of(t);
}

static void make_plain(void) {
    cc_object made;
    uint32_t r = draw(NUMBERED);
    uint8_t slots = (uint8_t)draw(MOST_SLOTS + 1);
    TRY(cc_new_plain(&c, (uint16_t)r, slots, &made));
    add_script(r, &made, CC_PLAIN, slots, 0);
}

static void make_map(void) {
    cc_object made;
    uint32_t r = draw(NUMBERED);
    TRY(cc_new_map(&c, (uint16_t)r, &made));
    add_script(r, &made, CC_MAP, 0, 0);
}

/* A reflector is preserved where it is written, is a key, or gets a proxy. */
static void preserve(uint32_t t) {
    if (things[t].what == CC_REFLECTS) things[t].is_preserved = true;
}

static void make_proxy(void) {
    cc_object made;
    uint32_t r = draw(NUMBERED), delegate = draw_script();
    if (delegate == 0) return;
    TRY(cc_new_proxy(&c, (uint16_t)r, object_of(delegate), &made));
    preserve(delegate);
    add_script(r, &made, CC_PROXY, 0, delegate);
}

static void set_native_root(void) {
    uint32_t r = draw(NUMBERED), t = draw(8) < (live > MANY ? 1 : 6) ? draw_native() : 0;
    TRY(cc_set_native_root(&c, (uint16_t)r, object_of(t)));
    native_roots[r] = t;
}

static void set_script_root(void) {
    uint32_t r = draw(NUMBERED), t = draw(8) < (live > MANY ? 1 : 6) ? draw_script() : 0;
    TRY(cc_set_script_root(&c, (uint16_t)r, object_of(t)));
    script_roots[r] = t;
}

static void store(void) {
    uint32_t x = draw_holder(), y = 0;
    if (x == 0) return;
    uint32_t i = draw(things[x].slots);
    if (draw(4) > 0) y = is_native(x) ? draw_reached() : draw_script();
    TRY(cc_store(&c, object_of(x), (uint16_t)i, object_of(y)));
    preserve(x);
    things[x].slot[i] = y;
}

/* It refers to something else from then on, and nobody sees it. A reflector is left alone: it may be that of a native that is
 * reached, and would be preserved. */
static void store_unreached(void) {
    uint32_t x = draw_unreached(), y = draw_script();
    if (x == 0 || things[x].slots == 0 || things[x].what == CC_REFLECTS || (is_marking && is_script(x))) return;
    uint32_t i = draw(things[x].slots);
    WANT(cc_store(&c, object_of(x), (uint16_t)i, object_of(y)), things[x].is_unlinked ? CC_GONE : CC_OK);
    if (!things[x].is_unlinked) things[x].slot[i] = y;
    is_certain = false;
}

static void move_slot(void) {
    uint32_t to = draw_native(), from = draw_native();
    if (to == 0 || from == 0 || things[to].slots == 0 || things[from].slots == 0) return;
    uint32_t i = draw(things[to].slots), j = draw(things[from].slots);
    TRY(cc_move_slot(&c, object_of(to), (uint16_t)i, object_of(from), (uint16_t)j));
    if (to == from && i == j) return;
    things[to].slot[i] = things[from].slot[j];
    things[from].slot[j] = 0;
}

static void enter(uint32_t map, uint32_t key, uint32_t value);

/* What cc_wrap answered goes at once where it is kept: into a root, a slot or an entry, or it gets a proxy. */
static void keep_reflector(uint32_t t) {
    uint32_t r = draw(NUMBERED), x = draw_holder(), map = draw_map(), key = draw_script();
    cc_object made;
    cc_root root;
    switch (draw(6)) {
    case 0:
        TRY(cc_set_script_root(&c, (uint16_t)r, object_of(t)));
        script_roots[r] = t;
        break;
    case 1:
        TRY(cc_preserve(&c, object_of(t)));
        preserve(t);
        break;
    case 2:
        if (x == 0) return;
        uint32_t i = draw(things[x].slots);
        TRY(cc_store(&c, object_of(x), (uint16_t)i, object_of(t)));
        preserve(x);
        things[x].slot[i] = t;
        break;
    case 3:
        if (map == 0 || key == 0) return;
        if (draw(2) == 0)
            enter(map, t, key);
        else
            enter(map, key, t);
        break;
    case 4:
        TRY(cc_new_proxy(&c, (uint16_t)r, object_of(t), &made));
        preserve(t);
        add_script(r, &made, CC_PROXY, 0, t);
        break;
    default:
        TRY(cc_hold(&c, object_of(t), &root));
        TRY(cc_release(&c, &root));
    }
}

/* The reflector of a native, put somewhere or nowhere. */
static void wrap(void) {
    cc_object made;
    uint64_t data;
    uint32_t native = draw_native(), t;
    if (native == 0) return;
    TRY(cc_wrap(&c, object_of(native), &made));
    SO(made.kind == CC_REFLECTOR && made.mark == mark, "a reflector is none of this collector", native);
    SO(made.number == things[native].object.number, "a reflector has another number than its native", native);
    if (has_reflector(native)) {
        t = things[native].other;
        SO(is_same(&made, &things[t].object), "a native has another reflector, though it lost none", native);
        things[t].lost_in = 0;
    } else {
        t = add_thing(&made, CC_REFLECTS, 4, native);
        things[native].other = t;
        TRY(cc_data(&c, &made, &data));
        SO(data == 0, "a reflector that was made anew has a number", t);
    }
    if (draw(4) == 0) change_data_of(t);
    if (draw(4) > 0) keep_reflector(t);
}

static uint32_t find_entry(uint32_t map, uint32_t key) {
    uint32_t i = 0;
    while (i < entry_count && !(entries[i].map == map && entries[i].key == key)) i++;
    return i;
}

static void enter(uint32_t map, uint32_t key, uint32_t value) {
    TRY(cc_set_entry(&c, object_of(map), object_of(key), object_of(value)));
    preserve(key);
    uint32_t i = find_entry(map, key);
    if (i == entry_count) entry_count++;
    SO(entry_count < MOST_ENTRIES, "the model has no place left for an entry", 0);
    entries[i] = (struct entry){map, key, value};
}

static void set_entry(void) {
    uint32_t map = draw_map(), key = draw_script(), value = draw_script();
    if (map != 0 && key != 0 && value != 0) enter(map, key, value);
}

static void unset_entry(void) {
    uint32_t map = draw_map(), key = draw_script();
    if (map == 0 || key == 0) return;
    TRY(cc_unset_entry(&c, object_of(map), object_of(key)));
    uint32_t i = find_entry(map, key);
    if (i < entry_count) entries[i] = entries[--entry_count];
}

/* An entry that gives its value: its map and its key are reached. None where none is drawn. */
static const struct entry *draw_entry(void) {
    if (entry_count == 0) return NULL;
    mark_reached();
    for (unsigned i = 0; i < 8; i++) {
        const struct entry *e = &entries[draw(entry_count)];
        if (is_reached(e->map) && is_reached(e->key)) return e;
    }
    return NULL;
}

/* An entry is read. A root gets its value. */
static void read_entry(void) {
    cc_object value;
    const struct entry *e = draw(2) == 0 ? draw_entry() : NULL;
    uint32_t map = e != NULL ? e->map : draw_map(), key = e != NULL ? e->key : draw_script(), r = draw(NUMBERED);
    if (map == 0 || key == 0) return;
    TRY(cc_entry(&c, object_of(map), object_of(key), &value));
    uint32_t i = find_entry(map, key), t = i < entry_count ? entries[i].value : 0;
    SO(is_thing(&value, t), "an entry has another value", map);
    if (t != 0 && live <= MANY) {
        TRY(cc_set_script_root(&c, (uint16_t)r, &value));
        script_roots[r] = t;
    }
}

static void hold(void) {
    uint32_t t = draw_reached(), i = draw(HELD);
    if (t == 0 || helds[i].is_used || live > MANY) return;
    uint64_t before, after;
    TRY(cc_natives(&c, &before));
    TRY(cc_hold(&c, object_of(t), &helds[i].root));
    TRY(cc_natives(&c, &after));
    SO(before == after, "cc_hold made a native", 0);
    helds[i].thing = t;
    helds[i].is_used = true;
}

static void release(void) {
    if (operation / SEASON % 2 == 0 && draw(4) > 0) return;
    for (unsigned n = 0; n < 4; n++) {
        struct held *h = &helds[draw(HELD)];
        if (!h->is_used) continue;
        TRY(cc_release(&c, &h->root));
        h->is_used = false;
        WANT(cc_release(&c, &h->root), CC_GONE);
        return;
    }
}

static void check_slots(uint32_t t) {
    const struct thing *x = &things[t];
    cc_object found;
    uint16_t slots;
    TRY(cc_slots(&c, &x->object, &slots));
    SO(slots == x->slots, "another number of slots", t);
    for (uint16_t i = 0; i < slots; i++) {
        TRY(cc_slot(&c, &x->object, i, &found));
        SO(is_thing(&found, x->slot[i]), "a slot holds another object", t);
    }
}

static void check_thing(uint32_t t) {
    const struct thing *x = &things[t];
    cc_object found;
    uint64_t data;
    uint32_t kind;
    SO(!x->is_freed, "an object that is reached was told as freed", t);
    TRY(cc_is_there(&c, &x->object));
    check_slots(t);
    TRY(cc_data(&c, &x->object, &data));
    SO(data == x->data, "an object has another number", t);
    if (!is_native(t)) {
        TRY(cc_kind(&c, &x->object, &kind));
        SO(kind == x->what, "a script object is of another kind", t);
    }
    if (x->what == CC_REFLECTS) {
        TRY(cc_unwrap(&c, &x->object, &found));
        SO(is_thing(&found, x->other), "a reflector stands for another native", t);
        TRY(cc_is_preserved(&c, &x->object, &kind));
        SO(kind == (x->is_preserved ? 1 : 0), "a reflector is preserved, or is not, against the model", t);
    }
}

static void read_thing(void) {
    uint32_t t = draw_reached();
    if (t != 0) check_thing(t);
}

static void change_data(void) {
    uint32_t t = draw_reached();
    if (t != 0) change_data_of(t);
}

static void refer_weakly(void) {
    struct weak *w = &weaks[draw(WEAKS)];
    uint32_t t = draw_native();
    if (t == 0) return;
    TRY(cc_weak_of(&c, object_of(t), &w->weak));
    w->thing = t;
    w->is_used = true;
}

/* One whose native nothing reaches, where there is one, or any other. */
static const struct weak *draw_weak(void) {
    mark_reached();
    for (unsigned i = 0; i < 2 * WEAKS; i++) {
        const struct weak *w = &weaks[draw(WEAKS)];
        if (w->thing != 0 && !is_reached(w->thing)) return w;
    }
    return &weaks[draw(WEAKS)];
}

/* A weak reference gives its native into a root, whether anything reaches it or not. */
static void follow(void) {
    static const cc_object untouched = {5, 5, 5, 5};
    const struct weak *w = draw(2) == 0 ? draw_weak() : &weaks[draw(WEAKS)];
    struct held *h = &helds[draw(HELD)];
    cc_object found = untouched;
    cc_root root;
    uint32_t r = draw(NUMBERED), ended, t = w->thing;
    if (!w->is_used || h->is_used) return;
    TRY(cc_ended(&c, &w->weak, &ended));
    SO(ended == (t == 0 ? 1 : 0), "a weak reference has ended, or not, against the model", t);
    if (t != 0) {
        mark_reached();
        if (!is_reached(t)) {
            brought_back++;
            is_certain = false;
        }
    }
    if (draw(2) == 0) {
        WANT(cc_upgrade_into(&c, (uint16_t)r, &w->weak, &found), t == 0 ? CC_NONE : CC_OK);
        native_roots[r] = t;
    } else {
        WANT(cc_upgrade(&c, &w->weak, &root, &found), t == 0 ? CC_NONE : CC_OK);
        *h = (struct held){root, t, t != 0};
    }
    SO(is_same(&found, t == 0 ? &untouched : object_of(t)), "a weak reference gave another native", t);
}

/* Each step must rest on a root, or on steps before it, as the model has it. */

static bool is_in_step(uint32_t from, uint32_t to) {
    const struct thing *x = &things[from];
    for (unsigned i = 0; i < x->slots; i++)
        if (x->slot[i] == to) return true;
    return refers_to_other(x) && x->other == to;
}

/* A root by cc_hold holds it, by its index. */
static bool is_held_at(uint32_t index, uint32_t t) {
    for (unsigned i = 0; i < HELD; i++)
        if (helds[i].is_used && helds[i].root.index == index) return helds[i].thing == t;
    return false;
}

static bool is_step(const cc_step *s, uint32_t t) {
    if (s->why == CC_BY_ROOT)
        return s->by_number < NUMBERED && t == (s->by_kind == CC_NATIVE ? native_roots : script_roots)[s->by_number];
    if (s->why == CC_BY_HOLD) return (s->by_kind == CC_NATIVE) == is_native(t) && is_held_at(s->by_number, t);
    uint32_t by = thing_named(s->by_kind, s->by_number);
    if (by == 0 || !is_reached(by)) return false;
    if (s->why == CC_BY_OBJECT) return is_in_step(by, t);
    uint32_t key = thing_named(s->key_kind, s->key_number), i;
    if (s->why != CC_BY_ENTRY || key == 0 || !is_reached(key)) return false;
    i = find_entry(by, key);
    if (i < entry_count && entries[i].value == t) return true;
    i = find_entry(by, t); /* key is the delegate of t, which is a key */
    return i < entry_count && things[t].what == CC_PROXY && things[t].other == key;
}

static void ask_why_not(void) {
    cc_step s;
    uint32_t t = draw_unreached(), led;
    if (t == 0) return;
    WANT(cc_why(&c, object_of(t), &led), things[t].is_unlinked ? CC_GONE : CC_OK);
    if (things[t].is_unlinked) return;
    SO(led == 0, "roots lead to an object that nothing reaches", t);
    WANT(cc_next_step(&c, &s), CC_NONE);
}

static void ask_why(void) {
    cc_step s;
    const struct entry *e = draw(2) == 0 ? draw_entry() : NULL;
    uint32_t asked = e != NULL ? e->value : draw_reached(), led, t = 0, status;
    if (asked == 0) return;
    TRY(cc_why(&c, object_of(asked), &led));
    SO(led == 1, "no root leads to an object that is reached", asked);
    walk++; /* what the steps have reached */
    while ((status = cc_next_step(&c, &s)) == CC_OK) {
        steps_seen++;
        t = thing_named(s.kind, s.number);
        SO(t != 0 && !is_reached(t) && is_step(&s, t), "a step is none of the model", t);
        things[t].reached = walk;
    }
    SO(status == CC_NONE && t == asked, "the last step is another object's", asked);
}

/* WALKS, over what the model has not as freed. */

static bool is_away(uint32_t t) { return things[t].what == UNUSED || things[t].is_freed; }

static void walk_objects(void) {
    cc_object x = nothing, next;
    cc_status status;
    uint32_t before = 0, count = 0, wanted = 0;
    walk++;
    while ((status = cc_next_object(&c, &x, &next)) == CC_OK) {
        const uint32_t t = thing_named(next.kind, next.number);
        SO(t != 0 && is_same(&next, object_of(t)) && !is_away(t) && !things[t].is_unlinked, "a walk came to what is not there", t);
        SO(!is_reached(t), "a walk came twice to an object", t);
        things[t].reached = walk;
        if (is_native(t)) {
            SO(count == 0 || (is_native(before) && things[before].object.number < next.number), "a walk is out of order", t);
        }
        before = t;
        x = next;
        count++;
    }
    SO(status == CC_NONE, "a walk ended by another status", before);
    for (uint32_t t = 1; t < thing_count; t++)
        if (!is_away(t) && !things[t].is_unlinked) wanted++;
    SO(count == wanted, "a walk left objects out", 0);
    walked += count;
}

static void walk_entries(void) {
    cc_object key = nothing, next, value;
    cc_status status;
    uint32_t map = draw_map(), count = 0, wanted = 0;
    if (map == 0) return;
    walk++;
    while ((status = cc_next_entry(&c, object_of(map), &key, &next, &value)) == CC_OK) {
        const uint32_t k = thing_named(next.kind, next.number), i = k == 0 ? entry_count : find_entry(map, k);
        SO(i < entry_count && is_same(&next, object_of(k)) && is_thing(&value, entries[i].value), "a walk came to no entry", map);
        SO(!is_reached(k), "a walk came twice to an entry", map);
        things[k].reached = walk;
        key = next;
        count++;
    }
    SO(status == CC_NONE, "a walk over entries ended by another status", map);
    for (uint32_t i = 0; i < entry_count; i++)
        if (entries[i].map == map && !is_away(entries[i].key)) wanted++;
    SO(count == wanted, "a walk left entries out", map);
    walked += count;
}

static void count_bytes(void) {
    uint64_t bytes, wanted = 0;
    uint32_t due, running;
    for (uint32_t t = 1; t < thing_count; t++)
        if (!is_away(t)) wanted += (is_native(t) ? 272u : 254u) + 8u * things[t].slots;
    for (uint32_t i = 0; i < entry_count; i++)
        if (!is_away(entries[i].map) && !is_away(entries[i].key)) wanted += 44;
    TRY(cc_bytes(&c, &bytes));
    SO(bytes == wanted, "other bytes are held", 0);
    TRY(cc_is_due(&c, &due));
    TRY(cc_running(&c, &running));
    SO(due <= 1 && due >= running, "a collection runs and is not due", 0);
}

static void walk_all(void) {
    walk_objects();
    walk_entries();
    count_bytes();
}

/* CALLS THAT ARE REFUSED. They change nothing: later contents show it. */

static void call_with(const cc_object *bad, uint32_t status) {
    cc_object out = {1, 2, 3, 4};
    const cc_object before = out;
    uint32_t native = draw_native(), script = draw_script(), holder = draw_holder();
    uint16_t r = (uint16_t)draw(NUMBERED), slots;
    uint64_t data;
    cc_root root;
    refused++;
    switch (draw(12)) {
    case 0: WANT(cc_is_there(&c, bad), status); break;
    case 1: WANT(cc_set_native_root(&c, r, bad), status); break;
    case 2: WANT(cc_set_script_root(&c, r, bad), status); break;
    case 3: WANT(cc_store(&c, bad, 0, object_of(native)), status); break;
    case 4: if (holder != 0) WANT(cc_store(&c, object_of(holder), 0, bad), status); break;
    case 5: WANT(cc_wrap(&c, bad, &out), status); break;
    case 6: WANT(cc_slot(&c, bad, 0, &out), status); break;
    case 7: WANT(cc_hold(&c, bad, &root), status); break;
    case 8: WANT(cc_new_proxy(&c, r, bad, &out), status); break;
    case 9: WANT(cc_entry(&c, bad, object_of(script), &out), status); break;
    case 10: WANT(cc_slots(&c, bad, &slots), status); break;
    default: WANT(cc_data(&c, bad, &data), status);
    }
    SO(is_same(&out, &before), "a refused call wrote its answer", 0);
}

static void call_wrongly(void) {
    cc_object bad;
    uint32_t t = draw_reached(), native = draw_native(), script = draw_script();
    switch (draw(6)) {
    case 0:
    case 1:
        if (stale_count == 0) return;
        bad = stale[draw(stale_count < STALE ? stale_count : STALE)];
        call_with(&bad, bad.mark == mark ? CC_GONE : CC_FOREIGN);
        break;
    case 2:
        if (t == 0) return;
        bad = *object_of(t);
        bad.mark++;
        call_with(&bad, CC_FOREIGN);
        break;
    case 3:
        if (t == 0) return;
        bad = *object_of(t);
        if (draw(2) == 0)
            bad.number += 1000000;
        else
            bad.key += 1u << (20 + draw(12));
        call_with(&bad, CC_GONE);
        break;
    case 4:
        if (native == 0 || script == 0) return;
        WANT(cc_set_native_root(&c, 0, object_of(script)), CC_KIND);
        WANT(cc_set_script_root(&c, 0, object_of(native)), CC_KIND);
        WANT(cc_wrap(&c, object_of(script), &bad), CC_KIND);
        WANT(cc_set_entry(&c, object_of(native), object_of(script), object_of(script)), CC_KIND);
        refused += 4;
        break;
    default:
        if (t == 0) return;
        WANT(cc_slot(&c, object_of(t), things[t].slots, &bad), CC_INDEX);
        WANT(cc_store(&c, object_of(t), (uint16_t)(things[t].slots + draw(2) * draw(1000)), &nothing), CC_INDEX);
        WANT(cc_set_native_root(&c, (uint16_t)(1023 + draw(60000)), &nothing), CC_INDEX);
        refused += 3;
    }
}

/* COLLECTIONS AND MARKINGS. */

/* What neither script roots nor natives lead to, through script objects and entries, is lost when a marking begins. */
static void note_lost(void) {
    walk++;
    to_visit_count = 0;
    for (unsigned r = 0; r < NUMBERED; r++) reach(script_roots[r]);
    for (unsigned i = 0; i < HELD; i++)
        if (helds[i].is_used && is_script(helds[i].thing)) reach(helds[i].thing);
    for (uint32_t t = 1; t < thing_count; t++) {
        const struct thing *x = &things[t];
        if (x->what == UNUSED || !is_native(t) || x->is_freed || x->is_unlinked) continue;
        for (unsigned i = 0; i < x->slots; i++)
            if (is_script(x->slot[i])) reach(x->slot[i]);
        if (refers_to_other(x)) reach(x->other);
    }
    visit(false);
    markings++;
    for (uint32_t t = 1; t < thing_count; t++)
        if (things[t].what != UNUSED && is_script(t) && !things[t].is_freed && !is_reached(t)) things[t].lost_in = markings;
}

/* The marking came to its end. */
static void check_lost(void) {
    fetch();
    for (uint32_t t = 1; t < thing_count; t++)
        SO(things[t].lost_in != markings || things[t].is_freed, "a marking left what nothing led to when it began", t);
    is_marking = false;
}

/* A script collection was done, after which nothing reaches these natives. */
static void note_garbage(void) {
    fetch();
    mark_reached();
    for (uint32_t t = 1; t < thing_count; t++) {
        struct thing *x = &things[t];
        if (x->what == UNUSED || !is_native(t)) continue;
        SO(!x->is_unlinked || x->is_freed, "a native that was unlinked was left by cc_gc", t);
        x->is_lost = !x->is_freed && !is_reached(t);
    }
    is_certain = true;
}

/* A collection came to its end. */
static void check_garbage(void) {
    fetch();
    for (uint32_t t = 1; t < thing_count && is_certain; t++) {
        const struct thing *x = &things[t];
        if (x->what == UNUSED || !is_native(t) || !x->is_lost) continue;
        SO(x->is_unlinked || x->is_freed, "a collection left what nothing reached after cc_gc", t);
        taken++;
    }
    is_certain = false;
}

static void check_marking(void) {
    uint32_t goes_on;
    TRY(cc_marking(&c, &goes_on));
    SO(goes_on == (is_marking ? 1 : 0), "a marking goes on, or does not, against the model", 0);
}

static void slice(void) {
    uint32_t over, running;
    TRY(cc_slice(&c, 1 + draw(60), &over));
    TRY(cc_running(&c, &running));
    SO(over + running == 1, "a slice ended its collection and left it running, or neither", 0);
    if (is_marking) check_lost();
    if (over == 1) check_garbage();
    check_marking();
}

static void mark_scripts(void) {
    uint32_t over, running;
    TRY(cc_running(&c, &running));
    if (running == 0) is_certain = false;
    if (!is_marking) note_lost();
    is_marking = true;
    TRY(cc_mark(&c, 1 + draw(60), &over));
    TRY(cc_running(&c, &running));
    SO(running == 0, "a collection runs beside a marking", 0);
    if (is_certain) check_garbage();
    if (over == 1) {
        check_lost();
        markings_ended++;
    }
    check_marking();
}

/* They take turns, so that each goes on for a while; now and then one comes in the turn of the other. */
static void do_units(void) {
    if ((operation / 512 % 2 == 0) != (draw(16) == 0))
        slice();
    else
        mark_scripts();
}

static void collect(void) {
    uint32_t running;
    TRY(cc_collect(&c));
    TRY(cc_running(&c, &running));
    SO(running == 0, "a collection runs after cc_collect", 0);
    if (is_marking) check_lost();
    check_garbage();
}

static void collect_scripts(void) {
    uint32_t running;
    TRY(cc_running(&c, &running));
    TRY(cc_gc(&c));
    is_marking = false;
    check_marking();
    if (running == 1) check_garbage();
    note_garbage();
}

/* Suspects that are alive are forgotten once. A collection that runs goes on. */
static void forget_suspects(void) {
    uint32_t marks, again, running, runs;
    TRY(cc_running(&c, &running));
    TRY(cc_forget(&c, &marks));
    TRY(cc_forget(&c, &again));
    TRY(cc_running(&c, &runs));
    SO(marks <= live && again == 0, "more suspects were forgotten than there are", 0);
    SO(runs == running, "a collection began, or ended, when suspects were forgotten", 0);
}

static void check_roots(void) {
    cc_object found;
    for (uint16_t r = 0; r < NUMBERED; r++) {
        TRY(cc_native_root(&c, r, &found));
        SO(is_thing(&found, native_roots[r]), "a native root holds another object", native_roots[r]);
        TRY(cc_script_root(&c, r, &found));
        SO(is_thing(&found, script_roots[r]), "a script root holds another object", script_roots[r]);
    }
    for (unsigned i = 0; i < HELD; i++) {
        if (!helds[i].is_used) continue;
        TRY(cc_held(&c, &helds[i].root, &found));
        SO(is_thing(&found, helds[i].thing), "a root holds another object", helds[i].thing);
    }
}

static void check_entries(void) {
    cc_object found;
    uint32_t kept = 0;
    for (uint32_t i = 0; i < entry_count; i++) {
        const struct entry e = entries[i];
        if (!is_reached(e.map) || !is_reached(e.key)) continue;
        TRY(cc_entry(&c, object_of(e.map), object_of(e.key), &found));
        SO(is_thing(&found, e.value), "an entry has another value", e.map);
        entries[kept++] = e;
    }
    entry_count = kept;
}

/* What is not reached is gone. A reflector that was made again has the name of the one before it. */
static void check_gone(uint32_t t) {
    const struct thing *x = &things[t];
    SO(x->is_freed, "an object that nothing reaches was not told as freed", t);
    if (x->what == CC_REFLECTS) {
        const struct thing *native = &things[x->other];
        if (native->other != t && is_reached(native->other)) return;
    }
    WANT(cc_is_there(&c, &x->object), CC_GONE);
}

static void forget(uint32_t t) {
    struct thing *x = &things[t];
    if (is_native(t)) native_at[x->object.number] = 0;
    if (x->object.kind == CC_SCRIPT) script_at[x->object.number] = 0;
    if (x->what == CC_REFLECTS && things[x->other].other == t) things[x->other].other = 0;
    x->what = UNUSED;
    free_places[free_count++] = t;
}

static void check_all(void) {
    uint64_t natives, scripts, natives_reached = 0, scripts_reached = 0;
    mark_reached();
    for (uint32_t t = 1; t < thing_count; t++) {
        if (things[t].what == UNUSED) continue;
        if (!is_reached(t)) {
            check_gone(t);
            continue;
        }
        check_thing(t);
        if (is_native(t))
            natives_reached++;
        else
            scripts_reached++;
    }
    check_roots();
    check_entries();
    walk_all();
    mark_reached();
    TRY(cc_natives(&c, &natives));
    TRY(cc_scripts(&c, &scripts));
    SO(natives == natives_reached, "there are more or fewer natives than are reached", 0);
    SO(scripts == scripts_reached, "there are more or fewer script objects than are reached", 0);
    SO(live == natives_reached + scripts_reached, "what was told as freed is not what is gone", 0);
    for (uint32_t i = 0; i < stale_count && i < STALE; i++)
        WANT(cc_is_there(&c, &stale[i]), stale[i].mark == mark ? CC_GONE : CC_FOREIGN);
    for (uint32_t t = 1; t < thing_count; t++)
        if (things[t].what != UNUSED && !is_reached(t)) forget(t);
}

static void settle(void) {
    uint32_t running;
    TRY(cc_settle(&c));
    is_marking = is_certain = false;
    fetch();
    TRY(cc_running(&c, &running));
    SO(running == 0, "a collection runs", 0);
    check_all();
    settles++;
}

/* All roots are emptied; then nothing may be left. The next collector has other objects. */
static void close_collector(void) {
    for (uint16_t r = 0; r < NUMBERED; r++) {
        TRY(cc_set_native_root(&c, r, &nothing));
        TRY(cc_set_script_root(&c, r, &nothing));
        native_roots[r] = script_roots[r] = 0;
    }
    for (unsigned i = 0; i < HELD; i++) {
        if (!helds[i].is_used) continue;
        TRY(cc_release(&c, &helds[i].root));
        helds[i].is_used = false;
    }
    fetch();
    settle();
    SO(live == 0, "objects are left", 0);
    cc_close(&c);
    WANT(cc_gc(&c), CC_CLOSED);
}

/* Near its limit a collector is filled up, so that it answers CC_FULL, and closed; then comes another. */
static void change_collectors(void) {
    cc_object made;
    uint32_t status;
    if (last_script > SCRIPT_LIMIT - 50)
        while ((status = cc_new_map(&c, NUMBERED, &made)) == CC_OK) {
            last_script = made.number;
            script_at[last_script] = add_thing(&made, CC_MAP, 0, 0);
        }
    else
        while ((status = cc_new_native(&c, NUMBERED, 0, &made)) == CC_OK) {
            last_native = made.number;
            native_at[last_native] = add_thing(&made, 0, 0, 0);
        }
    SO(status == CC_FULL, "a collector that is full answered another status", 0);
    SO(last_script == SCRIPT_LIMIT || last_native == NATIVE_LIMIT, "it was full too soon, or too late", 0);
    TRY(cc_set_native_root(&c, NUMBERED, &nothing));
    TRY(cc_set_script_root(&c, NUMBERED, &nothing));
    fetch();
    close_collector();
    open_collector();
}

/* How often each operation is drawn, of all shares. */
static const struct {
    uint32_t share;
    void (*run)(void);
} operations[] = {
    {80, make_native}, {80, make_plain},      {20, make_map},     {30, make_proxy}, {90, set_native_root},
    {210, store},      {10, store_unreached}, {30, move_slot},    {70, wrap},       {80, set_script_root},
    {50, set_entry},   {20, unset_entry},     {30, read_entry},   {25, hold},       {25, release},
    {60, read_thing},  {15, change_data},     {30, call_wrongly}, {6, ask_why},     {4, ask_why_not},
    {20, refer_weakly}, {20, follow}, {2, walk_all}, {10, walk_entries},
    {50, do_units},    {2, collect},          {6, collect_scripts}, {4, forget_suspects},
};
enum { KINDS = sizeof operations / sizeof operations[0] };

int main(int count, char **words) {
    unsigned long wanted = count > 1 ? strtoul(words[1], NULL, 10) : 1000000;
    uint32_t shares = 0;
    drawing = count > 2 ? strtoull(words[2], NULL, 10) : 7;
    for (unsigned i = 0; i < KINDS; i++) shares += operations[i].share;
    open_collector();
    for (operation = 1; operation <= wanted; operation++) {
        uint32_t share = draw(shares), kind = 0;
        while (share >= operations[kind].share) share -= operations[kind++].share;
        operations[kind].run();
        fetch();
        if (operation % BETWEEN == 0) settle();
        if (last_native > NATIVE_LIMIT - 50 || last_script > SCRIPT_LIMIT - 50) change_collectors();
    }
    close_collector();
    printf("%lu operations, %lu calls refused, %lu collectors, %lu settles\n", wanted, refused, collectors, settles);
    printf("%lu markings, of which %lu came to their end in units\n", (unsigned long)markings, markings_ended);
    printf("%lu objects freed, natives unlinked %lu times, at most %lu objects; %lu steps of why\n", told_freed, told_unlinked,
           most_live, steps_seen);
    printf("%lu natives that nothing reached were brought back by weak references, and %lu were taken that nothing reached after\n"
           "cc_gc; walks came to %lu\n", brought_back, taken, walked);
    return 0;
}
