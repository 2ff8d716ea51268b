/* One cycle through both heaps, from C.
 *
 * A page has a button, and the button has a listener, which knows the button. All three are let go, and are collected in slices.
 * Script objects that nothing holds are freed in slices, too. The program has an element of its own for each native, and one for
 * the listener, and frees it when its object is told as freed. Then each status is met once. The program prints what it does, and
 * ends with 0 where all was as the header says. */
#include "ccollect.h"
#include "expect.h"

static const cc_object nothing = {0, 0, 0, CC_NOTHING};

/* What the program has of an object. The object knows it by its number of the program's. */
struct element {
    const char *title;
};

static int elements;

static void give_element(cc_collector *c, const cc_object *x, const char *title) {
    struct element *element = malloc(sizeof *element);
    if (element == NULL) exit(1);
    element->title = title;
    elements++;
    TRY(cc_set_data(c, x, (uint64_t)(uintptr_t)element));
}

static struct element *element_of(cc_collector *c, const cc_object *x) {
    uint64_t data;
    TRY(cc_data(c, x, &data));
    return (struct element *)(uintptr_t)data;
}

/* The name of an object, as docs/COMMANDS.md writes it. */
static const char *name(uint32_t kind, uint32_t number) {
    static char texts[4][16];
    static unsigned next;
    char *text = texts[next++ % 4];
    snprintf(text, sizeof texts[0], "%c%u", kind <= CC_REFLECTOR ? " #@~"[kind] : '?', number);
    return text;
}

static int is_same(const cc_object *x, const cc_object *y) {
    return x->mark == y->mark && x->key == y->key && x->number == y->number && x->kind == y->kind;
}

/* Fetches what was told, prints it, and frees the elements of what is freed. How many objects were freed. */
static unsigned fetch(cc_collector *c) {
    static const char *const did[] = {"?", "unlinked", "freed", "given up"};
    cc_told told;
    unsigned freed = 0;
    uint32_t status;
    while ((status = cc_next_told(c, &told)) == CC_OK) {
        HOLDS(told.what >= CC_UNLINKED && told.what <= CC_ABANDONED);
        printf("    told: %s %s", name(told.kind, told.number), did[told.what]);
        if (told.what == CC_FREED) {
            freed++;
            if (told.data != 0) {
                struct element *element = (struct element *)(uintptr_t)told.data;
                printf(", and with it goes the element \"%s\"", element->title);
                free(element);
                elements--;
            }
        }
        printf("\n");
    }
    HOLDS(status == CC_NONE);
    return freed;
}

static void print_counts(cc_collector *c, const char *when) {
    uint64_t natives, scripts;
    TRY(cc_natives(c, &natives));
    TRY(cc_scripts(c, &scripts));
    printf("  %s: %u natives, %u script objects\n", when, (unsigned)natives, (unsigned)scripts);
}

static void print_why(cc_collector *c, const cc_object *x) {
    cc_step step;
    uint32_t led;
    TRY(cc_why(c, x, &led));
    printf("  why is %s there?%s\n", name(x->kind, x->number), led ? "" : " nothing leads to it");
    while (cc_next_step(c, &step) == CC_OK) {
        printf("    %s", name(step.kind, step.number));
        if (step.why == CC_BY_ROOT)
            printf(" is in %s root %u\n", step.by_kind == CC_NATIVE ? "native" : "script", step.by_number);
        else if (step.why == CC_BY_HOLD)
            printf(" is held by a root without number, at place %u\n", step.by_number);
        else if (step.why == CC_BY_OBJECT)
            printf(" is held by %s\n", name(step.by_kind, step.by_number));
        else
            printf(" is kept by an entry of %s with %s\n", name(step.by_kind, step.by_number),
                   name(step.key_kind, step.key_number));
    }
    WANT(cc_next_step(c, &step), CC_NONE);
}

/* The cycle. */

struct page {
    cc_object window, button, reflector, listener, map, note;
    cc_root held;
};

static void build(cc_collector *c, struct page *p) {
    cc_object found;
    uint32_t kind;
    uint16_t slots;
    printf("A page is built.\n");
    TRY(cc_new_native(c, 0, 1, &p->window));
    give_element(c, &p->window, "window");
    TRY(cc_new_native(c, 1, 2, &p->button));
    give_element(c, &p->button, "button");
    printf("  %s is the %s, and %s the %s\n", name(CC_NATIVE, p->window.number), element_of(c, &p->window)->title,
           name(CC_NATIVE, p->button.number), element_of(c, &p->button)->title);
    TRY(cc_store(c, &p->window, 0, &p->button));

    TRY(cc_wrap(c, &p->button, &p->reflector));
    TRY(cc_set_script_root(c, 0, &p->reflector));
    HOLDS(p->reflector.kind == CC_REFLECTOR && p->reflector.number == p->button.number);
    TRY(cc_unwrap(c, &p->reflector, &found));
    HOLDS(is_same(&found, &p->button));
    TRY(cc_kind(c, &p->reflector, &kind));
    HOLDS(kind == CC_REFLECTS);
    printf("  %s is what script has of the button\n", name(p->reflector.kind, p->reflector.number));

    TRY(cc_new_plain(c, 1, 1, &p->listener));
    HOLDS(element_of(c, &p->listener) == NULL);
    give_element(c, &p->listener, "listener");
    TRY(cc_store(c, &p->listener, 0, &p->reflector));
    TRY(cc_store(c, &p->button, 0, &p->listener));
    TRY(cc_slots(c, &p->button, &slots));
    TRY(cc_slot(c, &p->button, 0, &found));
    HOLDS(slots == 2 && is_same(&found, &p->listener));
    printf("  %s is a %s: the button holds it, and it holds %s\n", name(p->listener.kind, p->listener.number),
           element_of(c, &p->listener)->title, name(p->reflector.kind, p->reflector.number));

    TRY(cc_new_map(c, 2, &p->map));
    TRY(cc_new_plain(c, 3, 1, &p->note));
    TRY(cc_store(c, &p->note, 0, &p->reflector));
    TRY(cc_set_entry(c, &p->map, &p->reflector, &p->note));
    TRY(cc_entry(c, &p->map, &p->reflector, &found));
    HOLDS(is_same(&found, &p->note));
    printf("  %s is a note about the button, in the weak map %s\n", name(p->note.kind, p->note.number),
           name(p->map.kind, p->map.number));
    TRY(cc_hold(c, &p->button, &p->held));
    TRY(cc_held(c, &p->held, &found));
    HOLDS(is_same(&found, &p->button));
}

static void let_go(cc_collector *c, struct page *p) {
    printf("The page lets go of the button, and one root still holds it.\n");
    TRY(cc_set_native_root(c, 1, &nothing));
    for (uint16_t r = 0; r < 4; r++)
        if (r != 2) TRY(cc_set_script_root(c, r, &nothing));
    TRY(cc_store(c, &p->window, 0, &nothing));
    TRY(cc_settle(c));
    HOLDS(fetch(c) == 0);
    print_why(c, &p->note);
    printf("That root is released.\n");
    TRY(cc_release(c, &p->held));
    print_why(c, &p->note);
    print_counts(c, "there are");
}

static void collect_in_slices(cc_collector *c, struct page *p) {
    uint32_t over = 0, running, units = 0;
    unsigned freed;
    printf("It is collected in slices, and the program goes on between two of them.\n");
    TRY(cc_gc(c));
    HOLDS(fetch(c) == 0);
    TRY(cc_slice(c, 1, &over));
    TRY(cc_running(c, &running));
    HOLDS(over == 0 && running == 1);
    for (units = 1; over == 0; units++) {
        cc_object busy;
        HOLDS(units < 1000);
        TRY(cc_new_plain(c, 5, 0, &busy));
        TRY(cc_slice(c, 1, &over));
    }
    TRY(cc_running(c, &running));
    HOLDS(running == 0);
    printf("  the collection took %u units\n", units);
    freed = fetch(c);
    TRY(cc_is_there(c, &p->window));
    TRY(cc_set_script_root(c, 5, &nothing));
    TRY(cc_gc(c));
    freed += fetch(c);
    /* the button, its reflector, the listener and the note; and what the program made between two slices */
    HOLDS(freed == 4 + units - 1);
    WANT(cc_is_there(c, &p->button), CC_GONE);
    WANT(cc_is_there(c, &p->reflector), CC_GONE);
    WANT(cc_is_there(c, &p->listener), CC_GONE);
    WANT(cc_is_there(c, &p->note), CC_GONE);
    TRY(cc_is_there(c, &p->map));
    TRY(cc_is_there(c, &p->window));
    HOLDS(elements == 1);
    print_counts(c, "now there are");
}

/* Script objects that nothing holds are freed in slices, too. */
static void mark_in_slices(cc_collector *c) {
    cc_object first, read, lost;
    uint32_t over, marking, running, units;
    printf("Script objects are freed in slices, and script goes on between two of them.\n");
    TRY(cc_new_plain(c, 0, 1, &first));
    TRY(cc_new_plain(c, 1, 0, &read));
    TRY(cc_store(c, &first, 0, &read));
    TRY(cc_new_plain(c, 1, 0, &lost));
    TRY(cc_set_script_root(c, 1, &nothing));
    TRY(cc_mark(c, 1, &over));
    TRY(cc_marking(c, &marking));
    HOLDS(over == 0 && marking == 1);
    /* script takes what the marking has not come to out of where it stood */
    TRY(cc_set_script_root(c, 1, &read));
    TRY(cc_store(c, &first, 0, &nothing));
    HOLDS(fetch(c) == 0);
    for (units = 1; over == 0; units++) {
        HOLDS(units < 1000);
        TRY(cc_mark(c, 1, &over));
    }
    TRY(cc_marking(c, &marking));
    HOLDS(marking == 0 && fetch(c) == 1);
    WANT(cc_is_there(c, &lost), CC_GONE);
    TRY(cc_is_there(c, &read));
    printf("  the marking took %u units\n", units);
    /* a slice first ends a marking, and a marking a collection; gc drops it */
    TRY(cc_set_script_root(c, 1, &nothing));
    TRY(cc_mark(c, 1, &over));
    HOLDS(over == 0 && fetch(c) == 0);
    TRY(cc_slice(c, 1, &over));
    TRY(cc_marking(c, &marking));
    TRY(cc_running(c, &running));
    HOLDS(over == 0 && marking == 0 && running == 1 && fetch(c) == 1);
    WANT(cc_is_there(c, &read), CC_GONE);
    TRY(cc_mark(c, 1, &over));
    TRY(cc_marking(c, &marking));
    TRY(cc_running(c, &running));
    HOLDS(over == 0 && marking == 1 && running == 0);
    TRY(cc_set_script_root(c, 0, &nothing));
    TRY(cc_gc(c));
    TRY(cc_marking(c, &marking));
    HOLDS(marking == 0 && fetch(c) == 1);
    WANT(cc_is_there(c, &first), CC_GONE);
}

/* Other things that a program does. */
static void move_and_proxy(cc_collector *c) {
    cc_object parent, child, proxy, found, reflector;
    uint32_t kind, some, marks, preserved;
    printf("A reference is moved, and a proxy is made.\n");
    TRY(cc_new_native(c, 2, 2, &parent));
    TRY(cc_new_native(c, 3, 0, &child));
    TRY(cc_store(c, &parent, 0, &child));
    TRY(cc_set_native_root(c, 3, &nothing));
    /* the parent was written, and the child lost a reference: both are suspects, and a root reaches them */
    TRY(cc_forget(c, &marks));
    HOLDS(marks == 2);
    TRY(cc_forget(c, &marks));
    HOLDS(marks == 0);
    TRY(cc_move_slot(c, &parent, 1, &parent, 0));
    TRY(cc_slot(c, &parent, 0, &found));
    HOLDS(found.kind == CC_NOTHING);
    TRY(cc_slot(c, &parent, 1, &found));
    HOLDS(is_same(&found, &child));
    TRY(cc_native_root(c, 2, &found));
    HOLDS(is_same(&found, &parent));
    HOLDS(fetch(c) == 0);

    TRY(cc_reflector(c, &child, &found));
    HOLDS(found.kind == CC_NOTHING);
    TRY(cc_wrap(c, &child, &reflector));
    TRY(cc_reflector(c, &child, &found));
    HOLDS(is_same(&found, &reflector));
    TRY(cc_is_preserved(c, &reflector, &preserved));
    HOLDS(preserved == 0);
    TRY(cc_preserve(c, &reflector));
    TRY(cc_is_preserved(c, &reflector, &preserved));
    HOLDS(preserved == 1);
    TRY(cc_new_proxy(c, 0, &reflector, &proxy));
    TRY(cc_delegate(c, &proxy, &found));
    HOLDS(is_same(&found, &reflector));
    TRY(cc_delegate(c, &reflector, &found));
    HOLDS(found.kind == CC_NOTHING);
    TRY(cc_kind(c, &proxy, &kind));
    HOLDS(kind == CC_PROXY);
    TRY(cc_script_root(c, 0, &found));
    HOLDS(is_same(&found, &proxy));
    TRY(cc_set_native_root(c, 2, &nothing));
    HOLDS(fetch(c) == 1);
    WANT(cc_is_there(c, &parent), CC_GONE);
    TRY(cc_settle(c));
    HOLDS(fetch(c) == 0);
    print_why(c, &child);
    TRY(cc_set_script_root(c, 0, &nothing));
    TRY(cc_has_suspects(c, &some));
    TRY(cc_gc(c));
    TRY(cc_collect(c));
    TRY(cc_gc(c));
    HOLDS(fetch(c) == 3);
    WANT(cc_is_there(c, &proxy), CC_GONE);
}

/* The last numbered roots, and the most slots. */
static void use_the_last(cc_collector *c) {
    cc_object wide, plain, found;
    uint16_t slots;
    printf("The last numbered roots and the last slot are used.\n");
    TRY(cc_new_native(c, 1022, 256, &wide));
    TRY(cc_new_plain(c, 1022, 256, &plain));
    TRY(cc_slots(c, &wide, &slots));
    HOLDS(slots == 256);
    TRY(cc_store(c, &wide, 255, &plain));
    TRY(cc_slot(c, &wide, 255, &found));
    HOLDS(is_same(&found, &plain));
    TRY(cc_native_root(c, 1022, &found));
    HOLDS(is_same(&found, &wide));
    TRY(cc_script_root(c, 1022, &found));
    HOLDS(is_same(&found, &plain));
    TRY(cc_set_native_root(c, 1022, &nothing));
    TRY(cc_set_script_root(c, 1022, &nothing));
    HOLDS(fetch(c) == 1);
    TRY(cc_settle(c));
    HOLDS(fetch(c) == 1);
}

/* Roots without number hold objects of both kinds, each as many times as wanted, and are no objects. */
static void hold_many(cc_collector *c) {
    static cc_root roots[300];
    cc_object native, plain, found;
    cc_step step;
    uint64_t before, after;
    uint32_t led;
    printf("Two objects are held by many roots.\n");
    TRY(cc_new_native(c, 6, 0, &native));
    TRY(cc_new_plain(c, 6, 0, &plain));
    TRY(cc_natives(c, &before));
    for (unsigned i = 0; i < 300; i++) TRY(cc_hold(c, i % 2 == 0 ? &native : &plain, &roots[i]));
    TRY(cc_natives(c, &after));
    HOLDS(before == after);
    TRY(cc_set_native_root(c, 6, &nothing));
    TRY(cc_set_script_root(c, 6, &nothing));
    for (unsigned i = 0; i < 299; i++) {
        TRY(cc_held(c, &roots[i], &found));
        HOLDS(is_same(&found, i % 2 == 0 ? &native : &plain));
        TRY(cc_release(c, &roots[i]));
    }
    TRY(cc_settle(c));
    HOLDS(fetch(c) == 1);
    TRY(cc_why(c, &plain, &led));
    TRY(cc_next_step(c, &step));
    HOLDS(led == 1 && step.why == CC_BY_HOLD && step.by_kind == CC_SCRIPT && step.by_number == roots[299].index);
    WANT(cc_is_there(c, &native), CC_GONE);
    TRY(cc_release(c, &roots[299]));
    TRY(cc_settle(c));
    HOLDS(fetch(c) == 1);
}

/* A reflector has a number beside that of its native. The one that is made when it is gone has none. */
static void number_reflectors(cc_collector *c) {
    cc_object native, reflector;
    cc_told told;
    uint64_t data;
    printf("A reflector gets a number of its own.\n");
    TRY(cc_new_native(c, 2, 0, &native));
    TRY(cc_set_data(c, &native, 5));
    TRY(cc_wrap(c, &native, &reflector));
    TRY(cc_data(c, &reflector, &data));
    HOLDS(data == 0);
    TRY(cc_set_data(c, &reflector, 6));
    TRY(cc_wrap(c, &native, &reflector));
    TRY(cc_data(c, &reflector, &data));
    HOLDS(data == 6);
    TRY(cc_data(c, &native, &data));
    HOLDS(data == 5);
    TRY(cc_gc(c));
    TRY(cc_next_told(c, &told));
    HOLDS(told.what == CC_FREED && told.kind == CC_REFLECTOR && told.data == 6);
    TRY(cc_wrap(c, &native, &reflector));
    TRY(cc_data(c, &reflector, &data));
    HOLDS(data == 0);
    /* what was told of the one before and is fetched later has the number of the new one */
    TRY(cc_set_data(c, &reflector, 7));
    TRY(cc_gc(c));
    TRY(cc_wrap(c, &native, &reflector));
    TRY(cc_set_data(c, &reflector, 8));
    TRY(cc_next_told(c, &told));
    HOLDS(told.what == CC_FREED && told.kind == CC_REFLECTOR && told.data == 8);
    TRY(cc_gc(c));
    TRY(cc_set_native_root(c, 2, &nothing));
    TRY(cc_next_told(c, &told));
    HOLDS(told.what == CC_FREED && told.kind == CC_REFLECTOR && told.data == 8);
    TRY(cc_next_told(c, &told));
    HOLDS(told.what == CC_FREED && told.kind == CC_NATIVE && told.data == 5);
    HOLDS(fetch(c) == 0);
}

/* A walk over all objects, and one over the entries of a weak map. */
static void walk_over(cc_collector *c) {
    cc_object x = nothing, next, key = nothing, value, map, a[3], found;
    uint64_t natives, scripts, count = 0, before, after;
    uint32_t due;
    uint16_t r = 0;
    printf("A program walks over what is there.\n");
    TRY(cc_bytes(c, &before));
    TRY(cc_new_map(c, 13, &map));
    for (; r < 3; r++) {
        TRY(cc_new_plain(c, (uint16_t)(10 + r), 2, &a[r]));
        TRY(cc_set_entry(c, &map, &a[r], &map));
    }
    TRY(cc_set_entry(c, &map, &a[0], &a[1]));
    TRY(cc_bytes(c, &after));
    HOLDS(after == before + 4 * 254 + 3 * 2 * 8 + 3 * 44);
    printf("  objects:");
    while (cc_next_object(c, &x, &next) == CC_OK) {
        printf(" %s", name(next.kind, next.number));
        HOLDS(next.kind != CC_NATIVE || x.kind == CC_NOTHING || x.kind == CC_NATIVE);
        x = next;
        count++;
    }
    printf("\n");
    TRY(cc_natives(c, &natives));
    TRY(cc_scripts(c, &scripts));
    HOLDS(count == natives + scripts && is_same(&x, &a[2]));
    /* the entry that was set first comes last, also where it was set again */
    while (cc_next_entry(c, &map, &key, &next, &value) == CC_OK) {
        HOLDS(r > 0 && is_same(&next, &a[--r]) && is_same(&value, r == 0 ? &a[1] : &map));
        key = next;
    }
    HOLDS(r == 0);
    WANT(cc_next_entry(c, &map, &map, &next, &value), CC_NONE);
    /* what is gone has nothing behind it */
    x = a[1];
    TRY(cc_unset_entry(c, &map, &a[0]));
    TRY(cc_set_script_root(c, 11, &nothing));
    TRY(cc_settle(c));
    HOLDS(fetch(c) == 1);
    WANT(cc_next_object(c, &x, &found), CC_GONE);
    WANT(cc_next_entry(c, &map, &x, &next, &value), CC_GONE);
    TRY(cc_next_object(c, &a[0], &found));
    HOLDS(is_same(&found, &a[2]));
    TRY(cc_is_due(c, &due));
    HOLDS(due == 0);
    for (r = 10; r < 14; r++) TRY(cc_set_script_root(c, r, &nothing));
    TRY(cc_settle(c));
    HOLDS(fetch(c) == 3);
}

/* A native that only a weak reference knows is brought back, until a collection unlinked it. */
static void refer_weakly(cc_collector *c) {
    cc_object kept, found;
    cc_root root;
    cc_weak weak, second;
    uint32_t ended;
    printf("A native is referred to weakly.\n");
    TRY(cc_new_native(c, 2, 1, &kept));
    TRY(cc_weak_of(c, &kept, &weak));
    TRY(cc_store(c, &kept, 0, &kept));
    TRY(cc_set_native_root(c, 2, &nothing));
    /* nothing leads to it any more, and it is brought back */
    TRY(cc_upgrade_into(c, 2, &weak, &found));
    HOLDS(is_same(&found, &kept));
    TRY(cc_set_native_root(c, 2, &nothing));
    TRY(cc_upgrade(c, &weak, &root, &found));
    HOLDS(is_same(&found, &kept));
    TRY(cc_held(c, &root, &found));
    HOLDS(is_same(&found, &kept));
    TRY(cc_weak_of(c, &found, &second));
    TRY(cc_settle(c));
    HOLDS(fetch(c) == 0);
    TRY(cc_ended(c, &weak, &ended));
    HOLDS(ended == 0);
    TRY(cc_release(c, &root));
    TRY(cc_settle(c));
    HOLDS(fetch(c) == 1);
    WANT(cc_upgrade(c, &weak, &root, &found), CC_NONE);
    WANT(cc_upgrade_into(c, 2, &second, &found), CC_NONE);
    WANT(cc_weak_of(c, &kept, &weak), CC_GONE);
    TRY(cc_ended(c, &weak, &ended));
    HOLDS(ended == 1);
    weak.mark = 2;
    WANT(cc_ended(c, &weak, &ended), CC_FOREIGN);
    WANT(cc_upgrade(c, &weak, &root, &found), CC_FOREIGN);
    WANT(cc_upgrade_into(c, 1023, &second, &found), CC_INDEX);

    /* a script object holds one that was unlinked: no call takes it from then on */
    TRY(cc_new_native(c, 2, 1, &kept));
    TRY(cc_weak_of(c, &kept, &weak));
    TRY(cc_wrap(c, &kept, &found));
    TRY(cc_store(c, &found, 0, &found));
    TRY(cc_set_native_root(c, 2, &nothing));
    TRY(cc_gc(c));
    TRY(cc_collect(c));
    HOLDS(fetch(c) == 0);
    WANT(cc_upgrade_into(c, 2, &weak, &found), CC_NONE);
    WANT(cc_set_native_root(c, 2, &kept), CC_GONE);
    WANT(cc_is_there(c, &kept), CC_GONE);
    TRY(cc_gc(c));
    HOLDS(fetch(c) == 2);
    WANT(cc_upgrade_into(c, 2, &weak, &found), CC_NONE);
}

/* Each status once. Nothing is changed, and nothing is written. */
static void meet_each_status(cc_collector *c, const struct page *p) {
    static const cc_object untouched = {5, 5, 5, 5};
    cc_collector closed = CC_COLLECTOR_CLOSED, other = CC_COLLECTOR_CLOSED;
    cc_object stranger, out, native, plain, second;
    cc_root root, strange_root;
    cc_told told;
    uint64_t natives, natives_after;
    uint32_t marks, over;
    uint16_t slots;
    printf("Each status is met.\n");

    WANT(cc_gc(&closed), CC_CLOSED);
    WANT(cc_natives(&closed, &natives), CC_CLOSED);
    WANT(cc_forget(&closed, &marks), CC_CLOSED);
    WANT(cc_mark(&closed, 1, &over), CC_CLOSED);
    cc_close(&closed);
    printf("  CC_CLOSED: a collector that was never opened\n");
    WANT(cc_open(c, 10, 10), CC_OPEN);
    printf("  CC_OPEN: one that is open already\n");
    WANT(cc_open(&other, 1000001, 0), CC_LIMIT);
    WANT(cc_open(&other, 0, 1000001), CC_LIMIT);
    printf("  CC_LIMIT: a limit above a million\n");

    TRY(cc_natives(c, &natives));
    TRY(cc_open(&other, 4, 1));
    TRY(cc_new_native(&other, 0, 1, &stranger));
    TRY(cc_hold(&other, &stranger, &strange_root));
    WANT(cc_is_there(c, &stranger), CC_FOREIGN);
    WANT(cc_set_native_root(c, 9, &stranger), CC_FOREIGN);
    WANT(cc_store(c, &p->window, 0, &stranger), CC_FOREIGN);
    WANT(cc_release(c, &strange_root), CC_FOREIGN);
    printf("  CC_FOREIGN: an object and a root of another collector\n");
    TRY(cc_new_plain(&other, 0, 0, &out));
    WANT(cc_new_plain(&other, 1, 0, &out), CC_FULL);
    printf("  CC_FULL: more objects than the limit\n");
    cc_close(&other);
    WANT(cc_is_there(&other, &stranger), CC_CLOSED);

    out = untouched;
    WANT(cc_is_there(c, &p->button), CC_GONE);
    WANT(cc_slot(c, &p->button, 0, &out), CC_GONE);
    WANT(cc_wrap(c, &p->button, &out), CC_GONE);
    WANT(cc_set_native_root(c, 9, &p->button), CC_GONE);
    WANT(cc_store(c, &p->window, 0, &p->listener), CC_GONE);
    /* what stands in its place now is another, and is not taken for it */
    TRY(cc_new_native(c, 9, 1, &native));
    give_element(c, &native, "label");
    WANT(cc_slot(c, &p->button, 0, &out), CC_GONE);
    printf("  CC_GONE: a stale object (%s had key %u; %s has key %u)\n", name(CC_NATIVE, p->button.number), p->button.key,
           name(CC_NATIVE, native.number), native.key);
    second = native;
    second.key = 4000000000u;
    WANT(cc_slot(c, &second, 0, &out), CC_GONE);
    second = native;
    second.number = 999;
    WANT(cc_slot(c, &second, 0, &out), CC_GONE);
    second = native;
    second.kind = 77;
    WANT(cc_is_there(c, &second), CC_KIND);
    WANT(cc_is_there(c, &nothing), CC_KIND);
    second = nothing;
    second.mark = native.mark;
    WANT(cc_is_there(c, &second), CC_KIND);
    printf("  CC_GONE, CC_KIND: an object that is made up, and no object at all\n");
    WANT(cc_release(c, &p->held), CC_GONE);
    WANT(cc_held(c, &p->held, &out), CC_GONE);
    TRY(cc_hold(c, &native, &root));
    WANT(cc_release(c, &p->held), CC_GONE);
    TRY(cc_release(c, &root));
    WANT(cc_release(c, &root), CC_GONE);
    printf("  CC_GONE: a root that was released, twice\n");

    TRY(cc_new_plain(c, 9, 1, &plain));
    WANT(cc_store(c, &plain, 0, &native), CC_KIND);
    WANT(cc_set_native_root(c, 9, &plain), CC_KIND);
    WANT(cc_set_script_root(c, 9, &native), CC_KIND);
    WANT(cc_wrap(c, &plain, &out), CC_KIND);
    WANT(cc_unwrap(c, &native, &out), CC_KIND);
    WANT(cc_preserve(c, &plain), CC_KIND);
    WANT(cc_reflector(c, &plain, &out), CC_KIND);
    WANT(cc_is_preserved(c, &plain, &over), CC_KIND);
    WANT(cc_delegate(c, &native, &out), CC_KIND);
    WANT(cc_set_data(c, &nothing, 1), CC_KIND);
    WANT(cc_set_entry(c, &plain, &plain, &plain), CC_KIND);
    WANT(cc_entry(c, &p->map, &native, &out), CC_KIND);
    printf("  CC_KIND: an object of the wrong kind\n");

    WANT(cc_slot(c, &native, 1, &out), CC_INDEX);
    WANT(cc_store(c, &native, 1, &plain), CC_INDEX);
    WANT(cc_set_native_root(c, 1023, &native), CC_INDEX);
    WANT(cc_native_root(c, 1023, &out), CC_INDEX);
    WANT(cc_new_native(c, 1023, 1, &out), CC_INDEX);
    WANT(cc_new_native(c, 9, 257, &out), CC_INDEX);
    WANT(cc_new_plain(c, 9, 257, &out), CC_INDEX);
    printf("  CC_INDEX: a root, a slot and a number of slots that there are not\n");
    HOLDS(is_same(&out, &untouched));

    TRY(cc_slots(c, &native, &slots));
    TRY(cc_natives(c, &natives_after));
    HOLDS(slots == 1 && natives_after == natives + 1);
    WANT(cc_next_told(c, &told), CC_NONE);
    printf("  CC_NONE: nothing more was told\n");
}

int main(void) {
    cc_collector c = CC_COLLECTOR_CLOSED;
    struct page page;
    uint64_t natives, scripts;
    TRY(cc_open(&c, 1000, 1000));
    build(&c, &page);
    let_go(&c, &page);
    collect_in_slices(&c, &page);
    mark_in_slices(&c);
    move_and_proxy(&c);
    use_the_last(&c);
    hold_many(&c);
    number_reflectors(&c);
    walk_over(&c);
    refer_weakly(&c);
    meet_each_status(&c, &page);

    printf("The roots are emptied, and what is left goes.\n");
    for (uint16_t r = 0; r < 1023; r++) {
        TRY(cc_set_native_root(&c, r, &nothing));
        TRY(cc_set_script_root(&c, r, &nothing));
    }
    TRY(cc_settle(&c));
    fetch(&c);
    HOLDS(elements == 0);
    TRY(cc_scripts(&c, &scripts));
    TRY(cc_natives(&c, &natives));
    HOLDS(scripts == 0 && natives == 0);
    cc_close(&c);
    cc_close(&c);
    WANT(cc_settle(&c), CC_CLOSED);
    printf("The collector is closed.\n");
    return 0;
}
