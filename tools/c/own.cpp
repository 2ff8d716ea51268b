// The types of ccollect.hpp: what they own is held as long as they live, wherever they move to, and given up once.
#include "ccollect.hpp"
#include <cstdio>
#include <cstdlib>
#include <type_traits>
#include <utility>
#include <vector>

static void want(bool is_so, const char *what, int line) {
    if (is_so) return;
    std::printf("own.cpp:%d: this is not so: %s\n", line, what);
    std::exit(1);
}
#define WANT(what) want((what) ? true : false, #what, __LINE__)

template <typename T> constexpr bool moves_alone() {
    return std::is_nothrow_move_constructible<T>::value && std::is_nothrow_move_assignable<T>::value &&
           std::is_nothrow_default_constructible<T>::value && std::is_nothrow_destructible<T>::value &&
           !std::is_copy_constructible<T>::value && !std::is_copy_assignable<T>::value;
}
static_assert(moves_alone<cc::collector>(), "a collector moves, and is not copied");
static_assert(moves_alone<cc::root>(), "a root moves, and is not copied");
static_assert(std::is_trivially_copyable<cc::weak>::value, "a weak reference is copied as its bytes are");

static cc::collector opened() {
    cc::expected<cc::collector> c = cc::collector::open(1000, 1000);
    WANT(c && c.status() == CC_OK);
    return std::move(*c);
}

// A native that only its root holds, and itself.
static cc::root make(cc::collector &c) {
    const cc::expected<cc::object> made = c.new_native(0, 1);
    WANT(made && c.store(*made, 0, *made) == CC_OK);
    cc::expected<cc::root> held = c.hold(*made);
    WANT(held && c.set_native_root(0, cc::nothing()) == CC_OK);
    return *std::move(held);
}

// Whether it is there once the collector has settled.
static bool stays(cc::collector &c, const cc::object &x) {
    WANT(c.settle() == CC_OK);
    while (c.next_told()) continue;
    return c.is_there(x) == CC_OK;
}

static void open_and_refuse() {
    cc::expected<cc::collector> none = cc::collector::open(1000001, 0);
    WANT(!none && none.status() == CC_LIMIT && none.text() == cc::text(CC_LIMIT));
    WANT(none->gc() == CC_CLOSED && none->new_native(0, 1).status() == CC_CLOSED);
    cc::collector closed;
    WANT(closed.settle() == CC_CLOSED && closed.hold(cc::nothing()).status() == CC_CLOSED);
    closed.close();
    cc::collector c = opened();
    const cc::expected<cc::object> out = c.new_native(1023, 0);
    WANT(!out && out.status() == CC_INDEX && out->kind == CC_NOTHING);
    cc::expected<cc::root> empty = c.hold(*out);
    WANT(!empty && !*empty && empty->get().status() == CC_CLOSED);
}

// A root holds its object until it ends, and no longer.
static void hold_and_end() {
    cc::collector c = opened();
    cc::object x;
    {
        cc::root held = make(c);
        WANT(held);
        x = *held.get();
        WANT(x.kind == CC_NATIVE && stays(c, x));
    }
    WANT(!stays(c, x));
}

static void move_roots() {
    cc::collector c = opened();
    cc::root a = make(c), b = make(c), empty;
    const cc::object x = *a.get(), y = *b.get();
    cc::root moved(std::move(a));
    WANT(moved && !a && a.get().status() == CC_CLOSED && a.get()->kind == CC_NOTHING);
    a.release();
    WANT(stays(c, x) && stays(c, y));
    // over another one, which gives up what it held
    b = std::move(moved);
    WANT(b && !moved && b.get()->number == x.number && stays(c, x) && !stays(c, y));
    // onto itself, and an empty one onto itself
    cc::root &same = b, &nothing = empty;
    b = std::move(same);
    empty = std::move(nothing);
    WANT(b && !empty && stays(c, x));
    std::swap(b, empty);
    WANT(!b && empty && stays(c, x));
    // an empty one over it
    empty = cc::root();
    WANT(!empty && !stays(c, x));
}

// Who is released twice takes nothing from the root that has its place by then.
static void release_twice() {
    cc::collector c = opened();
    cc::root first = make(c);
    first.release();
    WANT(!first);
    cc::root second = make(c);
    const cc::object x = *second.get();
    first.release();
    WANT(second && second.get() && stays(c, x));
    first = make(c);
    WANT(first && first.get()->number != x.number);
    // the one before goes, while those beside it stay
    second.release();
    WANT(!stays(c, x) && first.get());
}

// Roots that never move from where they were answered.
static void hold_in_place() {
    cc::collector here = opened();
    const cc::object x = *here.new_native(0, 0), y = *here.new_native(1, 0);
    cc::expected<cc::root> first = here.hold(x), second = here.hold(y);
    first->release();
    cc::collector there(std::move(here));
    WANT(!*first && second->get()->number == y.number);
    WANT(there.set_native_root(0, cc::nothing()) == CC_OK && there.set_native_root(1, cc::nothing()) == CC_OK);
    WANT(!stays(there, x) && stays(there, y));
}

static void move_many() {
    cc::collector c = opened();
    std::vector<cc::root> roots;
    std::vector<cc::object> objects;
    for (unsigned i = 0; i < 100; i++) {
        roots.push_back(make(c));
        objects.push_back(*roots.back().get());
    }
    for (unsigned i = 0; i < 100; i++) WANT(stays(c, objects[i]));
    // from the middle, from both ends
    roots.erase(roots.begin() + 40, roots.begin() + 60);
    roots.erase(roots.begin());
    roots.pop_back();
    for (unsigned i = 0; i < 100; i++) WANT(stays(c, objects[i]) == (i != 0 && i != 99 && (i < 40 || i >= 60)));
    roots.clear();
    for (unsigned i = 0; i < 100; i++) WANT(!stays(c, objects[i]));
}

static void move_collectors() {
    cc::collector here = opened();
    cc::root a = make(here), b = make(here);
    const cc::object x = *a.get(), y = *b.get();
    cc::collector there(std::move(here));
    WANT(here.gc() == CC_CLOSED && stays(there, x) && a.get());
    a.release();
    WANT(!stays(there, x) && stays(there, y));
    cc::collector &same = there;
    there = std::move(same);
    WANT(stays(there, y) && b.get());
    // over an open one, whose roots are empty then
    cc::collector other = opened();
    cc::root strange = make(other);
    const cc::object z = *strange.get();
    WANT(there.is_there(z) == CC_FOREIGN);
    other = std::move(there);
    WANT(!strange && stays(other, y) && b.get() && other.is_there(z) == CC_FOREIGN);
    // a closed one over it
    other = cc::collector();
    WANT(!b && other.gc() == CC_CLOSED);
}

// A collector that is closed empties its roots, and one that is opened after it takes none of its objects.
static void outlive() {
    cc::root late;
    cc::weak w;
    cc::object x;
    {
        cc::collector c = opened();
        late = make(c);
        x = *late.get();
        w = *c.weak_of(x);
        WANT(late);
    }
    WANT(!late && late.get().status() == CC_CLOSED);
    late.release();
    cc::collector c = opened();
    const cc::root held = make(c);
    WANT(held.get()->number == x.number && c.is_there(x) == CC_FOREIGN && c.hold(x).status() == CC_FOREIGN);
    WANT(w.upgrade(c).status() == CC_FOREIGN && w.ended(c).status() == CC_FOREIGN);
    c.close();
    WANT(!held && w.upgrade(c).status() == CC_CLOSED);
    c = opened();
    WANT(c.gc() == CC_OK && held.get().status() == CC_CLOSED);
}

static void refer_weakly() {
    cc::collector c = opened();
    cc::root held = make(c);
    const cc::object x = *held.get();
    const cc::expected<cc::weak> made = c.weak_of(x);
    WANT(made);
    const cc::weak w = *made, copy = w;
    held.release();
    // nothing leads to it, and it is brought back
    held = *copy.upgrade(c);
    WANT(held && held.get()->number == x.number && stays(c, x) && !*w.ended(c));
    held.release();
    WANT(c.upgrade_into(1, w) && stays(c, x));
    WANT(c.set_native_root(1, cc::nothing()) == CC_OK && !stays(c, x));
    cc::expected<cc::root> none = w.upgrade(c);
    WANT(!none && none.status() == CC_NONE && !*none && *w.ended(c));
    WANT(cc::weak().upgrade(c).status() == CC_FOREIGN && cc::weak().ended(c).status() == CC_FOREIGN);
}

// Each other call once.
static void call_each() {
    cc::collector c = opened();
    const cc::object element = *c.new_native(0, 2), child = *c.new_native(1, 0);
    const cc::object listener = *c.new_plain(0, 1), map = *c.new_map(1), proxy = *c.new_proxy(2, listener);
    const cc::object reflector = *c.wrap(element);
    WANT(c.set_script_root(3, reflector) == CC_OK && c.script_root(3)->number == element.number);
    WANT(c.native_root(0)->number == element.number && c.unwrap(reflector)->number == element.number);
    WANT(c.reflector(child)->kind == CC_NOTHING && c.reflector(element)->number == element.number && !*c.is_preserved(reflector));
    WANT(c.preserve(reflector) == CC_OK && *c.is_preserved(reflector) && *c.kind(proxy) == CC_PROXY && *c.kind(map) == CC_MAP);
    WANT(c.delegate(proxy)->number == listener.number && c.delegate(map)->kind == CC_NOTHING);
    WANT(*c.slots(element) == 2 && c.store(element, 0, child) == CC_OK && c.store(listener, 0, reflector) == CC_OK);
    WANT(c.move_slot(element, 1, element, 0) == CC_OK && c.slot(element, 0)->kind == CC_NOTHING);
    WANT(c.slot(element, 1)->number == child.number);
    WANT(c.set_entry(map, reflector, listener) == CC_OK && c.entry(map, reflector)->number == listener.number);
    WANT(c.unset_entry(map, reflector) == CC_OK && c.entry(map, reflector)->kind == CC_NOTHING);
    WANT(c.set_data(element, 77) == CC_OK && *c.data(element) == 77);
    WANT(*c.natives() == 2 && *c.scripts() == 4 && *c.has_suspects() && !*c.is_due());
    WANT(*c.bytes() == 2 * 272 + 2 * 8 + 4 * 254 + 1 * 8 + 4 * 8);
    unsigned objects = 0;
    cc::object last = cc::nothing();
    for (cc::expected<cc::object> x = c.next_object(last); x; x = c.next_object(last), objects++) last = *x;
    WANT(objects == 6 && last.number == element.number && last.kind == CC_REFLECTOR && c.next_object(last).status() == CC_NONE);
    WANT(c.next_entry(map, cc::nothing()).status() == CC_NONE && c.set_entry(map, proxy, listener) == CC_OK);
    const cc::expected<cc::key_and_value> entry = c.next_entry(map, cc::nothing());
    WANT(entry && entry->key.number == proxy.number && entry->value.number == listener.number);
    WANT(c.next_entry(map, entry->key)->key.kind == CC_NOTHING && c.unset_entry(map, proxy) == CC_OK);
    WANT(*c.why(child));
    unsigned steps = 0;
    for (cc::expected<cc_step> step = c.next_step(); step; step = c.next_step()) steps++;
    WANT(steps > 0 && c.next_step().status() == CC_NONE);
    WANT(*c.forget() > 0 && c.gc() == CC_OK && c.collect() == CC_OK);
    WANT(!*c.mark(1) && *c.marking() && *c.mark(1000) && !*c.marking());
    WANT(c.store(element, 0, element) == CC_OK && c.set_native_root(0, cc::nothing()) == CC_OK);
    for (uint16_t r = 0; r < 4; r++) WANT(c.set_script_root(r, cc::nothing()) == CC_OK);
    WANT(c.gc() == CC_OK);
    while (c.next_told()) continue;
    WANT(!*c.slice(1) && *c.running() && *c.slice(1000) && !*c.running() && c.gc() == CC_OK);
    cc::expected<cc_told> told = c.next_told();
    WANT(told && told->what == CC_UNLINKED && told->number == element.number && told->data == 77);
    while (c.next_told()) continue;
    WANT(*c.natives() == 1 && c.is_there(child) == CC_OK && c.is_there(element) == CC_GONE);
    WANT(cc_settle(c.get()) == CC_OK);
}

int main() {
    open_and_refuse();
    hold_and_end();
    move_roots();
    release_twice();
    hold_in_place();
    move_many();
    move_collectors();
    outlive();
    refer_weakly();
    call_each();
    std::printf("own: roots and collectors were moved and ended, and each gave up what it held once\n");
    return 0;
}
