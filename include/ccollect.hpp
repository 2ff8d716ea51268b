// ccollect.hpp: the collector of ccollect.h as types of C++11 that own what they hold. They allocate nothing and throw nothing.
//
// - cc::collector opens a collector and closes it. It moves and is not copied.
// - cc::root holds an object and releases it. It moves and is not copied, and it is released once.
// - cc::weak refers to a native and keeps nothing alive. It may be copied.
// - A call answers a cc_status, or a cc::expected: the status with what was asked for. Where that is not CC_OK what was asked for
//   is empty: an object of kind CC_NOTHING, an empty root, a zero.
//
// What each call does is said in ccollect.h, of the function with its name. What has no method is called by get().
//
// A root knows its collector, also where that moves; to move one takes time by its roots. Once a collector is closed, by close()
// or its end, each of its roots is empty, and to use or end one is no mistake: it answers CC_CLOSED, and releases nothing. So a
// root may outlive its collector. A closed collector answers CC_CLOSED to each call. A collector and its roots are used by one
// thread at a time.
#ifndef CCOLLECT_HPP
#define CCOLLECT_HPP
#include "ccollect.h"
#include <utility>

namespace cc {

using object = cc_object;

inline object nothing() noexcept { return object{0, 0, 0, CC_NOTHING}; }
inline const char *text(cc_status status) noexcept { return cc_status_text(status); }

// An entry of a weak map.
struct key_and_value {
    object key, value;
};

// What was asked for, and the status of the call.
template <typename T> class expected {
    cc_status status_;
    T value_;

public:
    expected(cc_status status, T value) noexcept : status_(status), value_(std::move(value)) {}
    explicit operator bool() const noexcept { return status_ == CC_OK; }
    cc_status status() const noexcept { return status_; }
    const char *text() const noexcept { return cc_status_text(status_); }
    const T &operator*() const & noexcept { return value_; }
    T &operator*() & noexcept { return value_; }
    T &&operator*() && noexcept { return std::move(value_); }
    const T *operator->() const noexcept { return &value_; }
    T *operator->() noexcept { return &value_; }
};

class collector;

// Holds an object, or is empty.
class root {
    friend class collector;
    friend class weak;
    cc_root root_ = {0, 0, 0};
    // of which collector; and the roots of that before and behind this one
    collector *owner_ = nullptr;
    root *before_ = nullptr, *behind_ = nullptr;

    inline void enter(collector &owner, const cc_root &held) noexcept;
    inline void take(root &other) noexcept;
    inline void leave() noexcept;

public:
    root() noexcept = default;
    root(root &&other) noexcept { take(other); }
    root &operator=(root &&other) noexcept {
        if (this != &other) {
            release();
            take(other);
        }
        return *this;
    }
    root(const root &) = delete;
    root &operator=(const root &) = delete;
    ~root() { release(); }

    // Whether it holds an object.
    explicit operator bool() const noexcept { return owner_ != nullptr; }
    // The object; CC_CLOSED where it is empty.
    inline expected<object> get() const noexcept;
    // Makes it empty. It wants no memory, and never fails.
    inline void release() noexcept;
};

// Refers to a native. One that was made of nothing is CC_FOREIGN.
class weak {
    cc_weak weak_ = {0, 0, 0};

public:
    weak() noexcept = default;
    explicit weak(const cc_weak &referred) noexcept : weak_(referred) {}
    const cc_weak &get() const noexcept { return weak_; }
    // A root of the native; CC_NONE where it has ended.
    inline expected<root> upgrade(collector &) const noexcept;
    inline expected<bool> ended(collector &) const noexcept;
};

class collector {
    friend class root;
    cc_collector state_ = CC_COLLECTOR_CLOSED;
    root *first_ = nullptr;

    void take(collector &other) noexcept {
        static const cc_collector closed = CC_COLLECTOR_CLOSED;
        state_ = other.state_;
        other.state_ = closed;
        first_ = other.first_;
        other.first_ = nullptr;
        for (root *r = first_; r != nullptr; r = r->behind_) r->owner_ = this;
    }
    // What a call answers that writes a T.
    template <typename T, typename... As, typename... Bs>
    expected<T> ask(cc_status (*call)(cc_collector *, As...), Bs... words) noexcept {
        T answer = T();
        const cc_status status = call(&state_, words..., &answer);
        return expected<T>(status, answer);
    }
    // And one that writes a number for yes or no.
    template <typename... As, typename... Bs>
    expected<bool> ask_whether(cc_status (*call)(cc_collector *, As...), Bs... words) noexcept {
        const expected<uint32_t> answer = ask<uint32_t>(call, words...);
        return expected<bool>(answer.status(), *answer != 0);
    }

public:
    // A closed one.
    collector() noexcept = default;
    static expected<collector> open(uint32_t natives, uint32_t scripts) noexcept {
        collector c;
        const cc_status status = cc_open(&c.state_, natives, scripts);
        return expected<collector>(status, std::move(c));
    }
    collector(collector &&other) noexcept { take(other); }
    // What it was before is closed.
    collector &operator=(collector &&other) noexcept {
        if (this != &other) {
            close();
            take(other);
        }
        return *this;
    }
    collector(const collector &) = delete;
    collector &operator=(const collector &) = delete;
    ~collector() { close(); }

    void close() noexcept {
        while (first_ != nullptr) first_->leave();
        cc_close(&state_);
    }
    cc_collector *get() noexcept { return &state_; }

    // What is made stands in numbered root r until that is written again.
    expected<object> new_native(uint16_t r, uint16_t slots) noexcept { return ask<object>(cc_new_native, r, slots); }
    expected<object> new_plain(uint16_t r, uint16_t slots) noexcept { return ask<object>(cc_new_plain, r, slots); }
    expected<object> new_map(uint16_t r) noexcept { return ask<object>(cc_new_map, r); }
    expected<object> new_proxy(uint16_t r, const object &delegate) noexcept { return ask<object>(cc_new_proxy, r, &delegate); }

    expected<root> hold(const object &x) noexcept {
        cc_root held;
        expected<root> answer(cc_hold(&state_, &x, &held), root());
        if (answer) answer->enter(*this, held);
        return answer;
    }
    expected<weak> weak_of(const object &native) noexcept {
        const expected<cc_weak> referred = ask<cc_weak>(cc_weak_of, &native);
        return expected<weak>(referred.status(), weak(*referred));
    }
    cc_status set_native_root(uint16_t r, const object &x) noexcept { return cc_set_native_root(&state_, r, &x); }
    cc_status set_script_root(uint16_t r, const object &x) noexcept { return cc_set_script_root(&state_, r, &x); }
    expected<object> native_root(uint16_t r) noexcept { return ask<object>(cc_native_root, r); }
    expected<object> script_root(uint16_t r) noexcept { return ask<object>(cc_script_root, r); }
    expected<object> upgrade_into(uint16_t r, const weak &w) noexcept { return ask<object>(cc_upgrade_into, r, &w.get()); }

    expected<uint16_t> slots(const object &x) noexcept { return ask<uint16_t>(cc_slots, &x); }
    expected<object> slot(const object &x, uint16_t i) noexcept { return ask<object>(cc_slot, &x, i); }
    cc_status store(const object &x, uint16_t i, const object &content) noexcept { return cc_store(&state_, &x, i, &content); }
    // The object moves from slot j of `from` to slot i of `to`.
    cc_status move_slot(const object &to, uint16_t i, const object &from, uint16_t j) noexcept {
        return cc_move_slot(&state_, &to, i, &from, j);
    }

    expected<object> wrap(const object &native) noexcept { return ask<object>(cc_wrap, &native); }
    expected<object> unwrap(const object &x) noexcept { return ask<object>(cc_unwrap, &x); }
    cc_status preserve(const object &reflector) noexcept { return cc_preserve(&state_, &reflector); }
    expected<object> reflector(const object &native) noexcept { return ask<object>(cc_reflector, &native); }
    expected<bool> is_preserved(const object &reflector) noexcept { return ask_whether(cc_is_preserved, &reflector); }
    expected<uint32_t> kind(const object &x) noexcept { return ask<uint32_t>(cc_kind, &x); }
    expected<object> delegate(const object &x) noexcept { return ask<object>(cc_delegate, &x); }

    cc_status set_entry(const object &map, const object &key, const object &value) noexcept {
        return cc_set_entry(&state_, &map, &key, &value);
    }
    cc_status unset_entry(const object &map, const object &key) noexcept { return cc_unset_entry(&state_, &map, &key); }
    expected<object> entry(const object &map, const object &key) noexcept { return ask<object>(cc_entry, &map, &key); }

    // Walks begin at nothing(), and go on from what they came to.
    expected<object> next_object(const object &x) noexcept { return ask<object>(cc_next_object, &x); }
    expected<key_and_value> next_entry(const object &map, const object &key) noexcept {
        key_and_value next = {nothing(), nothing()};
        const cc_status status = cc_next_entry(&state_, &map, &key, &next.key, &next.value);
        return expected<key_and_value>(status, next);
    }

    // True where the collection, or the marking, came to its end.
    expected<bool> slice(uint32_t units) noexcept { return ask_whether(cc_slice, units); }
    expected<bool> mark(uint32_t units) noexcept { return ask_whether(cc_mark, units); }
    cc_status collect() noexcept { return cc_collect(&state_); }
    cc_status gc() noexcept { return cc_gc(&state_); }
    cc_status settle() noexcept { return cc_settle(&state_); }
    expected<bool> running() noexcept { return ask_whether(cc_running); }
    expected<bool> marking() noexcept { return ask_whether(cc_marking); }
    expected<uint32_t> forget() noexcept { return ask<uint32_t>(cc_forget); }
    expected<cc_told> next_told() noexcept { return ask<cc_told>(cc_next_told); }

    cc_status is_there(const object &x) noexcept { return cc_is_there(&state_, &x); }
    expected<uint64_t> natives() noexcept { return ask<uint64_t>(cc_natives); }
    expected<uint64_t> scripts() noexcept { return ask<uint64_t>(cc_scripts); }
    expected<bool> has_suspects() noexcept { return ask_whether(cc_has_suspects); }
    expected<uint64_t> bytes() noexcept { return ask<uint64_t>(cc_bytes); }
    expected<bool> is_due() noexcept { return ask_whether(cc_is_due); }
    expected<bool> why(const object &x) noexcept { return ask_whether(cc_why, &x); }
    expected<cc_step> next_step() noexcept { return ask<cc_step>(cc_next_step); }
    expected<uint64_t> data(const object &x) noexcept { return ask<uint64_t>(cc_data, &x); }
    cc_status set_data(const object &x, uint64_t data) noexcept { return cc_set_data(&state_, &x, data); }
};

// gcc 12 and later takes a root that moves on, or ends and leaves, for one that is still among the roots
#if defined(__GNUC__) && !defined(__clang__) && __GNUC__ >= 12
#pragma GCC diagnostic push
#pragma GCC diagnostic ignored "-Wdangling-pointer"
#endif
// An empty one is the first of a collector's roots from then on.
inline void root::enter(collector &owner, const cc_root &held) noexcept {
    root_ = held;
    owner_ = &owner;
    behind_ = owner.first_;
    if (behind_ != nullptr) behind_->before_ = this;
    owner.first_ = this;
}

// What another held, in its place among the roots; the other is empty then.
inline void root::take(root &other) noexcept {
    root_ = other.root_;
    owner_ = other.owner_;
    before_ = other.before_;
    behind_ = other.behind_;
    other.owner_ = nullptr;
    other.before_ = other.behind_ = nullptr;
    if (before_ != nullptr) before_->behind_ = this;
    if (behind_ != nullptr) behind_->before_ = this;
    if (owner_ != nullptr && before_ == nullptr) owner_->first_ = this;
}

#if defined(__GNUC__) && !defined(__clang__) && __GNUC__ >= 12
#pragma GCC diagnostic pop
#endif

// It is none of its collector's roots any more, and is empty.
inline void root::leave() noexcept {
    if (before_ != nullptr) before_->behind_ = behind_;
    if (behind_ != nullptr) behind_->before_ = before_;
    if (owner_ != nullptr && before_ == nullptr) owner_->first_ = behind_;
    owner_ = nullptr;
    before_ = behind_ = nullptr;
}

inline void root::release() noexcept {
    if (owner_ == nullptr) return;
    cc_release(&owner_->state_, &root_);
    leave();
}

inline expected<object> root::get() const noexcept {
    object held = nothing();
    const cc_status status = owner_ == nullptr ? static_cast<cc_status>(CC_CLOSED) : cc_held(&owner_->state_, &root_, &held);
    return expected<object>(status, held);
}

inline expected<root> weak::upgrade(collector &c) const noexcept {
    cc_root held;
    object native;
    expected<root> answer(cc_upgrade(c.get(), &weak_, &held, &native), root());
    if (answer) answer->enter(c, held);
    return answer;
}

inline expected<bool> weak::ended(collector &c) const noexcept {
    uint32_t ended = 0;
    const cc_status status = cc_ended(c.get(), &weak_, &ended);
    return expected<bool>(status, ended != 0);
}

} // namespace cc
#endif
