// A Ref<T> for C++: it holds an object of the collector as long as it lives, as a smart pointer does.
//
// T says what the object is to the program. The list below is doubly linked, so each two neighbours are a cycle, and its nodes
// go as soon as no Ref leads to the list and the collector has settled.
#include "ccollect.h"
#include <cstdio>
#include <cstdlib>
#include <memory>
#include <stdexcept>
#include <string>
#include <utility>
#include <vector>

static void check(cc_status status) {
    if (status != CC_OK) throw std::runtime_error(cc_status_text(status));
}

template <typename T> class Ref {
    cc_collector *collector = nullptr;
    cc_object object = {0, 0, 0, CC_NOTHING};
    cc_root root = {0, 0, 0};

    void take(Ref &&other) noexcept {
        collector = std::exchange(other.collector, nullptr);
        object = std::exchange(other.object, cc_object{0, 0, 0, CC_NOTHING});
        root = other.root;
    }

public:
    Ref() = default;
    // Throws where the object is gone, or there is no memory.
    Ref(cc_collector *c, const cc_object &x) {
        if (x.kind == CC_NOTHING) return;
        check(cc_hold(c, &x, &root));
        collector = c;
        object = x;
    }
    Ref(const Ref &other) : Ref(other.collector, other.object) {}
    Ref(Ref &&other) noexcept { take(std::move(other)); }
    Ref &operator=(Ref other) noexcept {
        reset();
        take(std::move(other));
        return *this;
    }
    ~Ref() { reset(); }

    // Takes no memory, so it never fails. A Ref may outlive cc_close, but not the cc_collector.
    void reset() noexcept {
        if (collector != nullptr) cc_release(collector, &root);
        collector = nullptr;
        object = {0, 0, 0, CC_NOTHING};
    }
    const cc_object &get() const noexcept { return object; }
    explicit operator bool() const noexcept { return object.kind != CC_NOTHING; }
    Ref slot(uint16_t i) const {
        cc_object held;
        check(cc_slot(collector, &object, i, &held));
        return Ref(collector, held);
    }
    void store(uint16_t i, const Ref &content) const { check(cc_store(collector, &object, i, &content.object)); }
    T *operator->() const {
        uint64_t data;
        check(cc_data(collector, &object, &data));
        return reinterpret_cast<T *>(static_cast<uintptr_t>(data));
    }
};

// A use of it.

// What the program has of a node of the list. Slot 0 is the node before, slot 1 the one behind.
struct Node {
    static int alive;
    std::string text;
    explicit Node(std::string t) : text(std::move(t)) { alive++; }
    Node(const Node &) = delete;
    Node &operator=(const Node &) = delete;
    ~Node() { alive--; }
};
int Node::alive = 0;

class Heap {
    cc_collector state = CC_COLLECTOR_CLOSED;

    void fetch() {
        cc_told told;
        while (cc_next_told(&state, &told) == CC_OK)
            if (told.what == CC_FREED && told.kind == CC_NATIVE)
                delete reinterpret_cast<Node *>(static_cast<uintptr_t>(told.data));
    }

public:
    Heap() { check(cc_open(&state, 10000, 0)); }
    Heap(const Heap &) = delete;
    Heap &operator=(const Heap &) = delete;
    // What is still there is told by no call, so the roots have to be gone, and the collector to settle, before it is closed.
    ~Heap() {
        if (cc_settle(&state) == CC_OK) fetch();
        cc_close(&state);
    }
    Ref<Node> make(const std::string &text) {
        static const cc_object nothing = {0, 0, 0, CC_NOTHING};
        cc_object made;
        auto node = std::make_unique<Node>(text);
        check(cc_new_native(&state, 0, 2, &made));
        Ref<Node> held(&state, made);
        check(cc_set_data(&state, &made, static_cast<uint64_t>(reinterpret_cast<uintptr_t>(node.get()))));
        node.release();
        check(cc_set_native_root(&state, 0, &nothing));
        fetch();
        return held;
    }
    void settle() {
        check(cc_settle(&state));
        fetch();
    }
};

static Ref<Node> make_list(Heap &heap, int length) {
    Ref<Node> first = heap.make("node 0"), last = first;
    for (int i = 1; i < length; i++) {
        Ref<Node> node = heap.make("node " + std::to_string(i));
        last.store(1, node);
        node.store(0, last);
        last = std::move(node);
    }
    return first;
}

static void want(bool is_so, const char *what) {
    if (is_so) return;
    std::printf("ref.cpp: this is not so: %s\n", what);
    std::exit(1);
}

static void use(Heap &heap) {
    Ref<Node> first = make_list(heap, 1000);
    heap.settle();
    want(Node::alive == 1000, "the first node keeps the list");
    Ref<Node> place = first;
    for (int i = 0; i < 700; i++) place = place.slot(1);
    want(place->text == "node 700", "the list is in order");
    first.reset();
    want(!first, "an empty Ref is none");
    heap.settle();
    want(Node::alive == 1000, "a node in its middle keeps the list");

    Ref<Node> behind = place.slot(1);
    behind.store(0, Ref<Node>());
    place.store(1, Ref<Node>());
    place = Ref<Node>(place);
    heap.settle();
    want(Node::alive == 1000, "two halves, and a Ref of each");
    place = std::move(behind);
    want(!behind && place->text == "node 701", "a Ref is moved");
    heap.settle();
    want(Node::alive == 299, "one half is gone");

    std::vector<Ref<Node>> many(500, place);
    place.reset();
    heap.settle();
    want(Node::alive == 299, "its copies hold it");
    many.resize(1);
    heap.settle();
    want(Node::alive == 299, "one copy holds it");
    many.clear();
    heap.settle();
    want(Node::alive == 0, "nothing is left");
}

int main() {
    try {
        Heap heap;
        use(heap);
        heap.make("one that is let go at once");
    } catch (const std::exception &stop) {
        std::printf("ref.cpp: %s\n", stop.what());
        return 1;
    }
    want(Node::alive == 0, "all nodes went");
    std::printf("Ref: a list of 1000 nodes in both directions was made, halved and collected\n");
    return 0;
}
