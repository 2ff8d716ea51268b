/* ccollect.h: a cycle collector over counted natives and traced script objects, for programs in C and C++.
 *
 * The library is proved: what a call makes of the objects, what it answers, and that a collection takes nothing that a root
 * reaches, are contracts of its Rattle source (crates/cc_c, crates/cc_host). They hold for every argument, also for one that is
 * stale, of another collector or made up, as long as the program keeps to what follows. For C++ ccollect.hpp has types that own
 * what they hold.
 *
 * VERSION. CC_VERSION says which interface this is: 10000 for 1.0.0. No struct gets, loses or moves a field, no number changes its
 * meaning and no call its arguments, unless it changes too. A program is linked with a library of the one that it was compiled
 * with. Since 0.9.0 (900): cc_data and cc_set_data take any object, and `data` of a cc_told may be other than 0 of any; new are
 * cc_next_object, cc_next_entry, cc_bytes and cc_is_due.
 *
 * WHAT C OWES, which nothing proves.
 * - A `cc_collector` is the program's memory, two words. All zeros is a closed one (CC_COLLECTOR_CLOSED). From cc_open to cc_close
 *   the library owns what it points to: it is not written, copied or freed by the program. It may move: it is copied to another
 *   place, and what was left behind gets zeros before any other call. What is not closed is leaked.
 * - Every pointer that is handed in is valid, aligned and not null; it is read or written during the call alone. What a call
 *   writes overlaps nothing else that it is handed, and no pointer points into the collector. Two const pointers may be one.
 * - One collector is used by one thread at a time, and on the thread that opened it. No call comes from a signal handler. The
 *   library calls nothing of the program: what happened is fetched by cc_next_told. Several collectors are independent.
 * - ccollect_heap.c is in the program, once. It has cc_open, cc_status_text, and the three functions by which the library has
 *   memory, over malloc: rattle_alloc, rattle_realloc and rattle_dealloc. A program with an allocator of its own writes its own
 *   three, and compiles that file with CC_OWN_MEMORY defined, which leaves its three out.
 *
 * MARKS. Each collector has a mark, and each object, root and weak reference has that of its collector: so a call knows what is of
 * another one (CC_FOREIGN). cc_open draws a mark that none had before, from 1 on, on whatever thread. So no two collectors of a
 * process ever have the same, and what was kept of one that is closed is CC_FOREIGN to each other one, for ever.
 *
 * OBJECTS. A `cc_object` names an object for good; it may be kept for ever, and keeping it keeps nothing alive. Once the object
 * was told as freed or unlinked each call that it is handed to answers CC_GONE, whatever stands in its place by then; only a
 * reflector that was made anew for the same native may stand for the one before. One whose kind is CC_NOTHING is no object: so a
 * root or a slot is emptied, and so an empty one is answered. Where an object must be it is CC_KIND, whatever its mark, and so is
 * one of a kind that there is not, or with number 0. Numbers count from 1, in two numberings (natives; plain objects, weak maps
 * and proxies); a reflector has the number of its native. No number is used twice.
 *
 * DATA. cc_set_data gives an object of any kind a number of the program's, an address say, and cc_data reads it: 0 where none was
 * given. It keeps nothing alive. A reflector has one of its own, beside that of its native; one that cc_wrap makes anew has 0,
 * and so what was told of the one before is fetched first.
 *
 * ROOTS. What no root reaches is garbage. 1023 roots of natives and 1023 of script objects have numbers, from 0: what is made
 * stands in one of them. Beside them cc_hold keeps any object until cc_release, some thousand million at a time. A cc_root that is
 * in use always holds what it was given, and one that was released is refused (CC_GONE) for ever. Such a root is no object, and
 * counts for no limit. It has a place, `index`, which another one gets once it is released. Natives and script objects have a bank
 * of places each, up to the last one that ever held such an object; a place is 8 bytes, and a bank does not shrink.
 *
 * WRITES. Of roots, slots and entries a call that is done writes those that it names: each of them holds from then on what was
 * written, and each other one of what is still there holds what it held, whether a root reaches it or not. Collections and
 * markings write nothing that a root reaches. Besides, a reflector is preserved once one of its slots is written, once it is the
 * key of an entry, and once it gets a proxy: its native holds it from then on.
 *
 * WEAK REFERENCES. A `cc_weak` is of a native and keeps nothing alive; it may be kept for ever, and costs the library nothing.
 * Until its native is told as unlinked or freed it can be brought back by cc_upgrade, with all that it holds, whether a root
 * still reaches it or not; from then on the answer is CC_NONE, for ever. One that all zeros make is CC_FOREIGN, or has ended.
 * What is brought back while a collection runs may be what that one would have unlinked: it stays then.
 *
 * WHAT IS TOLD. Calls that delete and collections tell what they did, in its order, and cc_next_told hands it out. CC_UNLINKED: a
 * collection took the native's references away; it may be told again at a later collection, while a script object still holds
 * the native. CC_FREED comes once, and is the last of an object. CC_ABANDONED: a collection was given up for want of memory. With
 * an object comes its number of the program's, as it is when this is fetched: of a reflector that was made anew by then, that of
 * the new one. Nothing is lost: room for what can be told is taken when objects are made.
 * Only what collections unlink again and again can outrun it: one that finds no room beside what waits does nothing, and answers
 * CC_UNFETCHED. Fetch, and call again; where nothing waits that is never the answer.
 *
 * SLICES. A collection is a begin, a unit for each object that it looks at, and an end. A unit takes time by one object; but the
 * begin, a unit, goes over the suspects, the natives that hold script objects, and the entries of weak maps; and the end, a unit
 * too, goes over all that was looked at, and unlinks and frees what is dead in one piece. No count of units divides these two.
 * Call cc_gc, and then cc_slice for some units in each frame. What no root reached when cc_gc was done is told as unlinked at the
 * end of the collection, each native of it, whatever calls come between two slices, and whatever but cc_mark before the first. The
 * next cc_gc frees it, with each script object that led to it. So it is unless the collection is abandoned; a call since cc_open
 * was handed an object that no root reached any more; or cc_upgrade or cc_upgrade_into brought a native back that no root reached
 * by then. cc_forget before the first slice changes nothing of this, and spares the collection suspects that are alive.
 *
 * MARKINGS. cc_gc looks at every script object in one call. cc_mark does the same in units: a begin, one for each object that it
 * scans, and an end, of which the first and the last go over script objects and entries in one piece. Call it for some units in
 * each frame until *over is 1. Whatever calls come between, it takes nothing that a root reaches. Each script object that neither
 * script roots nor natives led to when it began is told as freed at its end, unless cc_wrap answered it meanwhile (this is tested,
 * by tools/c/churn.c). What is let go meanwhile may stay until the next one. A marking and a collection never go on side by side:
 * cc_mark first brings a collection to its end, and cc_slice and cc_collect a marking, which are no units of theirs; cc_gc and
 * cc_settle drop a marking. So a frame has units of one of the two. cc_mark wants no memory: a collection that it ends may be
 * given up, which is told.
 *
 * STATUS. Each call answers one of the CC_ numbers: of those that apply the first of CC_CLOSED; of the objects, roots and weak
 * references in the order in which they are handed in CC_FOREIGN, CC_GONE, CC_KIND of each, but CC_KIND first of what is no
 * object; CC_INDEX; CC_FULL. Where none of these applies memory may be wanted (CC_NO_MEMORY): by cc_open, cc_hold, cc_upgrade,
 * cc_set_data, cc_why, cc_slice, cc_collect and cc_settle; by cc_wrap, where the native has no reflector; and by cc_set_entry,
 * where there is no entry. cc_hold and cc_upgrade may answer it in place of CC_FULL, and cc_new_native, cc_new_plain, cc_new_map
 * and cc_new_proxy in place of each but CC_CLOSED. No other call answers it.
 *
 * Unless it is CC_OK nothing was changed and no out-parameter written. But of cc_slice, cc_collect and cc_settle CC_NO_MEMORY
 * means that a collection was given up, and nothing is lost; CC_NONE of cc_upgrade_into means that its root was emptied; cc_why
 * drops the steps of before; cc_open may use up a mark, cc_hold and cc_upgrade a serial number; a call that makes an object may
 * take room for what can be told, which no call shows; and after CC_NO_MEMORY of cc_wrap, cc_set_entry and cc_new_proxy, and
 * CC_FULL of the last, every object is as it was, but there may be a suspect more, or one that was shown to script. */
#ifndef CCOLLECT_H
#define CCOLLECT_H
#include <stdint.h>

#define CC_VERSION 1000
#define CC_VERSION_TEXT "0.10.0"

#ifdef __cplusplus
extern "C" {
#endif

/* What a call answers. */
typedef uint32_t cc_status;

enum {
    CC_OK = 0,
    CC_CLOSED = 1,    /* the collector is not open */
    CC_OPEN = 2,      /* it is open already */
    CC_FOREIGN = 3,   /* an object, a root or a weak reference is of another collector */
    CC_GONE = 4,      /* an object is not there, or was told unlinked; a root is not in use */
    CC_KIND = 5,      /* an object is of the wrong kind */
    CC_INDEX = 6,     /* there is no such root or slot; or too many slots */
    CC_FULL = 7,      /* as many objects as the limit were ever made; or no place is left for a root, or no mark */
    CC_NO_MEMORY = 8,
    CC_LIMIT = 9,     /* a limit above 1000000 */
    CC_NONE = 10,     /* there is no more to tell, or to walk; or a weak reference's native was told unlinked or freed */
    CC_UNFETCHED = 11 /* a collection found no room beside what waits to be fetched, and did nothing */
};
enum { CC_NOTHING = 0, CC_NATIVE = 1, CC_SCRIPT = 2, CC_REFLECTOR = 3 };
enum { CC_UNLINKED = 1, CC_FREED = 2, CC_ABANDONED = 3 };
enum { CC_PLAIN = 1, CC_MAP = 2, CC_REFLECTS = 3, CC_PROXY = 4 };
enum { CC_BY_ROOT = 1, CC_BY_OBJECT = 2, CC_BY_ENTRY = 3, CC_BY_HOLD = 4 };

typedef struct cc_collector { uint64_t state; void *at; } cc_collector;
typedef struct cc_object { uint64_t mark; uint32_t key; uint32_t number; uint32_t kind; } cc_object;
typedef struct cc_root { uint64_t mark; uint64_t serial; uint32_t index; } cc_root;
typedef struct cc_weak { uint64_t mark; uint32_t key, number; } cc_weak;
/* `data` is the number that cc_set_data gave the object, 0 where it gave none, and with CC_ABANDONED. */
typedef struct cc_told { uint64_t data; uint32_t what; uint32_t kind; uint32_t number; } cc_told;
/* An object on the way to one that was asked for, and why it is reached: a numbered root holds it (CC_BY_ROOT, by_kind CC_NATIVE or
 * CC_SCRIPT for the bank, and by_number the root's), or a cc_root does (CC_BY_HOLD, by_kind likewise, and by_number its index), or
 * an object refers to it (CC_BY_OBJECT, by), or an entry of a weak map (CC_BY_ENTRY, by) does: it is the value of a key (key); or
 * it is the key itself, a proxy, and key is its delegate. */
typedef struct cc_step {
    uint32_t kind, number, why, by_kind, by_number, key_kind, key_number;
} cc_step;
#define CC_COLLECTOR_CLOSED { 0, 0 }

/* Opens a closed collector. As many natives, and as many script objects, may ever be made; each 0 to 1000000. It answers CC_FULL
 * where 2^64 - 1 marks were drawn; else CC_OPEN, else CC_LIMIT, and else may want memory. cc_open_with_mark is for who has a source
 * of marks of his own, and owes that no two collectors ever have the same: beside cc_open he takes them from 2^63 on. */
cc_status cc_open(cc_collector *, uint32_t natives, uint32_t scripts);
cc_status cc_open_with_mark(cc_collector *, uint64_t mark, uint32_t natives, uint32_t scripts);
/* Gives back all memory that it has, and tells nothing. A closed one stays closed. */
void cc_close(cc_collector *);
/* An English phrase for a status, also for a number that is none; never NULL, and not to be freed. */
const char *cc_status_text(cc_status);
/* If it is set, ccollect_heap.c asks it before each allocation, and the allocation is refused where it answers other than 0. */
extern int (*cc_heap_refuses)(void);

/* What is made stands in numbered root r, in place of what stood there. A native and a plain object have 0 to 256 slots. */
cc_status cc_new_native(cc_collector *, uint16_t r, uint16_t slots, cc_object *made);
cc_status cc_new_plain(cc_collector *, uint16_t r, uint16_t slots, cc_object *made);
cc_status cc_new_map(cc_collector *, uint16_t r, cc_object *made);
cc_status cc_new_proxy(cc_collector *, uint16_t r, const cc_object *delegate, cc_object *made);

/* Roots. A numbered one is emptied by an object of kind CC_NOTHING. cc_held answers an object, never CC_NOTHING. cc_hold takes any
 * native that is there, whether a root reaches it or not. */
cc_status cc_set_native_root(cc_collector *, uint16_t r, const cc_object *);
cc_status cc_set_script_root(cc_collector *, uint16_t r, const cc_object *);
cc_status cc_native_root(cc_collector *, uint16_t r, cc_object *held);
cc_status cc_script_root(cc_collector *, uint16_t r, cc_object *held);
cc_status cc_hold(cc_collector *, const cc_object *, cc_root *root);
cc_status cc_release(cc_collector *, const cc_root *);
cc_status cc_held(cc_collector *, const cc_root *, cc_object *held);

/* Weak references to natives. cc_upgrade makes a root, which *root is then, and *native is what it holds; cc_upgrade_into takes
 * numbered root r, and no memory. CC_NONE where the native was told as unlinked or freed, unless CC_CLOSED, CC_INDEX or CC_FOREIGN
 * applies: *native is not written then, no root is made, and numbered root r is emptied; cc_upgrade wants no memory then. *ended is
 * 1 exactly then. Else cc_upgrade is refused as cc_hold is. */
cc_status cc_weak_of(cc_collector *, const cc_object *native, cc_weak *);
cc_status cc_upgrade(cc_collector *, const cc_weak *, cc_root *root, cc_object *native);
cc_status cc_upgrade_into(cc_collector *, uint16_t r, const cc_weak *, cc_object *native);
cc_status cc_ended(cc_collector *, const cc_weak *, uint32_t *ended);

/* Slots, counted from 0. Natives hold natives and script objects; script objects hold script objects. */
cc_status cc_slots(cc_collector *, const cc_object *, uint16_t *slots);
cc_status cc_slot(cc_collector *, const cc_object *, uint16_t i, cc_object *held);
cc_status cc_store(cc_collector *, const cc_object *, uint16_t i, const cc_object *content);
/* Slot i of `to` gets what slot j of `from` held, which is empty then; where both are one place nothing moves. */
cc_status cc_move_slot(cc_collector *, const cc_object *to, uint16_t i, const cc_object *from, uint16_t j);

/* Reflectors: of a native, for script. cc_unwrap of what is no reflector answers CC_OK, and nothing (CC_NOTHING). */
cc_status cc_wrap(cc_collector *, const cc_object *native, cc_object *reflector);
cc_status cc_unwrap(cc_collector *, const cc_object *, cc_object *native);
cc_status cc_preserve(cc_collector *, const cc_object *reflector);
/* cc_reflector answers CC_OK, and nothing, of a native without a reflector. It makes none, and what it answers may be freed while
 * nothing holds it: to keep it, take it by cc_wrap. *preserved is 1 where the native holds its reflector, else 0. */
cc_status cc_reflector(cc_collector *, const cc_object *native, cc_object *reflector);
cc_status cc_is_preserved(cc_collector *, const cc_object *reflector, uint32_t *preserved);

/* Script objects. cc_delegate of what is no proxy answers CC_OK, and nothing. */
cc_status cc_kind(cc_collector *, const cc_object *, uint32_t *kind);
cc_status cc_delegate(cc_collector *, const cc_object *, cc_object *delegate);

/* Entries of weak maps. */
cc_status cc_set_entry(cc_collector *, const cc_object *map, const cc_object *key, const cc_object *value);
cc_status cc_unset_entry(cc_collector *, const cc_object *map, const cc_object *key);
cc_status cc_entry(cc_collector *, const cc_object *map, const cc_object *key, cc_object *value);

/* Walks. cc_next_object answers the object that is there behind another, or the first where it is handed nothing (CC_NOTHING);
 * CC_NONE behind the last. While nothing changes it comes to each object that the calls take, and to each once: natives by rising
 * number, then script objects in the order in which they were made. Garbage that is not freed yet is among them: of that cc_hold
 * takes natives, and a script object is handed on only where a root reaches it, which cc_why says. Behind one that is gone by then
 * there is nothing (CC_GONE): so a root holds the one at which a walk stands while something is let go or collected. What is made
 * comes last of its kind.
 * cc_next_entry answers a key of a weak map and its value: of the entry behind that of a key, or of the first where it is handed
 * nothing for a key; CC_NONE behind the last, and where the key has no entry. It comes to each entry once, and to the one that was
 * set first last; one that is set again keeps its place. So the next one is asked for before an entry is taken out. */
cc_status cc_next_object(cc_collector *, const cc_object *, cc_object *next);
cc_status cc_next_entry(cc_collector *, const cc_object *map, const cc_object *key, cc_object *next, cc_object *value);

/* Collections. cc_slice does so many units of the running one, or begins one; *over is 1 where it came to its end, else 0. */
cc_status cc_slice(cc_collector *, uint32_t units, uint32_t *over);
cc_status cc_collect(cc_collector *);
cc_status cc_gc(cc_collector *);
/* Units of a script marking, of the one that goes on, or of one that begins here; *over is 1 where it came to its end, else 0. It
 * answers CC_OK or CC_UNFETCHED. *marking is 1 where one goes on. */
cc_status cc_mark(cc_collector *, uint32_t units, uint32_t *over);
cc_status cc_marking(cc_collector *, uint32_t *marking);
/* Leaves exactly what the roots reach. (cc_gc wants no memory: where a collection that it ends is refused some, that is told.) */
cc_status cc_settle(cc_collector *);
cc_status cc_running(cc_collector *, uint32_t *running);
/* Forgets suspects that are alive, *marks of them: those that roots reach over slots, reflectors and delegates. A collection that
 * begins then does not begin at them. What roots reach by entries of weak maps alone stays a suspect. It may come at any time, also
 * while a collection runs; it tells nothing, wants no memory, and takes time by what roots reach. */
cc_status cc_forget(cc_collector *, uint32_t *marks);

/* What was told: CC_NONE where all was fetched. */
cc_status cc_next_told(cc_collector *, cc_told *);

/* Questions. The answer of cc_is_there is its status. cc_natives counts natives that were told as unlinked too, until they are
 * freed; cc_scripts counts reflectors, weak maps and proxies too. */
cc_status cc_is_there(cc_collector *, const cc_object *);
cc_status cc_natives(cc_collector *, uint64_t *natives);
cc_status cc_scripts(cc_collector *, uint64_t *scripts);
cc_status cc_has_suspects(cc_collector *, uint32_t *some);
/* *bytes is an estimate of what is held for objects: 272 for a native, 254 for a script object, 8 for each slot, and 44 for each
 * entry of a weak map; it takes time by the objects. *due is 1, as a hint, where a collection runs, or where natives wait to be
 * looked at: a thousand, or 16 and an eighth of all. */
cc_status cc_bytes(cc_collector *, uint64_t *bytes);
cc_status cc_is_due(cc_collector *, uint32_t *due);
/* *led is 1 exactly where a root reaches it, else 0. Then cc_next_step hands out steps, and CC_NONE behind them: each is of an
 * object that a root holds, or to which objects of steps before it lead; no object has two; the last is the object itself. Where
 * *led is 0 there is none. Steps of an earlier answer that were not fetched are gone then, also where it is refused. */
cc_status cc_why(cc_collector *, const cc_object *, uint32_t *led);
cc_status cc_next_step(cc_collector *, cc_step *);
/* The program's number of an object, of any kind. */
cc_status cc_data(cc_collector *, const cc_object *, uint64_t *data);
cc_status cc_set_data(cc_collector *, const cc_object *, uint64_t data);

#ifdef __cplusplus
}
#endif
#endif
