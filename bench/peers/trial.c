/* A small cycle collector by trial deletion, for `cccheck` to judge. It answers a script of version 1 without proxies.

       trial [MISTAKE] < script > transcript

   Natives are counted and script objects are traced. A collection in slices finds the cycles through both: it samples the count
   of each suspect, notes the references that suspects have to each other, and unlinks what has no others. As it stands it is
   meant to be right. A word puts in one mistake for which such collectors are known:

       no-touch             a native that gets a reference while a collection runs is not put into the buffer
       freed-twice          what is to go is not held while its slots are emptied, so this may free it, and the end does so again
       late-count           a count is sampled in a later slice than a reference to its native was noted
       strong-value         a weak map keeps a value though the key is gone
       uncounted-reflector  a reflector's reference to its native is not counted
       dead-entry           a native that was freed stays in the buffer, and its memory is used again */
#include <stdio.h>
#include <stdlib.h>
#include <string.h>

enum { REGISTERS = 256, MOST_SLOTS = 64, REFLECTOR_SLOTS = 4, MOST_MADE = 1000000, LONGEST_LINE = 120, MOST_TOKENS = 5 };
enum kind { DEAD, NATIVE, PLAIN, WEAK_MAP, REFLECTOR };
enum { BLACK = 1, MARKED = 2 }; /* colours of script objects: script may use it now; something holds it */
enum mistake { NONE, NO_TOUCH, FREED_TWICE, LATE_COUNT, STRONG_VALUE, UNCOUNTED_REFLECTOR, DEAD_ENTRY };

struct object {
    enum kind kind;
    unsigned number;
    unsigned slot_count;
    struct object **slots;
    struct object *partner; /* the reflector of a native, if there is one; the native of a reflector */
    int colour;             /* of a script object */
    int preserved;          /* a native holds its reflector */
    unsigned count;         /* the references to a native */
    int is_buffered;        /* a native is in the buffer, at this place */
    size_t place;
    int is_touched;         /* a native got a reference while the collection runs */
    int is_node, stays;     /* in a collection: whether it is a node, and whether it stays */
    size_t node;            /* its place among the nodes */
    unsigned sampled, noted;
};

struct list {
    struct object **items;
    size_t count, room;
};

struct entry {
    struct object *map, *key, *value;
};

static enum mistake mistake = NONE;
static struct object *registers[2 * REGISTERS]; /* those of natives, then those of script objects */
static struct list natives;   /* by number; nothing where one was freed */
static struct list scripts;   /* in the order in which they were made */
static struct list free_memory;
static struct list buffer;    /* natives that gained or lost a reference; nothing where one was freed */
static struct list dying;     /* natives with count 0 that were not freed yet */
static struct list nodes, painted;
static struct entry *entries;
static size_t entry_count;
static unsigned scripts_made;
static int is_running;        /* a collection runs, and so many nodes of it were looked at */
static size_t looked_at;

static void *more_room(void *old, size_t bytes) {
    void *room = realloc(old, bytes);
    if (room == NULL) {
        fputs("trial: out of memory\n", stderr);
        exit(3);
    }
    return room;
}

static void push(struct list *list, struct object *object) {
    if (list->count == list->room) {
        list->room = list->room == 0 ? 64 : 2 * list->room;
        list->items = more_room(list->items, list->room * sizeof *list->items);
    }
    list->items[list->count++] = object;
}

static int is_native(const struct object *object) { return object != NULL && object->kind == NATIVE; }

static int is_script(const struct object *object) { return object != NULL && object->kind != NATIVE; }

static char sign_of(const struct object *object) {
    return object->kind == REFLECTOR ? '~' : object->kind == PLAIN || object->kind == WEAK_MAP ? '@' : '#';
}

static void tell(const char *what, const struct object *object) { printf("%s %c%u\n", what, sign_of(object), object->number); }

/* Counting */

static void suspect(struct object *native) {
    if (!native->is_buffered) {
        native->is_buffered = 1;
        native->place = buffer.count;
        push(&buffer, native);
    }
}

static void add_reference(struct object *object) {
    if (!is_native(object))
        return;
    object->count++;
    if (is_running && mistake != NO_TOUCH) {
        suspect(object);
        object->is_touched = 1;
    }
}

static void release(struct object *object);

/* Frees a native whose count is 0. */
static void free_native(struct object *native) {
    tell("- free", native);
    if (native->is_buffered && mistake != DEAD_ENTRY)
        buffer.items[native->place] = NULL;
    if (native->is_node)
        nodes.items[native->node] = NULL;
    native->is_node = 0;
    natives.items[native->number - 1] = NULL;
    for (unsigned i = 0; i < native->slot_count; i++)
        release(native->slots[i]);
    free(native->slots);
    native->slots = NULL;
    native->slot_count = 0;
    native->kind = DEAD;
    push(&free_memory, native);
}

/* Gives up one reference. What it frees waits in a list, so no call is within another. */
static void release(struct object *object) {
    static int is_freeing = 0;
    if (!is_native(object))
        return;
    if (--object->count > 0) {
        suspect(object);
        return;
    }
    push(&dying, object);
    if (is_freeing)
        return; /* the loop below is at work */
    is_freeing = 1;
    for (size_t i = 0; i < dying.count; i++)
        free_native(dying.items[i]);
    dying.count = 0;
    is_freeing = 0;
}

/* Tracing */

static void paint_one(struct object *object, int colour) {
    if (is_script(object) && !(object->colour & colour)) {
        object->colour |= colour;
        push(&painted, object);
    }
}

/* Paints a script object and all that it reaches over slots. */
static void paint(struct object *object, int colour) {
    paint_one(object, colour);
    while (painted.count > 0) {
        struct object *next = painted.items[--painted.count];
        for (unsigned i = 0; i < next->slot_count; i++)
            paint_one(next->slots[i], colour);
    }
}

/* A register or a slot holds something else from now on. A script object that comes into a register may be used. */
static void hold(struct object **place, struct object *object) {
    struct object *old = *place;
    add_reference(object);
    paint(object, BLACK);
    *place = object;
    release(old);
}

/* An entry keeps its value while its map and its key are kept. */
static int keeps_value(int map_is_kept, int key_is_kept) { return map_is_kept && (key_is_kept || mistake == STRONG_VALUE); }

static void mark_entries(void) {
    for (int goes_on = 1; goes_on;) {
        goes_on = 0;
        for (size_t i = 0; i < entry_count; i++) {
            struct entry *it = &entries[i];
            if (!(it->value->colour & MARKED) && keeps_value(it->map->colour & MARKED, it->key->colour & MARKED)) {
                paint(it->value, MARKED);
                goes_on = 1;
            }
        }
    }
}

/* Marks what something holds; what script registers hold, with all behind it, is black. */
static void mark(void) {
    for (size_t i = 0; i < scripts.count; i++)
        scripts.items[i]->colour = 0;
    for (size_t i = REGISTERS; i < 2 * REGISTERS; i++)
        paint(registers[i], MARKED);
    mark_entries();
    for (size_t i = 0; i < scripts.count; i++)
        if (scripts.items[i]->colour & MARKED)
            scripts.items[i]->colour |= BLACK;
    for (size_t i = 0; i < natives.count; i++) {
        struct object *native = natives.items[i];
        if (native == NULL)
            continue;
        for (unsigned j = 0; j < native->slot_count; j++)
            paint(native->slots[j], MARKED);
        if (native->preserved)
            paint(native->partner, MARKED);
    }
    mark_entries();
}

/* Frees what is not marked, and returns whether there was any. */
static int sweep(void) {
    size_t kept = 0, swept;
    for (size_t i = 0; i < entry_count; i++)
        if (entries[i].map->colour & entries[i].key->colour & MARKED)
            entries[kept++] = entries[i];
    entry_count = kept;
    kept = 0;
    for (size_t i = 0; i < scripts.count; i++) {
        struct object *object = scripts.items[i];
        if (object->colour & MARKED) {
            scripts.items[kept++] = object;
            continue;
        }
        tell("- free", object);
        if (object->kind == REFLECTOR) {
            object->partner->partner = NULL;
            if (mistake != UNCOUNTED_REFLECTOR)
                release(object->partner);
        }
        free(object->slots);
        free(object);
    }
    swept = scripts.count - kept;
    scripts.count = kept;
    return swept > 0;
}

/* A collection: its begin, one unit for each node, and its end */

static int is_gray(const struct object *object) { return is_script(object) && !(object->colour & BLACK); }

static void add_node(struct object *object) {
    object->is_node = 1;
    object->stays = 0;
    object->node = nodes.count;
    object->sampled = object->count;
    object->noted = 0;
    push(&nodes, object);
}

static void add_gray_node(struct object *object) {
    if (is_gray(object) && !object->is_node)
        add_node(object);
}

static int holds_gray(const struct object *native) {
    for (unsigned i = 0; i < native->slot_count; i++)
        if (is_gray(native->slots[i]))
            return 1;
    return native->preserved && is_gray(native->partner);
}

/* The suspects are the first nodes, each once, as the buffer has them. Then come the natives that hold something gray, and
   the members of the entries with a gray value. */
static void begin(void) {
    is_running = 1;
    looked_at = 0;
    for (size_t i = 0; i < buffer.count; i++) {
        struct object *native = buffer.items[i];
        if (native == NULL)
            continue;
        native->is_buffered = native->is_touched = 0;
        add_node(native);
    }
    buffer.count = 0;
    for (size_t i = 0; i < natives.count; i++)
        if (natives.items[i] != NULL && !natives.items[i]->is_node && holds_gray(natives.items[i]))
            add_node(natives.items[i]);
    for (size_t i = 0; i < entry_count; i++)
        if (is_gray(entries[i].value)) {
            add_gray_node(entries[i].map);
            add_gray_node(entries[i].key);
            add_gray_node(entries[i].value);
        }
}

/* Does something with each object that another one refers to. */
static void for_each_reference(struct object *object, void (*act)(struct object *)) {
    for (unsigned i = 0; i < object->slot_count; i++)
        if (object->slots[i] != NULL)
            act(object->slots[i]);
    if ((object->kind == REFLECTOR || object->preserved) && object->partner != NULL)
        act(object->partner);
}

static void note(struct object *object) {
    if (!is_native(object) && !is_gray(object))
        return;
    if (!object->is_node)
        add_node(object);
    object->noted++;
}

static void look_at(struct object *object) {
    if (object == NULL)
        return;
    if (mistake == LATE_COUNT)
        object->sampled = object->count;
    for_each_reference(object, note);
}

static void keep_one(struct object *object) {
    if (object->is_node && !object->stays) {
        object->stays = 1;
        push(&painted, object);
    }
}

/* A node stays, with all that it refers to. */
static void keep(struct object *object) {
    keep_one(object);
    while (painted.count > 0)
        for_each_reference(painted.items[--painted.count], keep_one);
}

/* A script object stays if script may use it now; a native, if something else refers to it, or if it got a reference after its
   count was sampled. One that got none has no other references than those that were counted, and was noted no more often. */
static int is_held_from_outside(const struct object *node) {
    if (node->kind != NATIVE)
        return !is_gray(node);
    return node->is_touched || node->sampled > node->noted;
}

static int is_kept(const struct object *object) { return object->is_node ? object->stays : !is_gray(object); }

static void scan(void) {
    for (size_t i = 0; i < nodes.count; i++)
        if (nodes.items[i] != NULL && is_held_from_outside(nodes.items[i]))
            keep(nodes.items[i]);
    for (int goes_on = 1; goes_on;) {
        goes_on = 0;
        for (size_t i = 0; i < entry_count; i++) {
            struct entry *it = &entries[i];
            if (!is_kept(it->value) && keeps_value(is_kept(it->map), is_kept(it->key))) {
                keep(it->value);
                goes_on = goes_on || is_kept(it->value);
            }
        }
    }
}

static void unlink_native(struct object *native) {
    for (unsigned i = 0; i < native->slot_count; i++) {
        struct object *old = native->slots[i];
        native->slots[i] = NULL;
        release(old);
    }
    native->preserved = 0;
}

static void end(void) {
    struct list white = { NULL, 0, 0 };
    scan();
    for (size_t i = 0; i < natives.count; i++)
        if (natives.items[i] != NULL && natives.items[i]->is_node && !natives.items[i]->stays)
            push(&white, natives.items[i]);
    for (size_t i = 0; i < nodes.count; i++)
        if (nodes.items[i] != NULL)
            nodes.items[i]->is_node = 0;
    nodes.count = 0;
    is_running = 0;
    for (size_t i = 0; i < white.count; i++) {
        tell("- unlink", white.items[i]);
        if (mistake != FREED_TWICE)
            white.items[i]->count++;
    }
    for (size_t i = 0; i < white.count; i++)
        unlink_native(white.items[i]);
    for (size_t i = 0; i < white.count; i++)
        (mistake != FREED_TWICE ? release : free_native)(white.items[i]);
    free(white.items);
}

static void unit(void) {
    if (!is_running)
        begin();
    else if (looked_at < nodes.count)
        look_at(nodes.items[looked_at++]);
    else
        end();
}

static void finish(void) {
    while (is_running)
        unit();
}

/* The commands, each of which returns its reply. An operand is the place of a register, or a number, or neither where the word
   none stands. A register that must hold an object does. */

struct operand {
    struct object **place;
    unsigned number;
};

static const char *name_or_none(const struct object *object) {
    static char text[24];
    if (object == NULL)
        return "= none";
    snprintf(text, sizeof text, "= %c%u", sign_of(object), object->number);
    return text;
}

static const char *hold_and_name(struct object **place, struct object *object) {
    hold(place, object);
    return name_or_none(object);
}

static struct object **slots_made(unsigned count) {
    size_t bytes = (count + 1) * sizeof(struct object *);
    return memset(more_room(NULL, bytes), 0, bytes);
}

static const char *native(struct operand *o) {
    struct object *made;
    if (natives.count == MOST_MADE)
        return "! full";
    made = free_memory.count > 0 ? free_memory.items[--free_memory.count] : more_room(NULL, sizeof *made);
    memset(made, 0, sizeof *made);
    push(&natives, made);
    made->kind = NATIVE;
    made->number = (unsigned)natives.count;
    made->slot_count = o[1].number;
    made->slots = slots_made(o[1].number);
    return hold_and_name(o[0].place, made);
}

static struct object *script_made(enum kind kind, unsigned number, unsigned slots) {
    struct object *made = memset(more_room(NULL, sizeof *made), 0, sizeof *made);
    push(&scripts, made);
    made->kind = kind;
    made->number = number;
    made->slot_count = slots;
    made->slots = slots_made(slots);
    return made;
}

static const char *script(struct operand *o) {
    if (scripts_made == MOST_MADE)
        return "! full";
    return hold_and_name(o[0].place, script_made(PLAIN, ++scripts_made, o[1].number));
}

static const char *weakmap(struct operand *o) {
    if (scripts_made == MOST_MADE)
        return "! full";
    return hold_and_name(o[0].place, script_made(WEAK_MAP, ++scripts_made, 0));
}

static const char *copy(struct operand *o) { return hold_and_name(o[0].place, *o[1].place); }

static const char *drop(struct operand *o) {
    hold(o[0].place, NULL);
    return "= ok";
}

static int is_of(const struct operand *o, enum kind kind) { return (*o->place)->kind == kind; }

/* A slot of what a register holds, if it has that slot. */
static struct object **slot_of(const struct operand *o) {
    struct object *holder = *o[0].place;
    return o[1].number < holder->slot_count ? &holder->slots[o[1].number] : NULL;
}

static const char *no_slot(const struct operand *o) { return is_of(o, WEAK_MAP) ? "! kind" : "! slot"; }

static void preserve_if_reflector(struct object *object) {
    if (object->kind == REFLECTOR)
        object->partner->preserved = 1;
}

/* set and put */
static const char *store(struct operand *o) {
    struct object **slot = slot_of(o);
    if (slot == NULL)
        return no_slot(o);
    preserve_if_reflector(*o[0].place);
    hold(slot, o[2].place == NULL ? NULL : *o[2].place);
    return "= ok";
}

/* get and take */
static const char *load(struct operand *o) {
    struct object **slot = slot_of(o + 1);
    if (slot == NULL)
        return no_slot(o + 1);
    if (o[0].place < registers + REGISTERS ? is_script(*slot) : is_native(*slot))
        return "! kind";
    return hold_and_name(o[0].place, *slot);
}

static const char *expose(struct operand *o) {
    struct object **slot = slot_of(o);
    if (slot == NULL)
        return no_slot(o);
    if (is_native(*slot))
        return "! kind";
    paint(*slot, BLACK);
    return name_or_none(*slot);
}

static const char *wrap(struct operand *o) {
    struct object *wrapped = *o[1].place;
    if (wrapped->partner == NULL) {
        wrapped->partner = script_made(REFLECTOR, wrapped->number, REFLECTOR_SLOTS);
        wrapped->partner->partner = wrapped;
        if (mistake != UNCOUNTED_REFLECTOR)
            add_reference(wrapped);
    }
    return hold_and_name(o[0].place, wrapped->partner);
}

static const char *unwrap(struct operand *o) {
    return is_of(&o[1], REFLECTOR) ? hold_and_name(o[0].place, (*o[1].place)->partner) : "! kind";
}

static const char *preserve(struct operand *o) {
    preserve_if_reflector(*o[0].place);
    return is_of(&o[0], REFLECTOR) ? "= ok" : "! kind";
}

static struct entry *entry_of(const struct operand *o) {
    for (size_t i = 0; i < entry_count; i++)
        if (entries[i].map == *o[0].place && entries[i].key == *o[1].place)
            return &entries[i];
    return NULL;
}

static const char *wset(struct operand *o) {
    struct entry *entry;
    if (!is_of(&o[0], WEAK_MAP))
        return "! kind";
    entry = entry_of(o);
    if (entry == NULL) {
        entries = more_room(entries, (entry_count + 1) * sizeof *entries);
        entry = &entries[entry_count++];
    }
    *entry = (struct entry){ *o[0].place, *o[1].place, *o[2].place };
    preserve_if_reflector(entry->key);
    return "= ok";
}

static const char *wset_none(struct operand *o) {
    struct entry *entry;
    if (!is_of(&o[0], WEAK_MAP))
        return "! kind";
    entry = entry_of(o);
    if (entry != NULL)
        *entry = entries[--entry_count];
    return "= ok";
}

static const char *wget(struct operand *o) {
    struct entry *entry;
    if (!is_of(&o[1], WEAK_MAP))
        return "! kind";
    entry = entry_of(o + 1);
    return hold_and_name(o[0].place, entry == NULL ? NULL : entry->value);
}

static const char *slice(struct operand *o) {
    unit();
    for (unsigned i = 1; i < o[0].number && is_running; i++)
        unit();
    return "= ok";
}

static const char *collect(struct operand *o) {
    (void)o;
    finish();
    unit();
    finish();
    return "= ok";
}

static const char *gc(struct operand *o) {
    (void)o;
    finish();
    do
        mark();
    while (sweep());
    return "= ok";
}

static const char *census(struct operand *o) {
    static char text[32];
    size_t count = scripts.count;
    (void)o;
    for (size_t i = 0; i < natives.count; i++)
        if (natives.items[i] != NULL) {
            tell("+", natives.items[i]);
            count++;
        }
    for (size_t i = 0; i < scripts.count; i++)
        tell("+", scripts.items[i]);
    snprintf(text, sizeof text, "= census %zu", count);
    return text;
}

/* The lines. n and s are registers, and N and S those that must hold an object; i is an index, k a number of slots, u one of
   units, and - the word none. */

static const struct form {
    const char *word, *operands;
    const char *(*answer)(struct operand *);
} forms[] = {
    { "native", "nk", native }, { "script", "sk", script }, { "weakmap", "s", weakmap },
    { "copy", "nn", copy }, { "copy", "ss", copy }, { "drop", "n", drop }, { "drop", "s", drop },
    { "set", "NiN", store }, { "set", "NiS", store }, { "set", "Ni-", store }, { "put", "SiS", store }, { "put", "Si-", store },
    { "get", "nNi", load }, { "get", "sNi", load }, { "take", "sSi", load }, { "expose", "Ni", expose },
    { "wrap", "sN", wrap }, { "unwrap", "nS", unwrap }, { "preserve", "S", preserve },
    { "wset", "SSS", wset }, { "wset", "SS-", wset_none }, { "wget", "sSS", wget },
    { "slice", "u", slice }, { "collect", "", collect }, { "gc", "", gc }, { "census", "", census },
};

static int is_number(const char *token, unsigned long least, unsigned long most, unsigned *number) {
    unsigned long found = 0;
    if (*token == '\0' || (token[0] == '0' && token[1] != '\0'))
        return 0;
    for (; *token != '\0'; token++) {
        if (*token < '0' || *token > '9')
            return 0;
        found = 10 * found + (unsigned long)(*token - '0');
        if (found > most)
            return 0;
    }
    *number = (unsigned)found;
    return found >= least;
}

static int is_operand(char kind, const char *token, struct operand *operand) {
    int is_script_register = kind == 's' || kind == 'S';
    operand->place = NULL;
    switch (kind) {
    case '-':
        return strcmp(token, "none") == 0;
    case 'i':
        return is_number(token, 0, 4294967295ul, &operand->number);
    case 'k':
        return is_number(token, 0, MOST_SLOTS, &operand->number);
    case 'u':
        return is_number(token, 1, 1000000, &operand->number);
    }
    if (*token != (is_script_register ? 's' : 'n') || !is_number(token + 1, 0, REGISTERS - 1, &operand->number))
        return 0;
    operand->place = &registers[(is_script_register ? REGISTERS : 0) + operand->number];
    return 1;
}

static int is_form(const struct form *form, char **tokens, size_t count, struct operand *o) {
    if (count != strlen(form->operands) + 1 || strcmp(tokens[0], form->word) != 0)
        return 0;
    for (size_t i = 1; i < count; i++)
        if (!is_operand(form->operands[i - 1], tokens[i], &o[i - 1]))
            return 0;
    return 1;
}

static int lacks_object(const struct form *form, const struct operand *o) {
    for (size_t i = 0; form->operands[i] != '\0'; i++)
        if (strchr("NS", form->operands[i]) != NULL && *o[i].place == NULL)
            return 1;
    return 0;
}

/* The reply to a line, which has room for one byte more; none where it asks nothing. */
static const char *reply_to(char *line, size_t length, unsigned long place) {
    static int has_begun = 0; /* a line came that is not blank and no comment */
    char *tokens[MOST_TOKENS];
    struct operand o[MOST_TOKENS];
    size_t count = 0;
    int is_first = !has_begun;
    has_begun = 1;
    if (length > LONGEST_LINE)
        return "! long";
    line[length > 0 && line[length - 1] == '\r' ? length - 1 : length] = '\0';
    for (char *token = strtok(line, " "); token != NULL && count < MOST_TOKENS; token = strtok(NULL, " "))
        tokens[count++] = token;
    if (count == 0 || *tokens[0] == '%') {
        has_begun = !is_first;
        return NULL;
    }
    if (strcmp(tokens[0], "proxy") == 0
        || (is_first && count == 2 && strcmp(tokens[0], "version") == 0 && strcmp(tokens[1], "2") == 0)) {
        fprintf(stderr, "trial: line %lu: proxies and version 2 are not taken\n", place);
        exit(2);
    }
    for (size_t i = 0; i < sizeof forms / sizeof forms[0]; i++)
        if (is_form(&forms[i], tokens, count, o))
            return lacks_object(&forms[i], o) ? "! empty" : forms[i].answer(o);
    return "! line";
}

int main(int count, char **words) {
    static const char *const mistakes[] = { "none", "no-touch", "freed-twice", "late-count", "strong-value", "uncounted-reflector", "dead-entry" };
    char line[LONGEST_LINE + 2];
    size_t length = 0;
    unsigned long place = 0;
    int byte, found = count == 1;
    for (int i = 0; count == 2 && i < 7; i++)
        if (strcmp(words[1], mistakes[i]) == 0) {
            mistake = (enum mistake)i;
            found = 1;
        }
    if (!found) {
        fputs("trial: bad command line\n", stderr);
        return 2;
    }
    do {
        byte = getchar();
        if (byte == '\n' || (byte == EOF && length > 0)) {
            const char *reply = reply_to(line, length, ++place);
            if (reply != NULL)
                puts(reply);
            length = 0;
        } else if (byte != EOF && length <= LONGEST_LINE) {
            line[length++] = byte == '\0' ? '?' : (char)byte; /* neither is of a word */
        }
    } while (byte != EOF);
    return 0;
}
