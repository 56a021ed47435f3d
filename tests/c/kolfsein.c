/*
 * The interface as a C or a C++ program meets it, compiled from this one source as either: the header's names, texts
 * and struct, the requirements' cases of table T, sets of subjects, wrapped ranges, groups that count and are silent, the
 * convention profile, expansions, each refusal of each call, null pointers of length 0, and what stands around what is
 * lent. Other tables and diagrams are left to the tests in Rust.
 */
#include "kolfsein.h" /* first, so that it needs nothing before it */

#include <stdio.h>
#include <string.h>

#define COUNT(rows) (sizeof(rows) / sizeof((rows)[0]))

static unsigned long checks, failures;

/* One check, at a line of this program. */
static void same(int line, const char *what, size_t is, size_t should) {
    checks++;
    if (is != should) {
        failures++;
        fprintf(stderr, "line %d: %s is %zu, should be %zu\n", line, what, is, should);
    }
}

static void same_answer(int line, kolfsein_answer is, kolfsein_answer should) {
    same(line, "the number", is.number, should.number);
    same(line, "the decision", is.decision, should.decision);
    same(line, "the place", is.place, should.place);
    same(line, "the count", is.count, should.count);
    same(line, "the subjects", is.subjects, should.subjects);
}

/* A call is lent the first of these places, or of their bytes, as many as it is to write; around them stand marks. */
enum { GUARD = 4, MOST_LENT = KOLFSEIN_MOST_BYTES / 2 + 4, GUARD_BYTES = 2 * GUARD, MOST_LENT_BYTES = 2 * MOST_LENT };
static const uint8_t MARK = 0xA5;
static uint16_t guarded[GUARD + MOST_LENT + GUARD];
static uint16_t *const lent = guarded + GUARD;
static uint8_t *const lent_bytes = (uint8_t *)(guarded + GUARD);

/* Before a call: marks throughout. */
static void mark(void) {
    memset(guarded, MARK, sizeof guarded);
}

/* After a call that was lent n bytes: the bytes that it wrote, zeros in the others lent, and the marks around. */
static void holds_bytes(int line, size_t n, size_t count, const uint8_t *bytes) {
    for (size_t i = 0; i < GUARD_BYTES; i++) {
        same(line, "a mark before what is lent", (lent_bytes - GUARD_BYTES)[i], MARK);
    }
    for (size_t i = 0; i < n; i++) {
        same(line, "a byte lent", lent_bytes[i], i < count ? bytes[i] : 0);
    }
    for (size_t i = n; i < MOST_LENT_BYTES + GUARD_BYTES; i++) {
        same(line, "a mark after what is lent", lent_bytes[i], MARK);
    }
}

/* The same of places that hold numbers. */
static void holds(int line, size_t n, size_t count, const uint16_t *numbers) {
    holds_bytes(line, n * sizeof *numbers, count * sizeof *numbers, (const uint8_t *)numbers);
}

/* After a call: what it only reads is as it was. */
static void unchanged(int line, const void *is, const void *was, size_t size) {
    same(line, "a change of what is only read", memcmp(is, was, size) != 0, 0);
}

/* Where the record of a node starts, which is where a table of so many nodes ends. */
#define START(node) (8 + 11 * (node))

struct table {
    uint8_t bytes[KOLFSEIN_MOST_BYTES];
    size_t len;
};

/* The requirements' table T. */
static const struct table T = {
    {0x00, 0x3D, 0x01, 0x02, 0x01, 0x01, 0x00, 0x05,
     0x03, 0x00, 0x05, 0x00, 0x00, 0x00, 0x02, 0x00, 0x01, 0x00, 0x01,
     0x04, 0x00, 0x01, 0x00, 0x0A, 0x00, 0x02, 0x00, 0x01, 0x00, 0x00,
     0x05, 0x00, 0x01, 0x00, 0x14, 0x02, 0x02, 0x00, 0x00, 0x00, 0x00,
     0x00, 0x00, 0x02, 0x00, 0x00, 0x01, 0x01, 0x00, 0x01, 0x01, 0x01,
     0x04, 0x00, 0x01, 0x00, 0x1E, 0x00, 0x02, 0x01, 0x01, 0x00, 0x01},
    START(5)};

/* T's diagram, each entry after the place where it starts. */
static const uint16_t DIAGRAM[] = {
    63, 55, 2, 1, 1,
    /* 5 */ 0, 1, 1, 10,
    /* 9 */ 0, 0, 0,
    /* 12 */ 3, 2, 0, 5, 1, 9,
    /* 18 */ 2, 1, 1, 12,
    /* 22 */ 0, 1, 1, 30,
    /* 26 */ 3, 2, 0, 5, 1, 22,
    /* 32 */ 2, 2, 0, 12, 1, 26,
    /* 38 */ 0, 2, 2, 10, 20,
    /* 43 */ 3, 2, 0, 38, 1, 9,
    /* 49 */ 2, 2, 0, 43, 1, 12,
    /* 55 */ 1, 3, 0, 18, 1, 32, 2, 49,
};

struct diagram {
    uint16_t numbers[COUNT(DIAGRAM)];
};

/* One rule to permit, card 7, for everything that T speaks of. */
static const struct table ONE_RULE = {
    {0, START(1) - 2, 1, 2, 1, 1, 0, 1, 4, 0, 1, 0, 7, 0, 2, 0, 1, 0, 1}, START(1)};

/* A table with another byte at a place. */
static struct table with(struct table t, size_t at, uint8_t byte) {
    t.bytes[at] = byte;
    return t;
}

/* So many groups with T's maxima: each in the one before, and on the last of so many levels all that are left. */
static struct table groups(size_t nodes, size_t levels) {
    const size_t after = START(nodes) - 2;
    struct table t = {
        {(uint8_t)(after >> 8), (uint8_t)(after & 0xFF), 1, 2, 1, 1, 0, (uint8_t)nodes}, START(nodes)};
    for (size_t node = 0; node < nodes; node++) {
        t.bytes[START(node) + 2] = (uint8_t)(node + 1 < levels ? nodes - node : 1);
    }
    return t;
}

/* A table with another range of a node in a field. */
static struct table with_range(struct table t, size_t node, size_t field, uint8_t low, uint8_t high) {
    const size_t at = START(node) + 5 + 2 * field;
    return with(with(t, at, low), at + 1, high);
}

/* T's diagram with another number at a place. */
static struct diagram diagram_with(size_t at, uint16_t number) {
    struct diagram d;
    memcpy(d.numbers, DIAGRAM, sizeof DIAGRAM);
    d.numbers[at] = number;
    return d;
}

/* What is built of a table whose diagram takes no more places than T's. */
static struct diagram diagram_of(struct table t) {
    struct diagram d;
    kolfsein_build(t.bytes, t.len, d.numbers, COUNT(d.numbers));
    return d;
}

/* A request and a list of some length, the answer that should come back, and the cards that the list should hold. */
struct asked {
    int line;
    uint16_t subject, resource, action;
    size_t list;
    kolfsein_answer should;
    uint16_t cards[2];
};

/* The same of a set of subjects. */
struct asked_together {
    int line;
    uint64_t subjects;
    uint16_t resource, action;
    size_t list;
    kolfsein_answer should;
    uint16_t cards[2];
};

/* A request as that of a set of one subject: where it is ruled on, the answer has this one. */
static struct asked_together alone(const struct asked *a) {
    struct asked_together set = {
        a->line, KOLFSEIN_SUBJECT(a->subject), a->resource, a->action, a->list, a->should, {a->cards[0], a->cards[1]}};
    set.should.subjects = a->should.number == KOLFSEIN_OK;
    return set;
}

/* A call that reads a table, and one that rules by it: the plain ones, or those of the convention profile. */
typedef kolfsein_answer read_call(const uint8_t *, size_t);
typedef kolfsein_answer rule_call(const uint8_t *, size_t, uint64_t, uint16_t, uint16_t, uint16_t *, size_t);

static void reads_by(read_call *call, int line, struct table t, kolfsein_answer should) {
    const struct table was = t;
    kolfsein_answer is = call(t.bytes, t.len);
    same_answer(line, is, should);
    unchanged(line, t.bytes, was.bytes, sizeof t.bytes);
}

static void reads(int line, struct table t, kolfsein_answer should) {
    reads_by(kolfsein_read, line, t, should);
}

static void rules_by(rule_call *call, struct table t, const struct asked_together *a) {
    const struct table was = t;
    mark();
    kolfsein_answer is = call(t.bytes, t.len, a->subjects, a->resource, a->action, lent, a->list);
    same_answer(a->line, is, a->should);
    holds(a->line, a->list, a->should.count, a->cards);
    unchanged(a->line, t.bytes, was.bytes, sizeof t.bytes);
}

static void rules(struct table t, const struct asked_together *a) {
    rules_by(kolfsein_rule, t, a);
}

static void builds(int line, struct table t, size_t room, kolfsein_answer should, const uint16_t *numbers) {
    const struct table was = t;
    mark();
    kolfsein_answer is = kolfsein_build(t.bytes, t.len, lent, room);
    same_answer(line, is, should);
    holds(line, room, should.count, numbers);
    unchanged(line, t.bytes, was.bytes, sizeof t.bytes);
}

static void looks_up(struct diagram d, const struct asked *a) {
    const struct diagram was = d;
    mark();
    kolfsein_answer is =
        kolfsein_look_up(d.numbers, COUNT(d.numbers), a->subject, a->resource, a->action, lent, a->list);
    same_answer(a->line, is, a->should);
    holds(a->line, a->list, a->should.count, a->cards);
    unchanged(a->line, d.numbers, was.numbers, sizeof d.numbers);
}

/* What is attached, into so many bytes. */
static void attaches_into(int line, struct table base, struct table expansion, size_t room, kolfsein_answer should,
                          const uint8_t *bytes) {
    const struct table base_was = base;
    const struct table expansion_was = expansion;
    mark();
    kolfsein_answer is =
        kolfsein_attach(base.bytes, base.len, expansion.bytes, expansion.len, lent_bytes, room);
    same_answer(line, is, should);
    holds_bytes(line, room, should.count, bytes);
    unchanged(line, base.bytes, base_was.bytes, sizeof base.bytes);
    unchanged(line, expansion.bytes, expansion_was.bytes, sizeof expansion.bytes);
}

#define NAMED(name, number) same(__LINE__, #name, name, number)

/* Each name of the header has the requirements' number. */
static void names(void) {
    NAMED(KOLFSEIN_NOT_APPLICABLE, 0);
    NAMED(KOLFSEIN_PERMIT, 1);
    NAMED(KOLFSEIN_DENY, 2);
    NAMED(KOLFSEIN_INDETERMINATE, 3);
    NAMED(KOLFSEIN_OK, 0);
    NAMED(KOLFSEIN_LENGTH, 1);
    NAMED(KOLFSEIN_VERSION, 2);
    NAMED(KOLFSEIN_NODE_COUNT, 3);
    NAMED(KOLFSEIN_KIND, 4);
    NAMED(KOLFSEIN_SPAN, 5);
    NAMED(KOLFSEIN_LEVEL, 6);
    NAMED(KOLFSEIN_RANGE, 7);
    NAMED(KOLFSEIN_CARD, 8);
    NAMED(KOLFSEIN_VALUE, 9);
    NAMED(KOLFSEIN_LIST_TOO_SHORT, 10);
    NAMED(KOLFSEIN_ROOM, 11);
    NAMED(KOLFSEIN_DIAGRAM, 12);
    NAMED(KOLFSEIN_SUBJECTS, 13);
    NAMED(KOLFSEIN_MIXED_GROUP, 14);
    NAMED(KOLFSEIN_RULE_IN_ONLY_ONE, 15);
    NAMED(KOLFSEIN_RULE_AS_ROOT, 16);
    NAMED(KOLFSEIN_BASE_IS_RULE, 17);
    NAMED(KOLFSEIN_HEADERS_DIFFER, 18);
    NAMED(KOLFSEIN_TOO_LARGE, 19);
    NAMED(KOLFSEIN_MOST_CARDS, 127);
    NAMED(KOLFSEIN_MOST_PLACES, 32768);
    NAMED(KOLFSEIN_MOST_BYTES, 1416);
    NAMED(KOLFSEIN_SUBJECT(0), 1);
    NAMED(KOLFSEIN_SUBJECT(31), 0x80000000);
    NAMED(KOLFSEIN_SUBJECT(32), 0x100000000);
    NAMED(KOLFSEIN_SUBJECT(63), 0x8000000000000000);
    NAMED(KOLFSEIN_SUBJECT(0) | KOLFSEIN_SUBJECT(2), 5);
    NAMED(KOLFSEIN_INTERFACE, 1);
    NAMED(kolfsein_interface_1(), 1);
}

/* Whether a number has this text. */
static int has_text(size_t number, const char *text) {
    const char *is = kolfsein_text((uint8_t)number);
    return is != NULL && strcmp(is, text) == 0;
}

/* Each number has a text, and just those that no name has that of the unknown. The texts are compared in Rust. */
static void texts(void) {
    same(__LINE__, "the text of KOLFSEIN_OK", has_text(KOLFSEIN_OK, "nothing is refused"), 1);
    same(__LINE__, "the text of KOLFSEIN_DIAGRAM", has_text(KOLFSEIN_DIAGRAM, "the diagram is not sound"), 1);
    for (size_t number = 0; number <= UINT8_MAX; number++) {
        same(__LINE__, "a null text", kolfsein_text((uint8_t)number) == NULL, 0);
        same(__LINE__, "an unknown text", has_text(number, "unknown refusal"), number > KOLFSEIN_TOO_LARGE);
    }
}

/* The struct is laid out as x86-64 lays out what the library hands back. */
static void layout(void) {
    same(__LINE__, "the offset of the number", offsetof(kolfsein_answer, number), 0);
    same(__LINE__, "the offset of the decision", offsetof(kolfsein_answer, decision), 1);
    same(__LINE__, "the offset of the place", offsetof(kolfsein_answer, place), 8);
    same(__LINE__, "the offset of the count", offsetof(kolfsein_answer, count), 16);
    same(__LINE__, "the offset of the subjects", offsetof(kolfsein_answer, subjects), 24);
    same(__LINE__, "the size of an answer", sizeof(kolfsein_answer), 32);
}

/* Asked of T, by its groups and by its diagram alike; a 256 that lost its high byte would be within its field. */
static const struct asked OF_T[] = {
    {__LINE__, 0, 0, 0, 1, {KOLFSEIN_OK, KOLFSEIN_PERMIT, 0, 1, 0}, {10, 0}},
    {__LINE__, 1, 1, 1, 1, {KOLFSEIN_OK, KOLFSEIN_PERMIT, 0, 1, 0}, {30, 0}},
    {__LINE__, 2, 0, 1, 1, {KOLFSEIN_OK, KOLFSEIN_NOT_APPLICABLE, 0, 0, 0}, {0, 0}},
    {__LINE__, 2, 0, 0, 3, {KOLFSEIN_OK, KOLFSEIN_DENY, 0, 2, 0}, {10, 20}},
    {__LINE__, 2, 0, 0, MOST_LENT, {KOLFSEIN_OK, KOLFSEIN_DENY, 0, 2, 0}, {10, 20}},
    {__LINE__, 2, 0, 0, 1, {KOLFSEIN_LIST_TOO_SHORT, 0, 0, 0, 0}, {0, 0}},
    {__LINE__, 0, 2, 0, 3, {KOLFSEIN_VALUE, 0, 1, 0, 0}, {0, 0}},
    {__LINE__, 0, 0, 2, 3, {KOLFSEIN_VALUE, 0, 2, 0, 0}, {0, 0}},
    {__LINE__, 2, 2, 2, 0, {KOLFSEIN_VALUE, 0, 1, 0, 0}, {0, 0}},
    {__LINE__, 0, 256, 0, 3, {KOLFSEIN_VALUE, 0, 1, 0, 0}, {0, 0}},
    {__LINE__, 0, 0, 256, 3, {KOLFSEIN_VALUE, 0, 2, 0, 0}, {0, 0}},
};

/* Asked of T's diagram only: a subject over the maximum. */
static const struct asked OF_DIAGRAM[] = {
    {__LINE__, 3, 0, 0, 3, {KOLFSEIN_VALUE, 0, 0, 0, 0}, {0, 0}},
    {__LINE__, 3, 2, 2, 3, {KOLFSEIN_VALUE, 0, 0, 0, 0}, {0, 0}},
    {__LINE__, 256, 0, 0, 3, {KOLFSEIN_VALUE, 0, 0, 0, 0}, {0, 0}},
};

/* T's subjects, each as a set of its own, and one over the maximum. */
enum { SCOUT = 1, CAPTAIN = 2, SMUGGLER = 4, NOBODY = 8 };

/*
 * Asked of T's groups only: several subjects together, and sets with a fault, before whatever else is at fault. A set
 * that lost its high bits would be within the maximum.
 */
static const struct asked_together OF_GROUPS[] = {
    {__LINE__, SCOUT | CAPTAIN, 0, 0, 1, {KOLFSEIN_OK, KOLFSEIN_PERMIT, 0, 1, 2}, {10, 0}},
    {__LINE__, SCOUT | SMUGGLER, 0, 0, 3, {KOLFSEIN_OK, KOLFSEIN_DENY, 0, 2, 2}, {10, 20}},
    {__LINE__, SCOUT | CAPTAIN | SMUGGLER, 0, 0, 2, {KOLFSEIN_OK, KOLFSEIN_DENY, 0, 2, 3}, {10, 20}},
    {__LINE__, SCOUT | CAPTAIN | SMUGGLER, 1, 0, 2, {KOLFSEIN_OK, KOLFSEIN_PERMIT, 0, 1, 3}, {10, 0}},
    {__LINE__, CAPTAIN | SMUGGLER, 1, 1, 1, {KOLFSEIN_OK, KOLFSEIN_PERMIT, 0, 1, 2}, {30, 0}},
    {__LINE__, SCOUT | SMUGGLER, 1, 1, 0, {KOLFSEIN_OK, KOLFSEIN_NOT_APPLICABLE, 0, 0, 2}, {0, 0}},
    {__LINE__, SCOUT | SMUGGLER, 0, 0, 1, {KOLFSEIN_LIST_TOO_SHORT, 0, 0, 0, 0}, {0, 0}},
    {__LINE__, SCOUT | CAPTAIN | SMUGGLER, 2, 2, 3, {KOLFSEIN_VALUE, 0, 1, 0, 0}, {0, 0}},
    {__LINE__, SCOUT | CAPTAIN | SMUGGLER, 1, 2, 0, {KOLFSEIN_VALUE, 0, 2, 0, 0}, {0, 0}},
    {__LINE__, 0, 0, 0, 3, {KOLFSEIN_SUBJECTS, 0, 0, 0, 0}, {0, 0}},
    {__LINE__, NOBODY, 0, 0, 3, {KOLFSEIN_SUBJECTS, 0, 0, 0, 0}, {0, 0}},
    {__LINE__, SCOUT | CAPTAIN | SMUGGLER | NOBODY, 0, 0, 3, {KOLFSEIN_SUBJECTS, 0, 0, 0, 0}, {0, 0}},
    {__LINE__, KOLFSEIN_SUBJECT(8) | SMUGGLER, 0, 0, 3, {KOLFSEIN_SUBJECTS, 0, 0, 0, 0}, {0, 0}},
    {__LINE__, KOLFSEIN_SUBJECT(32) | SMUGGLER, 0, 0, 3, {KOLFSEIN_SUBJECTS, 0, 0, 0, 0}, {0, 0}},
    {__LINE__, KOLFSEIN_SUBJECT(63) | SMUGGLER, 0, 0, 3, {KOLFSEIN_SUBJECTS, 0, 0, 0, 0}, {0, 0}},
    {__LINE__, UINT64_MAX, 0, 0, 3, {KOLFSEIN_SUBJECTS, 0, 0, 0, 0}, {0, 0}},
    {__LINE__, 0, 2, 0, 3, {KOLFSEIN_SUBJECTS, 0, 0, 0, 0}, {0, 0}},
    {__LINE__, SMUGGLER | NOBODY, 2, 2, 3, {KOLFSEIN_SUBJECTS, 0, 0, 0, 0}, {0, 0}},
    {__LINE__, SMUGGLER | NOBODY, 0, 256, 0, {KOLFSEIN_SUBJECTS, 0, 0, 0, 0}, {0, 0}},
    {__LINE__, SMUGGLER | NOBODY, 0, 0, 1, {KOLFSEIN_SUBJECTS, 0, 0, 0, 0}, {0, 0}},
};

static const kolfsein_answer READ = {KOLFSEIN_OK, 0, 0, 5, 0};
static const kolfsein_answer BUILT = {KOLFSEIN_OK, 0, 0, 63, 0};
static const kolfsein_answer NO_ROOM = {KOLFSEIN_ROOM, 0, 0, 0, 0};

static void cases_of_t(void) {
    const struct diagram d = diagram_with(0, DIAGRAM[0]); /* T's diagram itself */
    reads(__LINE__, T, READ);
    builds(__LINE__, T, 62, NO_ROOM, NULL);
    builds(__LINE__, T, 63, BUILT, DIAGRAM);
    builds(__LINE__, T, MOST_LENT, BUILT, DIAGRAM);
    for (size_t i = 0; i < COUNT(OF_T); i++) {
        const struct asked_together set = alone(&OF_T[i]);
        rules(T, &set);
        looks_up(d, &OF_T[i]);
    }
    for (size_t i = 0; i < COUNT(OF_DIAGRAM); i++) {
        looks_up(d, &OF_DIAGRAM[i]);
    }
    for (size_t i = 0; i < COUNT(OF_GROUPS); i++) {
        rules(T, &OF_GROUPS[i]);
    }
}

/* T with a root of another kind: in its diagram only the entry at place 38 has another decision. */
static void root_of_kind(int line, uint8_t kind, uint8_t decision) {
    const struct asked a = {line, 2, 0, 0, 3, {KOLFSEIN_OK, decision, 0, 2, 0}, {10, 20}};
    const struct asked_together set = alone(&a);
    const struct table t = with(T, START(0), kind);
    const struct diagram d = diagram_with(39, decision);
    rules(t, &set);
    builds(line, t, 63, BUILT, d.numbers);
    looks_up(d, &a);
}

/* T with its last rule for the smuggler, in a group for the captain: no member by itself meets both targets. */
static void by_itself(void) {
    static const struct asked_together each_target_met = {
        __LINE__, CAPTAIN | SMUGGLER, 1, 1, 1, {KOLFSEIN_OK, KOLFSEIN_NOT_APPLICABLE, 0, 0, 2}, {0, 0}};
    rules(with(T, START(4) + 5, 2), &each_target_met);
}

/* One rule to permit: card 7, for subject 63, where the greatest subject is 255. */
static void all_bits_of_a_set(void) {
    static const struct asked_together sets[] = {
        {__LINE__, KOLFSEIN_SUBJECT(63), 0, 0, 1, {KOLFSEIN_OK, KOLFSEIN_PERMIT, 0, 1, 1}, {7, 0}},
        {__LINE__, UINT64_MAX, 0, 0, 1, {KOLFSEIN_OK, KOLFSEIN_PERMIT, 0, 1, 64}, {7, 0}},
        {__LINE__, UINT64_MAX >> 1, 0, 0, 1, {KOLFSEIN_OK, KOLFSEIN_NOT_APPLICABLE, 0, 0, 63}, {0, 0}},
    };
    static const struct table t = {{0, START(1) - 2, 1, 255, 0, 0, 0, 1, 4, 0, 1, 0, 7, 63, 63, 0, 0, 0, 0}, START(1)};
    for (size_t i = 0; i < COUNT(sets); i++) {
        rules(t, &sets[i]);
    }
}

/* One rule to permit, card 7, for everything in three fields of six values, 0 to 5. */
static const struct table SIX = {
    {0, START(1) - 2, 1, 5, 5, 5, 0, 1, 4, 0, 1, 0, 7, 0, 5, 0, 5, 0, 5}, START(1)};

/* The diagram of the same for subjects 4 to 1. */
static const uint16_t OF_FOUR_TO_ONE[] = {
    36, 28, 5, 5, 5,
    /* 5 */ 0, 1, 1, 7,
    /* 9 */ 3, 1, 5, 5,
    /* 13 */ 2, 1, 5, 9,
    /* 17 */ 0, 0, 0,
    /* 20 */ 3, 1, 5, 17,
    /* 24 */ 2, 1, 5, 20,
    /* 28 */ 1, 3, 1, 13, 3, 24, 5, 13,
};

/* Values 4 to 1 of six are 4, 5, 0 and 1, in each field. */
static void four_to_one(void) {
    static const kolfsein_answer built = {KOLFSEIN_OK, 0, 0, COUNT(OF_FOUR_TO_ONE), 0};
    static const uint8_t in_range[] = {1, 1, 0, 0, 1, 1};
    builds(__LINE__, with_range(SIX, 0, 0, 4, 1), MOST_LENT, built, OF_FOUR_TO_ONE);
    for (size_t field = 0; field < 3; field++) {
        const struct table t = with_range(SIX, 0, field, 4, 1);
        for (uint16_t value = 0; value < COUNT(in_range); value++) {
            const uint8_t in = in_range[value];
            const uint8_t decision = in ? KOLFSEIN_PERMIT : KOLFSEIN_NOT_APPLICABLE;
            uint16_t values[] = {3, 3, 3};
            values[field] = value;
            const struct asked a = {
                __LINE__, values[0], values[1], values[2], 1, {KOLFSEIN_OK, decision, 0, in, 0}, {7, 0}};
            const struct asked_together set = alone(&a);
            rules(t, &set);
            looks_up(diagram_of(t), &a);
        }
    }
}

/* Seats in a ring, and a rule for seat 4 to seat 1: sets on both sides of either end, and on both sides of seat 0. */
static void seats_in_a_ring(void) {
    enum { SEAT0 = 1, SEAT1 = 2, SEAT2 = 4, SEAT3 = 8, SEAT4 = 16, SEAT5 = 32, ALL_SEATS = 63 };
    static const struct asked_together sets[] = {
        {__LINE__, SEAT5 | SEAT0, 0, 0, 1, {KOLFSEIN_OK, KOLFSEIN_PERMIT, 0, 1, 2}, {7, 0}},
        {__LINE__, SEAT1 | SEAT2, 0, 0, 1, {KOLFSEIN_OK, KOLFSEIN_PERMIT, 0, 1, 2}, {7, 0}},
        {__LINE__, SEAT3 | SEAT4, 0, 0, 1, {KOLFSEIN_OK, KOLFSEIN_PERMIT, 0, 1, 2}, {7, 0}},
        {__LINE__, SEAT2 | SEAT3 | SEAT5, 0, 0, 1, {KOLFSEIN_OK, KOLFSEIN_PERMIT, 0, 1, 3}, {7, 0}},
        {__LINE__, SEAT0 | SEAT2 | SEAT3, 0, 0, 1, {KOLFSEIN_OK, KOLFSEIN_PERMIT, 0, 1, 3}, {7, 0}},
        {__LINE__, SEAT2 | SEAT3, 0, 0, 1, {KOLFSEIN_OK, KOLFSEIN_NOT_APPLICABLE, 0, 0, 2}, {0, 0}},
        {__LINE__, ALL_SEATS, 0, 0, 1, {KOLFSEIN_OK, KOLFSEIN_PERMIT, 0, 1, 6}, {7, 0}},
    };
    for (size_t i = 0; i < COUNT(sets); i++) {
        rules(with_range(SIX, 0, 0, 4, 1), &sets[i]);
    }
}

/* A low one more than its high takes in every value, as 0 to the maximum does. */
static void all_round(void) {
    static const uint16_t of_six[] = {21, 17, 5, 5, 5, 0, 1, 1, 7, 3, 1, 5, 5, 2, 1, 5, 9, 1, 1, 5, 13};
    static const kolfsein_answer built = {KOLFSEIN_OK, 0, 0, COUNT(of_six), 0};
    builds(__LINE__, SIX, MOST_LENT, built, of_six);
    for (size_t field = 0; field < 3; field++) {
        for (uint8_t high = 0; high < 5; high++) {
            const struct table t = with_range(SIX, 0, field, (uint8_t)(high + 1), high);
            builds(__LINE__, t, MOST_LENT, built, of_six);
            for (uint16_t value = 0; value < 6; value++) {
                const struct asked a = {
                    __LINE__, value, value, value, 1, {KOLFSEIN_OK, KOLFSEIN_PERMIT, 0, 1, 0}, {7, 0}};
                const struct asked_together set = alone(&a);
                rules(t, &set);
            }
        }
    }
}

/* Wrapped ranges of subjects where the greatest is 255, and which of the subjects that a set can have are in them. */
static void wrapped_over_63(void) {
    static const struct {
        uint8_t low, high;
        uint64_t in;
    } ranges[] = {
        {200, 1, KOLFSEIN_SUBJECT(0) | KOLFSEIN_SUBJECT(1)},
        {64, 0, KOLFSEIN_SUBJECT(0)},
        {63, 0, KOLFSEIN_SUBJECT(0) | KOLFSEIN_SUBJECT(63)},
        {255, 62, UINT64_MAX >> 1},
        {255, 63, UINT64_MAX},
        {100, 70, UINT64_MAX},
        {64, 63, UINT64_MAX},
    };
    static const struct asked of_200_to_1[] = {
        {__LINE__, 0, 0, 0, 1, {KOLFSEIN_OK, KOLFSEIN_PERMIT, 0, 1, 0}, {7, 0}},
        {__LINE__, 1, 0, 0, 1, {KOLFSEIN_OK, KOLFSEIN_PERMIT, 0, 1, 0}, {7, 0}},
        {__LINE__, 2, 0, 0, 1, {KOLFSEIN_OK, KOLFSEIN_NOT_APPLICABLE, 0, 0, 0}, {0, 0}},
        {__LINE__, 199, 0, 0, 1, {KOLFSEIN_OK, KOLFSEIN_NOT_APPLICABLE, 0, 0, 0}, {0, 0}},
        {__LINE__, 200, 0, 0, 1, {KOLFSEIN_OK, KOLFSEIN_PERMIT, 0, 1, 0}, {7, 0}},
        {__LINE__, 255, 0, 0, 1, {KOLFSEIN_OK, KOLFSEIN_PERMIT, 0, 1, 0}, {7, 0}},
    };
    const struct table t = with(SIX, 3, 255);
    for (size_t i = 0; i < COUNT(ranges); i++) {
        for (size_t k = 0; k < 64; k++) {
            const uint8_t in = ranges[i].in >> k & 1;
            const uint8_t decision = in ? KOLFSEIN_PERMIT : KOLFSEIN_NOT_APPLICABLE;
            const struct asked_together set = {
                __LINE__, KOLFSEIN_SUBJECT(k), 0, 0, 1, {KOLFSEIN_OK, decision, 0, in, 1}, {7, 0}};
            rules(with_range(t, 0, 0, ranges[i].low, ranges[i].high), &set);
        }
    }
    for (size_t i = 0; i < COUNT(of_200_to_1); i++) {
        looks_up(diagram_of(with_range(t, 0, 0, 200, 1)), &of_200_to_1[i]);
    }
}

/* A first-applicable group over a rule to permit, card 1, for subject 0, and a rule to deny, card 2, for subject 1. */
static const struct table PERMIT_FIRST = {
    {0, START(3) - 2, 1, 1, 0, 0, 0, 3,
     0, 0, 3, 0, 0, 0, 1, 0, 0, 0, 0,
     4, 0, 1, 0, 1, 0, 0, 0, 0, 0, 0,
     5, 0, 1, 0, 2, 1, 1, 0, 0, 0, 0},
    START(3)};

/* The same with the two rules in the other order. */
static const struct table DENY_FIRST = {
    {0, START(3) - 2, 1, 1, 0, 0, 0, 3,
     0, 0, 3, 0, 0, 0, 1, 0, 0, 0, 0,
     5, 0, 1, 0, 2, 1, 1, 0, 0, 0, 0,
     4, 0, 1, 0, 1, 0, 0, 0, 0, 0, 0},
    START(3)};

/* The diagram of either. */
static const uint16_t OF_EITHER[] = {
    35, 29, 1, 0, 0,
    /* 5 */ 0, 1, 1, 1,
    /* 9 */ 3, 1, 0, 5,
    /* 13 */ 2, 1, 0, 9,
    /* 17 */ 0, 2, 1, 2,
    /* 21 */ 3, 1, 0, 17,
    /* 25 */ 2, 1, 0, 21,
    /* 29 */ 1, 2, 0, 13, 1, 25,
};

/* Tables that rule alike on each subject, and so have the same diagram, but not on both subjects together. */
static void same_diagram(void) {
    static const kolfsein_answer built = {KOLFSEIN_OK, 0, 0, COUNT(OF_EITHER), 0};
    static const struct asked_together each[] = {
        {__LINE__, 1, 0, 0, 2, {KOLFSEIN_OK, KOLFSEIN_PERMIT, 0, 1, 1}, {1, 0}},
        {__LINE__, 2, 0, 0, 2, {KOLFSEIN_OK, KOLFSEIN_DENY, 0, 1, 1}, {2, 0}},
    };
    static const struct asked_together permitted = {
        __LINE__, 1 | 2, 0, 0, 2, {KOLFSEIN_OK, KOLFSEIN_PERMIT, 0, 2, 2}, {1, 2}};
    static const struct asked_together denied = {
        __LINE__, 1 | 2, 0, 0, 2, {KOLFSEIN_OK, KOLFSEIN_DENY, 0, 2, 2}, {2, 1}};
    builds(__LINE__, PERMIT_FIRST, MOST_LENT, built, OF_EITHER);
    builds(__LINE__, DENY_FIRST, MOST_LENT, built, OF_EITHER);
    for (size_t i = 0; i < COUNT(each); i++) {
        rules(PERMIT_FIRST, &each[i]);
        rules(DENY_FIRST, &each[i]);
    }
    rules(PERMIT_FIRST, &permitted);
    rules(DENY_FIRST, &denied);
}

/* An only-one-applicable group over an empty group for subjects 1 to 2 and a rule to permit, card 1, for 0 to 1. */
static const struct table SILENT_GROUP = {
    {0, START(3) - 2, 1, 2, 0, 0, 0, 3,
     1, 0, 3, 0, 0, 0, 2, 0, 0, 0, 0,
     0, 0, 1, 0, 0, 1, 2, 0, 0, 0, 0,
     4, 0, 1, 0, 1, 0, 1, 0, 0, 0, 0},
    START(3)};

/* Its diagram, and zeros after it. */
static const struct diagram OF_SILENT_GROUP = {
    {48, 40, 2, 0, 0,
     /* 5 */ 0, 1, 1, 1,
     /* 9 */ 3, 1, 0, 5,
     /* 13 */ 2, 1, 0, 9,
     /* 17 */ 0, 3, 1, 1,
     /* 21 */ 3, 1, 0, 17,
     /* 25 */ 2, 1, 0, 21,
     /* 29 */ 0, 0, 0,
     /* 32 */ 3, 1, 0, 29,
     /* 36 */ 2, 1, 0, 32,
     /* 40 */ 1, 3, 0, 13, 1, 25, 2, 36}};

/* A group counts where its target holds, though no rule in it matches; so does the rule made a group. */
static void silent_groups(void) {
    static const kolfsein_answer built = {KOLFSEIN_OK, 0, 0, 48, 0};
    static const struct asked each[] = {
        {__LINE__, 0, 0, 0, 1, {KOLFSEIN_OK, KOLFSEIN_PERMIT, 0, 1, 0}, {1, 0}},
        {__LINE__, 1, 0, 0, 1, {KOLFSEIN_OK, KOLFSEIN_INDETERMINATE, 0, 1, 0}, {1, 0}},
        {__LINE__, 2, 0, 0, 1, {KOLFSEIN_OK, KOLFSEIN_NOT_APPLICABLE, 0, 0, 0}, {0, 0}},
    };
    static const struct asked_together by_two_members = {
        __LINE__, 1 | 4, 0, 0, 1, {KOLFSEIN_OK, KOLFSEIN_INDETERMINATE, 0, 1, 2}, {1, 0}};
    static const struct asked_together no_card = {
        __LINE__, 2, 0, 0, 0, {KOLFSEIN_OK, KOLFSEIN_INDETERMINATE, 0, 0, 1}, {0, 0}};
    struct table two_groups = SILENT_GROUP;
    two_groups.bytes[START(2)] = 0;
    two_groups.bytes[START(2) + 4] = 0;
    builds(__LINE__, SILENT_GROUP, MOST_LENT, built, OF_SILENT_GROUP.numbers);
    for (size_t i = 0; i < COUNT(each); i++) {
        const struct asked_together set = alone(&each[i]);
        rules(SILENT_GROUP, &set);
        looks_up(OF_SILENT_GROUP, &each[i]);
    }
    rules(SILENT_GROUP, &by_two_members);
    rules(two_groups, &no_card);
}

/*
 * T with its first two rules in a group of their own, so that it is a table of the convention profile; it rules as T
 * does.
 */
static const struct table SORTED = {
    {0, START(6) - 2, 1, 2, 1, 1, 0, 6,
     3, 0, 6, 0, 0, 0, 2, 0, 1, 0, 1,
     3, 0, 3, 0, 0, 0, 2, 0, 1, 0, 1,
     4, 0, 1, 0, 10, 0, 2, 0, 1, 0, 0,
     5, 0, 1, 0, 20, 2, 2, 0, 0, 0, 0,
     0, 0, 2, 0, 0, 1, 1, 0, 1, 1, 1,
     4, 0, 1, 0, 30, 0, 2, 1, 1, 0, 1},
    START(6)};

/* A table of the profile is read and ruled by as without it. */
static void accepted_by_profile(void) {
    static read_call *const read[] = {kolfsein_read, kolfsein_read_standard};
    static rule_call *const rule[] = {kolfsein_rule, kolfsein_rule_standard};
    static const kolfsein_answer six = {KOLFSEIN_OK, 0, 0, 6, 0};
    for (size_t call = 0; call < COUNT(read); call++) {
        reads_by(read[call], __LINE__, SORTED, six);
        for (size_t i = 0; i < COUNT(OF_T); i++) {
            const struct asked_together set = alone(&OF_T[i]);
            rules_by(rule[call], SORTED, &set);
        }
        for (size_t i = 0; i < COUNT(OF_GROUPS); i++) {
            rules_by(rule[call], SORTED, &OF_GROUPS[i]);
        }
    }
}

/*
 * T with its rule to deny for subjects 2 to 0, the smuggler and the scout: by its groups, by its diagram, and sorted by
 * the profile.
 */
static void wrapped_in_t(void) {
    static const struct asked each[] = {
        {__LINE__, 0, 0, 0, 2, {KOLFSEIN_OK, KOLFSEIN_DENY, 0, 2, 0}, {10, 20}},
        {__LINE__, 1, 0, 0, 2, {KOLFSEIN_OK, KOLFSEIN_PERMIT, 0, 1, 0}, {10, 0}},
        {__LINE__, 2, 0, 0, 2, {KOLFSEIN_OK, KOLFSEIN_DENY, 0, 2, 0}, {10, 20}},
        {__LINE__, 0, 0, 1, 2, {KOLFSEIN_OK, KOLFSEIN_NOT_APPLICABLE, 0, 0, 0}, {0, 0}},
        {__LINE__, 0, 1, 0, 2, {KOLFSEIN_OK, KOLFSEIN_PERMIT, 0, 1, 0}, {10, 0}},
    };
    static const struct asked_together scout_and_captain = {
        __LINE__, SCOUT | CAPTAIN, 0, 0, 2, {KOLFSEIN_OK, KOLFSEIN_DENY, 0, 2, 2}, {10, 20}};
    const struct table t = with_range(T, 2, 0, 2, 0);
    const struct table sorted = with_range(SORTED, 3, 0, 2, 0);
    reads(__LINE__, t, READ);
    for (size_t i = 0; i < COUNT(each); i++) {
        const struct asked_together set = alone(&each[i]);
        rules(t, &set);
        rules_by(kolfsein_rule_standard, sorted, &set);
        looks_up(diagram_of(t), &each[i]);
    }
    rules(t, &scout_and_captain);
    rules_by(kolfsein_rule_standard, sorted, &scout_and_captain);
}

/* A table that the profile refuses, whatever else is at fault: the set, a value, or the list. */
static void refuses_by_profile(int line, struct table t, uint8_t number, size_t place) {
    const kolfsein_answer should = {number, 0, place, 0, 0};
    const struct asked_together asked[] = {
        {line, SMUGGLER, 0, 0, 3, should, {0, 0}},
        {line, 0, 0, 0, 3, should, {0, 0}},
        {line, SMUGGLER, 2, 2, 3, should, {0, 0}},
        {line, SMUGGLER, 0, 0, 0, should, {0, 0}},
    };
    reads_by(kolfsein_read_standard, line, t, should);
    for (size_t i = 0; i < COUNT(asked); i++) {
        rules_by(kolfsein_rule_standard, t, &asked[i]);
    }
}

/* The same of a table that is accepted without the profile, of so many nodes. */
static void refuses_by_profile_alone(int line, struct table t, size_t nodes, uint8_t number, size_t place) {
    const kolfsein_answer read = {KOLFSEIN_OK, 0, 0, nodes, 0};
    reads(line, t, read);
    refuses_by_profile(line, t, number, place);
}

/*
 * An only-one-applicable group over a rule, at node 1, and beside it a group over a rule and a group, at node 3: 15 and
 * 14, which comes first.
 */
static const struct table BOTH_FAULTS = {
    {0, START(6) - 2, 1, 2, 1, 1, 0, 6,
     3, 0, 6, 0, 0, 0, 2, 0, 1, 0, 1,
     1, 0, 2, 0, 0, 0, 2, 0, 1, 0, 1,
     4, 0, 1, 0, 10, 0, 2, 0, 1, 0, 1,
     3, 0, 3, 0, 0, 0, 2, 0, 1, 0, 1,
     5, 0, 1, 0, 20, 0, 2, 0, 1, 0, 1,
     0, 0, 1, 0, 0, 0, 2, 0, 1, 0, 1},
    START(6)};

/* Tables that the profile refuses, and no other call. */
static void refusals_by_profile(void) {
    struct table only_one = SORTED;
    struct table only_ones = BOTH_FAULTS;
    only_one.bytes[START(4)] = 1;
    only_ones.bytes[START(3)] = 1;     /* node 3 is such a group too, */
    only_ones.bytes[START(5)] = 5;     /* and holds rules alone */
    only_ones.bytes[START(5) + 4] = 7;
    refuses_by_profile_alone(__LINE__, T, 5, KOLFSEIN_MIXED_GROUP, 0);
    refuses_by_profile_alone(__LINE__, BOTH_FAULTS, 6, KOLFSEIN_MIXED_GROUP, 3);
    refuses_by_profile_alone(__LINE__, only_one, 6, KOLFSEIN_RULE_IN_ONLY_ONE, 4);
    refuses_by_profile_alone(__LINE__, only_ones, 6, KOLFSEIN_RULE_IN_ONLY_ONE, 1);
    refuses_by_profile_alone(__LINE__, ONE_RULE, 1, KOLFSEIN_RULE_AS_ROOT, 0);
}

/* An expansion of T: a permit-overrides group for attacks over a rule to deny, card 40, for captain and smuggler. */
static const struct table EXPANSION = {
    {0, START(2) - 2, 1, 2, 1, 1, 0, 2,
     2, 0, 2, 0, 0, 0, 2, 0, 1, 1, 1,
     5, 0, 1, 0, 40, 1, 2, 0, 1, 0, 1},
    START(2)};

/* T with it. */
static const struct table T_EXPANDED = {
    {0x00, 0x53, 0x01, 0x02, 0x01, 0x01, 0x00, 0x07,
     0x03, 0x00, 0x07, 0x00, 0x00, 0x00, 0x02, 0x00, 0x01, 0x00, 0x01,
     0x04, 0x00, 0x01, 0x00, 0x0A, 0x00, 0x02, 0x00, 0x01, 0x00, 0x00,
     0x05, 0x00, 0x01, 0x00, 0x14, 0x02, 0x02, 0x00, 0x00, 0x00, 0x00,
     0x00, 0x00, 0x02, 0x00, 0x00, 0x01, 0x01, 0x00, 0x01, 0x01, 0x01,
     0x04, 0x00, 0x01, 0x00, 0x1E, 0x00, 0x02, 0x01, 0x01, 0x00, 0x01,
     0x02, 0x00, 0x02, 0x00, 0x00, 0x00, 0x02, 0x00, 0x01, 0x01, 0x01,
     0x05, 0x00, 0x01, 0x00, 0x28, 0x01, 0x02, 0x00, 0x01, 0x00, 0x01},
    START(7)};

/* An empty group with a rule as its expansion. */
static const struct table GROUP_AND_RULE = {
    {0, START(2) - 2, 1, 2, 1, 1, 0, 2,
     0, 0, 2, 0, 0, 0, 0, 0, 0, 0, 0,
     4, 0, 1, 0, 7, 0, 2, 0, 1, 0, 1},
    START(2)};

/* Eight groups, each in the one before, with one group as their expansion. */
static struct table deep_first(void) {
    struct table t = groups(9, 9);
    for (size_t node = 1; node < 8; node++) {
        t.bytes[START(node) + 2]--;
    }
    return t;
}

/* T with itself as its expansion. */
static struct table t_twice(void) {
    struct table t = T;
    memcpy(t.bytes + START(5), T.bytes + START(0), START(5) - START(0));
    t.bytes[1] = START(10) - 2;
    t.bytes[7] = 10;
    t.bytes[START(0) + 2] = 10;
    t.len = START(10);
    return t;
}

/* A base and an expansion that make a table, wherever the bytes lent are enough for it. */
static void attaches(int line, struct table base, struct table expansion, struct table whole) {
    const kolfsein_answer written = {KOLFSEIN_OK, 0, 0, whole.len, 0};
    attaches_into(line, base, expansion, 0, NO_ROOM, NULL);
    attaches_into(line, base, expansion, whole.len - 1, NO_ROOM, NULL);
    attaches_into(line, base, expansion, whole.len, written, whole.bytes);
    attaches_into(line, base, expansion, KOLFSEIN_MOST_BYTES, written, whole.bytes);
    attaches_into(line, base, expansion, MOST_LENT_BYTES, written, whole.bytes);
}

/* What is attached, up to 128 nodes and 8 levels. */
static void attached(void) {
    static const kolfsein_answer written = {KOLFSEIN_OK, 0, 0, START(10), 0};
    const struct table twice = t_twice();
    attaches(__LINE__, T, EXPANSION, T_EXPANDED);
    attaches(__LINE__, with_range(T, 2, 0, 2, 0), EXPANSION, with_range(T_EXPANDED, 2, 0, 2, 0));
    attaches(__LINE__, T, T, twice);
    attaches(__LINE__, groups(1, 1), ONE_RULE, GROUP_AND_RULE);
    attaches(__LINE__, groups(127, 2), groups(1, 1), groups(128, 2));
    attaches(__LINE__, groups(1, 1), groups(127, 7), groups(128, 8));
    attaches(__LINE__, groups(8, 8), groups(1, 1), deep_first());
    mark();
    kolfsein_answer is = kolfsein_attach(T.bytes, T.len, T.bytes, T.len, lent_bytes, twice.len); /* the same bytes */
    same_answer(__LINE__, is, written);
    holds_bytes(__LINE__, twice.len, twice.len, twice.bytes);
}

/* Rules by a base with the expansion of T. */
static void rules_expanded(struct table base, const struct asked_together *a) {
    struct table t = {{0}, 0};
    t.len = kolfsein_attach(base.bytes, base.len, EXPANSION.bytes, EXPANSION.len, t.bytes, sizeof t.bytes).count;
    rules(t, a);
}

/*
 * The root combines its own children and then the expansion's root, and gives the base's cards and then the
 * expansion's; where its target fails, the expansion is silent too.
 */
static void rulings_by_attached(void) {
    static const struct asked_together of_t[] = {
        {__LINE__, SCOUT, 0, 0, 2, {KOLFSEIN_OK, KOLFSEIN_PERMIT, 0, 1, 1}, {10, 0}},
        {__LINE__, SCOUT, 0, 1, 2, {KOLFSEIN_OK, KOLFSEIN_NOT_APPLICABLE, 0, 0, 1}, {0, 0}},
        {__LINE__, SMUGGLER, 0, 0, 2, {KOLFSEIN_OK, KOLFSEIN_DENY, 0, 2, 1}, {10, 20}},
        {__LINE__, SMUGGLER, 0, 1, 2, {KOLFSEIN_OK, KOLFSEIN_DENY, 0, 1, 1}, {40, 0}},
        {__LINE__, CAPTAIN, 1, 1, 2, {KOLFSEIN_OK, KOLFSEIN_DENY, 0, 2, 1}, {30, 40}},
        {__LINE__, SCOUT | SMUGGLER, 1, 1, 2, {KOLFSEIN_OK, KOLFSEIN_DENY, 0, 1, 2}, {40, 0}},
    };
    static const struct asked_together of_first_applicable = {
        __LINE__, CAPTAIN, 1, 1, 2, {KOLFSEIN_OK, KOLFSEIN_PERMIT, 0, 2, 1}, {30, 40}};
    static const struct asked_together of_only_one = {
        __LINE__, CAPTAIN, 1, 1, 2, {KOLFSEIN_OK, KOLFSEIN_INDETERMINATE, 0, 2, 1}, {30, 40}};
    static const struct asked_together without_smuggler[] = {
        {__LINE__, SMUGGLER, 0, 1, 2, {KOLFSEIN_OK, KOLFSEIN_NOT_APPLICABLE, 0, 0, 1}, {0, 0}},
        {__LINE__, SCOUT | SMUGGLER, 0, 1, 2, {KOLFSEIN_OK, KOLFSEIN_NOT_APPLICABLE, 0, 0, 2}, {0, 0}},
        {__LINE__, CAPTAIN | SMUGGLER, 0, 1, 2, {KOLFSEIN_OK, KOLFSEIN_DENY, 0, 1, 2}, {40, 0}},
    };
    for (size_t i = 0; i < COUNT(of_t); i++) {
        rules_expanded(T, &of_t[i]);
    }
    rules_expanded(with(T, START(0), 0), &of_first_applicable);
    rules_expanded(with(T, START(0), 1), &of_only_one);
    for (size_t i = 0; i < COUNT(without_smuggler); i++) {
        rules_expanded(with(T, START(0) + 6, 1), &without_smuggler[i]);
    }
}

/* A base and an expansion that are refused, whether or not the bytes lent are too few as well. */
static void refuses_to_attach(int line, struct table base, struct table expansion, uint8_t number, size_t place) {
    const kolfsein_answer should = {number, 0, place, 0, 0};
    attaches_into(line, base, expansion, 0, should, NULL);
    attaches_into(line, base, expansion, START(1), should, NULL);
    attaches_into(line, base, expansion, KOLFSEIN_MOST_BYTES, should, NULL);
}

/* Refusals of two tables that are accepted, each alone and before those that come after it. */
static void refusals_to_attach(void) {
    const struct table rule_on_level_8 = with(with(groups(8, 8), START(7), 4), START(7) + 4, 7);
    refuses_to_attach(__LINE__, ONE_RULE, EXPANSION, KOLFSEIN_BASE_IS_RULE, 0);
    refuses_to_attach(__LINE__, with(ONE_RULE, START(0), 5), EXPANSION, KOLFSEIN_BASE_IS_RULE, 0);
    refuses_to_attach(__LINE__, with(ONE_RULE, 3, 3), EXPANSION, KOLFSEIN_BASE_IS_RULE, 0);
    refuses_to_attach(__LINE__, ONE_RULE, groups(128, 8), KOLFSEIN_BASE_IS_RULE, 0);
    for (size_t field = 0; field < 3; field++) {
        const size_t at = 3 + field;
        const uint8_t more = (uint8_t)(T.bytes[at] + 1);
        refuses_to_attach(__LINE__, T, with(EXPANSION, at, more), KOLFSEIN_HEADERS_DIFFER, 0);
        refuses_to_attach(__LINE__, with(T, at, more), EXPANSION, KOLFSEIN_HEADERS_DIFFER, 0);
        refuses_to_attach(__LINE__, T, with(groups(128, 8), at, more), KOLFSEIN_HEADERS_DIFFER, 0);
    }
    refuses_to_attach(__LINE__, groups(128, 2), groups(1, 1), KOLFSEIN_TOO_LARGE, 0);
    refuses_to_attach(__LINE__, groups(1, 1), groups(128, 2), KOLFSEIN_TOO_LARGE, 0);
    refuses_to_attach(__LINE__, groups(128, 2), groups(128, 2), KOLFSEIN_TOO_LARGE, 0);
    refuses_to_attach(__LINE__, groups(1, 1), groups(8, 8), KOLFSEIN_TOO_LARGE, 0);
    refuses_to_attach(__LINE__, groups(1, 1), rule_on_level_8, KOLFSEIN_TOO_LARGE, 0);
    refuses_to_attach(__LINE__, groups(1, 1), deep_first(), KOLFSEIN_TOO_LARGE, 0);
}

/*
 * A table that each call refuses, whether or not the set that is asked has a fault too; those by the profile before
 * they see that a group of T's is mixed. As a base it is refused before an expansion with a fault, and as an expansion
 * before a base that is a rule with another maximum.
 */
static void refuses(int line, struct table t, uint8_t number, size_t place) {
    const kolfsein_answer should = {number, 0, place, 0, 0};
    const struct asked_together sets[] = {
        {line, SMUGGLER, 0, 0, 3, should, {0, 0}},
        {line, 0, 0, 0, 3, should, {0, 0}},
    };
    reads(line, t, should);
    rules(t, &sets[0]);
    rules(t, &sets[1]);
    refuses_by_profile(line, t, number, place);
    builds(line, t, 63, should, NULL);
    refuses_to_attach(line, t, EXPANSION, number, place);
    refuses_to_attach(line, t, with(EXPANSION, 1, 0), number, place);
    refuses_to_attach(line, T, t, number, place);
    refuses_to_attach(line, with(ONE_RULE, 3, 3), t, number, place);
}

/* The refusals of a table and of a diagram. */
static void refusals(void) {
    static const struct asked unsound = {__LINE__, 2, 0, 0, 3, {KOLFSEIN_DIAGRAM, 0, 0, 0, 0}, {0, 0}};
    refuses(__LINE__, with(T, 1, 62), KOLFSEIN_LENGTH, 0);
    refuses(__LINE__, with(T, 2, 2), KOLFSEIN_VERSION, 0);
    refuses(__LINE__, with(T, 7, 6), KOLFSEIN_NODE_COUNT, 0);
    refuses(__LINE__, with(T, START(2), 6), KOLFSEIN_KIND, 2);
    refuses(__LINE__, with(T, START(4) + 2, 2), KOLFSEIN_SPAN, 4);
    refuses(__LINE__, groups(9, 9), KOLFSEIN_LEVEL, 8);
    for (size_t field = 0; field < 3; field++) {
        const uint8_t most = T.bytes[3 + field];
        refuses(__LINE__, with_range(T, 3, field, 0, (uint8_t)(most + 1)), KOLFSEIN_RANGE, 3);
        refuses(__LINE__, with_range(T, 3, field, (uint8_t)(most + 1), 0), KOLFSEIN_RANGE, 3);
        refuses(__LINE__, with_range(T, 3, field, (uint8_t)(most + 1), most), KOLFSEIN_RANGE, 3);
    }
    refuses(__LINE__, with(T, START(1) + 4, 0), KOLFSEIN_CARD, 1);
    looks_up(diagram_with(1, 49), &unsound); /* the root at a node of level 2 */
}

/* Each pointer of each call null, where its length is 0. */
static void null_pointers(void) {
    static const kolfsein_answer no_table = {KOLFSEIN_LENGTH, 0, 0, 0, 0};
    static const kolfsein_answer no_diagram = {KOLFSEIN_DIAGRAM, 0, 0, 0, 0};
    static const kolfsein_answer ruled = {KOLFSEIN_OK, KOLFSEIN_NOT_APPLICABLE, 0, 0, 1};
    static const kolfsein_answer looked_up = {KOLFSEIN_OK, KOLFSEIN_NOT_APPLICABLE, 0, 0, 0};
    kolfsein_answer is = kolfsein_read(NULL, 0);
    same_answer(__LINE__, is, no_table);
    is = kolfsein_read_standard(NULL, 0);
    same_answer(__LINE__, is, no_table);
    mark();
    is = kolfsein_rule(NULL, 0, 1, 0, 0, lent, 3);
    same_answer(__LINE__, is, no_table);
    holds(__LINE__, 3, 0, NULL);
    mark();
    is = kolfsein_rule_standard(NULL, 0, 1, 0, 0, lent, 3);
    same_answer(__LINE__, is, no_table);
    holds(__LINE__, 3, 0, NULL);
    mark();
    is = kolfsein_build(NULL, 0, lent, 63);
    same_answer(__LINE__, is, no_table);
    holds(__LINE__, 63, 0, NULL);
    mark();
    is = kolfsein_attach(NULL, 0, EXPANSION.bytes, EXPANSION.len, lent_bytes, T_EXPANDED.len);
    same_answer(__LINE__, is, no_table);
    holds_bytes(__LINE__, T_EXPANDED.len, 0, NULL);
    mark();
    is = kolfsein_attach(T.bytes, T.len, NULL, 0, lent_bytes, T_EXPANDED.len);
    same_answer(__LINE__, is, no_table);
    holds_bytes(__LINE__, T_EXPANDED.len, 0, NULL);
    mark();
    is = kolfsein_look_up(NULL, 0, 0, 0, 0, lent, 3);
    same_answer(__LINE__, is, no_diagram);
    holds(__LINE__, 3, 0, NULL);
    is = kolfsein_rule(T.bytes, T.len, KOLFSEIN_SUBJECT(2), 0, 1, NULL, 0);
    same_answer(__LINE__, is, ruled);
    is = kolfsein_rule_standard(SORTED.bytes, SORTED.len, KOLFSEIN_SUBJECT(2), 0, 1, NULL, 0);
    same_answer(__LINE__, is, ruled);
    is = kolfsein_build(T.bytes, T.len, NULL, 0);
    same_answer(__LINE__, is, NO_ROOM);
    is = kolfsein_attach(T.bytes, T.len, EXPANSION.bytes, EXPANSION.len, NULL, 0);
    same_answer(__LINE__, is, NO_ROOM);
    is = kolfsein_attach(NULL, 0, NULL, 0, NULL, 0);
    same_answer(__LINE__, is, no_table);
    is = kolfsein_look_up(DIAGRAM, COUNT(DIAGRAM), 2, 0, 1, NULL, 0);
    same_answer(__LINE__, is, looked_up);
}

int main(void) {
    names();
    texts();
    layout();
    cases_of_t();
    root_of_kind(__LINE__, 1, KOLFSEIN_INDETERMINATE);
    root_of_kind(__LINE__, 2, KOLFSEIN_PERMIT);
    by_itself();
    all_bits_of_a_set();
    four_to_one();
    seats_in_a_ring();
    all_round();
    wrapped_over_63();
    same_diagram();
    silent_groups();
    accepted_by_profile();
    wrapped_in_t();
    refusals_by_profile();
    attached();
    rulings_by_attached();
    refusals_to_attach();
    refusals();
    null_pointers();
    printf("%lu checks, %lu failures\n", checks, failures);
    return failures != 0;
}
