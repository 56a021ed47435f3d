/*
 * Kolfsein, a verified policy engine: reading a table of rules, ruling by its groups on one subject or on several that
 * ask together, both also by the convention profile, whose tables are XACML 2.0 as printed, attaching an expansion,
 * which is a table too, building a table's decision diagram, and ruling by a diagram.
 * For C99 and C++. Link libkolfsein.a, which itself needs only C's memcpy and memset. The repository's docs/FORMAT.md
 * describes the formats.
 *
 * Which call when:
 * - kolfsein_rule where the table is at hand, for one subject or for several that ask together. It reads the table
 *   itself, and needs no kolfsein_read before it.
 * - kolfsein_read to see whether a table is accepted, and which node is at fault where it is not.
 * - kolfsein_rule_standard and kolfsein_read_standard in place of these two where a table is to be XACML 2.0 as
 *   printed: they refuse what this library allows beyond it, and on all other tables they answer as those two do.
 * - kolfsein_attach to fit an expansion to a base table: it writes one table, which rules by both. It reads the two
 *   tables itself, and needs no kolfsein_read before it.
 * - kolfsein_build to see whether two tables rule alike on every subject alone, or to hand on these rulings in place of
 *   the table.
 * - kolfsein_look_up where a diagram is at hand and no table, for one subject. Each call checks the whole diagram, so
 *   it takes longer than kolfsein_rule unless the diagram is small for its table; docs/PERFORMANCE.md has the figures.
 *
 * Every call takes any bytes, any numbers and any values and ends. It allocates nothing, keeps nothing between calls,
 * and reads and writes only what it is lent. Calls share no state, so any number of threads may call at once, as long
 * as meanwhile no other thread writes what a call is lent, nor reads what it is lent to write. The caller sees to this:
 * - a pointer is valid for its length: base_len and expansion_len bytes to read, table_len bytes to read, and for
 *   kolfsein_attach to read and write, diagram_len numbers to read, and for kolfsein_build to read and write, cards_len
 *   numbers to read and write;
 * - where a length is 0 nothing is read or written there, and the pointer may be null;
 * - the list of cards overlaps neither the table nor the diagram, a diagram to be built does not overlap the table, and
 *   a table to be written overlaps neither the base nor the expansion. The base and the expansion may overlap, or be
 *   the same.
 */
#ifndef KOLFSEIN_H
#define KOLFSEIN_H

#include <stddef.h>
#include <stdint.h>

#ifdef __cplusplus
extern "C" {
#endif

/*
 * The interface's number, which moves whenever a struct or a signature changes. The library has it in the name of a
 * function, which hands it back and which whatever includes this header refers to: with a library of another interface
 * it does not link.
 */
#ifdef KOLFSEIN_INTERFACE
#error "KOLFSEIN_INTERFACE is defined by kolfsein.h alone"
#endif
#define KOLFSEIN_INTERFACE 1

#define KOLFSEIN_JOIN_(name, number) name##number
#define KOLFSEIN_JOIN(name, number) KOLFSEIN_JOIN_(name, number)
#define KOLFSEIN_NAME KOLFSEIN_JOIN(kolfsein_interface_, KOLFSEIN_INTERFACE)
uint8_t KOLFSEIN_NAME(void);

/* The reference to it. Compiler and linker may leave out what is not used, and are told not to where they can be. */
#if defined(_MSC_VER)
#define KOLFSEIN_QUOTE_(name) #name
#define KOLFSEIN_QUOTE(name) KOLFSEIN_QUOTE_(name)
#pragma comment(linker, "/include:" KOLFSEIN_QUOTE(KOLFSEIN_NAME))
#undef KOLFSEIN_QUOTE
#undef KOLFSEIN_QUOTE_
#elif defined(__GNUC__)
#if defined(__ELF__) && defined(__has_attribute)
#if __has_attribute(retain)
__attribute__((retain))
#endif
#endif
__attribute__((used)) static uint8_t (*const kolfsein_interface_reference)(void) = KOLFSEIN_NAME;
#endif
#undef KOLFSEIN_NAME
#undef KOLFSEIN_JOIN
#undef KOLFSEIN_JOIN_

/*
 * kolfsein_answer.decision. KOLFSEIN_INDETERMINATE is never given by a table whose root is of kind 3, deny overrides, nor
 * by a diagram built from one.
 */
enum {
    KOLFSEIN_NOT_APPLICABLE = 0,
    KOLFSEIN_PERMIT = 1,
    KOLFSEIN_DENY = 2,
    KOLFSEIN_INDETERMINATE = 3
};

/* kolfsein_answer.number: 0, or what is refused. A table's nodes are numbered from 0, the root. */
enum {
    KOLFSEIN_OK = 0,                /* nothing is refused; place 0 */
    KOLFSEIN_LENGTH = 1,            /* under 8 bytes, or the length isn't bytes 0-1 plus 2; place 0 */
    KOLFSEIN_VERSION = 2,           /* the version isn't 1; place 0 */
    KOLFSEIN_NODE_COUNT = 3,        /* 0 or over 128 nodes, or the length isn't 8 + 11 x nodes; place 0 */
    KOLFSEIN_KIND = 4,              /* a kind over 5; place: the node */
    KOLFSEIN_SPAN = 5,              /* a span of 0, of a rule not 1, of the root not the number of nodes,
                                       or past its parent's end; place: the node */
    KOLFSEIN_LEVEL = 6,             /* level 9 or deeper; place: the node */
    KOLFSEIN_RANGE = 7,             /* a low or a high over the maximum; place: the node */
    KOLFSEIN_CARD = 8,              /* a rule with card 0, or a group with another card; place: the node */
    KOLFSEIN_VALUE = 9,             /* a value over its field's maximum; place: the first such field,
                                       0 subject (of kolfsein_look_up only), 1 resource, 2 action */
    KOLFSEIN_LIST_TOO_SHORT = 10,   /* the list is shorter than the cards; place 0 */
    KOLFSEIN_ROOM = 11,             /* the built diagram needs over 32,768 places or more than lent, or the
                                       attached table more bytes than lent; place 0 */
    KOLFSEIN_DIAGRAM = 12,          /* the diagram isn't sound; place 0 */
    KOLFSEIN_SUBJECTS = 13,         /* the set of subjects is empty, or has one over the subjects' maximum; place 0 */
    KOLFSEIN_MIXED_GROUP = 14,      /* by the profile: a group holds rules and groups;
                                       place: the lowest such group's node */
    KOLFSEIN_RULE_IN_ONLY_ONE = 15, /* by the profile: an only-one-applicable group holds a rule;
                                       place: the lowest such group's node */
    KOLFSEIN_RULE_AS_ROOT = 16,     /* by the profile: the root is a rule; place 0 */
    KOLFSEIN_BASE_IS_RULE = 17,     /* the base's root is a rule, so that nothing can be attached to it; place 0 */
    KOLFSEIN_HEADERS_DIFFER = 18,   /* the base and the expansion differ in the version or in a maximum; place 0 */
    KOLFSEIN_TOO_LARGE = 19         /* the attached table would have over 128 nodes, or, by an expansion with eight
                                       levels, a ninth; place 0 */
};

/* What a number of kolfsein_answer means, in short; for one that is not above, "unknown refusal". */
static inline const char *kolfsein_text(uint8_t number) {
    static const char *const texts[] = {
        "nothing is refused",
        "under 8 bytes, or not as many as the first two say",
        "the version is not 1",
        "no nodes or over 128, or not as many bytes as they take",
        "a kind over 5",
        "a span of 0, of a rule not 1, of the root not the number of nodes, or past its parent's end",
        "level 9 or deeper",
        "a low or a high over the field's maximum",
        "a rule with card 0, or a group with another card",
        "a value over its field's maximum",
        "the list is shorter than the cards",
        "the diagram needs over 32,768 places or more than lent, or the table more bytes than lent",
        "the diagram is not sound",
        "the set of subjects is empty, or has one over the maximum",
        "a group holds rules and groups",
        "an only-one-applicable group holds a rule",
        "the root is a rule",
        "the root of the base is a rule",
        "the versions or the maxima differ",
        "the table of both would have over 128 nodes or a ninth level",
    };
    return number < sizeof texts / sizeof texts[0] ? texts[number] : "unknown refusal";
}

/* No ruling has more cards than this: a list of so many places is never too short. */
enum { KOLFSEIN_MOST_CARDS = 127 };

/* No sound diagram uses more places than this: so many to build in are too few only where all would be. */
enum { KOLFSEIN_MOST_PLACES = 32768 };

/* No table has more bytes than this: so many lent to attach in are never too few. */
enum { KOLFSEIN_MOST_BYTES = 1416 };

/* The set of subject k alone, for k from 0 to 63. The set of several: KOLFSEIN_SUBJECT(0) | KOLFSEIN_SUBJECT(2). */
#define KOLFSEIN_SUBJECT(k) ((uint64_t)1 << (k))

/*
 * What a call hands back. In a refusal the decision and the count are 0. The subjects are how many members the set has
 * that kolfsein_rule or kolfsein_rule_standard ruled on, and 0 in every other answer.
 */
typedef struct kolfsein_answer {
    uint8_t number;
    uint8_t decision;
    size_t place;
    size_t count;
    size_t subjects;
} kolfsein_answer;

/*
 * Reads a table. Where it is accepted: number 0, place 0, decision 0, and as count its number of nodes.
 * Otherwise the first refusal in this order: 1, 2, 3; then 4 to 8, nodes upward, lowest number first within a node.
 */
kolfsein_answer kolfsein_read(const uint8_t *table, size_t table_len);

/*
 * Rules by a table's groups on a set of subjects that ask together, one resource and one action: number 0, place 0,
 * the decision, as count the number of matching rules, and as subjects how many members the set has. The list then
 * holds the cards of all matching rules in table order, once for each rule, and 0 in every place after them.
 * Otherwise the first refusal in this order: those of kolfsein_read, then 13, then 9 (place 1 or 2), then 10. The list
 * is then all 0.
 * Bit k of the set stands for subject k: KOLFSEIN_SUBJECT(2), or (uint64_t)1 << 2, asks for subject 2 alone, and
 * KOLFSEIN_SUBJECT(0) | KOLFSEIN_SUBJECT(2) for subjects 0 and 2 together. A subject over 63 is in no set: where a
 * table's maximum is greater, only its diagram can be asked about those, one at a time.
 * A node applies to the set exactly where at least one member by itself meets its target and every target above it; a
 * rule that applies matches, and groups combine what their children give. So a set of one subject is ruled as that
 * subject, while the ruling on several does not follow from those on each. An only-one-applicable group goes by how
 * many of its children apply, groups in which no rule matches among them, so that a ruling without a card need not be
 * KOLFSEIN_NOT_APPLICABLE.
 */
kolfsein_answer kolfsein_rule(const uint8_t *table, size_t table_len,
                              uint64_t subjects, uint16_t resource, uint16_t action,
                              uint16_t *cards, size_t cards_len);

/*
 * Reads a table by the convention profile, which accepts those that are XACML 2.0 as printed: the root is a group,
 * every group holds rules alone, groups alone or nothing, and an only-one-applicable group holds no rule. What a group
 * holds are its children, and not the nodes further down.
 * Where the table is accepted, the answer is that of kolfsein_read, which accepts it too. Otherwise the first refusal
 * in this order: those of kolfsein_read, then 14, then 15, then 16. Each is looked for in all nodes before the next, so
 * that the place of 14 may be a later node than that of a 15 in the same table.
 */
kolfsein_answer kolfsein_read_standard(const uint8_t *table, size_t table_len);

/*
 * Rules by the convention profile: wherever kolfsein_read_standard accepts the table, the answer and the list are those
 * of kolfsein_rule. There every group of rules combines by the rule-combining algorithm of its kind in XACML 2.0,
 * appendix C, and every group of groups by the policy-combining one.
 * Otherwise the first refusal in this order: those of kolfsein_read_standard, then 13, then 9 (place 1 or 2), then 10.
 * The list is then all 0.
 */
kolfsein_answer kolfsein_rule_standard(const uint8_t *table, size_t table_len,
                                       uint64_t subjects, uint16_t resource, uint16_t action,
                                       uint16_t *cards, size_t cards_len);

/*
 * Attaches an expansion to a base: number 0, place 0, decision 0, and as count the number of bytes written. These are
 * one table, the base's bytes and then the expansion's records, with the length, the number of nodes and the root's
 * span of both together, so that the expansion's root is the last child of the base's root. Every byte lent after them
 * is 0.
 * Otherwise the first refusal in this order: those of kolfsein_read on the base, those on the expansion, then 17, 18,
 * 19, 11. What is lent is then all 0. 1 to 8 may be of either table, the base first: kolfsein_read tells which.
 * By the table that is written the root combines its own children and then the expansion's root. The cards of a ruling
 * are the base's, and then the expansion's for the subjects that meet the target of the base's root.
 */
kolfsein_answer kolfsein_attach(const uint8_t *base, size_t base_len,
                                const uint8_t *expansion, size_t expansion_len,
                                uint8_t *table, size_t table_len);

/*
 * Builds the decision diagram of a table into the places lent: number 0, place 0, decision 0, and as count the number
 * of places used. The places then hold the diagram, and 0 after it. It rules as the table's groups do on every request
 * of one subject within the table's maxima. Two tables' diagrams are equal, number for number in the places used,
 * exactly when the tables have the same maxima and rule alike on all these requests, cards included. The tables may
 * still rule differently on several subjects together.
 * Otherwise the first refusal in this order: those of kolfsein_read, then 11. The places are then all 0.
 * What leaves the same nodes possible is walked once, so the time does not follow the size of the fields. A call takes
 * some 67 KB of stack.
 */
kolfsein_answer kolfsein_build(const uint8_t *table, size_t table_len, uint16_t *diagram, size_t diagram_len);

/*
 * Rules by a diagram on a request, which is one subject, one resource and one action: number 0, place 0, the decision,
 * and as count the number of cards, both of the terminal that the request reaches. The list then holds the terminal's
 * cards, and 0 in every place after them.
 * Otherwise the first refusal in this order: 12, 9, 10. The list is then all 0.
 * A diagram may come from anyone: each call sees whether it is sound, in one pass over the places that it uses. What
 * stands after those makes no difference. A call takes some 35 KB of stack.
 */
kolfsein_answer kolfsein_look_up(const uint16_t *diagram, size_t diagram_len,
                                 uint16_t subject, uint16_t resource, uint16_t action,
                                 uint16_t *cards, size_t cards_len);

#ifdef __cplusplus
}
#endif

#endif
