// Splitmix numbers; sheets that are valid by the way they are written.
#include "random.h"

#include "policy.h"

#include <stdbool.h>
#include <string.h>

// Numbers are drawn one to a statement, so that every compiler makes the same sheets.
uint64_t random_next(random_source *r)
{
    uint64_t x = r->state += 0x9E3779B97F4A7C15u;
    x = (x ^ x >> 30) * 0xBF58476D1CE4E5B9u;
    x = (x ^ x >> 27) * 0x94D049BB133111EBu;
    return x ^ x >> 31;
}

unsigned random_below(random_source *r, unsigned n)
{
    return (unsigned)((random_next(r) >> 32) * n >> 32);
}

uint64_t random_mask(random_source *r, unsigned bits, unsigned one_in)
{
    uint64_t mask = 0;
    for (unsigned k = 0; k < bits; k++)
        if (random_below(r, one_in) == 0) mask |= (uint64_t)1 << k;
    return mask;
}

typedef struct { uint8_t *bytes; size_t length; } writer;

static void put1(writer *w, unsigned a)
{
    w->bytes[w->length++] = (uint8_t)a;
}

static void put2(writer *w, unsigned a, unsigned b)
{
    put1(w, a);
    put1(w, b);
}

static void put3(writer *w, unsigned a, unsigned b, unsigned c)
{
    put2(w, a, b);
    put1(w, c);
}

// A link of two labels, in either order.
static void put_link(random_source *r, writer *w, unsigned i, unsigned j)
{
    unsigned code = 0x41 + random_below(r, 3);
    bool is_exchanged = random_below(r, 2);
    put3(w, code, is_exchanged ? j : i, is_exchanged ? i : j);
}

// ---- parts joined and linked anyhow

// Labels that atoms and rules of a part have.
typedef struct { unsigned atoms, rules; } part;

static unsigned random_label(random_source *r, unsigned set, unsigned labels)
{
    unsigned start = random_below(r, labels);
    for (unsigned k = 0; k < labels; k++)
        if (set >> (start + k) % labels & 1) return (start + k) % labels;
    return start;
}

static unsigned moved(unsigned set, unsigned i, unsigned j)
{
    return set >> i & 1 ? (set & ~(1u << i)) | 1u << j : set;
}

// A link of a label of atoms with a label of rules, or a move. labels is at least 2.
static void put_map(random_source *r, writer *w, part *p, unsigned labels)
{
    bool is_move = random_below(r, 4) == 0;
    unsigned i = random_label(r, is_move ? p->atoms | p->rules : p->atoms, labels);
    unsigned j = random_label(r, p->rules, labels);
    if (i == j) j = (i + 1 + random_below(r, labels - 1)) % labels;
    if (!is_move) {
        put_link(r, w, i, j);
        return;
    }
    put3(w, 0x31, i, j);
    p->atoms = moved(p->atoms, i, j);
    p->rules = moved(p->rules, i, j);
}

static part put_leaf(random_source *r, writer *w, unsigned *atoms, unsigned *rules, unsigned labels)
{
    unsigned label = random_below(r, labels);
    bool is_atom = random_below(r, *atoms + *rules) < *atoms;
    put2(w, is_atom ? 0x11 : 0x12, label);
    if (is_atom) --*atoms;
    else --*rules;
    return is_atom ? (part){1u << label, 0} : (part){0, 1u << label};
}

static void put_join(writer *w, part *parts, unsigned *depth)
{
    put1(w, 0x21);
    --*depth;
    parts[*depth - 1].atoms |= parts[*depth].atoms;
    parts[*depth - 1].rules |= parts[*depth].rules;
}

size_t random_parts(random_source *r, uint8_t *sheet, unsigned atoms, unsigned rules, unsigned labels)
{
    writer w = {sheet, 0};
    part parts[8];
    unsigned depth = 0;
    while (atoms + rules > 0 || depth > 1) {
        unsigned choice = random_below(r, 8);
        if (atoms + rules > 0 && depth < 8 && (depth == 0 || choice < 3)) parts[depth++] = put_leaf(r, &w, &atoms, &rules, labels);
        else if (depth > 1 && choice < 6) put_join(&w, parts, &depth);
        else if (w.length < 3000) put_map(r, &w, &parts[depth - 1], labels);
    }
    for (unsigned k = random_below(r, 5); k > 0; k--) put_map(r, &w, &parts[0], labels);
    return w.length;
}

// ---- rule by rule: copies in groups below `labels`, the rule in hand in the last group but one, those done in the last

enum { HAND = POLICY_GROUPS - 2, DONE = POLICY_GROUPS - 1 };

size_t random_policy(random_source *r, uint8_t *sheet, unsigned atoms, unsigned rules, unsigned labels)
{
    writer w = {sheet, 0};
    for (unsigned a = 0; a < atoms; a++) {
        put2(&w, 0x11, a % labels);
        if (a > 0) put1(&w, 0x21);
    }
    for (unsigned k = 0; k < rules; k++) {
        put2(&w, 0x12, HAND);
        if (atoms > 0 || k > 0) put1(&w, 0x21);
        for (unsigned links = random_below(r, 5); links > 0; links--) {
            unsigned code = 0x41 + random_below(r, 3);
            put3(&w, code, random_below(r, labels), HAND);
        }
        put3(&w, 0x31, HAND, DONE);
    }
    return w.length;
}

// ---- groups of both: what is in hand, a copy or a rule or one of each, is linked with groups below `labels` and moves to one of them

// A copy and a rule are linked with each other, or not.
static void put_hand(random_source *r, writer *w, bool has_atom, bool has_rule)
{
    if (has_atom) put2(w, 0x11, HAND);
    if (has_rule) put2(w, 0x12, has_atom ? DONE : HAND);
    if (!has_atom || !has_rule) return;
    put1(w, 0x21);
    if (random_below(r, 2)) put_link(r, w, HAND, DONE);
    put3(w, 0x31, DONE, HAND);
}

static void put_links_of_hand(random_source *r, writer *w, unsigned labels)
{
    for (unsigned links = random_below(r, 4); links > 0; links--) {
        unsigned label = random_below(r, labels);
        put_link(r, w, HAND, label);
    }
}

static void put_link_of_groups(random_source *r, writer *w, unsigned labels)
{
    unsigned i = random_below(r, labels);
    unsigned j = (i + 1 + random_below(r, labels - 1)) % labels;
    put_link(r, w, i, j);
}

size_t random_mixed(random_source *r, uint8_t *sheet, unsigned atoms, unsigned rules, unsigned labels)
{
    writer w = {sheet, 0};
    while (atoms + rules > 0) {
        unsigned drawn = random_below(r, atoms + rules);
        bool is_first = w.length == 0, is_both = random_below(r, 2);
        bool has_atom = drawn < atoms || (is_both && atoms > 0), has_rule = drawn >= atoms || (is_both && rules > 0);
        put_hand(r, &w, has_atom, has_rule);
        atoms -= has_atom;
        rules -= has_rule;
        if (!is_first) put1(&w, 0x21);
        put_links_of_hand(r, &w, labels);
        put3(&w, 0x31, HAND, random_below(r, labels));
        if (random_below(r, 2)) put_link_of_groups(r, &w, labels);
    }
    return w.length;
}

size_t random_sound(random_source *r, uint8_t *sheet, unsigned atoms, unsigned rules)
{
    unsigned shape = random_below(r, 3);
    if (shape == 0) return random_parts(r, sheet, atoms, rules, 2 + random_below(r, POLICY_GROUPS - 1));
    if (shape == 1) return random_policy(r, sheet, atoms, rules, 1 + random_below(r, POLICY_GROUPS - 2));
    return random_mixed(r, sheet, atoms, rules, 2 + random_below(r, 4));
}

// ---- granted copies

void random_grants(random_source *r, uint8_t *sheet, size_t sheet_len)
{
    for (size_t at = 0; at < sheet_len; at = policy_command_at(sheet, at).next)
        if (sheet[at] == 0x11 && random_below(r, 2)) sheet[at] = 0x13;
}

// ---- names

enum { NAMED = 1 + POLICY_NAME };

static size_t add_bytes(uint8_t *sheet, size_t sheet_len, size_t at, const uint8_t *bytes, size_t n)
{
    memmove(sheet + at + n, sheet + at, sheet_len - at);
    memcpy(sheet + at, bytes, n);
    return sheet_len + n;
}

static const uint8_t codes[] = {0x11, 0x12, 0x13, 0x21, 0x31, 0x41, 0x42, 0x43, 0x51};

// Of text, of command bytes, of 0 and 255, or of anything.
static void random_name(random_source *r, uint8_t *name)
{
    unsigned kind = random_below(r, 4);
    for (unsigned k = 0; k < POLICY_NAME; k++)
        switch (kind) {
        case 0: name[k] = (uint8_t)(' ' + random_below(r, 95)); break;
        case 1: name[k] = codes[random_below(r, sizeof codes)]; break;
        case 2: name[k] = random_below(r, 2) ? 255 : 0; break;
        default: name[k] = (uint8_t)random_next(r);
        }
}

static size_t add_name(random_source *r, uint8_t *sheet, size_t sheet_len, size_t at)
{
    uint8_t bytes[NAMED] = {0x51};
    random_name(r, bytes + 1);
    return add_bytes(sheet, sheet_len, at, bytes, NAMED);
}

size_t random_names(random_source *r, uint8_t *sheet, size_t sheet_len)
{
    for (size_t at = 0; at < sheet_len;) {
        at = policy_command_at(sheet, at).next;
        if (sheet_len + NAMED <= 4096 && random_below(r, 4) == 0) sheet_len = add_name(r, sheet, sheet_len, at);
    }
    return sheet_len;
}

// ---- damage

static size_t drop_bytes(uint8_t *sheet, size_t sheet_len, size_t at, size_t n)
{
    if (n > sheet_len - at) n = sheet_len - at;
    memmove(sheet + at, sheet + at + n, sheet_len - at - n);
    return sheet_len - n;
}

// A command or a run of leaves, somewhere.
static size_t add_command(random_source *r, uint8_t *sheet, size_t sheet_len, size_t at)
{
    uint8_t bytes[3];
    bytes[0] = codes[random_below(r, sizeof codes)];
    bytes[1] = (uint8_t)random_below(r, POLICY_GROUPS);
    bytes[2] = (uint8_t)random_below(r, POLICY_GROUPS);
    if (bytes[0] == 0x51) return add_name(r, sheet, sheet_len, at);
    unsigned times = bytes[0] < 0x21 && random_below(r, 2) ? 9 : 1;
    for (; times > 0; times--) sheet_len = add_bytes(sheet, sheet_len, at, bytes, policy_command_at(bytes, 0).next);
    return sheet_len;
}

static uint8_t random_byte(random_source *r)
{
    static const uint8_t usual[] = {0x11, 0x12, 0x13, 0x21, 0x31, 0x41, 0x42, 0x43, 0x51, 0x52, 0, 1, 2, POLICY_GROUPS - 1, POLICY_GROUPS, 255};
    return random_below(r, 3) == 0 ? (uint8_t)random_next(r) : usual[random_below(r, sizeof usual)];
}

size_t random_damage(random_source *r, uint8_t *sheet, size_t sheet_len)
{
    for (unsigned times = 1 + random_below(r, 3); times > 0; times--) {
        size_t at = random_below(r, (unsigned)sheet_len + 1);
        uint8_t some[3];
        for (unsigned k = 0; k < 3; k++) some[k] = random_byte(r);
        switch (random_below(r, 6)) {
        case 0: sheet_len = drop_bytes(sheet, sheet_len, at, 1 + random_below(r, 3)); break;
        case 1: sheet_len = add_bytes(sheet, sheet_len, at, some, 1 + random_below(r, 3)); break;
        case 2: sheet_len = at; break;
        case 3: sheet_len = add_command(r, sheet, sheet_len, at); break;
        default: if (at < sheet_len) sheet[at] = some[0];
        }
    }
    return sheet_len;
}
