// Sheets by family: each policy is written copy by copy, with the copies that later rules still name in groups of their own.
#include "families.h"
#include "policy.h"

#include <stdio.h>
#include <stdlib.h>

// Groups below REST hold copies that rules still name; then all other copies, the rule in hand, and rules that are done.
enum { REST = 5, HAND = 6, DONE = 7 };

enum { HEAD = 0x41, NEEDED = 0x42, BARRING = 0x43 };

// ---- writing a sheet

static void put(instance *x, unsigned byte)
{
    if (x->sheet_len == sizeof x->sheet) {
        fprintf(stderr, "families: %s is too long\n", x->family);
        exit(2);
    }
    x->sheet[x->sheet_len++] = (uint8_t)byte;
}

static void leaf(instance *x, unsigned code, unsigned group)
{
    put(x, code);
    put(x, group);
}

static void join(instance *x)
{
    put(x, 0x21);
}

static void add_leaf(instance *x, unsigned code, unsigned group)
{
    leaf(x, code, group);
    if (x->sheet_len > 2) join(x);
}

static void copy(instance *x, unsigned group)
{
    add_leaf(x, 0x11, group);
}

static void put_link(instance *x, unsigned code, unsigned i, unsigned j)
{
    put(x, code);
    put(x, i);
    put(x, j);
}

static void move(instance *x, unsigned i, unsigned j)
{
    put_link(x, 0x31, i, j);
}

typedef struct { unsigned code, group; } link;

// A rule with so many links, which moves then.
static void rule_to(instance *x, unsigned group, unsigned links, const link *l)
{
    add_leaf(x, 0x12, HAND);
    for (unsigned k = 0; k < links; k++) put_link(x, l[k].code, l[k].group, HAND);
    move(x, HAND, group);
}

static void rule(instance *x, unsigned links, const link *l)
{
    rule_to(x, DONE, links, l);
}

#define RULE(x, ...) rule(x, sizeof((link[]){__VA_ARGS__}) / sizeof(link), (link[]){__VA_ARGS__})

static instance *begin(instance **next, const char *family, uint64_t plan_limit, uint64_t subset_limit)
{
    instance *x = (*next)++;
    *x = (instance){family, {0}, 0, plan_limit, subset_limit, 0, 0};
    return x;
}

// ---- random numbers with a fixed start

static uint64_t random_state;

static unsigned random_below(unsigned n)
{
    uint64_t x = random_state += 0x9E3779B97F4A7C15u;
    x = (x ^ x >> 30) * 0xBF58476D1CE4E5B9u;
    x = (x ^ x >> 27) * 0x94D049BB133111EBu;
    return (unsigned)(((x ^ x >> 31) >> 32) * n >> 32);
}

static link random_link(unsigned groups, unsigned codes)
{
    unsigned code = HEAD + random_below(codes);
    return (link){code, random_below(groups)};
}

// A head, and one or two more links among so many groups; with two codes no link is barring, and some plan is grounded.
static void random_rule(instance *x, unsigned groups, unsigned codes)
{
    link first = {HEAD, random_below(groups)}, second = random_link(groups, codes), third = random_link(groups, codes);
    rule(x, 2 + (random_below(4) == 0), (link[]){first, second, third});
}

// ---- chains: 63 copies and 256 rules; a rule names copies among the last few

typedef void rule_writer(instance *, unsigned groups, unsigned codes);

static void chain_of(instance *x, rule_writer *write, unsigned kept, unsigned codes, uint64_t seed)
{
    random_state = seed;
    unsigned rules = 0;
    for (unsigned c = 0; c < 63; c++) {
        if (c >= kept) move(x, c % kept, REST);
        copy(x, c % kept);
        for (; c + 1 >= kept && rules < (c + 1) * 256 / 63; rules++) write(x, kept, codes);
    }
}

static void chain(instance **next, const char *family, unsigned kept, unsigned codes, uint64_t seed)
{
    chain_of(begin(next, family, 64, 32), random_rule, kept, codes, seed);
}

// ---- circles: each copy needs the next one, or is kept unless the next one is

static void circle(instance **next, const char *family, unsigned copies, unsigned code, uint64_t pins_in)
{
    instance *x = begin(next, family, 64, 64);
    x->pins_in = pins_in;
    copy(x, 0);
    copy(x, 1);
    RULE(x, {HEAD, 0}, {code, 1});
    for (unsigned c = 2; c < copies; c++) {
        copy(x, 2);
        RULE(x, {HEAD, 1}, {code, 2});
        move(x, 1, REST);
        move(x, 2, 1);
    }
    RULE(x, {HEAD, 1}, {code, 0});
}

// ---- names: the sheet of another family with a name behind every copy, or every copy and rule

static void put_name(instance *x, const char *name)
{
    put(x, 0x51);
    for (unsigned k = 0; k < 16; k++) put(x, (unsigned char)name[k]);
}

static void named(instance **next, const char *family, const instance *from, unsigned last_code)
{
    instance *x = begin(next, family, from->plan_limit, from->subset_limit);
    x->pins_in = from->pins_in;
    x->pins_out = from->pins_out;
    for (size_t at = 0; at < from->sheet_len;) {
        policy_command c = policy_command_at(from->sheet, at);
        for (; at < c.next; at++) put(x, from->sheet[at]);
        if (c.code <= last_code) put_name(x, "folder, in place");
    }
}

// ---- granted copies: the sheet of another family with every second copy granted

static void granted(instance **next, const char *family, const instance *from)
{
    instance *x = (*next)++;
    *x = *from;
    x->family = family;
    policy_grant_half(x->sheet, x->sheet_len, 0);
}

// ---- saturation: the reduction of a quantified formula, over 30 pairs of copies and one copy w

enum { W = 0, Y = 1, Z = 2, Y_BEFORE = 3, Z_BEFORE = 4 };

static void universal_pair(instance *x)
{
    copy(x, Y);
    copy(x, Z);
    RULE(x, {HEAD, Y}, {HEAD, Z});
    RULE(x, {HEAD, Y}, {NEEDED, W});
    RULE(x, {HEAD, Z}, {NEEDED, W});
    RULE(x, {HEAD, W}, {NEEDED, Y}, {NEEDED, Z});
}

static void existential_pair(instance *x)
{
    copy(x, Y);
    copy(x, Z);
    RULE(x, {HEAD, Y}, {HEAD, Z});
}

// The pair in hand becomes the one before.
static void next_pair(instance *x)
{
    move(x, Y_BEFORE, REST);
    move(x, Z_BEFORE, REST);
    move(x, Y, Y_BEFORE);
    move(x, Z, Z_BEFORE);
}

// Terms that hang together: w follows where y falls somewhere, or never holds, or always does. Not valid without the last one.
static void saturation(instance **next, const char *family, unsigned existential, unsigned is_valid)
{
    instance *x = begin(next, family, 256, 128);
    copy(x, W);
    for (unsigned k = 0; k < 30; k++) {
        if (k > 0) next_pair(x);
        if (k < existential) existential_pair(x);
        else universal_pair(x);
        if (k == 0) RULE(x, {HEAD, W}, {NEEDED, Z});
        else RULE(x, {HEAD, W}, {NEEDED, Y_BEFORE}, {NEEDED, Z});
    }
    if (is_valid) RULE(x, {HEAD, W}, {NEEDED, Y});
    RULE(x, {BARRING, W});
}

// Terms apart, and one over all pairs: w follows from any y, or from every z. Not valid without the last y.
static void wide_saturation(instance **next, const char *family, unsigned is_valid)
{
    enum { EVERY_Z = 3 };
    instance *x = begin(next, family, 256, 128);
    copy(x, W);
    add_leaf(x, 0x12, EVERY_Z);
    put_link(x, HEAD, W, EVERY_Z);
    for (unsigned k = 0; k < 30; k++) {
        universal_pair(x);
        put_link(x, NEEDED, Z, EVERY_Z);
        if (is_valid || k < 29) RULE(x, {HEAD, W}, {NEEDED, Y});
        move(x, Y, REST);
        move(x, Z, REST);
    }
    RULE(x, {BARRING, W});
}

// ---- random policies: rules over four groups that copies come to in turn

static void random_policy(instance **next, const char *family, unsigned copies, uint64_t seed)
{
    instance *x = begin(next, family, 256, 64);
    random_state = seed;
    for (unsigned c = 0; c < copies; c++) {
        if (c >= 4) move(x, c % 4, REST);
        copy(x, c % 4);
        for (unsigned k = random_below(4); c >= 3 && k > 0; k--) random_rule(x, 4, 3);
    }
}

// ---- both ways: groups that hold copies and rules, so that a link of two of them puts copies of either into rules of the other

static void link_with_other(instance *x, unsigned code, unsigned group, unsigned groups)
{
    put_link(x, code, group, (group + 1 + random_below(groups - 1)) % groups);
}

// A rule in one of the groups, then a head link of this group with another, and one or two more.
static void rule_among_copies(instance *x, unsigned groups, unsigned codes)
{
    unsigned group = random_below(groups);
    add_leaf(x, 0x12, group);
    link_with_other(x, HEAD, group, groups);
    for (unsigned k = 1 + random_below(2); k > 0; k--) link_with_other(x, HEAD + random_below(codes), group, groups);
}

// A chain whose rules stand in the groups of the copies kept, and move with them.
static void both_ways(instance **next, const char *family, unsigned kept, unsigned codes, uint64_t seed)
{
    chain_of(begin(next, family, 256, 64), rule_among_copies, kept, codes, seed);
}

// ---- balanced joins: two halves that share groups

static void half(instance *x, unsigned groups, unsigned each)
{
    for (unsigned k = 0; k < groups * each; k++) {
        leaf(x, 0x11, k % groups);
        if (k > 0) join(x);
    }
}

// Then one rule: a copy of group 0, unless one of group 1.
static void balanced(instance **next, const char *family, unsigned left, unsigned right, unsigned each)
{
    instance *x = begin(next, family, 1024, 1024);
    half(x, left, each);
    half(x, right, each);
    join(x);
    add_leaf(x, 0x12, DONE);
    put_link(x, HEAD, 0, DONE);
    put_link(x, BARRING, 1, DONE);
}

// ---- moves: a long table whose groups move, one after the other, to the one that is free, so that they stay apart and it stays long

static void moves(instance **next, const char *family, unsigned groups, unsigned count, uint64_t seed)
{
    unsigned pairs = 1u << (groups - 1), vacant = groups - 1;
    instance *x = begin(next, family, pairs, pairs);
    random_state = seed;
    half(x, groups - 1, 1);
    for (; count > 0; count--) {
        unsigned from = (vacant + 1 + random_below(groups - 1)) % groups;
        move(x, from, vacant);
        vacant = from;
    }
}

// A long table under rules that move to one group and another in turn.
static void rule_moves(instance **next, const char *family, unsigned rules, uint64_t seed)
{
    instance *x = begin(next, family, 256, 256);
    random_state = seed;
    half(x, REST, 2);
    for (unsigned k = 0; k < rules; k++) {
        link first = random_link(REST, 3), second = random_link(REST, 3), third = random_link(REST, 3);
        rule_to(x, k % 2 ? REST : DONE, 3, (link[]){first, second, third});
    }
}

// ---- heavy joins: blocks over the same groups, so that each join meets as many pairs, with as many subsets, as the one before

// Eight of the ten groups: with them a block's tables come near the limits.
enum { BLOCK_GROUPS = 8, GATHERED = BLOCK_GROUPS - 1, BLOCKS = 3 };

// A copy with a rule of its own in the group given, which stays there; the copy is gathered with the others.
static void copy_with_rule(instance *x, unsigned code, unsigned group)
{
    unsigned hand = group > 0 ? group - 1 : 1;
    leaf(x, 0x11, hand);
    leaf(x, 0x12, group);
    join(x);
    put_link(x, code, hand, group);
    move(x, hand, GATHERED);
}

// A free copy that bars its rule doubles the pairs: the rule is unmet for a plan and all its smaller plans, or for none of them. A copy
// pinned in that its rule needs doubles the subsets, a group of two pinned in trebles them, and one of three free copies may treble both.
static void block(instance *x, unsigned barring, unsigned needed, unsigned pinned, unsigned open)
{
    copy_with_rule(x, BARRING, 0);
    for (unsigned k = 1; k < barring + needed; k++) {
        copy_with_rule(x, k < barring ? BARRING : NEEDED, k);
        join(x);
    }
    for (unsigned k = 0; k < 2 * pinned; k++) copy(x, GATHERED - k / 2);
    for (unsigned k = 0; k < 3 * open; k++) copy(x, GATHERED - pinned - k / 3);
}

// A block has a rule in each of its groups, and without an open group 2 to the power of barring pairs. So has each join of blocks.
static void heavy(instance **next, const char *family, uint64_t limit, unsigned barring, unsigned open)
{
    instance *x = begin(next, family, limit, limit);
    unsigned needed = BLOCK_GROUPS - barring, pinned = barring - 3, pins = needed + 2 * pinned;
    for (unsigned k = 0; k < BLOCKS; k++) {
        block(x, barring, needed, pinned, open);
        if (k > 0) join(x);
        x->pins_in |= (((uint64_t)1 << pins) - 1) << (k * (barring + pins + 3 * open) + barring);
    }
}

// ---- short sheets under the widest limits: most of the time is the zeroing of the words needed

static void widen(instance *x)
{
    x->plan_limit = x->subset_limit = 1024;
}

// So many copies that are parts at once, then joined.
static void parts(instance **next, const char *family, unsigned count)
{
    instance *x = begin(next, family, 1024, 1024);
    for (unsigned k = 0; k < count; k++) leaf(x, 0x11, 0);
    for (unsigned k = 1; k < count; k++) join(x);
}

size_t all_families(instance *instances)
{
    instance *next = instances;
    for (uint64_t seed = 1; seed <= 4; seed++) chain(&next, "chain, 2 groups kept", 2, 2 + seed % 2, seed);
    for (unsigned k = 0; k < 4; k++) granted(&next, "chain, 2 groups, half granted", next - 4);
    for (uint64_t seed = 1; seed <= 4; seed++) chain(&next, "chain, 3 groups kept", 3, 2 + seed % 2, seed);
    circle(&next, "circle of needs, 63 copies", 63, NEEDED, 0);
    named(&next, "circle of needs, copies named", next - 1, 0x11);
    named(&next, "circle of needs, all named", next - 2, 0x12);
    circle(&next, "circle of needs, one pinned in", 63, NEEDED, 1);
    granted(&next, "circle of needs, half granted", next - 1);
    circle(&next, "circle of bars, 62 copies", 62, BARRING, 0);
    circle(&next, "circle of bars, 63 copies", 63, BARRING, 0);
    saturation(&next, "saturation, 30 pairs, yes", 0, 1);
    saturation(&next, "saturation, 30 pairs, no", 0, 0);
    saturation(&next, "saturation, 15 and 15 pairs", 15, 1);
    wide_saturation(&next, "wide saturation, 30 pairs, yes", 1);
    wide_saturation(&next, "wide saturation, 30 pairs, no", 0);
    for (uint64_t seed = 1; seed <= 8; seed++) random_policy(&next, "random, 12 copies", 12, seed);
    for (uint64_t seed = 1; seed <= 8; seed++) random_policy(&next, "random, 24 copies", 24, seed);
    for (uint64_t seed = 1; seed <= 8; seed++) random_policy(&next, "random, 40 copies", 40, seed);
    for (uint64_t seed = 1; seed <= 4; seed++) both_ways(&next, "both ways, 3 groups kept", 3, 2 + seed % 2, seed);
    balanced(&next, "balanced join, 128 by 32 pairs", 7, 5, 1);
    balanced(&next, "balanced join, 243 by 243 pairs", 5, 5, 2);
    moves(&next, "moves of groups, 128 pairs", 8, 1024, 1);
    rule_moves(&next, "moves of rules, 243 pairs", 240, 1);
    heavy(&next, "heavy joins, 32 by 32 pairs", 32, 5, 0);
    parts(&next, "wide limits, 2 parts", 2);
    parts(&next, "wide limits, 3 parts", 3);
    parts(&next, "wide limits, 8 parts", 8);
    return (size_t)(next - instances);
}

size_t long_families(instance *instances)
{
    instance *next = instances;
    random_policy(&next, "wide limits, 12 copies", 12, 1);
    widen(next - 1);
    heavy(&next, "heavy joins, 128 by 128 pairs", 128, 7, 0);
    heavy(&next, "heavy joins, 256 by 256 pairs", 256, 8, 0);
    return (size_t)(next - instances);
}

void longest_family(instance *x)
{
    heavy(&x, "heavy joins, 769 by 769 pairs", 1024, 8, 1);
}
