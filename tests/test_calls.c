// Decisions, reports and names with known answers: sheets to try of documents 01 and 02, the order of the checks, the limits of a sheet, short buffers, rooms.
#include "calls.h"

#include <inttypes.h>
#include <stdio.h>
#include <string.h>

// ---- sheets with known answers

typedef struct {
    const char *name, *hex;
    uint64_t plan_limit, subset_limit, pins_in, pins_out;
    oracle_answer grounded, plain;
} trial;

#define CIRCLE "11 00 11 01 21 12 02 21 12 03 21 41 00 02 42 01 02 41 01 03 42 00 03"
#define LISTED "11 00 12 01 21 41 00 01"
#define EITHER "11 00 11 00 21 12 01 21 41 00 01"
#define THREE "11 00 11 00 21 11 00 21 12 01 21 41 00 01"
#define FIVE "11 00 11 00 21 11 00 21 11 00 21 11 00 21"
#define NINE "11 00 11 00 11 00 11 00 11 00 11 00 11 00 11 00 11 00"
// Copy 0 bars three rules that tell copies 2 to 4 apart, so the plans without it have more subsets.
#define WIDER_WITHOUT \
    "11 04 12 01 21 12 02 21 12 03 21 43 04 01 43 04 02 43 04 03 11 06 21" \
    "11 05 21 41 05 01 31 05 00 11 05 21 41 05 02 31 05 00 11 05 21 41 05 03 31 05 00 11 05 11 07 21 21"
// Names: "archive", "mirror", and bytes that are commands and faults elsewhere.
#define ARCHIVE "61 72 63 68 69 76 65 00 00 00 00 00 00 00 00 00"
#define MIRROR "6D 69 72 72 6F 72 20 20 20 20 20 20 20 20 20 20"
#define COMMANDS "21 11 00 12 0A 31 02 02 51 41 FF 43 99 00 FF 51"
// Copy 0 by the name that it got last, copy 1 by one that it got behind a join, and the rule by one that is not handed back.
#define NAMED "11 00 51 " MIRROR " 51 " ARCHIVE " 11 00 21 51 " COMMANDS " 12 01 51 " MIRROR " 21 51 " COMMANDS " 41 00 01 51 " MIRROR
// CIRCLE with the mirror granted; and copy 0 unless copy 1, which is granted, or not.
#define GRANTED_CIRCLE "11 00 13 01 21 12 02 21 12 03 21 41 00 02 42 01 02 41 01 03 42 00 03"
#define UNLESS " 01 21 12 02 21 41 00 02 43 01 02"
// A rule in group 0 and a copy in group 1; a copy and a rule in each of groups 0 and 1; and those with a rule that makes the copy of its own group.
#define BEHIND "12 00 11 01 21"
#define GRANTED_BEHIND "12 00 13 01 21"
#define MIXED "11 00 12 00 21 11 01 12 01 21 21"
#define MADE "11 00 12 02 21 41 00 02 31 02 00 11 01 12 02 21 41 01 02 31 02 01 21"
#define MADE_GRANTED "11 00 12 02 21 41 00 02 31 02 00 13 01 12 02 21 41 01 02 31 02 01 21"
// Copy 0 with a rule that makes it, and copy 1 with one that it bars: a barring link then asks that one of them is kept.
#define MADE_UNLESS "11 00 12 02 21 41 00 02 31 02 00 11 01 12 02 21 43 01 02 31 02 01 21 43 00 01"
#define YES(plan) {1, plan, 0}
#define NO {0, 0, 0}
#define REFUSED(number, place) {2, number, place}
#define BIT63 ((uint64_t)1 << 63)
#define COPY40 ((uint64_t)1 << 40)

static const trial trials[] = {
    // 01, "Sheets to try", with the answer that 02, Item 4 gives to a clash with an empty sheet
    {"the listed sheet", LISTED, 32, 32, 0, 0, YES(1), YES(0)},
    {"pin in on copy 1", LISTED, 32, 32, 2, 0, REFUSED(13, 8), REFUSED(13, 8)},
    {"pin out on copy 1", LISTED, 32, 32, 0, 2, REFUSED(13, 8), REFUSED(13, 8)},
    {"CIRCLE", CIRCLE, 32, 32, 0, 0, YES(0), YES(0)},
    {"CIRCLE, copy 0 pinned in", CIRCLE, 32, 32, 1, 0, NO, YES(0)},
    {"CIRCLE, copy 0 pinned in, the widest limits", CIRCLE, 1024, 1024, 1, 0, NO, YES(0)},
    {"made unless kept", LISTED " 43 00 01", 32, 32, 0, 0, NO, YES(0)},
    {"either of two", EITHER, 32, 32, 0, 0, YES(2), YES(0)},
    {"both of two", EITHER, 32, 32, 3, 0, NO, YES(0)},
    {"a bare rule", "12 00", 32, 32, 0, 0, NO, NO},
    {"empty", "", 32, 32, 0, 0, REFUSED(12, 0), REFUSED(12, 0)},
    {"only a join", "21", 32, 32, 0, 0, REFUSED(11, 0), REFUSED(11, 0)},
    {"group 8", "11 08", 32, 32, 0, 0, YES(0), YES(0)},
    {"group 9", "11 09", 32, 32, 0, 0, YES(0), YES(0)},
    {"group 10", "11 0A", 32, 32, 0, 0, REFUSED(7, 0), REFUSED(7, 0)},
    {"group 255", "12 FF", 32, 32, 0, 0, REFUSED(7, 0), REFUSED(7, 0)},
    {"cut", "41 00", 32, 32, 0, 0, REFUSED(6, 0), REFUSED(6, 0)},
    {"same", "41 00 00", 32, 32, 0, 0, REFUSED(8, 0), REFUSED(8, 0)},
    {"P = 1", "11 00", 1, 32, 0, 0, REFUSED(16, 0), REFUSED(16, 0)},
    {"P = 1, pinned out", "11 00", 1, 32, 0, 1, YES(0), YES(0)},
    {"P = 3, G = 2", "11 00 11 00 21", 3, 2, 0, 0, YES(0), YES(0)},
    {"P = 2", "11 00 11 00 21", 2, 2, 0, 0, REFUSED(16, 4), REFUSED(16, 4)},
    {"P = 2, G = 32", "11 00 11 00 21", 2, 32, 0, 0, REFUSED(16, 4), REFUSED(16, 4)},
    {"P = 2, G = 1", "11 00 11 00 21", 2, 1, 0, 0, REFUSED(15, 4), REFUSED(16, 4)},
    {"P = 3, G = 1", "11 00 11 00 21", 3, 1, 0, 0, REFUSED(15, 4), YES(0)},
    {"P = 1024, G = 1", "11 00 11 00 21", 1024, 1, 0, 0, REFUSED(15, 4), YES(0)},
    {"nine parts", NINE, 32, 32, 0, 0, REFUSED(10, 16), REFUSED(10, 16)},
    {"two parts", "11 00 11 01", 32, 32, 0, 0, REFUSED(12, 4), REFUSED(12, 4)},
    {"clash, empty sheet", "", 32, 32, 1, 1, REFUSED(12, 0), REFUSED(12, 0)},
    // 02, Item 5: the first plan, by the pins
    {"either of two, copy 0 pinned in", EITHER, 32, 32, 1, 0, YES(1), YES(0)},
    {"either of two, copy 1 pinned out", EITHER, 32, 32, 0, 2, YES(1), YES(0)},
    {"one of three", THREE, 32, 32, 0, 0, YES(4), YES(0)},
    {"one of three, copy 2 pinned out", THREE, 32, 32, 0, 4, YES(2), YES(0)},
    {"one of three, copy 0 pinned in", THREE, 32, 32, 1, 0, YES(1), YES(0)},
    // the order of the checks
    {"operands missing before a group", "41 08", 32, 32, 0, 0, REFUSED(6, 0), REFUSED(6, 0)},
    {"a group before same", "41 0A 0A", 32, 32, 0, 0, REFUSED(7, 0), REFUSED(7, 0)},
    {"a second group", "11 00 31 00 0A", 32, 32, 0, 0, REFUSED(7, 2), REFUSED(7, 2)},
    {"same before bare", "31 03 03", 32, 32, 0, 0, REFUSED(8, 0), REFUSED(8, 0)},
    {"a link on nothing", "41 00 01", 32, 32, 0, 0, REFUSED(11, 0), REFUSED(11, 0)},
    {"a move on nothing", "31 00 01", 32, 32, 0, 0, REFUSED(11, 0), REFUSED(11, 0)},
    {"a join of one part", "11 00 21", 32, 32, 0, 0, REFUSED(11, 2), REFUSED(11, 2)},
    {"unknown byte", "11 00 52", 32, 32, 0, 0, REFUSED(5, 2), REFUSED(5, 2)},
    {"clash", LISTED, 32, 32, 1, 1, REFUSED(4, 0), REFUSED(4, 0)},
    {"clash on bit 63", LISTED, 32, 32, BIT63, BIT63, REFUSED(13, 8), REFUSED(13, 8)},
    {"clash on copy 40 of five", FIVE, 32, 32, COPY40, COPY40, REFUSED(13, 14), REFUSED(13, 14)},
    {"clash beside an absent copy pinned in", FIVE, 32, 32, COPY40 | 1, 1, REFUSED(13, 14), REFUSED(13, 14)},
    {"clash beside an absent copy pinned out", FIVE, 32, 32, 1, COPY40 | 1, REFUSED(13, 14), REFUSED(13, 14)},
    {"clash on the last of five", FIVE, 32, 32, 18, 16, REFUSED(4, 0), REFUSED(4, 0)},
    {"a faulty command before clash", "11 00 21", 32, 32, 1, 1, REFUSED(11, 2), REFUSED(11, 2)},
    {"unjoined before clash", "11 00 11 01", 32, 32, 1, 1, REFUSED(12, 4), REFUSED(12, 4)},
    {"pin on bit 63", LISTED, 32, 32, BIT63, 0, REFUSED(13, 8), REFUSED(13, 8)},
    {"unjoined before absent", "11 00 11 01", 32, 32, BIT63, 0, REFUSED(12, 4), REFUSED(12, 4)},
    {"limits before clash", "", 0, 32, 1, 1, REFUSED(2, 0), REFUSED(2, 0)},
    {"G over 1024", LISTED, 32, 1025, 0, 0, REFUSED(2, 0), REFUSED(2, 0)},
    {"P of 2^32 and 1", LISTED, ((uint64_t)1 << 32) + 1, 32, 0, 0, REFUSED(2, 0), REFUSED(2, 0)},
    {"the greatest G", LISTED, 32, UINT64_MAX, 0, 0, REFUSED(2, 0), REFUSED(2, 0)},
    {"15 past the P-th pair", "11 02 11 04 21", 3, 1, 0, 0, REFUSED(15, 4), REFUSED(16, 4)},
    {"15 at the pair with the greatest Q, past the P-th", "11 00 11 01 21 12 02 21 42 00 02 42 01 02 11 03 21", 4, 3, 0, 0,
     REFUSED(15, 16), REFUSED(16, 16)},
    {"15 at a pair of a plan with fewer copies, past the P-th", WIDER_WITHOUT, 4, 47, 28, 0, REFUSED(15, 55), REFUSED(16, 55)},
    {"that table under the least G", WIDER_WITHOUT, 16, 63, 28, 0, YES(28), YES(0)},
    {"16 in an older part", "11 00 11 01 21 11 02 21", 3, 32, 0, 0, REFUSED(16, 4), REFUSED(16, 4)},
    // 02, Item 1: names
    {"a named copy", "11 00 51 " ARCHIVE, 32, 32, 0, 0, YES(0), YES(0)},
    {"a named rule", "12 00 51 " ARCHIVE, 32, 32, 0, 0, NO, NO},
    {"a name is no link", "11 00 12 00 21 51 " COMMANDS, 32, 32, 0, 0, NO, NO},
    {"either of two, all named", NAMED, 32, 32, 0, 0, YES(2), YES(0)},
    {"either of two, all named, copy 0 pinned in", NAMED, 32, 32, 1, 0, YES(1), YES(0)},
    {"both of two, all named", NAMED, 32, 32, 3, 0, NO, YES(0)},
    {"absent behind names", NAMED, 32, 32, 4, 0, REFUSED(13, 113), REFUSED(13, 113)},
    {"clash on a named copy", NAMED, 32, 32, 2, 2, REFUSED(4, 0), REFUSED(4, 0)},
    {"16 at a leaf, not at its name", NAMED, 1, 32, 0, 0, REFUSED(16, 0), REFUSED(16, 0)},
    {"16 at a join behind names", NAMED, 2, 32, 0, 0, REFUSED(16, 38), REFUSED(16, 38)},
    {"15 at that join", NAMED, 3, 1, 0, 0, REFUSED(15, 38), YES(0)},
    {"unjoined behind a name", "11 00 11 01 51 " ARCHIVE, 32, 32, 0, 0, REFUSED(12, 21), REFUSED(12, 21)},
    {"a fault behind a name", "11 00 51 " COMMANDS " 99", 32, 32, 0, 0, REFUSED(5, 19), REFUSED(5, 19)},
    {"a name on nothing", "51 " ARCHIVE, 32, 32, 0, 0, REFUSED(11, 0), REFUSED(11, 0)},
    {"a name on nothing, of command bytes", "51 " COMMANDS " 11 00", 32, 32, 0, 0, REFUSED(11, 0), REFUSED(11, 0)},
    // 02, Item 9: granted copies, beside what the copies are without
    {"a granted copy", "13 00", 32, 32, 0, 0, YES(0), YES(0)},
    {"a granted copy, pinned in", "13 00", 32, 32, 1, 0, YES(1), YES(0)},
    {".. not granted", "11 00", 32, 32, 1, 0, NO, YES(0)},
    {"a granted copy, pinned out", "13 00", 32, 32, 0, 1, YES(0), YES(0)},
    {"CIRCLE, the mirror granted", GRANTED_CIRCLE, 32, 32, 0, 0, YES(0), YES(0)},
    {"CIRCLE, the mirror granted and pinned in", GRANTED_CIRCLE, 32, 32, 2, 0, YES(3), YES(0)},
    {".. not granted", CIRCLE, 32, 32, 2, 0, NO, YES(0)},
    {"CIRCLE, the mirror granted, the archive pinned in", GRANTED_CIRCLE, 32, 32, 1, 0, YES(3), YES(0)},
    {"CIRCLE, the mirror granted and pinned in, the archive out", GRANTED_CIRCLE, 32, 32, 2, 1, NO, NO},
    {"unless a granted copy", "11 00 13" UNLESS, 32, 32, 0, 0, YES(2), YES(0)},
    {".. not granted", "11 00 11" UNLESS, 32, 32, 0, 0, YES(1), YES(0)},
    {"unless a granted copy, pinned in", "11 00 13" UNLESS, 32, 32, 2, 0, YES(2), YES(0)},
    {".. not granted", "11 00 11" UNLESS, 32, 32, 2, 0, NO, YES(0)},
    {"unless a granted copy, pinned out", "11 00 13" UNLESS, 32, 32, 0, 2, YES(1), YES(0)},
    {"unless a granted copy, both pinned in: the smaller plan leaves the other out", "11 00 13" UNLESS, 32, 32, 3, 0, NO, YES(0)},
    {"a granted copy that a rule makes", "13 00 12 01 21 41 00 01", 32, 32, 0, 0, YES(1), YES(0)},
    {"a granted copy that a rule makes, pinned out", "13 00 12 01 21 41 00 01", 32, 32, 0, 1, NO, NO},
    {"made unless kept, granted", "13 00 12 01 21 41 00 01 43 00 01", 32, 32, 0, 0, YES(1), YES(0)},
    {"either of two granted", "13 00 13 00 21 12 01 21 41 00 01", 32, 32, 0, 0, YES(2), YES(0)},
    {"both of two granted", "13 00 13 00 21 12 01 21 41 00 01", 32, 32, 3, 0, YES(3), YES(0)},
    {"both of two, one granted", "13 00 11 00 21 12 01 21 41 00 01", 32, 32, 3, 0, NO, YES(0)},
    {"unless a granted copy that moved", "11 00 13 03 21 31 03 01 12 02 21 41 00 02 43 01 02", 32, 32, 0, 0, YES(2), YES(0)},
    {"a named granted copy", "13 00 51 " ARCHIVE, 32, 32, 1, 0, YES(1), YES(0)},
    {"granted, P = 1", "13 00", 1, 32, 0, 0, REFUSED(16, 0), REFUSED(16, 0)},
    {"granted, P = 1, pinned in", "13 00", 1, 32, 1, 0, YES(1), YES(0)},
    {"granted, P = 1, pinned out", "13 00", 1, 32, 0, 1, YES(0), YES(0)},
    {"two granted, P = 3, G = 1: no subsets", "13 00 13 00 21", 3, 1, 0, 0, YES(0), YES(0)},
    {"two granted, P = 2", "13 00 13 00 21", 2, 1, 0, 0, REFUSED(16, 4), REFUSED(16, 4)},
    {"granted, group 9", "13 09", 32, 32, 0, 0, YES(0), YES(0)},
    {"granted, group 10", "13 0A", 32, 32, 0, 0, REFUSED(7, 0), REFUSED(7, 0)},
    {"granted, cut", "13", 32, 32, 0, 0, REFUSED(6, 0), REFUSED(6, 0)},
    {"granted, ninth part", "11 00 13 00 11 00 13 00 11 00 13 00 11 00 13 00 13 00", 32, 32, 0, 0, REFUSED(10, 16), REFUSED(10, 16)},
    {"granted, unjoined", "11 00 13 00", 32, 32, 0, 0, REFUSED(12, 4), REFUSED(12, 4)},
    {"granted, absent", "13 00", 32, 32, 2, 0, REFUSED(13, 2), REFUSED(13, 2)},
    {"granted, clash", "13 00", 32, 32, 1, 1, REFUSED(4, 0), REFUSED(4, 0)},
    {"the byte behind granted", "14 00", 32, 32, 0, 0, REFUSED(5, 0), REFUSED(5, 0)},
    // 02, Item 11: links both ways; every sheet here is tried with the groups of its links exchanged too. The half j i alone
    {"head from the second group", BEHIND " 41 00 01", 32, 32, 0, 0, YES(1), YES(0)},
    {"head from the second group, pinned out", BEHIND " 41 00 01", 32, 32, 0, 1, NO, NO},
    {"needed from the second group", BEHIND " 42 00 01", 32, 32, 0, 0, YES(0), YES(0)},
    {"needed from the second group, pinned in", BEHIND " 42 00 01", 32, 32, 1, 0, NO, NO},
    {"barring from the second group", BEHIND " 43 00 01", 32, 32, 0, 0, NO, YES(0)},
    {"barring from the second group, pinned out", BEHIND " 43 00 01", 32, 32, 0, 1, NO, NO},
    {"made unless kept, by the half j i of both links", BEHIND " 41 00 01 43 00 01", 32, 32, 0, 0, NO, YES(0)},
    {"made unless kept, by the half j i of the barring one", BEHIND " 41 01 00 43 00 01", 32, 32, 0, 0, NO, YES(0)},
    {"granted, head from the second group", GRANTED_BEHIND " 41 00 01", 32, 32, 0, 0, YES(1), YES(0)},
    {"granted, needed from the second group", GRANTED_BEHIND " 42 00 01", 32, 32, 0, 0, YES(0), YES(0)},
    {"granted, needed from the second group, pinned in", GRANTED_BEHIND " 42 00 01", 32, 32, 1, 0, NO, NO},
    {"granted, barring from the second group", GRANTED_BEHIND " 43 00 01", 32, 32, 0, 0, YES(1), YES(0)},
    {"granted, barring from the second group, pinned out", GRANTED_BEHIND " 43 00 01", 32, 32, 0, 1, NO, NO},
    {"every rule of the first group, every copy of the second", "12 00 12 00 21 11 01 21 11 01 21 41 00 01", 32, 32, 0, 0, YES(2), YES(0)},
    {"group 9 with group 8", "12 09 11 08 21 41 09 08", 32, 32, 0, 0, YES(1), YES(0)},
    {"both have moved", "12 02 31 02 00 11 03 31 03 01 21 41 00 01", 32, 32, 0, 0, YES(1), YES(0)},
    {"given again, and the other way round", BEHIND " 41 00 01 41 01 00", 32, 32, 0, 0, YES(1), YES(0)},
    {"named", "12 00 51 " ARCHIVE " 11 01 51 " MIRROR " 21 51 " COMMANDS " 41 00 01 51 " ARCHIVE, 32, 32, 0, 0, YES(1), YES(0)},
    // .. and both halves
    {"head both ways: each rule makes the other group's copy", MIXED " 41 00 01", 32, 32, 0, 0, YES(3), YES(0)},
    {"head both ways, copy 0 pinned out", MIXED " 41 00 01", 32, 32, 0, 1, NO, NO},
    {"head both ways, copy 1 pinned out", MIXED " 41 00 01", 32, 32, 0, 2, NO, NO},
    {"needed both ways", MIXED " 42 00 01", 32, 32, 0, 0, YES(0), YES(0)},
    {"needed both ways, copy 0 pinned in", MIXED " 42 00 01", 32, 32, 1, 0, NO, NO},
    {"needed both ways, copy 1 pinned in", MIXED " 42 00 01", 32, 32, 2, 0, NO, NO},
    {"barring both ways", MIXED " 43 00 01", 32, 32, 0, 0, NO, YES(0)},
    {"barring both ways, copy 0 pinned out", MIXED " 43 00 01", 32, 32, 0, 1, NO, NO},
    {"barring both ways, copy 1 pinned out", MIXED " 43 00 01", 32, 32, 0, 2, NO, NO},
    {"barring both ways, both granted", "13 00 12 00 21 13 01 12 01 21 21 43 00 01", 32, 32, 0, 0, YES(3), YES(0)},
    {"either of two, for both rules", MADE " 41 00 01", 32, 32, 0, 0, YES(2), YES(0)},
    {"CIRCLE by one link", MADE " 42 00 01", 32, 32, 0, 0, YES(0), YES(0)},
    {"CIRCLE by one link, copy 0 pinned in", MADE " 42 00 01", 32, 32, 1, 0, NO, YES(0)},
    {"CIRCLE by one link, the mirror granted and pinned in", MADE_GRANTED " 42 00 01", 32, 32, 2, 0, YES(3), YES(0)},
    {"each unless the other", MADE " 43 00 01", 32, 32, 0, 0, YES(2), YES(0)},
    {"each unless the other, copy 0 pinned in", MADE " 43 00 01", 32, 32, 1, 0, YES(1), YES(0)},
    {"each unless the other, both pinned in", MADE " 43 00 01", 32, 32, 3, 0, NO, YES(0)},
    {"one is kept", MADE_UNLESS, 32, 32, 0, 0, YES(1), YES(0)},
    {"one is kept, and nothing makes it: the half j i goes by the plan", MADE_UNLESS, 32, 32, 2, 0, NO, YES(0)},
    {"both ways under the least limits", MIXED " 41 00 01 42 00 01 43 00 01", 4, 3, 0, 0, YES(0), YES(0)},
    {"both ways, 16 before the link", MIXED " 41 00 01", 3, 3, 0, 0, REFUSED(16, 10), REFUSED(16, 10)},
    {"both ways, 15 before the link", MIXED " 41 00 01", 4, 2, 0, 0, REFUSED(15, 10), YES(0)},
    // .. and what no link joins
    {"a copy and a rule of the first group", "11 00 12 00 21 41 00 01", 32, 32, 0, 0, NO, NO},
    {"a copy and a rule of the second group", "11 01 12 01 21 41 00 01", 32, 32, 0, 0, NO, NO},
    {"a rule of a third group", "12 02 12 00 21 11 01 21 41 00 01", 32, 32, 0, 0, NO, NO},
    {"a copy of a third group", "12 00 11 02 21 41 00 01", 32, 32, 0, 0, NO, NO},
    {"a rule in the part below", "12 00 11 01 41 00 01 21", 32, 32, 0, 0, NO, NO},
    {"a copy in the part below", "11 01 12 00 41 00 01 21", 32, 32, 0, 0, NO, NO},
    {"one group", MIXED " 41 00 00", 32, 32, 0, 0, REFUSED(8, 11), REFUSED(8, 11)},
};

static size_t read_hex(const char *hex, uint8_t *bytes)
{
    size_t n = 0;
    unsigned byte;
    int used;
    while (sscanf(hex, "%2x%n", &byte, &used) == 1) {
        bytes[n++] = (uint8_t)byte;
        hex += used;
    }
    return n;
}

static bool is_equal(oracle_answer a, oracle_answer b)
{
    return a.kind == b.kind && a.value == b.value && a.place == b.place;
}

// The oracle is itself held to the answers of 01 and 02.
static void check_oracle(const oracle_request *r, const trial *t)
{
    bool is_read = oracle_check(r).kind != 2;
    oracle_history h = {0, NULL, {0}};
    if (is_read) h = oracle_walk(r->sheet, r->sheet_len, r->pins_in, r->pins_out);
    oracle_answer grounded = oracle_grounded(r, &h), plain = oracle_plain(r, &h);
    if (!is_equal(grounded, t->grounded) || !is_equal(plain, t->plain)) disagree("the oracle", r, "%s", t->name);
    oracle_forget(&h);
}

static void try_sheet(const trial *t)
{
    uint8_t sheet[200];
    oracle_request r = {sheet, read_hex(t->hex, sheet), t->plan_limit, t->subset_limit, t->pins_in, t->pins_out, 0, 0, 0, 3};
    r.workspace_len = need_of(&r);
    case_name = t->name;
    check_oracle(&r, t);
    expect_call(CALL_GROUNDED, &r, t->grounded, NULL);
    expect_call(CALL_PLAIN, &r, t->plain, NULL);
    expect_unnamed(&r, t->grounded, t->plain);
    expect_exchanged(&r, t->grounded, t->plain);
    expect_names(&r);
}

static void try_sheets(void)
{
    size_t n = sizeof trials / sizeof trials[0];
    for (case_number = 0; case_number < n; case_number++) try_sheet(&trials[case_number]);
    printf("sheets to try and orders of checks: %zu agree\n", n);
}

// ---- the listed table, reports and short buffers

static void expect_report(call c, oracle_request *r, size_t asked, size_t report_len, oracle_answer want, const uint32_t *words)
{
    oracle_table table = {(uint32_t *)words, words ? want.place : 0, 0, 0};
    r->asked = asked;
    r->report_len = report_len;
    expect_call(c, r, want, words ? &table : NULL);
    r->report_len = 0;
}

#define GRANTED_THEN_COPY "13 00 11 01 21"

typedef struct { const char *hex; call call; uint64_t pins_in, pins_out; size_t asked, report_len; oracle_answer want; uint32_t words[13]; } reporting;

static const reporting reportings[] = {
    {LISTED, CALL_REPORT, 0, 0, 5, 5, {1, 2, 5}, {1, 1, 2098176, 2098176, 0}},
    {LISTED, CALL_REPORT, 0, 0, 5, 9, {1, 2, 5}, {1, 1, 2098176, 2098176, 0}},
    {LISTED, CALL_REPORT, 0, 0, 5, 4, REFUSED(17, 5), {0}},
    {LISTED, CALL_REPORT, 0, 0, 5, 0, REFUSED(17, 5), {0}},
    {LISTED, CALL_REPORT, 0, 0, 0, 5, {1, 2, 5}, {1, 1, 1024, 1024, 0}},
    {LISTED, CALL_REPORT, 0, 0, 2, 2, {1, 1, 2}, {2097152, 0}},
    {LISTED, CALL_REPORT, 0, 0, 1, 5, REFUSED(14, 1), {0}},
    {LISTED, CALL_REPORT, 0, 0, 8, 5, REFUSED(14, 8), {0}},
    {LISTED, CALL_REPORT, 0, 0, SIZE_MAX, 5, REFUSED(14, SIZE_MAX), {0}},
    {LISTED, CALL_PLAIN_REPORT, 0, 0, 5, 2, {1, 2, 2}, {1, 2098176}},
    {LISTED, CALL_PLAIN_REPORT, 0, 0, 5, 1, REFUSED(17, 5), {0}},
    {LISTED, CALL_PLAIN_REPORT, 0, 0, 6, 2, REFUSED(14, 6), {0}},
    {LISTED, CALL_REPORT, 2, 0, 1, 5, REFUSED(13, 8), {0}}, // 13 before 14
    // 02, Item 9: the pairs of 11, both without subsets; joined with copy 1, which is not granted, the smaller plans leave out that one alone
    {GRANTED_THEN_COPY, CALL_REPORT, 0, 0, 0, 4, {1, 2, 4}, {1, 0, 1024, 0}},
    {GRANTED_THEN_COPY, CALL_REPORT, 0, 0, 0, 3, REFUSED(17, 0), {0}},
    {GRANTED_THEN_COPY, CALL_PLAIN_REPORT, 0, 0, 0, 2, {1, 2, 2}, {1, 1024}},
    {GRANTED_THEN_COPY, CALL_REPORT, 0, 0, 1, 4, REFUSED(14, 1), {0}},
    {GRANTED_THEN_COPY, CALL_REPORT, 0, 0, 4, 10, {1, 4, 10}, {3, 1, 2049, 1026, 1, 3072, 2049, 0, 3072, 0}},
    {GRANTED_THEN_COPY, CALL_PLAIN_REPORT, 0, 0, 4, 4, {1, 4, 4}, {3, 1026, 2049, 3072}},
    {GRANTED_THEN_COPY, CALL_REPORT, 1, 0, 0, 2, {1, 1, 2}, {1, 0}},
    {GRANTED_THEN_COPY, CALL_PLAIN_REPORT, 1, 0, 0, 1, {1, 1, 1}, {1}},
    {GRANTED_THEN_COPY, CALL_REPORT, 0, 1, 0, 2, {1, 1, 2}, {1024, 0}},
    {GRANTED_THEN_COPY, CALL_PLAIN_REPORT, 0, 1, 0, 1, {1, 1, 1}, {1024}},
    // 02, Item 11: U of group 0 by T and F of group 1, in the barring link by the T of Q for the subset too
    {BEHIND " 41 00 01", CALL_REPORT, 0, 0, 4, 5, {1, 2, 5}, {1048578, 1, 1050624, 1050624, 0}},
    {BEHIND " 41 00 01", CALL_REPORT, 0, 0, 5, 5, {1, 2, 5}, {2, 1, 1050624, 1050624, 0}},
    {BEHIND " 42 00 01", CALL_REPORT, 0, 0, 5, 5, {1, 2, 5}, {2048, 0, 1048578, 1, 2048}},
    {BEHIND " 43 00 01", CALL_REPORT, 0, 0, 5, 5, {1, 2, 5}, {2, 1, 2048, 1050624, 0}},
    {BEHIND " 43 00 01", CALL_REPORT, 1, 0, 5, 3, {1, 1, 3}, {2, 1, 2048}},
    {GRANTED_BEHIND " 41 00 01", CALL_REPORT, 0, 0, 5, 4, {1, 2, 4}, {2, 0, 1050624, 0}},
    {BEHIND " 41 00 01", CALL_PLAIN_REPORT, 0, 0, 5, 2, {1, 2, 2}, {2, 1050624}},
    {BEHIND " 42 00 01", CALL_PLAIN_REPORT, 0, 0, 5, 2, {1, 2, 2}, {2048, 1048578}},
    {BEHIND " 43 00 01", CALL_PLAIN_REPORT, 0, 0, 5, 2, {1, 2, 2}, {2, 1050624}},
    // .. and that of group 1 by group 0
    {MIXED " 41 00 01", CALL_REPORT, 0, 0, 11, 13, {1, 4, 13}, {3, 3, 1050625, 2098178, 3148800, 1050625, 1, 3148800, 2098178, 1, 3148800, 3148800, 0}},
    {MIXED " 42 00 01", CALL_REPORT, 0, 0, 11, 13, {1, 4, 13}, {3072, 0, 1049602, 1, 3072, 2099201, 1, 3072, 3145731, 3, 3072, 1049602, 2099201}},
    {MIXED " 43 00 01", CALL_REPORT, 0, 0, 11, 13, {1, 4, 13}, {3, 3, 1026, 2049, 3072, 1050625, 1, 1051648, 2098178, 1, 2100224, 3148800, 0}},
    {MIXED " 41 00 01", CALL_PLAIN_REPORT, 0, 0, 11, 4, {1, 4, 4}, {3, 1050625, 2098178, 3148800}},
    {MIXED " 42 00 01", CALL_PLAIN_REPORT, 0, 0, 11, 4, {1, 4, 4}, {3072, 1049602, 2099201, 3145731}},
    {MIXED " 43 00 01", CALL_PLAIN_REPORT, 0, 0, 11, 4, {1, 4, 4}, {3, 1050625, 2098178, 3148800}},
    {MIXED " 41 00 01", CALL_REPORT, 0, 0, 11, 12, REFUSED(17, 11), {0}},
    {MIXED " 41 00 01", CALL_PLAIN_REPORT, 0, 0, 12, 4, REFUSED(14, 12), {0}},
};

static void try_report(const reporting *t)
{
    uint8_t sheet[16];
    oracle_request r = {sheet, read_hex(t->hex, sheet), 32, 32, t->pins_in, t->pins_out, 0, 0, 0, 3};
    r.workspace_len = need_of(&r);
    for (unsigned k = 0; k < 2; k++) { // and with the groups of its link exchanged
        expect_report(t->call, &r, t->asked, t->report_len, t->want, t->want.kind == 1 ? t->words : NULL);
        policy_exchange(sheet, r.sheet_len);
    }
}

static void try_reports(void)
{
    size_t n = sizeof reportings / sizeof reportings[0];
    case_name = "reports of listed sheets";
    for (case_number = 0; case_number < n; case_number++) try_report(&reportings[case_number]);
    printf("%s: %zu agree\n", case_name, n);
}

// ---- names (02, Item 1)

typedef struct { const char *name, *hex; uint64_t copy; oracle_answer want; } naming;

#define AT(offset) {1, offset, 0}
#define NAMELESS NO

static const naming namings[] = {
    {"a copy", "11 00 51 " ARCHIVE, 0, AT(3)},
    {"of zeros", "11 00 51 00 00 00 00 00 00 00 00 00 00 00 00 00 00 00 00", 0, AT(3)},
    {"of command bytes", "11 00 51 " COMMANDS, 0, AT(3)},
    {"no name", "11 00", 0, NAMELESS},
    {"no such copy", "11 00 51 " ARCHIVE, 1, NAMELESS},
    {"named again", "11 00 51 " ARCHIVE " 51 " MIRROR, 0, AT(20)},
    {"named again behind a link", "11 00 51 " ARCHIVE " 41 00 01 51 " MIRROR, 0, AT(23)},
    {"behind a join", "11 00 11 01 21 51 " ARCHIVE, 1, AT(6)},
    {"before that join", "11 00 11 01 21 51 " ARCHIVE, 0, NAMELESS},
    {"both parts of a join", "11 00 51 " ARCHIVE " 11 01 51 " MIRROR " 21", 0, AT(3)},
    {"both parts of a join", "11 00 51 " ARCHIVE " 11 01 51 " MIRROR " 21", 1, AT(22)},
    {"a rule", "12 00 51 " ARCHIVE, 0, NAMELESS},
    {"behind a rule", "11 00 12 01 51 " ARCHIVE " 21", 0, NAMELESS},
    {"behind a rule's join", "11 00 12 01 21 51 " ARCHIVE, 0, NAMELESS},
    {"named before a rule is", "11 00 51 " ARCHIVE " 12 01 51 " MIRROR " 21", 0, AT(3)},
    {"a copy behind a named rule", "12 00 51 " MIRROR " 11 01 51 " ARCHIVE " 21", 0, AT(22)},
    {"the newest, not the copy in the newest part", "11 00 11 01 11 02 21 21 51 " ARCHIVE, 2, AT(9)},
    {"a granted copy", "13 00 51 " ARCHIVE, 0, AT(3)},
    {"a granted copy behind a join", "11 00 13 01 21 51 " ARCHIVE, 1, AT(6)},
    {"all named, copy 0", NAMED, 0, AT(20)},
    {"all named, copy 1", NAMED, 1, AT(40)},
    {"all named, copy 2", NAMED, 2, NAMELESS},
    {"bit 63", NAMED, 63, NAMELESS},
    {"copy 64", NAMED, 64, NAMELESS},
    {"copy 2^32", NAMED, (uint64_t)1 << 32, NAMELESS},
    {"copy 2^32 and 1", NAMED, ((uint64_t)1 << 32) + 1, NAMELESS},
    {"the greatest number", NAMED, UINT64_MAX, NAMELESS},
    {"empty", "", 0, REFUSED(12, 0)},
    {"unjoined", "11 00 51 " ARCHIVE " 11 01", 0, REFUSED(12, 21)},
    {"a fault behind the name", "11 00 51 " ARCHIVE " 99", 0, REFUSED(5, 19)},
    {"a fault, and no such copy", "11 0A", UINT64_MAX, REFUSED(7, 0)},
};

// Held to the answer by itself, and so is the oracle; then every other copy is asked.
static void try_naming(const naming *t)
{
    uint8_t sheet[200];
    uint64_t answer[3];
    oracle_request r = {sheet, read_hex(t->hex, sheet), 32, 32, 0, 0, 0, 0, 0, 3};
    case_name = t->name;
    if (!is_equal(oracle_name(&r, t->copy), t->want)) disagree("the oracle", &r, "the name of copy %" PRIu64, t->copy);
    nuntennis_name(sheet, r.sheet_len, t->copy, answer, 3);
    if (!is_equal((oracle_answer){answer[0], answer[1], answer[2]}, t->want)) disagree("nuntennis_name", &r, "copy %" PRIu64, t->copy);
    expect_names(&r);
}

static void try_namings(void)
{
    size_t n = sizeof namings / sizeof namings[0];
    for (case_number = 0; case_number < n; case_number++) try_naming(&namings[case_number]);
    printf("names: %zu agree\n", n);
}

// A slice of under three words stays as it was; of a longer one the words past the third do.
static void try_name_slices(void)
{
    static const char *const sheets[] = {NAMED, "11 00", "11 00 51"};
    uint8_t sheet[200];
    oracle_request r = {sheet, 0, 32, 32, 0, 0, 0, 0, 0, 0};
    case_name = "answer slices of names";
    for (case_number = 0; case_number < 3; case_number++) {
        r.sheet_len = read_hex(sheets[case_number], sheet);
        for (r.answer_len = 0; r.answer_len < 6; r.answer_len++) expect_names(&r);
    }
    printf("answer slices of names: 18 agree\n");
}

static void expect_refused(oracle_request *r, const char *name, unsigned number, size_t place)
{
    case_name = name;
    expect_call(CALL_GROUNDED, r, (oracle_answer)REFUSED(number, place), NULL);
    expect_call(CALL_PLAIN, r, (oracle_answer)REFUSED(number, place), NULL);
    expect_names(r);
}

// With 0 to 15 of its bytes a name is cut, whatever they are, and that comes before bare.
static void try_cut_names(void)
{
    static const char *const names[] = {ARCHIVE, COMMANDS};
    uint8_t sheet[3 + POLICY_NAME] = {0x11, 0x00, 0x51};
    oracle_request r = {sheet, 0, 32, 32, 0, 0, 0, 0, 0, 3};
    for (unsigned k = 0; k < 2; k++) {
        read_hex(names[k], sheet + 3);
        for (size_t n = 0; n < POLICY_NAME; n++) {
            r.sheet = sheet;
            r.sheet_len = 3 + n;
            expect_refused(&r, "a cut name", 6, 2);
            r.sheet = sheet + 2;
            r.sheet_len = 1 + n;
            expect_refused(&r, "a cut name on nothing", 6, 0);
        }
        r.sheet_len = 1 + POLICY_NAME;
        expect_refused(&r, "a whole name on nothing", 11, 0);
    }
    printf("cut names: 66 agree\n");
}

// The table after a step that a report writes.
static const oracle_table *table_of(const oracle_step *s, call c)
{
    return c == CALL_REPORT ? &s->pairs : &s->triples;
}

// At a 51 the table of the command before it, to the word; inside its name 14.
static void try_named_report(oracle_request r, call c, const oracle_step *s)
{
    const oracle_table *before = table_of(s - 1, c);
    oracle_answer want = {1, before->entries, before->length};
    r.report_len = before->length;
    r.asked = s[-1].command.offset;
    expect_call(c, &r, want, before);
    r.asked = s->command.offset;
    expect_call(c, &r, want, before);
    r.report_len--;
    expect_call(c, &r, (oracle_answer)REFUSED(17, r.asked), NULL);
    r.report_len = 50;
    for (r.asked++; r.asked < s->command.next; r.asked++) expect_call(c, &r, (oracle_answer)REFUSED(14, r.asked), NULL);
}

static void try_named_reports(void)
{
    uint8_t sheet[200];
    unsigned n = 0;
    oracle_request r = {sheet, read_hex(NAMED, sheet), 32, 32, 0, 0, 0, 0, 0, 3};
    oracle_history h = oracle_walk(sheet, r.sheet_len, 0, 0);
    r.workspace_len = need_of(&r);
    case_name = "reports of the named sheet";
    for (size_t k = 1; k < h.steps; k++) {
        if (h.step[k].command.code != 0x51) continue;
        try_named_report(r, CALL_REPORT, &h.step[k]);
        try_named_report(r, CALL_PLAIN_REPORT, &h.step[k]);
        n += 38;
    }
    oracle_forget(&h);
    printf("reports of a named sheet: %u agree\n", n);
}

static void try_short_buffers(void)
{
    uint8_t sheet[16];
    oracle_request r = {sheet, read_hex(LISTED, sheet), 5, 4, 0, 0, 0, 5, 0, 3};
    unsigned n = 0;
    case_name = "short buffers";
    for (call c = 0; c < CALLS; c++) {
        r.report_len = c == CALL_REPORT || c == CALL_PLAIN_REPORT ? 20 : 0;
        r.workspace_len = need_of(&r);
        for (r.answer_len = 0; r.answer_len < 3; r.answer_len++, n++) expect_call(c, &r, (oracle_answer)NO, NULL);
        r.answer_len = 3;
        for (r.workspace_len = 0; r.workspace_len < need_of(&r); r.workspace_len += 27, n++)
            expect_call(c, &r, (oracle_answer)REFUSED(3, 0), NULL);
        r.workspace_len = need_of(&r) - 1;
        expect_call(c, &r, (oracle_answer)REFUSED(3, 0), NULL);
        n++;
    }
    printf("short answer slices and workspaces: %u agree\n", n);
}

// ---- the limits of a sheet

// So many leaves of each kind, each joined to those before it except the last `apart` ones.
static size_t leaves(uint8_t *sheet, unsigned atoms, unsigned rules, unsigned apart)
{
    size_t n = 0;
    for (unsigned k = 0; k < atoms + rules; k++) {
        sheet[n++] = k < rules ? 0x12 : 0x11;
        sheet[n++] = k < rules ? 1 : 0;
        if (k > 0 && k + apart < atoms + rules) sheet[n++] = 0x21;
    }
    return n;
}

// Seventeen copies, each joined to those before it and named fourteen times: just 4096 bytes. No two names are alike.
static size_t full_of_names(uint8_t *sheet)
{
    size_t n = 0;
    for (unsigned k = 0; k < 17 * 14; k++) {
        if (k % 14 == 0) memcpy(sheet + n, "\x11\x00\x21", 3), n += k > 0 ? 3 : 2;
        sheet[n++] = 0x51;
        for (unsigned b = 0; b < POLICY_NAME; b++) sheet[n++] = (uint8_t)(k + 17 * b);
    }
    return n;
}

// Moves there and back, to a given length.
static size_t lengthen(uint8_t *sheet, size_t n, size_t end)
{
    static const uint8_t there[] = {0x31, 0x00, 0x02}, back[] = {0x31, 0x02, 0x00};
    for (unsigned k = 0; n + 3 <= end; k++, n += 3) memcpy(sheet + n, k % 2 ? back : there, 3);
    return n;
}

static void expect_both(oracle_request *r, const char *name, oracle_answer want)
{
    case_name = name;
    r->workspace_len = need_of(r);
    expect_call(CALL_GROUNDED, r, want, NULL);
    expect_call(CALL_PLAIN, r, want, NULL);
    expect_unnamed(r, want, want);
    expect_names(r);
}

static void try_limits(void)
{
    static uint8_t sheet[8192];
    oracle_request r = {sheet, 0, 8, 8, 0, 0, 0, 0, 0, 3};
    r.sheet_len = leaves(sheet, 63, 0, 0);
    expect_both(&r, "63 copies", (oracle_answer)YES(0));
    r.sheet_len = leaves(sheet, 64, 0, 0);
    expect_both(&r, "64 copies", (oracle_answer)REFUSED(9, 188));
    for (unsigned first = 0; first < 2; first++) { // the 64th is 11, or 13
        r.sheet_len = leaves(sheet, 63, 0, 0);
        policy_grant_half(sheet, r.sheet_len, first);
        expect_both(&r, "63 copies, half of them granted", (oracle_answer)YES(0));
        r.sheet_len = leaves(sheet, 64, 0, 0);
        policy_grant_half(sheet, r.sheet_len, first);
        expect_both(&r, "64 copies, half of them granted", (oracle_answer)REFUSED(9, 188));
        r.sheet_len = leaves(sheet, 64, 0, 8);
        policy_grant_half(sheet, r.sheet_len, first);
        expect_both(&r, "64th copy, half of them granted, ninth part", (oracle_answer)REFUSED(9, r.sheet_len - 2));
    }
    r.sheet_len = leaves(sheet, 1, 256, 0);
    expect_both(&r, "256 rules", (oracle_answer)NO);
    r.sheet_len = leaves(sheet, 0, 257, 0);
    expect_both(&r, "257 rules", (oracle_answer)REFUSED(9, 767));
    r.sheet_len = leaves(sheet, 64, 0, 8);
    expect_both(&r, "64th copy, ninth part", (oracle_answer)REFUSED(9, r.sheet_len - 2));
    r.sheet_len = leaves(sheet, 63, 0, 8);
    expect_both(&r, "ninth part", (oracle_answer)REFUSED(10, r.sheet_len - 2));
    r.sheet_len = lengthen(sheet, leaves(sheet, 3, 0, 0), 4096);
    expect_both(&r, "4094 bytes, the longest without a fault or a name", (oracle_answer)YES(0));
    memcpy(sheet + 4094, "\x11\x00\x21", 3);
    r.sheet_len = 4096;
    expect_both(&r, "4096 bytes", (oracle_answer)REFUSED(12, 4096));
    r.sheet_len = 4097;
    expect_both(&r, "4097 bytes", (oracle_answer)REFUSED(1, 0));
    r.plan_limit = 0;
    expect_both(&r, "overlong before limits", (oracle_answer)REFUSED(1, 0));
    r.plan_limit = 8;
    r.sheet_len = full_of_names(sheet);
    expect_both(&r, "4096 bytes, full of names", (oracle_answer)YES(0));
    if (r.sheet_len != 4096 || expect_names(&r) != 17) disagree("the test", &r, "not 4096 bytes, or not 17 names");
    r.sheet_len = 4095;
    expect_both(&r, "the last name cut", (oracle_answer)REFUSED(6, 4079));
    sheet[4096] = 0x51;
    r.sheet_len = 4097;
    expect_both(&r, "overlong by names", (oracle_answer)REFUSED(1, 0));
    printf("limits of a sheet: 38 agree\n");
}

// ---- the room (02, Item 8): an area for each of the parts at once, and one more

// So many copies that are parts at once, then joined.
static size_t deep_sheet(uint8_t *sheet, unsigned parts)
{
    size_t n = leaves(sheet, parts, 0, parts);
    memset(sheet + n, 0x21, parts - 1);
    return n + parts - 1;
}

// A word less is refused by decisions and reports; with no more than is needed, and with more, they answer. The reports stop at the first command.
static unsigned try_room(oracle_request *r, size_t need)
{
    static const uint32_t leaf[] = {1, 1, 1024, 1024, 0}, plain_leaf[] = {1, 1024};
    const size_t rooms[] = {need, need + 1, NUNTENNIS_MOST_WORKSPACE_WORDS(r->plan_limit, r->subset_limit)};
    r->workspace_len = need - 1;
    expect_call(CALL_GROUNDED, r, (oracle_answer)REFUSED(3, 0), NULL);
    expect_call(CALL_PLAIN, r, (oracle_answer)REFUSED(3, 0), NULL);
    expect_report(CALL_REPORT, r, 0, 5, (oracle_answer)REFUSED(3, 0), NULL);
    expect_report(CALL_PLAIN_REPORT, r, 0, 2, (oracle_answer)REFUSED(3, 0), NULL);
    for (size_t k = 0; k < 3; k++) {
        r->workspace_len = rooms[k];
        expect_call(CALL_GROUNDED, r, (oracle_answer)YES(0), NULL);
        expect_call(CALL_PLAIN, r, (oracle_answer)YES(0), NULL);
        expect_report(CALL_REPORT, r, 0, 5, (oracle_answer){1, 2, 5}, leaf);
        expect_report(CALL_PLAIN_REPORT, r, 0, 2, (oracle_answer){1, 2, 2}, plain_leaf);
    }
    return 16;
}

// Too little room comes behind a fault of the sheet, and before pins.
static unsigned try_order(oracle_request r, uint8_t *sheet, size_t need)
{
    r.pins_in = r.pins_out = COPY40;
    r.workspace_len = need - 1;
    expect_call(CALL_GROUNDED, &r, (oracle_answer)REFUSED(3, 0), NULL);
    r.workspace_len = need;
    expect_call(CALL_GROUNDED, &r, (oracle_answer)REFUSED(13, r.sheet_len), NULL);
    r.workspace_len = 0;
    sheet[r.sheet_len++] = 0x99;
    expect_call(CALL_GROUNDED, &r, (oracle_answer)REFUSED(5, r.sheet_len - 1), NULL);
    sheet[r.sheet_len - 1] = 0x12;
    sheet[r.sheet_len++] = 0x00;
    expect_call(CALL_GROUNDED, &r, (oracle_answer)REFUSED(12, r.sheet_len), NULL);
    return 4;
}

static void try_rooms(void)
{
    uint8_t sheet[64];
    unsigned n = 0;
    case_name = "rooms";
    for (unsigned parts = 1; parts <= NUNTENNIS_PARTS; parts++) {
        oracle_request r = {sheet, deep_sheet(sheet, parts), 8, 6, 0, 0, 0, 0, 0, 3};
        size_t need = (parts + 1) * 64;
        n += try_room(&r, need) + try_order(r, sheet, need);
    }
    printf("rooms for one to eight parts: %u agree\n", n);
}

// 15 at the join whatever P of at least 2 is.
static void try_every_p(void)
{
    uint8_t sheet[16];
    oracle_request r = {sheet, read_hex("11 00 11 00 21", sheet), 2, 1, 0, 0, 0, 0, 0, 3};
    case_name = "G = 1 under every P";
    for (; r.plan_limit <= 1024; r.plan_limit++) {
        r.workspace_len = need_of(&r);
        expect_call(CALL_GROUNDED, &r, (oracle_answer)REFUSED(15, 4), NULL);
    }
    printf("15 under every P of at least 2: 1023 agree\n");
}

int main(void)
{
    calls_begin();
    try_sheets();
    try_reports();
    try_namings();
    try_name_slices();
    try_cut_names();
    try_named_reports();
    try_short_buffers();
    try_limits();
    try_rooms();
    try_every_p();
    printf("test_calls: all agree\n");
    return 0;
}
