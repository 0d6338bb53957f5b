/*
 * Nuntennis: does a backup policy have a grounded plan?
 *
 * This header is the manual. Link with libnuntennis.a (pkg-config: nuntennis), an archive for x86-64 Linux.
 *
 * The library allocates nothing, keeps no state, does no input or output and never aborts: every call ends with an answer for any
 * bytes, limits, pins and lengths. Calls on separate buffers may run at the same time. A call may take long (see TIME), and uses under
 * NUNTENNIS_STACK_BYTES of stack (see STACK).
 *
 *
 * WHAT IS PROVED
 *
 * Proved of the library's source, function by function, for all arguments: each call ends, touches no memory but its own and what it is
 * lent, gives the answer that this manual says, and leaves every lent word as it says.
 *
 * Tested and not proved: that a call stays within NUNTENNIS_STACK_BYTES, and that calls share no state, so that they may run at the same
 * time (tests/test_stack.c, both); that the declarations below are those of the library's functions (every test in tests/ calls through
 * them). The compiler behind the archive is trusted; tests/ compares the archive with an oracle and with an implementation in C. The
 * archive calls memcpy and memset and nothing else (nm -u), and has no data of its own to write (size).
 *
 * All of this is for x86-64 Linux with the System V ABI.
 *
 *
 * THE SHEET
 *
 * A policy comes as a sheet: at most 4096 bytes, names included; one command byte each time, then operands of one byte, or a name of
 * sixteen. A group is 0 to 9. Command bytes are hexadecimal here; every other number is decimal.
 *
 *     11 g      a new copy in group g; copies are numbered from 0 in the order in which they appear (at most 63)
 *     12 g      a new rule in group g, its three sets empty (at most 256)
 *     13 g      a new granted copy in group g: a copy like any other, numbered with them and counted among the 63, that no rule need make
 *     21        join the two newest parts into one
 *     31 i j    in the newest part everything of group i moves to group j
 *     41 i j    in the newest part every copy of group i goes into the head set of every rule of group j, and every copy of group j into
 *               that of every rule of group i
 *     42 i j    .. into the needed set
 *     43 i j    .. into the barring set
 *     51 name   the copy or rule that appeared last is called so: sixteen bytes of any value (see NAMES)
 *
 * 11, 12 and 13 put a new part on the stack (at most 8 at a time); a whole sheet leaves one part. The sheet's depth (D) is the most parts
 * that it has at any moment; most sheets need two or three.
 *
 * 41, 42 and 43 are links. A link has no direction: i j and j i do the same. A group may hold both copies and rules; a link joins copies of
 * either group with rules of the other, never a copy with a rule of its own group. Given again it changes nothing. A sheet that was written
 * for links that put copies of group i into rules of group j alone keeps its tables, and so its answers and reports, if at every link
 * group i has no rules, or group j no copies, in the newest part.
 *
 * A plan is a set of copies. It meets a rule if some needed copy is missing, or some barring copy is present, or some head copy is
 * present. It is grounded if it meets every rule, and no strictly smaller plan (a proper subset) that agrees with it on every granted copy
 * meets every rule that is left once the rules with a barring copy in the plan are struck out and the other barring sets are emptied. In
 * other words: it is an answer set, where each granted copy is a choice. Below, the smaller plans of a plan are those that agree so.
 *
 *
 * PARAMETERS
 *
 *   sheet, sheet_len           the bytes of the sheet; only read
 *   plan_limit  (P)            the most pairs that a table may have, 1 to 1024
 *   subset_limit (G)           the most subsets that a pair may have, 1 to 1024
 *   pins_in, pins_out          bit c is copy c: the plan has every copy of pins_in and none of pins_out
 *   workspace, workspace_len   lent words, at least NUNTENNIS_WORKSPACE_WORDS(D, P, G), where nuntennis_depth tells D; they may hold
 *                              anything before a decision, a report or start
 *   answer, answer_len         at least three words (see ANSWERS)
 *   record                     walks: a running record, lent; before start it is initialised memory of any value, as {0}: start reads it
 *   asked                      reports: the offset in the sheet of the command asked
 *   copy                       name: the number of the copy asked; any
 *   report, report_len         reports: lent words for the report; they may hold anything before a call
 *
 * A length counts elements, not bytes. A pointer is not NULL and is aligned for its type, also where its length is 0. The buffers of
 * one call do not overlap.
 *
 * Every call returns 1, and then answer[0] to answer[2] are written and later words of answer keep their values; or it returns 0 where
 * answer_len is under three, and then no decision, report or step is made and everything lent is as it was.
 *
 *
 * ANSWERS
 *
 *   answer[0]  kind       answer[1]  value                                answer[2]  place
 *   0  no                 0                                               0
 *   0  nameless           0                                               0
 *   1  yes                grounded: first plan, bit c is copy c;          0
 *                         depth: D; else 0
 *   1  reported           entries written                                 words written
 *   1  named              offset in the sheet of the name's first byte    0
 *   2  refused            the refusal's number                            the refusal's place
 *   3  moved              0                                               0
 *   4  ended              0                                               0
 *
 * depth answers 1 or 2, name 0, 1 or 2, decisions 0, 1 or 2, reports 1 or 2, start 2 or 3, step 2, 3 or 4, and verdict 0, 1 or 2, where a
 * yes shows no plan: its value is 0. The plan of a grounded decision's yes is the first one (see DECISIONS). Nothing is left open.
 *
 *
 * REFUSALS
 *
 *   No. Word           Given when                                              Place
 *    1  overlong       the sheet is over 4096 bytes                            0
 *    2  limits         P or G is outside 1 to 1024                             0
 *    3  cramped        workspace_len is under (D+1)*P*(G+2)                    0
 *    4  clash          a copy of the sheet is pinned in and out                0
 *    5  unknown        no such command byte                                    offset of that command
 *    6  cut            an operand, or a byte of a name, is missing             offset of that command
 *    7  group          an operand is over 9                                    offset of that command
 *    8  same           i equals j                                              offset of that command
 *    9  crowded        a 64th copy, granted or not, or a 257th rule            offset of that command
 *   10  deep           a ninth part                                            offset of that command
 *   11  bare           21 with under two parts; 31, 41, 42, 43, 51 with none   offset of that command
 *   12  unjoined       not exactly one part at the end                         sheet_len
 *   13  absent         a pin on a copy that the sheet lacks, bit 63 included   sheet_len
 *   14  offset         reports: no command starts at byte asked                asked
 *   15  subsets full   a pair of the table here has over G subsets             offset of the command that makes the table
 *   16  plans full     the table here has over P entries                       offset of the command that makes the table
 *   17  report short   reports: report_len is under the words needed           asked
 *   18  record         step, verdict: record and workspace lack the form       the record's place
 *                      of a walk (see ONE COMMAND A CALL); verdict: also
 *                      before the end
 *
 * They are tested in this order: 1, 2; then the whole sheet is read, and the first faulty command gives the lowest of 5 to 11 that
 * applies to it; then 12, 3, 13, 4; then 14; then the tables command by command, at each command 15 before 16, and for a report no
 * further than the command asked; then 17. plain and plain_report never give 15. depth and name test 1 and 5 to 12 and no more; start 1 to
 * 13; verdict 1 to 13, then 18; step 1 to 13, then 18, then its one command, 15 before 16. The bytes of a name are no operands: 7 and 8
 * are not for them.
 *
 * A table here is the one after a command (document 01, Tables): of pairs for grounded, report and step, of triples for plain and
 * plain_report. 51 makes none, so 15 and 16 are never its own.
 *
 *
 * WHAT A CALL LEAVES (NEED is NUNTENNIS_WORKSPACE_WORDS(D, P, G), with the depth D of the whole sheet, also for a report)
 *
 *   Outcome                    first NEED words of workspace   report
 *   yes, no                    all zero
 *   reported                   all zero                        its first answer[2] words are the report, later ones unchanged
 *   refused 15, 16, 17         all zero                        unchanged
 *   refused 1 to 14            unchanged                       unchanged
 *
 *   Outcome of a walk's call   first NEED words of workspace   record
 *   start: moved               all zero                        place 0, no tables, all counts 0
 *   step: moved                the tables after the command    the state after the command
 *   any other                  unchanged                       unchanged
 *
 * Words of workspace past the first NEED are never read or written. Words of report are never read. depth and name have neither.
 *
 *
 * TIME
 *
 * Every call ends, but one command can take long. What it takes grows with the tables that it works on:
 *
 *   21               for each pair of one part and each of the other: (subsets of the one + 1) * (subsets of the other + 1) steps, and
 *                    what they make is put in order; in all at most P*P*(G+1)*(G+1) steps
 *   31, 41, 42, 43   for each pair: subsets + 1 steps, and what they make is put in order
 *   11, 12, 13       at most two pairs
 *   51               nothing
 *
 * A join that is refused can take as long: 16 is said once no pair gave 15. plain and plain_report have no subsets, so a join takes
 * P*P steps at most. Beside its commands a decision, a report or start zeroes NEED words, and each step and verdict reads them all; words
 * lent beyond them cost nothing. depth and name only read the sheet.
 *
 * Some sheets are built to take long: three blocks of copies, some of them pinned in, whose tables come near both limits, and two joins of
 * them. One nuntennis_grounded took these seconds of processor time, on an AMD EPYC that was busy with other work:
 *
 *   P = G   sheet       each of the joins                      seconds          command (of the library's source)
 *   32      323 bytes   32 by 32 pairs, 29 subsets at most     0.007 to 0.014   make bench
 *   128     359 bytes   128 by 128 pairs, 107 subsets          0.7 to 1.4       make bench
 *   256     377 bytes   256 by 256 pairs, 242 subsets          11 to 16         make bench
 *   1024    404 bytes   769 by 769 pairs, 728 subsets          114              target/c/bin/bench --longest
 *
 * That is 1 to 9 nanoseconds a step. Limits twice as large allow 16 times the steps. The limits 1024 allow a join 17 times the steps that
 * one of the last row has: minutes are not the most that one command can take.
 *
 * For sheets, or pins, that you do not trust:
 *
 *   - Give small limits first: with 32 and 32 such a decision takes milliseconds. Give larger ones where the answer is 15 or 16 and
 *     there is time to spend.
 *   - A walk (see ONE COMMAND A CALL) can be stopped between two commands, but not within one, and one join can be all of its time.
 *   - So make the call in a process, or a thread, that can be given up. The library holds no lock, memory or file: a call that is ended
 *     half way leaves nothing behind but the buffers it was lent, with any words in them.
 *
 *
 * STACK
 *
 * tests/test_stack.c measures what a call uses: nuntennis_grounded 97,344 bytes, any other under 23,700. NUNTENNIS_STACK_BYTES is for the
 * call alone. A thread's stack holds more: the C library's data of the thread with its thread-local storage (4,464 bytes in that test, by
 * glibc 2.36; more in a host that has more), the host's own frames above the call, those of a signal handler, and the guard where it is
 * taken from the same size. So a thread of just NUNTENNIS_STACK_BYTES is too small: it overflowed when tried. Give a thread that makes
 * calls NUNTENNIS_THREAD_STACK_BYTES, as the test does, and what the host needs over 100,000 bytes on top.
 */
#ifndef NUNTENNIS_H
#define NUNTENNIS_H

#include <stddef.h>
#include <stdint.h>

#ifdef __cplusplus
extern "C" {
#endif

#define NUNTENNIS_SHEET_BYTES 4096  /* the longest sheet */
#define NUNTENNIS_GROUPS 10         /* groups are 0 to 9 */
#define NUNTENNIS_COPIES 63         /* the most copies of a sheet */
#define NUNTENNIS_RULES 256         /* the most rules of a sheet */
#define NUNTENNIS_PARTS 8           /* the most parts at a time */
#define NUNTENNIS_NAME_BYTES 16     /* a name has just so many */
#define NUNTENNIS_LIMIT 1024        /* the most that P and G may be */
#define NUNTENNIS_ANSWER_WORDS 3
#define NUNTENNIS_STACK_BYTES 98304         /* the most stack that a call uses: see STACK */
#define NUNTENNIS_THREAD_STACK_BYTES 262144 /* recommended for a thread that makes calls */

/* Words of 32 bits that a call needs as workspace, for a sheet of depth D and P and G from 1 to 1024: a constant expression if they are.
   With the second macro's words any sheet has room. */
#define NUNTENNIS_WORKSPACE_WORDS(D, P, G) (((size_t)(D) + 1) * (size_t)(P) * ((size_t)(G) + 2))
#define NUNTENNIS_MOST_WORKSPACE_WORDS(P, G) NUNTENNIS_WORKSPACE_WORDS(NUNTENNIS_PARTS, P, G)

/* Words of 32 bits that no report is longer than. */
#define NUNTENNIS_REPORT_WORDS(P, G) ((size_t)(P) * ((size_t)(G) + 2))
#define NUNTENNIS_PLAIN_REPORT_WORDS(P) ((size_t)(P))

/* answer[0]; in place of NUNTENNIS_YES reports have NUNTENNIS_REPORTED, and name has NUNTENNIS_NAMED, with NUNTENNIS_NAMELESS for no */
enum {
    NUNTENNIS_NO = 0,
    NUNTENNIS_NAMELESS = 0,
    NUNTENNIS_YES = 1,
    NUNTENNIS_REPORTED = 1,
    NUNTENNIS_NAMED = 1,
    NUNTENNIS_REFUSED = 2,
    NUNTENNIS_MOVED = 3,
    NUNTENNIS_ENDED = 4
};

/* answer[1] where answer[0] is NUNTENNIS_REFUSED */
enum {
    NUNTENNIS_OVERLONG = 1,
    NUNTENNIS_LIMITS = 2,
    NUNTENNIS_CRAMPED = 3,
    NUNTENNIS_CLASH = 4,
    NUNTENNIS_UNKNOWN = 5,
    NUNTENNIS_CUT = 6,
    NUNTENNIS_GROUP = 7,
    NUNTENNIS_SAME = 8,
    NUNTENNIS_CROWDED = 9,
    NUNTENNIS_DEEP = 10,
    NUNTENNIS_BARE = 11,
    NUNTENNIS_UNJOINED = 12,
    NUNTENNIS_ABSENT = 13,
    NUNTENNIS_OFFSET = 14,
    NUNTENNIS_SUBSETS_FULL = 15,
    NUNTENNIS_PLANS_FULL = 16,
    NUNTENNIS_REPORT_SHORT = 17,
    NUNTENNIS_RECORD = 18
};

/*
 * DEPTH
 *
 * nuntennis_depth: the most parts that the sheet has at any moment: yes with D as the value, after checks 1 and 5 to 12. In the words of
 * NUNTENNIS_WORKSPACE_WORDS(D, P, G) every other call runs on this sheet: it does not answer 3.
 *
 *     nuntennis_depth(sheet, sheet_len, answer, 3);
 *     size_t words = answer[0] == NUNTENNIS_YES ? NUNTENNIS_WORKSPACE_WORDS(answer[1], P, G) : 0;
 *
 * A sheet that depth refuses needs no words: the other calls refuse it alike, or by 2.
 */
uint64_t nuntennis_depth(const uint8_t *sheet, size_t sheet_len, uint64_t *answer, size_t answer_len);

/*
 * NAMES
 *
 * A 51 names the newest copy or rule, that is the one that appeared last in the sheet (11, 12 or 13), wherever it stands by now: after
 * 11 00 11 01 21 it names copy 1. Naming again replaces the name. A rule's name is read and never handed back, and behind a rule a 51 does
 * not name the copy before it. The sixteen bytes may be anything, command bytes included.
 *
 * Names change no decision and no table, only the offsets of what stands behind them. A 51 starts a command at its own offset and not
 * inside its name (refusals 14 and 18). A report asked there writes the table before it, and a step over it moves the record's place by
 * 17 and nothing else.
 *
 * nuntennis_name: named, with the offset in the sheet of the first byte of the copy's name, after checks 1 and 5 to 12; nameless where the
 * copy has no name, or where the sheet has no such copy, whatever the number. It needs no limits, pins or workspace.
 *
 *     nuntennis_name(sheet, sheet_len, c, answer, 3);
 *     if (answer[0] == NUNTENNIS_NAMED) printf("%.*s\n", NUNTENNIS_NAME_BYTES, (const char *)sheet + answer[1]);
 *     else printf("copy %d\n", c);
 *
 * So the name is not copied, and no zero need stand behind it. It is the sheet's: a host that does not trust the sheet looks at the bytes
 * before it prints them, as examples/host.c does.
 */
uint64_t nuntennis_name(const uint8_t *sheet, size_t sheet_len, uint64_t copy, uint64_t *answer, size_t answer_len);

/*
 * DECISIONS
 *
 * nuntennis_grounded: is there a grounded plan that obeys the pins? Pins bind the plan, never the smaller plans that it is compared
 * with; those have the plan's granted copies whether pinned or not. No, exactly when there is none. A yes shows the first: copy 0 is left
 * out if any grounded plan that obeys the pins leaves it out, then copy 1 by the same test among those still possible, and so on. So one
 * policy with one set of pins has one plan, whatever limits it is decided under, and no bit beyond the sheet's copies is set in it. Finding
 * it needs no wider limits, and so no other refusal, than the bare yes.
 *
 * nuntennis_plain: is there a plan that meets every rule and obeys the pins? It shows none. P limits the triples of a table; G only
 * counts for refusals 2 and 3.
 *
 * Example: one copy and one rule that makes it. The plan {copy 0} is mask 1.
 *
 *     static const uint8_t sheet[] = {0x11, 0x00, 0x12, 0x01, 0x21, 0x41, 0x00, 0x01};
 *     static uint32_t workspace[NUNTENNIS_MOST_WORKSPACE_WORDS(32, 32)];
 *     uint64_t answer[NUNTENNIS_ANSWER_WORDS];
 *
 *     nuntennis_grounded(sheet, sizeof sheet, 32, 32, 0, 0, workspace, NUNTENNIS_MOST_WORKSPACE_WORDS(32, 32), answer, 3);
 *     if (answer[0] == NUNTENNIS_YES) printf("plan %llx\n", (unsigned long long)answer[1]);                      // plan 1
 *     if (answer[0] == NUNTENNIS_REFUSED) printf("refusal %d at byte %d\n", (int)answer[1], (int)answer[2]);
 *
 * The same with the rule in group 0 and the copy in group 1 is 12 00 11 01 21 41 00 01, or 41 01 00 at its end: yes with mask 1 too.
 *
 * With copy 0 pinned in, the sheet 13 00 gives yes with mask 1, as the copy is granted, and 11 00 gives no, as no rule makes the copy.
 */
uint64_t nuntennis_grounded(const uint8_t *sheet, size_t sheet_len,
                            uint64_t plan_limit, uint64_t subset_limit, uint64_t pins_in, uint64_t pins_out,
                            uint32_t *workspace, size_t workspace_len,
                            uint64_t *answer, size_t answer_len);

uint64_t nuntennis_plain(const uint8_t *sheet, size_t sheet_len,
                         uint64_t plan_limit, uint64_t subset_limit, uint64_t pins_in, uint64_t pins_out,
                         uint32_t *workspace, size_t workspace_len,
                         uint64_t *answer, size_t answer_len);

/*
 * REPORTS
 *
 * The table after the command that starts at byte `asked`, that is the table of the part that this command leaves newest; after a 51 it is
 * the table before it. The whole sheet is read and checked first; tables are built up to that command and no further. Pins bind the plans
 * of the table, never their smaller plans.
 *
 * A triple is three sets of groups as one number, T + 1024*F + 1048576*U, where group g counts 2^g in its set. T: groups with a copy in
 * the plan. F: groups with a copy outside it. U: groups with an unmet rule. A pair is a triple Q of a plan, with the triples of its
 * smaller plans, its subsets. Equal pairs count once.
 *
 * After 11 g the pairs are T = {g} with the one subset F = {g}, and F = {g} without subsets; after 13 g they are the same two, both without
 * subsets. A copy pinned in has the first pair alone, one pinned out the second. The plain table is the same after both.
 *
 * nuntennis_report writes each pair as Q, number of subsets, subsets. Pairs come by rising Q, then by their subset lists (each list
 * rising; compared place by place; a list before its longer continuations).
 *
 * nuntennis_plain_report writes the triples of the plain table, rising.
 *
 * For the sheet of the example above and asked = 5 (its link) the pair report is the five words 1 1 2098176 2098176 0, and the answer is
 * 1, 2 entries, 5 words.
 *
 *     static uint32_t report[NUNTENNIS_REPORT_WORDS(32, 32)];
 *
 *     nuntennis_report(sheet, sizeof sheet, 5, 32, 32, 0, 0, workspace, NUNTENNIS_MOST_WORKSPACE_WORDS(32, 32),
 *                      report, NUNTENNIS_REPORT_WORDS(32, 32), answer, 3);
 */
uint64_t nuntennis_report(const uint8_t *sheet, size_t sheet_len, size_t asked,
                          uint64_t plan_limit, uint64_t subset_limit, uint64_t pins_in, uint64_t pins_out,
                          uint32_t *workspace, size_t workspace_len,
                          uint32_t *report, size_t report_len,
                          uint64_t *answer, size_t answer_len);

uint64_t nuntennis_plain_report(const uint8_t *sheet, size_t sheet_len, size_t asked,
                                uint64_t plan_limit, uint64_t subset_limit, uint64_t pins_in, uint64_t pins_out,
                                uint32_t *workspace, size_t workspace_len,
                                uint32_t *report, size_t report_len,
                                uint64_t *answer, size_t answer_len);

/*
 * ONE COMMAND A CALL
 *
 * For a progress bar: a running record, lent by the host, advances by exactly one command at each call.
 *
 *     nuntennis_record record = {0};
 *     nuntennis_start(&record, workspace, words, sheet, sheet_len, P, G, 0, 0, answer, 3);
 *     while (answer[0] == NUNTENNIS_MOVED) {
 *         draw(record.place, sheet_len);
 *         nuntennis_step(&record, workspace, words, sheet, sheet_len, P, G, 0, 0, answer, 3);
 *     }
 *     if (answer[0] == NUNTENNIS_ENDED)
 *         nuntennis_verdict(&record, workspace, words, sheet, sheet_len, P, G, 0, 0, answer, 3);
 *
 * Give each call the same sheet, limits and pins, and leave record and workspace alone in between. Then the workspace holds the tables
 * of the parts after each step, and the walk ends with the yes or no of nuntennis_grounded, or stays at the command where that gives 15
 * or 16 and answers the same refusal. The verdict shows no plan: call nuntennis_grounded for it.
 *
 * Between calls table t (t = 0 is the oldest part) begins at word t*P*(G+2) and has counts[t] pairs in report order. A pair takes G+2
 * words: Q, number of subsets, subsets, zeros. All other words of the first (D+1)*P*(G+2) are zero; words behind them may be anything.
 *
 * nuntennis_step and nuntennis_verdict test this form (refusal 18), and only the form: the place is a command's start or the end; the
 * number of tables is what the commands before it leave; counts beyond that number are zero; each table has 1 to P pairs in strictly
 * rising report order, each with at most G strictly rising subsets, all triples under 2^30; every other needed word is zero. A command
 * acts on the tables found.
 *
 * nuntennis_start     checks 1 to 13, zeroes the first (D+1)*P*(G+2) words, and makes a record at place 0 with no tables: moved.
 * nuntennis_step      checks 1 to 13, then 18; runs the command at the record's place: moved. At the end: ended. 15 and 16 stay there.
 * nuntennis_verdict   checks 1 to 13, then 18, also where the place is not the end; reads yes or no from the final table.
 */
typedef struct nuntennis_record {
    uint64_t place;     /* offset of the next command; sheet_len at the end */
    uint64_t tables;    /* number of tables */
    uint64_t counts[NUNTENNIS_PARTS]; /* pairs of each table */
} nuntennis_record;

uint64_t nuntennis_start(nuntennis_record *record, uint32_t *workspace, size_t workspace_len,
                         const uint8_t *sheet, size_t sheet_len,
                         uint64_t plan_limit, uint64_t subset_limit, uint64_t pins_in, uint64_t pins_out,
                         uint64_t *answer, size_t answer_len);

uint64_t nuntennis_step(nuntennis_record *record, uint32_t *workspace, size_t workspace_len,
                        const uint8_t *sheet, size_t sheet_len,
                        uint64_t plan_limit, uint64_t subset_limit, uint64_t pins_in, uint64_t pins_out,
                        uint64_t *answer, size_t answer_len);

uint64_t nuntennis_verdict(const nuntennis_record *record, const uint32_t *workspace, size_t workspace_len,
                           const uint8_t *sheet, size_t sheet_len,
                           uint64_t plan_limit, uint64_t subset_limit, uint64_t pins_in, uint64_t pins_out,
                           uint64_t *answer, size_t answer_len);

#ifdef __cplusplus
}
#endif

#endif
