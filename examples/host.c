// A host: reads a sheet and says what the engine decides, with a progress bar by stepping.
//
//     host [--raw | --hex] [-p PLANS] [-g SUBSETS] [-i COPIES] [-o COPIES] SHEET
//
// SHEET is a file, or - for standard input: of raw bytes (--raw), or of hexadecimal text (--hex; see sheet_file.h). Without either option
// the host guesses where that is plain, and the first line of output says what it read. -p and -g are the limits P and G, -i and -o pin
// copies in and out (such as 0,2); they go before what the file says. --help prints this.
//
// Copies are shown by number, and by the name that the sheet gives them where it is text: 0 "archive". A faulty sheet gives none.
//
// Exit status: 0 yes, 1 no, 2 refused by the engine; 3 bad usage, 4 the sheet cannot be read whole, 5 a text is not a sheet (the line is
// named), 6 raw or text is not plain (say --raw or --hex), 7 no memory, 8 output cannot be written, 9 an answer that the host does not
// know. From 3 to 7 nothing was decided.
#define _POSIX_C_SOURCE 200809L
#include "arguments.h"
#include "nuntennis.h"
#include "sheet_file.h"

#include <errno.h>
#include <inttypes.h>
#include <stdio.h>
#include <stdlib.h>
#include <string.h>
#include <unistd.h>

enum { YES, NO, REFUSED, BAD_USAGE, UNREAD, NOT_TEXT, UNCLEAR, NO_MEMORY, UNWRITTEN, UNKNOWN_ANSWER };

// ---- names

typedef struct { const uint8_t *bytes; size_t length; } name;

static int is_blank(uint8_t byte)
{
    return byte == 0 || byte == ' ';
}

static int is_shown(uint8_t byte)
{
    return byte >= 0x20 && byte <= 0x7E;
}

// What a copy is called, without the zeros and spaces behind it; nothing where that is no text.
static name name_of(const sheet_file *f, unsigned copy)
{
    uint64_t answer[3];
    nuntennis_name(f->sheet, f->sheet_len, copy, answer, 3);
    if (answer[0] != NUNTENNIS_NAMED) return (name){NULL, 0};
    name n = {f->sheet + answer[1], NUNTENNIS_NAME_BYTES};
    while (n.length > 0 && is_blank(n.bytes[n.length - 1])) n.length--;
    for (size_t k = 0; k < n.length; k++)
        if (!is_shown(n.bytes[k])) return (name){NULL, 0};
    return n;
}

// Whether a name was shown behind the number. Its own quotes are marked, so that no name looks like two.
static int print_copy(const sheet_file *f, unsigned copy)
{
    name n = name_of(f, copy);
    printf(" %u%s", copy, n.length ? " \"" : "");
    for (size_t k = 0; k < n.length; k++) printf(n.bytes[k] == '"' || n.bytes[k] == '\\' ? "\\%c" : "%c", n.bytes[k]);
    if (n.length) putchar('"');
    return n.length > 0;
}

static void print_copies(const sheet_file *f, const char *before, uint64_t copies)
{
    printf("%s", before);
    for (unsigned c = 0; c < 64; c++)
        if (copies >> c & 1 && print_copy(f, c) && copies >> c > 1) putchar(',');
    if (copies == 0) printf(" none");
}

// Where a place is in the words of the sheet: of the copies' names the last one before it.
static void print_name_before(const sheet_file *f, uint64_t place)
{
    const uint8_t *last = f->sheet;
    unsigned copy = NUNTENNIS_COPIES;
    for (unsigned c = 0; c < NUNTENNIS_COPIES; c++) {
        name n = name_of(f, c);
        if (n.length && n.bytes > last && n.bytes < f->sheet + place) last = n.bytes, copy = c;
    }
    if (copy == NUNTENNIS_COPIES) return;
    printf("  behind the name of copy");
    print_copy(f, copy);
    printf("\n");
}

// ---- refusals in words

// What is refused: the request as a whole, or a byte of the sheet, which can be pointed at.
typedef enum { REQUEST, BYTE } refused_part;

typedef struct { const char *word, *reason; refused_part part; } refusal_words;

// The first is for numbers that a later library may give.
static const refusal_words refusals[] = {
    {"unknown to this host", "the header of the library says more", BYTE},
    {"overlong", "the sheet has over 4096 bytes", REQUEST},
    {"limits", "P or G is outside 1 to 1024", REQUEST},
    {"cramped", "the workspace is too short for the sheet under P and G", REQUEST},
    {"clash", "a copy is pinned in and out", REQUEST},
    {"unknown", "there is no such command byte", BYTE},
    {"cut", "the command's operands, or bytes of its name, are missing", BYTE},
    {"group", "an operand is over 9", BYTE},
    {"same", "a move or link names one group twice", BYTE},
    {"crowded", "this is a 64th copy or a 257th rule", BYTE},
    {"deep", "this is a ninth part", BYTE},
    {"bare", "there are too few parts for this command", BYTE},
    {"unjoined", "the sheet does not end with exactly one part", BYTE},
    {"absent", "a pin is on a copy that the sheet lacks", BYTE},
    {"offset", "no command starts here", BYTE},
    {"subsets full", "a pair of the table here has over G subsets; try a larger -g, up to 1024", BYTE},
    {"plans full", "the table here has over P pairs; try a larger -p, up to 1024", BYTE},
    {"report short", "the report's buffer is too short", BYTE},
    {"record", "the record or workspace was changed between calls", BYTE},
};

static const refusal_words *words_of(uint64_t number)
{
    return &refusals[number < sizeof refusals / sizeof *refusals ? number : 0];
}

// The line of the sheet that the place is on, with a mark below its byte, or behind the last one.
static void point_at(const uint8_t *sheet, size_t sheet_len, size_t place)
{
    size_t shown = place == sheet_len && place > 0 ? place - 1 : place;
    size_t start = shown / 16 * 16, end = start + 16 < sheet_len ? start + 16 : sheet_len;
    printf("  %4zu ", start);
    for (size_t k = start; k < end; k++) printf(" %02X", sheet[k]);
    printf("\n        %*s^^\n", (int)(3 * (place - start)), "");
}

static void print_refusal(const sheet_file *f, uint64_t number, uint64_t place)
{
    const refusal_words *words = words_of(number);
    printf("refused: %" PRIu64 " %s", number, words->word);
    if (words->part == BYTE) printf(" at byte %" PRIu64, place);
    printf(": %s", words->reason);
    if (number == NUNTENNIS_CLASH) print_copies(f, ":", f->pins_in & f->pins_out);
    printf("\n");
    if (words->part == BYTE && place <= f->sheet_len) point_at(f->sheet, f->sheet_len, (size_t)place);
    if (number == NUNTENNIS_SUBSETS_FULL || number == NUNTENNIS_PLANS_FULL) print_name_before(f, place);
}

// ---- the decision, with a bar by the walk

static void draw(uint64_t place, size_t sheet_len)
{
    enum { WIDTH = 40 };
    int filled = sheet_len ? (int)(place * WIDTH / sheet_len) : WIDTH;
    printf("[");
    for (int k = 0; k < WIDTH; k++) putchar(k < filled ? '#' : '.');
    printf("] byte %" PRIu64 " of %zu", place, sheet_len);
    fflush(stdout);
}

// Steps to the end and reads the verdict. On a terminal the bar is drawn at each step.
static void decide(const sheet_file *f, uint32_t *workspace, size_t words, uint64_t *answer)
{
    nuntennis_record record = {0};
    int is_terminal = isatty(STDOUT_FILENO);
    nuntennis_start(&record, workspace, words, f->sheet, f->sheet_len, f->plan_limit, f->subset_limit, f->pins_in, f->pins_out, answer, 3);
    if (answer[0] != NUNTENNIS_MOVED) return;
    while (answer[0] == NUNTENNIS_MOVED) {
        if (is_terminal) draw(record.place, f->sheet_len), printf("\r");
        nuntennis_step(&record, workspace, words, f->sheet, f->sheet_len, f->plan_limit, f->subset_limit, f->pins_in, f->pins_out, answer, 3);
    }
    draw(record.place, f->sheet_len);
    printf("\n");
    if (answer[0] == NUNTENNIS_ENDED)
        nuntennis_verdict(&record, workspace, words, f->sheet, f->sheet_len, f->plan_limit, f->subset_limit, f->pins_in, f->pins_out, answer, 3);
}

// ---- what it says

static void print_question(const sheet_file *f)
{
    printf("%s, read as %s: %zu bytes, ", f->name, f->form == SHEET_FILE_HEX ? "hexadecimal text" : "raw bytes", f->sheet_len);
    printf("P = %" PRIu64 ", G = %" PRIu64 ";", f->plan_limit, f->subset_limit);
    print_copies(f, " pinned in:", f->pins_in);
    print_copies(f, "; pinned out:", f->pins_out);
    printf("\n");
}

// A verdict shows no plan, so a yes asks the decision for it.
static void print_plan(const sheet_file *f, uint32_t *workspace, size_t words)
{
    uint64_t answer[3];
    nuntennis_grounded(f->sheet, f->sheet_len, f->plan_limit, f->subset_limit, f->pins_in, f->pins_out, workspace, words, answer, 3);
    print_copies(f, "yes: the first grounded plan keeps these copies:", answer[1]);
    printf("\n");
}

static void print_no(const sheet_file *f, uint32_t *workspace, size_t words)
{
    uint64_t answer[3];
    nuntennis_plain(f->sheet, f->sheet_len, f->plan_limit, f->subset_limit, f->pins_in, f->pins_out, workspace, words, answer, 3);
    printf("no: no grounded plan obeys the pins; %s\n",
           answer[0] == NUNTENNIS_YES ? "some plan meets every rule and obeys them, but is not grounded"
                                           : "no plan that obeys them even meets every rule");
}

static int say(const sheet_file *f, uint32_t *workspace, size_t words, const uint64_t *answer)
{
    switch (answer[0]) {
    case NUNTENNIS_YES: print_plan(f, workspace, words); return YES;
    case NUNTENNIS_NO: print_no(f, workspace, words); return NO;
    case NUNTENNIS_REFUSED: print_refusal(f, answer[1], answer[2]); return REFUSED;
    default: fprintf(stderr, "host: the library answers %" PRIu64 ", which this host does not know\n", answer[0]); return UNKNOWN_ANSWER;
    }
}

static void print_help(void)
{
    printf("usage: host [--raw | --hex] [-p PLANS] [-g SUBSETS] [-i COPIES] [-o COPIES] SHEET\n"
           "Says whether the backup policy of a sheet has a grounded plan.\n\n"
           "  SHEET        a file, or - for standard input\n"
           "  --raw        its bytes are the sheet\n"
           "  --hex        it is hexadecimal text; # begins a comment, and a line such as '#: limits 32 32' or '#: pins in 0 2' a setting;\n"
           "               a name may stand in quotes, as in 51 \"archive\"\n"
           "               (without either option the host guesses where that is plain, and says what it read)\n"
           "  -p PLANS     the most pairs of a table, 1 to 1024 (32 where the file does not say)\n"
           "  -g SUBSETS   the most subsets of a pair, 1 to 1024 (32 where the file does not say)\n"
           "  -i COPIES    copies that the plan must have, such as 0,2, or none\n"
           "  -o COPIES    copies that it must not have\n\n"
           "Copies are shown by number, and by the name that the sheet gives them where it is text: 0 \"archive\". A faulty sheet gives none.\n\n"
           "Exit status: 0 yes, 1 no, 2 refused by the engine; 3 bad usage, 4 the sheet cannot be read whole, 5 a text is not a sheet,\n"
           "6 raw or text is not plain, 7 no memory, 8 output cannot be written, 9 an answer that the host does not know.\n");
}

// ---- from the arguments to the status

// Just the words that the sheet needs under the limits asked; none where the sheet or the limits will be refused.
static size_t words_for(const sheet_file *f)
{
    uint64_t answer[3];
    int is_allowed = f->plan_limit <= NUNTENNIS_LIMIT && f->subset_limit <= NUNTENNIS_LIMIT;
    nuntennis_depth(f->sheet, f->sheet_len, answer, 3);
    return is_allowed && answer[0] == NUNTENNIS_YES ? NUNTENNIS_WORKSPACE_WORDS(answer[1], f->plan_limit, f->subset_limit) : 0;
}

static int answer_sheet(const sheet_file *f)
{
    uint64_t answer[3];
    size_t words = words_for(f);
    uint32_t *workspace = malloc((words + 1) * sizeof *workspace);
    if (!workspace) {
        fprintf(stderr, "host: no memory for %zu words\n", words);
        return NO_MEMORY;
    }
    print_question(f);
    decide(f, workspace, words, answer);
    int status = say(f, workspace, words, answer);
    free(workspace);
    return status;
}

// Why nothing is decided is said by the reading; what to do about it, here.
static int print_advice(const sheet_file *f, sheet_file_form asked, sheet_file_status status)
{
    switch (status) {
    case SHEET_FILE_NO_MEMORY: return NO_MEMORY;
    case SHEET_FILE_UNCLEAR: fprintf(stderr, "host: say --raw or --hex\n"); return UNCLEAR;
    case SHEET_FILE_NOT_TEXT:
        if (asked != f->form) fprintf(stderr, "host: read as hexadecimal text; --raw reads raw bytes\n");
        return NOT_TEXT;
    default: return UNREAD;
    }
}

static int run(const arguments *a)
{
    sheet_file f;
    sheet_file_status status = sheet_file_read(&f, a->path, a->form);
    arguments_apply(a, &f);
    int result = status == SHEET_FILE_WHOLE ? answer_sheet(&f) : print_advice(&f, a->form, status);
    sheet_file_free(&f);
    return result;
}

// An answer that could not be written counts for nothing.
static int finish(int status)
{
    if (status > REFUSED) return status;
    int is_lost = ferror(stdout);
    errno = 0;
    if (fclose(stdout) == 0 && !is_lost) return status;
    fprintf(stderr, "host: output cannot be written: %s\n", strerror(errno ? errno : EIO));
    return UNWRITTEN;
}

int main(int count, char **words)
{
    arguments a;
    if (!arguments_read(&a, count, words)) return BAD_USAGE;
    if (!a.wants_help) return finish(run(&a));
    print_help();
    return finish(YES);
}
