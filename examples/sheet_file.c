// Reading of sheet files; everything wrong with one is said, in a text with its line.
#include "sheet_file.h"

#include "nuntennis.h"

#include <ctype.h>
#include <errno.h>
#include <stdio.h>
#include <stdlib.h>
#include <string.h>

static const char BLANKS[] = " \t", BETWEEN_COPIES[] = " \t,", BYTE_ORDER_MARK[] = "\xEF\xBB\xBF";

static int is_space(char c)
{
    return isspace((unsigned char)c);
}

static int is_digit(char c)
{
    return isdigit((unsigned char)c);
}

static int is_hex_digit(char c)
{
    return isxdigit((unsigned char)c);
}

// ---- numbers: each function gives NULL, or what is wrong

// The number at the text's start, which a blank, a comma or the end must follow. The text moves behind it.
static const char *take_number(const char **text, uint64_t *number)
{
    uint64_t n = 0;
    if (!is_digit(**text)) return "not a number";
    for (; is_digit(**text); (*text)++) {
        uint64_t digit = (uint64_t)(**text - '0');
        if (n > (UINT64_MAX - digit) / 10) return "a number beyond 64 bits";
        n = 10 * n + digit;
    }
    *number = n;
    return **text && !strchr(BETWEEN_COPIES, **text) ? "not a number" : NULL;
}

const char *sheet_file_number(const char *text, uint64_t *number)
{
    const char *wrong = take_number(&text, number);
    return wrong ? wrong : *text ? "not one number" : NULL;
}

const char *sheet_file_copies(const char *list, uint64_t *mask)
{
    uint64_t copy;
    const char *wrong;
    if (strncmp(list, "none", 4) == 0 && list[4 + strspn(list + 4, BLANKS)] == 0) return NULL;
    if (list[strspn(list, BETWEEN_COPIES)] == 0) return "no copy is listed";
    while (*(list += strspn(list, BETWEEN_COPIES))) {
        if ((wrong = take_number(&list, &copy))) return wrong;
        if (copy > 63) return "not a copy, as they are numbered 0 to 63";
        *mask |= (uint64_t)1 << copy;
    }
    return NULL;
}

// Exactly n numbers, or what is said where there are more or fewer.
static const char *read_numbers(const char *text, uint64_t *numbers, unsigned n, const char *miscounted)
{
    const char *wrong;
    for (unsigned k = 0; k < n; k++) {
        text += strspn(text, BLANKS);
        if (!*text) return miscounted;
        if ((wrong = take_number(&text, &numbers[k]))) return wrong;
    }
    return text[strspn(text, BLANKS)] ? miscounted : NULL;
}

// ---- one line of a text

static const char *read_limits(sheet_file *f, const char *text)
{
    uint64_t limits[2];
    const char *wrong = read_numbers(text, limits, 2, "limits are two numbers");
    if (wrong) return wrong;
    f->plan_limit = limits[0];
    f->subset_limit = limits[1];
    return NULL;
}

static const char *read_answer(uint64_t *answer, unsigned *count, const char *text)
{
    if ((*count)++) return "a second answer of its kind";
    return read_numbers(text, answer, 3, "an answer is three numbers");
}

// What follows a word at the start of a line, or NULL.
static const char *after(const char *line, const char *word)
{
    size_t n = strlen(word);
    if (strncmp(line, word, n) != 0 || (line[n] && !strchr(BLANKS, line[n]))) return NULL;
    return line + n + strspn(line + n, BLANKS);
}

static const char *read_setting(sheet_file *f, const char *line)
{
    const char *rest;
    if ((rest = after(line, "limits"))) return read_limits(f, rest);
    if ((rest = after(line, "pins in"))) return sheet_file_copies(rest, &f->pins_in);
    if ((rest = after(line, "pins out"))) return sheet_file_copies(rest, &f->pins_out);
    if ((rest = after(line, "answer"))) return read_answer(f->answer, &f->answer_count, rest);
    if ((rest = after(line, "plain"))) return read_answer(f->plain, &f->plain_count, rest);
    return "no such setting (limits, pins in, pins out, answer, plain)";
}

static int digit_of(char c)
{
    return is_digit(c) ? c - '0' : tolower((unsigned char)c) - 'a' + 10;
}

// The line moves behind the byte, or to what is wrong.
static const char *read_byte(sheet_file *f, const char **line)
{
    const char *c = *line;
    if (!is_hex_digit(c[0])) return "not a hexadecimal digit";
    if (!c[1] || is_space(c[1]) || c[1] == '#') return "one digit, where a byte is two";
    if (!is_hex_digit(c[1])) return (*line)++, "not a hexadecimal digit";
    f->sheet[f->sheet_len++] = (uint8_t)(16 * digit_of(c[0]) + digit_of(c[1]));
    *line += 2;
    return NULL;
}

// A name in quotes. The line moves behind it, or stays where it is wrong.
static const char *read_name(sheet_file *f, const char **line)
{
    const char *name = *line + 1;
    size_t length = strcspn(name, "\"");
    if (f->sheet_len == 0 || f->sheet[f->sheet_len - 1] != 0x51) return "a name, but no 51 before it";
    if (!name[length]) return "a name without its second quote";
    if (length > NUNTENNIS_NAME_BYTES) return "a name of over 16 bytes";
    memset(f->sheet + f->sheet_len, 0, NUNTENNIS_NAME_BYTES);
    memcpy(f->sheet + f->sheet_len, name, length);
    f->sheet_len += NUNTENNIS_NAME_BYTES;
    *line = name + length + 1;
    return NULL;
}

// The bytes of a line, up to its comment. The line moves to what is wrong.
static const char *read_bytes(sheet_file *f, const char **line)
{
    const char *wrong = NULL;
    while (!wrong && **line && **line != '#') {
        if (is_space(**line)) (*line)++;
        else wrong = **line == '"' ? read_name(f, line) : read_byte(f, line);
    }
    return wrong;
}

// A comment's line has no bytes; one with #: is a setting. The line moves to what is wrong.
static const char *read_line(sheet_file *f, const char **line)
{
    const char *start = *line + strspn(*line, BLANKS);
    if (strncmp(start, "#:", 2) != 0) return read_bytes(f, line);
    *line = start + 2 + strspn(start + 2, BLANKS);
    return read_setting(f, *line);
}

// ---- a whole text

// The start of what is wrong, without bytes that a terminal would not show as they are.
static sheet_file_status print_wrong_line(const char *name, size_t number, const char *wrong, const char *at)
{
    enum { SHOWN = 40 };
    fprintf(stderr, "%s:%zu: %s: ", name, number, wrong);
    for (unsigned k = 0; k < SHOWN && at[k]; k++)
        fprintf(stderr, isprint((unsigned char)at[k]) ? "%c" : "\\x%02X", (unsigned char)at[k]);
    fprintf(stderr, "\n");
    return SHEET_FILE_NOT_TEXT;
}

// A line ends with LF, CR or both.
static sheet_file_status read_lines(sheet_file *f, char *text, const char *end)
{
    if (strncmp(text, BYTE_ORDER_MARK, 3) == 0) text += 3;
    for (size_t number = 1; text <= end; number++) {
        char *stop = text + strcspn(text, "\r\n");
        const char *at = text, *wrong = "a zero byte in a text";
        if (stop < end && *stop == 0) return print_wrong_line(f->name, number, wrong, text);
        text = stop + (stop[0] == '\r' && stop[1] == '\n') + 1;
        *stop = 0;
        if ((wrong = read_line(f, &at))) return print_wrong_line(f->name, number, wrong, at);
    }
    return SHEET_FILE_WHOLE;
}

static sheet_file_status print_no_memory(const sheet_file *f)
{
    fprintf(stderr, "%s: no memory for its %zu bytes or more\n", f->name, f->sheet_len);
    return SHEET_FILE_NO_MEMORY;
}

// The most bytes that a text makes: one needs two digits, and a name two quotes.
static size_t room_for(const char *text, size_t length)
{
    size_t room = length + 1;
    for (size_t k = 0; k < length; k++) room += text[k] == '"' ? NUNTENNIS_NAME_BYTES / 2 : 0;
    return room;
}

// The file's bytes are the text, and give way to the sheet's.
static sheet_file_status read_text(sheet_file *f)
{
    char *text = (char *)f->sheet, *end = text + f->sheet_len;
    uint8_t *sheet = malloc(room_for(text, f->sheet_len));
    if (!sheet) return print_no_memory(f);
    f->sheet = sheet;
    f->sheet_len = 0;
    sheet_file_status status = read_lines(f, text, end);
    free(text);
    return status;
}

// ---- raw or text

static int begins_as_text(const char *bytes)
{
    if (strncmp(bytes, BYTE_ORDER_MARK, 3) == 0) bytes += 3;
    while (is_space(*bytes)) bytes++;
    return *bytes == '#' || (is_hex_digit(bytes[0]) && is_hex_digit(bytes[1]));
}

// Where the first control byte is that is no white space, or the length.
static size_t control_byte(const uint8_t *bytes, size_t length)
{
    size_t k = 0;
    while (k < length && (!iscntrl(bytes[k]) || isspace(bytes[k]))) k++;
    return k;
}

// An empty file is the same sheet either way.
static sheet_file_status guess_form(sheet_file *f)
{
    size_t control = control_byte(f->sheet, f->sheet_len);
    int is_text_start = begins_as_text((const char *)f->sheet), has_control = control < f->sheet_len;
    f->form = is_text_start ? SHEET_FILE_HEX : SHEET_FILE_RAW;
    if (is_text_start != has_control || f->sheet_len == 0) return SHEET_FILE_WHOLE;
    fprintf(stderr, "%s: raw bytes or hexadecimal text? It begins ", f->name);
    if (has_control) fprintf(stderr, "as text, but byte %zu is %02X\n", control, f->sheet[control]);
    else fprintf(stderr, "with byte %02X, not as text, and has no control bytes\n", f->sheet[0]);
    return SHEET_FILE_UNCLEAR;
}

// ---- the file

static sheet_file_status print_unread(const sheet_file *f, const char *reason)
{
    fprintf(stderr, "%s: cannot be read: %s\n", f->name, reason);
    return SHEET_FILE_UNREAD;
}

// The whole file, with a zero behind it for the functions on texts.
static sheet_file_status read_all(sheet_file *f, FILE *in)
{
    for (size_t room = 1 << 16; room <= SHEET_FILE_TOO_LONG; room *= 2) {
        uint8_t *wider = realloc(f->sheet, room + 1);
        if (!wider) return print_no_memory(f);
        f->sheet = wider;
        f->sheet_len += fread(f->sheet + f->sheet_len, 1, room - f->sheet_len, in);
        f->sheet[f->sheet_len] = 0;
        if (ferror(in)) return print_unread(f, strerror(errno));
        if (f->sheet_len < room) return SHEET_FILE_WHOLE;
    }
    return print_unread(f, "no sheet has 64 MiB or more");
}

static sheet_file_status read_path(sheet_file *f, const char *path)
{
    int is_standard_input = strcmp(path, "-") == 0;
    FILE *in = is_standard_input ? stdin : fopen(path, "rb");
    f->name = is_standard_input ? "standard input" : path;
    if (!in) return print_unread(f, strerror(errno));
    sheet_file_status status = read_all(f, in);
    if (!is_standard_input) fclose(in);
    return status;
}

sheet_file_status sheet_file_read(sheet_file *f, const char *path, sheet_file_form form)
{
    *f = (sheet_file){.form = form, .plan_limit = 32, .subset_limit = 32};
    sheet_file_status status = read_path(f, path);
    if (status == SHEET_FILE_WHOLE && form == SHEET_FILE_GUESS) status = guess_form(f);
    if (status == SHEET_FILE_WHOLE && f->form == SHEET_FILE_HEX) status = read_text(f);
    return status;
}

void sheet_file_free(sheet_file *f)
{
    free(f->sheet);
    f->sheet = NULL;
}
