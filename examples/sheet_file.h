// Sheets in files: raw bytes, or hexadecimal text with comments.
//
// In text a byte is two hexadecimal digits, and # begins a comment that ends with the line. Behind 51 a name may stand in quotes, such as
// 51 "archive": up to sixteen bytes but quotes, and zeros follow to make sixteen. A line that begins with #: says how the sheet is tried;
// copies are listed by number. What a file does not say is P = G = 32 and no pins.
//
//     #: limits 32 32
//     #: pins in 0 2
//     #: pins out 1
//     #: answer 1 5 0      the three words of the grounded decision
//     #: plain 1 0 0       the three words of the plain decision
#ifndef SHEET_FILE_H
#define SHEET_FILE_H

#include <stddef.h>
#include <stdint.h>

// Comments make a text much longer than its sheet; a file of so many bytes is refused, as it may have no end.
#define SHEET_FILE_TOO_LONG ((size_t)1 << 26)

// How a file is to be read. A guess is made only where it is plain: text begins with # or two digits and has no control byte but white
// space; raw bytes begin otherwise and have one. (A raw sheet that has none has no leaf, and its first command is a fault.)
typedef enum { SHEET_FILE_GUESS, SHEET_FILE_HEX, SHEET_FILE_RAW } sheet_file_form;

typedef enum {
    SHEET_FILE_WHOLE,     // read to its end
    SHEET_FILE_UNREAD,    // there is no such file, a read failed, or it is too long
    SHEET_FILE_NOT_TEXT,  // a line of the text is wrong
    SHEET_FILE_UNCLEAR,   // no guess is plain
    SHEET_FILE_NO_MEMORY
} sheet_file_status;

typedef struct {
    const char *name;      // for messages
    sheet_file_form form;  // never a guess once it is read
    uint8_t *sheet;        // all of it, however long
    size_t sheet_len;
    uint64_t plan_limit, subset_limit, pins_in, pins_out;
    uint64_t answer[3], plain[3];
    unsigned answer_count, plain_count;
} sheet_file;

// Reads the file, or standard input where the path is "-". If it is not whole, the reason is on standard error.
sheet_file_status sheet_file_read(sheet_file *file, const char *path, sheet_file_form form);

// After every read, whatever its status.
void sheet_file_free(sheet_file *file);

// The text as one decimal number: NULL, or the reason why it is none of 64 bits.
const char *sheet_file_number(const char *text, uint64_t *number);

// Adds the copies of a list such as "0 2" or "0,2" to a mask, or none for "none": NULL, or the reason why it is no such list.
const char *sheet_file_copies(const char *list, uint64_t *mask);

#endif
