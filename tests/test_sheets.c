// The sheets of examples/sheets give the answers that stand in their own files, and the oracle's names.
#include "calls.h"
#include "sheet_file.h"

#include <stdio.h>
#include <string.h>

static bool try_file(const char *path)
{
    static sheet_file f;
    if (sheet_file_read(&f, path, SHEET_FILE_HEX) != SHEET_FILE_WHOLE) return false;
    if (f.answer_count == 0 || f.plain_count == 0) {
        printf("%s: no line '#: answer' or '#: plain'\n", path);
        return false;
    }
    oracle_request r = {f.sheet, f.sheet_len, f.plan_limit, f.subset_limit, f.pins_in, f.pins_out, 0, 0, 0, 3};
    oracle_answer answer = {f.answer[0], f.answer[1], f.answer[2]}, plain = {f.plain[0], f.plain[1], f.plain[2]};
    r.workspace_len = need_of(&r);
    case_name = path;
    expect_call(CALL_GROUNDED, &r, answer, NULL);
    expect_call(CALL_PLAIN, &r, plain, NULL);
    expect_unnamed(&r, answer, plain);
    expect_exchanged(&r, answer, plain);
    expect_names(&r);
    sheet_file_free(&f);
    return true;
}

int main(int arguments, char **argument)
{
    calls_begin();
    for (int k = 1; k < arguments; k++)
        if (!try_file(argument[k])) return 1;
    printf("test_sheets: %d sheets give their answers\n", arguments - 1);
    return arguments > 1 ? 0 : 1;
}
