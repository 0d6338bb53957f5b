// An engine that answers the sheet's first three bytes: with it the example host meets answers that no header has.
#include "nuntennis.h"

#pragma GCC diagnostic ignored "-Wunused-parameter"

static uint64_t tell(const uint8_t *sheet, size_t sheet_len, uint64_t *answer)
{
    for (size_t k = 0; k < 3; k++) answer[k] = k < sheet_len ? sheet[k] : 0;
    return 1;
}

// One part, whatever the sheet.
uint64_t nuntennis_depth(const uint8_t *sheet, size_t sheet_len, uint64_t *answer, size_t answer_len)
{
    answer[0] = NUNTENNIS_YES;
    answer[1] = 1;
    answer[2] = 0;
    return 1;
}

// No names, whatever the sheet.
uint64_t nuntennis_name(const uint8_t *sheet, size_t sheet_len, uint64_t copy, uint64_t *answer, size_t answer_len)
{
    answer[0] = NUNTENNIS_NAMELESS;
    answer[1] = answer[2] = 0;
    return 1;
}

uint64_t nuntennis_grounded(const uint8_t *sheet, size_t sheet_len,
                            uint64_t plan_limit, uint64_t subset_limit, uint64_t pins_in, uint64_t pins_out,
                            uint32_t *workspace, size_t workspace_len,
                            uint64_t *answer, size_t answer_len)
{
    return tell(sheet, sheet_len, answer);
}

uint64_t nuntennis_plain(const uint8_t *sheet, size_t sheet_len,
                         uint64_t plan_limit, uint64_t subset_limit, uint64_t pins_in, uint64_t pins_out,
                         uint32_t *workspace, size_t workspace_len,
                         uint64_t *answer, size_t answer_len)
{
    return tell(sheet, sheet_len, answer);
}

uint64_t nuntennis_start(nuntennis_record *record, uint32_t *workspace, size_t workspace_len,
                         const uint8_t *sheet, size_t sheet_len,
                         uint64_t plan_limit, uint64_t subset_limit, uint64_t pins_in, uint64_t pins_out,
                         uint64_t *answer, size_t answer_len)
{
    return tell(sheet, sheet_len, answer);
}

// Ends at once, so that the verdict is read.
uint64_t nuntennis_step(nuntennis_record *record, uint32_t *workspace, size_t workspace_len,
                        const uint8_t *sheet, size_t sheet_len,
                        uint64_t plan_limit, uint64_t subset_limit, uint64_t pins_in, uint64_t pins_out,
                        uint64_t *answer, size_t answer_len)
{
    answer[0] = NUNTENNIS_ENDED;
    return 1;
}

uint64_t nuntennis_verdict(const nuntennis_record *record, const uint32_t *workspace, size_t workspace_len,
                           const uint8_t *sheet, size_t sheet_len,
                           uint64_t plan_limit, uint64_t subset_limit, uint64_t pins_in, uint64_t pins_out,
                           uint64_t *answer, size_t answer_len)
{
    return tell(sheet, sheet_len, answer);
}
