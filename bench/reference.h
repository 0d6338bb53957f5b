// The same calls as nuntennis.h, written by hand in plain C: the baseline of the benchmark. Nothing here is proved.
#ifndef REFERENCE_H
#define REFERENCE_H

#include <stddef.h>
#include <stdint.h>

uint64_t reference_grounded(const uint8_t *sheet, size_t sheet_len,
                            uint64_t plan_limit, uint64_t subset_limit, uint64_t pins_in, uint64_t pins_out,
                            uint32_t *workspace, size_t workspace_len,
                            uint64_t *answer, size_t answer_len);

uint64_t reference_plain(const uint8_t *sheet, size_t sheet_len,
                         uint64_t plan_limit, uint64_t subset_limit, uint64_t pins_in, uint64_t pins_out,
                         uint32_t *workspace, size_t workspace_len,
                         uint64_t *answer, size_t answer_len);

uint64_t reference_report(const uint8_t *sheet, size_t sheet_len, size_t asked,
                          uint64_t plan_limit, uint64_t subset_limit, uint64_t pins_in, uint64_t pins_out,
                          uint32_t *workspace, size_t workspace_len,
                          uint32_t *report, size_t report_len,
                          uint64_t *answer, size_t answer_len);

uint64_t reference_plain_report(const uint8_t *sheet, size_t sheet_len, size_t asked,
                                uint64_t plan_limit, uint64_t subset_limit, uint64_t pins_in, uint64_t pins_out,
                                uint32_t *workspace, size_t workspace_len,
                                uint32_t *report, size_t report_len,
                                uint64_t *answer, size_t answer_len);

#endif
