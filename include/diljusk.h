/*
 * Rating of valve schedules.
 *
 * diljusk_rate() reads `text_len` bytes at `text`: a network sheet and the schedule behind it.
 * It writes the rating page to `page`, which has room for `page_len` bytes.
 *
 * Returns 0 if the page was written. Its length is
 *     steps * (junctions + pipes + 29) + 19
 * bytes, at most 60,519; bytes behind it are left as they were. The page is not terminated by a zero byte.
 *
 * Returns the number of the refusal otherwise (1 to 7: the text, 9: too little space),
 * and leaves every byte of `page` as it was.
 *
 * The call uses no heap, no global state and no other function than memcpy, memmove and memset.
 * Both pointers must be valid for their lengths, must not overlap, and must not be NULL,
 * also where a length is 0. The text is only read.
 */
#ifndef DILJUSK_H
#define DILJUSK_H

#include <stddef.h>
#include <stdint.h>

#ifdef __cplusplus
extern "C" {
#endif

uint32_t diljusk_rate(const uint8_t *text, size_t text_len, uint8_t *page, size_t page_len);

#ifdef __cplusplus
}
#endif

#endif
