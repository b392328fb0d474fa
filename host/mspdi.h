/* The library's boundary. Each call returns 0, or the number of a refusal; on a refusal every lent output is zeros. On success the part
   behind the result is zeros. Nothing need be tested beforehand. A length counts places, and no pointer is null: where a length is 0, any
   other address will do. Every model is taken for one whose project record has four counts (document 02, E2); one that was stored before is
   refused or means something else: read its tree again. */
#ifndef MSPDI_H
#define MSPDI_H

#include <stddef.h>
#include <stdint.h>

#ifdef __cplusplus
extern "C" {
#endif

/* The text of minutes, 0 to 1,000,000,000: PT8H30M0S. 8: outside that range. 9: the text is longer than its buffer. */
uint32_t mspdi_duration(int64_t minutes, uint8_t *text, size_t text_len, uint64_t *written);

/* The text of a time of day in minutes, 0 to 1440: 08:30:00. 8, 9 as above. */
uint32_t mspdi_time(uint32_t minutes, uint8_t *text, size_t text_len, uint64_t *written);

/* Whether a model keeps the check's list: ids distinct, parents before their children, rows in range, calendars that there are, expenses
   distinct. work may have any length, none too, and never changes the answer; it ends as zeros. Fastest with 3 words for each calendar and
   activity, or for each resource or expense if these are more (host's check_words). 6: the model does not decode. 7: the list is broken. */
uint32_t mspdi_check(const uint8_t *model, size_t model_len, uint32_t *work, size_t work_len);

/* The outline: *count rows of two words, an activity's row and its level from 1. rows needs 2 words an activity and work 4; work ends as
   zeros. 6: the model does not decode. 9: rows or work is shorter than that. */
uint32_t mspdi_outline(const uint8_t *model, size_t model_len, uint32_t *rows, size_t rows_len, uint32_t *work, size_t work_len, uint64_t *count);

/* The sheet of a day, by its number (0 is 1970-01-01), in the calendar of a row, 0 for the main one. Packed, most significant bit first:
   weekday 4 bits (0 is Monday), holiday 1, extra day 1, a count of 32 bits, and so many periods of two times of 11 bits, from and to, in
   minutes; zero bits to a whole byte. 6: the model does not decode. 8: no such calendar, or a day outside the years -9999 to 9999.
   9: the sheet is longer than its buffer. */
uint32_t mspdi_day_sheet(const uint8_t *model, size_t model_len, uint32_t calendar, int32_t date, uint8_t *sheet, size_t sheet_len, uint64_t *written);

/* The model of a packed tree; *written bytes of it are the result. work may have any length, none too, and never changes the answer; it ends as
   zeros. Fastest with 3 words a task, 3 at least, and, behind them, the largest of: 10 a calendar and 5 and, where calendars have exceptions, a word for each day
   from the first to the last day of a calendar's; 8 a task, 4 a calendar and 5; 6 a resource, 4 a calendar and 5; 3 for each resource and assignment
   and 6 (host's work_words counts what is there, with 73,044 words for the days of a calendar's up to 32 exceptions and 7,304,484, all years, for more).
   1: the tree breaks the layout. 2: a name or text is not UTF-8. 3: more than 5,000,000 elements. 4: the root is no Project. 5: a number is too
   long. 9: the model is longer than its buffer. */
uint32_t mspdi_read(const uint8_t *tree, size_t tree_len, uint8_t *model, size_t model_len, uint32_t *work, size_t work_len, uint64_t *written);

#ifdef __cplusplus
}
#endif

#endif
