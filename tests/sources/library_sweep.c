/* Calls the library over an archive, over each beginning of it, and over it with each byte changed, with rooms of every
 * size; each thing that a call is given lies between two pages that can't be touched, once at the end of the pages
 * between them and once at their beginning.
 *
 *   library_sweep ARCHIVE STEP [once]
 *
 * STEP is how far apart the beginnings and the changed bytes are; with `once` only the archive itself is gone through.
 * Prints how many calls there were, or what was wrong.
 */
#define _GNU_SOURCE
#include "mseed.h"

#include <stdio.h>
#include <stdlib.h>
#include <string.h>
#include <sys/mman.h>

#define PATTERN 0xA5
#define MOST_ROWS 512
#define MOST_SAMPLES 65536

static size_t page = 4096, calls;

/* Some pages between two that can't be touched. */
struct fence
{
  uint8_t *begin;
  size_t size;
};

static struct fence archive_fence, text_fence, rows_fence, samples_fence, small_fence, records_fence;

static void
fail (const char *what, size_t at)
{
  printf ("%s at %zu\n", what, at);
  exit (1);
}

static struct fence
fenced (size_t size)
{
  size_t inner = (size + page) / page * page;
  uint8_t *all = mmap (NULL, inner + 2 * page, PROT_NONE, MAP_PRIVATE | MAP_ANONYMOUS, -1, 0);
  struct fence made;
  if (all == MAP_FAILED || mprotect (all + page, inner, PROT_READ | PROT_WRITE) != 0)
    fail ("no memory", size);
  made.begin = all + page;
  made.size = inner;
  return made;
}

/* Room for so many bytes, filled with the pattern: at the end of the pages, or at their beginning. */
static void *
room_in (struct fence fence, size_t size, int at_end)
{
  uint8_t *room = at_end ? fence.begin + fence.size - size : fence.begin;
  if (size > fence.size)
    fail ("too small a room", size);
  memset (room, PATTERN, size);
  return room;
}

static int
is_pattern (const void *bytes, size_t size)
{
  const uint8_t *at = bytes;
  size_t k;
  for (k = 0; k < size; k++)
    if (at[k] != PATTERN)
      return 0;
  return 1;
}

/* ---- texts */
typedef uint32_t (*reporter) (const uint8_t *, size_t, uint8_t *, size_t, mseed_totals *);
static const reporter REPORTERS[] = { mseed_audit, mseed_audit_each, mseed_part };

/* A room of a text holds the first bytes of the whole, and the pattern after them. */
static void
check_room (reporter report, const uint8_t *archive, size_t size, const uint8_t *whole, const mseed_totals *totals,
            uint32_t status, size_t room, int at_end)
{
  uint8_t *text = room_in (text_fence, room, at_end);
  mseed_totals *answer = room_in (small_fence, sizeof *answer, at_end);
  size_t shown = room < totals->length ? room : (size_t)totals->length;
  calls++;
  if (report (archive, size, text, room, answer) != status || memcmp (answer, totals, sizeof *answer) != 0)
    fail ("another answer", room);
  if (memcmp (text, whole, shown) != 0 || !is_pattern (text + shown, room - shown))
    fail ("another text", room);
}

static void
check_texts (const uint8_t *archive, size_t size, int all_rooms, int at_end)
{
  static uint8_t whole[1 << 17];
  size_t k, room;
  for (k = 0; k < sizeof REPORTERS / sizeof *REPORTERS; k++)
  {
    mseed_totals totals;
    uint32_t status;
    memset (&totals, 0, sizeof totals);
    status = REPORTERS[k](archive, size, whole, sizeof whole, &totals);
    calls++;
    if (status > MSEED_FAULT || totals.length > sizeof whole || totals.broken > totals.channels)
      fail ("a strange answer", k);
    check_room (REPORTERS[k], archive, size, whole, &totals, status, 0, at_end);
    check_room (REPORTERS[k], archive, size, whole, &totals, status, totals.length, at_end);
    check_room (REPORTERS[k], archive, size, whole, &totals, status, totals.length + 1, at_end);
    for (room = 1; all_rooms && room < totals.length; room++)
      check_room (REPORTERS[k], archive, size, whole, &totals, status, room, at_end);
  }
}

/* ---- records */
static mseed_row all_rows[MOST_ROWS];
static int32_t all_samples[MOST_SAMPLES];
static mseed_progress all;
static uint32_t all_code;

/* The places that reading all of them takes: a record whose samples can't be read wants places for them, too. */
static size_t all_room;

/* The rows and samples of so many places are the first of all, and the pattern stands after the rows. */
static void
check_places (const uint8_t *archive, size_t size, size_t nrows, size_t room, int at_end)
{
  mseed_row *rows = room_in (rows_fence, nrows * sizeof *rows, at_end);
  int32_t *samples = room_in (samples_fence, room * sizeof *samples, at_end);
  mseed_progress *answer = room_in (small_fence, sizeof *answer, at_end);
  uint32_t code = mseed_read (archive, size, 0, rows, nrows, samples, room, answer);
  calls++;
  if (answer->rows > nrows || answer->filled > room || answer->offset > size)
    fail ("more than there is room for", nrows);
  if (answer->rows > all.rows || memcmp (rows, all_rows, answer->rows * sizeof *rows) != 0)
    fail ("other rows", nrows);
  if (memcmp (samples, all_samples, answer->filled * sizeof *samples) != 0)
    fail ("other samples", room);
  if (!is_pattern (rows + answer->rows, (nrows - answer->rows) * sizeof *rows))
    fail ("a row after the last", nrows);
  if (nrows >= all.rows && room >= all_room && (code != all_code || answer->offset != all.offset))
    if (!(code == MSEED_NO_ROW && nrows == all.rows))
      fail ("another code", nrows);
  if (code == MSEED_NO_ROW && answer->rows != nrows)
    fail ("rows are left", nrows);
  if (code == MSEED_NO_ROOM && answer->filled + answer->needed <= room)
    fail ("places are left", room);
}

/* One record after another, with a place for one row, is the same as all at once; so are the rows alone. */
static void
check_steps (const uint8_t *archive, size_t size, int at_end)
{
  size_t offset = 0, index, filled = 0;
  for (index = 0; index < all.rows; index++)
  {
    mseed_row want = all_rows[index], *row = room_in (rows_fence, sizeof *row, at_end);
    size_t count = want.code == MSEED_OK ? want.samples : 0;
    int32_t *samples = room_in (samples_fence, want.samples * sizeof *samples, at_end);
    mseed_progress *answer = room_in (small_fence, sizeof *answer, at_end);
    mseed_detail *detail;
    uint32_t code = mseed_read (archive, size, offset, row, 1, samples, want.samples, answer);
    calls += 2;
    want.first = 0;
    if (answer->rows != 1 || answer->filled != count || memcmp (row, &want, sizeof want) != 0)
      fail ("another row by itself", offset);
    if (memcmp (samples, all_samples + filled, count * sizeof *samples) != 0)
      fail ("other samples by themselves", offset);
    if (code != MSEED_NO_ROW && code != MSEED_OK)
      fail ("another end by itself", offset);
    offset = (size_t)answer->offset;
    detail = room_in (small_fence, sizeof *detail, at_end);
    samples = room_in (samples_fence, want.samples * sizeof *samples, at_end);
    code = mseed_samples (archive + want.offset, size - want.offset, samples, want.samples, detail);
    if (code != want.code || (code == MSEED_OK && detail->first != want.samples))
      fail ("another code of a record", want.offset);
    if (memcmp (samples, all_samples + filled, count * sizeof *samples) != 0)
      fail ("other samples of a record", want.offset);
    filled += count;
  }
}

static void
check_heads (const uint8_t *archive, size_t size, int at_end)
{
  mseed_row *rows = room_in (rows_fence, all.rows * sizeof *rows, at_end);
  mseed_progress *answer = room_in (small_fence, sizeof *answer, at_end);
  uint32_t code = mseed_rows (archive, size, 0, rows, all.rows, answer);
  size_t index, count = 0;
  calls++;
  if (answer->rows != all.rows || answer->offset != all.offset)
    fail ("other heads", answer->rows);
  if (code != all_code && !(code == MSEED_NO_ROW && all.offset < size))
    fail ("another code of heads", code);
  for (index = 0; index < all.rows; index++)
  {
    mseed_row want = all_rows[index];
    want.first = count;
    want.code = MSEED_OK;
    if (memcmp (&rows[index], &want, sizeof want) != 0)
      fail ("another head", index);
    count += want.samples;
  }
  if (answer->filled != count)
    fail ("another count", count);
}

static void
check_records (const uint8_t *archive, size_t size, int all_rooms, int at_end)
{
  size_t k;
  memset (all_rows, 0, sizeof all_rows);
  memset (&all, 0, sizeof all);
  all_code = mseed_read (archive, size, 0, all_rows, MOST_ROWS, all_samples, MOST_SAMPLES, &all);
  calls++;
  if (all_code == MSEED_NO_ROW || all_code == MSEED_NO_ROOM)
    fail ("too few places", all.rows);
  if ((all_code == MSEED_OK) != (all.offset == size))
    fail ("a strange end", all.offset);
  for (all_room = k = 0; k < all.rows; k++)
    if (all_room < all_rows[k].first + all_rows[k].samples)
      all_room = all_rows[k].first + all_rows[k].samples;
  check_places (archive, size, all.rows, all_room, at_end);
  check_places (archive, size, all.rows + 1, all_room + 1, at_end);
  check_places (archive, size, 0, 0, at_end);
  check_heads (archive, size, at_end);
  check_steps (archive, size, at_end);
  for (k = 1; all_rooms && k < all.rows; k++)
    check_places (archive, size, k, all_room, at_end);
  for (k = 1; all_rooms && k < all_room; k++)
    check_places (archive, size, all.rows, k, at_end);
}

/* ---- packing */
static uint8_t whole_packing[1 << 19];

/* A room of a packing holds the first bytes of the whole, and the pattern after them. */
static void
check_packing_room (const mseed_heading *heading, const int32_t *samples, size_t count, size_t size, size_t room,
                    int at_end)
{
  mseed_packed *answer = room_in (small_fence, sizeof *answer, at_end);
  uint8_t *records = room_in (records_fence, room, at_end);
  size_t shown = room < size ? room : size;
  calls++;
  if (mseed_pack (heading, samples, count, records, room, answer) != MSEED_OK || answer->records * heading->length != size
      || answer->index != 0)
    fail ("another answer of packing", room);
  if (memcmp (records, whole_packing, shown) != 0 || !is_pattern (records + shown, room - shown))
    fail ("another packing", room);
}

/* What was packed reads back; rooms of every size, where all of them are asked for, else those about the end. */
static void
check_packed (const mseed_heading *heading, const int32_t *samples, size_t count, int all_rooms, int at_end)
{
  mseed_packed *answer = room_in (small_fence, sizeof *answer, at_end);
  uint8_t *records = room_in (records_fence, 0, at_end);
  size_t size, room;
  mseed_progress progress;
  uint32_t code = mseed_pack (heading, samples, count, records, 0, answer);
  calls++;
  if (count == 0 ? code != MSEED_EMPTY : code != MSEED_OK && code != MSEED_SAMPLE_TOO_LARGE
      && code != MSEED_DIFFERENCE_TOO_LARGE)
    fail ("another code of packing", code);
  if (code != MSEED_OK)
    return;
  size = (size_t)answer->records * heading->length;
  code = mseed_pack (heading, samples, count, whole_packing, sizeof whole_packing, answer);
  calls++;
  if (code != MSEED_OK || size > sizeof whole_packing)
    fail ("another code of packing", code);
  for (room = all_rooms || size == 0 ? 0 : size - 1; room <= size + 1; room++)
    check_packing_room (heading, samples, count, size, room, at_end);
  code = mseed_read (whole_packing, size, 0, all_rows, MOST_ROWS, all_samples + count, MOST_SAMPLES - count, &progress);
  calls++;
  if (code != MSEED_OK || progress.filled != count
      || memcmp (all_samples + count, samples, count * sizeof *samples) != 0)
    fail ("what was packed reads otherwise", heading->length);
}

static void
check_packing (int at_end)
{
  static const uint8_t ENCODINGS[] = { MSEED_INT16, MSEED_INT32, MSEED_STEIM1, MSEED_STEIM2 };
  size_t k, length, count = all.filled < 1000 ? all.filled : 1000;
  int32_t *samples = room_in (samples_fence, count * sizeof *samples, at_end);
  mseed_heading heading;
  memcpy (samples, all_samples, count * sizeof *samples);
  memset (&heading, 0, sizeof heading);
  heading.factor = 20;
  heading.multiplier = 1;
  memcpy (heading.key, "XXSTA    BHZ", 12);
  for (k = 0; k < sizeof ENCODINGS; k++)
    for (length = 128; length <= 4096; length *= 2)
    {
      heading.length = (uint16_t)length;
      heading.encoding = ENCODINGS[k];
      check_packed (&heading, samples, count, length == 512 || k == 3, at_end);
    }
}

/* ---- archives */
static void
check (const uint8_t *given, size_t size, int all_rooms)
{
  int at_end;
  for (at_end = 0; at_end < 2; at_end++)
  {
    uint8_t *archive = room_in (archive_fence, size, at_end);
    memcpy (archive, given, size);
    check_texts (archive, size, all_rooms, at_end);
    check_records (archive, size, all_rooms, at_end);
    if (all_rooms)
      check_packing (at_end);
    if (memcmp (archive, given, size) != 0)
      fail ("the archive was written to", size);
  }
}

int
main (int argc, char **argv)
{
  static uint8_t archive[1 << 17];
  FILE *file = argc > 2 ? fopen (argv[1], "rb") : NULL;
  size_t size, step, k;
  if (file == NULL)
    return 2;
  size = fread (archive, 1, sizeof archive, file);
  step = (size_t)strtoul (argv[2], NULL, 10);
  fclose (file);
  archive_fence = fenced (size);
  text_fence = fenced (1 << 17);
  rows_fence = fenced ((MOST_ROWS + 1) * sizeof (mseed_row));
  samples_fence = fenced ((MOST_SAMPLES + 1) * sizeof (int32_t));
  small_fence = fenced (64);
  records_fence = fenced (1 << 17);
  check (archive, size, 1);
  for (k = 0; argc == 3 && k < size; k += step)
  {
    uint8_t was = archive[k];
    check (archive, k, 0);
    archive[k] = (uint8_t)(was ^ (1u << k / step % 8));
    check (archive, size, 0);
    archive[k] = was;
  }
  printf ("%zu calls\n", calls);
  return 0;
}
