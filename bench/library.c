/* The work of the library and of libmseed 2.19 over an archive that lies in memory, in one program.
 *
 *   library WHO WORK TURNS < ARCHIVE
 *
 * WHO is `libmseed` or `mseed`; WORK is `read` (each record's header, and its samples), `audit` (of mseed alone), or
 * `pack` (the samples of all records as one series, in Steim or integers as they were). Prints the user and system
 * seconds of all turns, and what was counted: samples, records or bytes, which has to be the same of both.
 */
#include "mseed.h"
#include <libmseed.h>
#include <stdio.h>
#include <stdlib.h>
#include <string.h>
#include <sys/resource.h>

#define MOST (1u << 27)

static uint8_t *archive;
static size_t size;
static int32_t *samples;
static mseed_row *rows;
static size_t nrows, nsamples;
static mseed_progress progress;
static size_t counted;

static double
seconds (void)
{
  struct rusage used;
  getrusage (RUSAGE_SELF, &used);
  return used.ru_utime.tv_sec + used.ru_stime.tv_sec + (used.ru_utime.tv_usec + used.ru_stime.tv_usec) / 1e6;
}

static void
read_by_libmseed (void)
{
  MSRecord *msr = NULL;
  size_t at = 0;
  counted = 0;
  while (at < size)
  {
    int have = (int)(size - at < 1 << 20 ? size - at : 1 << 20);
    if (msr_parse ((char *)archive + at, have, &msr, -1, 1, 0) != MS_NOERROR)
      break;
    counted += (size_t)msr->numsamples;
    at += (size_t)msr->reclen;
  }
  msr_free (&msr);
}

static void
read_by_mseed (void)
{
  mseed_read (archive, size, 0, rows, nrows, samples, nsamples, &progress);
  counted = progress.filled;
}

static void
audit_by_mseed (void)
{
  static uint8_t text[1 << 16];
  mseed_totals totals = { 0, 0, 0, 0 };
  mseed_audit (archive, size, text, sizeof text, &totals);
  counted = totals.records;
}

static void
take_record (char *record, int length, void *unused)
{
  (void)record;
  (void)unused;
  counted += (size_t)length;
}

static void
pack_by_libmseed (void)
{
  MSRecord *msr = msr_init (NULL);
  int64_t packed;
  counted = 0;
  strcpy (msr->network, "XX");
  strcpy (msr->station, "STA");
  strcpy (msr->channel, "BHZ");
  msr->reclen = (int32_t)rows[0].length;
  msr->samprate = 20.0;
  msr->encoding = (int8_t)rows[0].encoding;
  msr->byteorder = 1;
  msr->starttime = ms_seedtimestr2hptime ("2024-05-14T03:20:00");
  msr->datasamples = samples;
  msr->numsamples = (int64_t)progress.filled;
  msr->sampletype = 'i';
  msr_pack (msr, take_record, NULL, &packed, 1, 0);
  msr->datasamples = NULL;
  msr_free (&msr);
}

static void
pack_by_mseed (void)
{
  static uint8_t *records;
  mseed_heading heading;
  mseed_packed packed = { 0, 0 };
  size_t room = 2 * size;
  if (records == NULL)
    records = malloc (room);
  memset (&heading, 0, sizeof heading);
  heading.start = 1715656800000000;
  heading.length = (uint16_t)rows[0].length;
  heading.factor = 20;
  heading.multiplier = 1;
  heading.encoding = rows[0].encoding;
  memcpy (heading.key, "XXSTA    BHZ", 12);
  mseed_pack (&heading, samples, progress.filled, records, room, &packed);
  counted = packed.records * heading.length;
}

int
main (int argc, char **argv)
{
  void (*work) (void) = NULL;
  int is_ours = argc == 4 && strcmp (argv[1], "mseed") == 0;
  long turns = argc == 4 ? atol (argv[3]) : 0, turn;
  double begun;
  archive = malloc (MOST);
  size = fread (archive, 1, MOST, stdin);
  nrows = size / 128 + 1;
  nsamples = size * 8;
  rows = calloc (nrows, sizeof *rows);
  samples = malloc (nsamples * sizeof *samples);
  if (turns == 0 || rows == NULL || samples == NULL)
    return 2;
  read_by_mseed ();
  if (strcmp (argv[2], "read") == 0)
    work = is_ours ? read_by_mseed : read_by_libmseed;
  if (strcmp (argv[2], "audit") == 0)
    work = audit_by_mseed;
  if (strcmp (argv[2], "pack") == 0)
    work = is_ours ? pack_by_mseed : pack_by_libmseed;
  if (work == NULL)
    return 2;
  work ();
  begun = seconds ();
  for (turn = 0; turn < turns; turn++)
    work ();
  printf ("%.6f %zu\n", seconds () - begun, counted);
  return 0;
}
