/* What libmseed packs is read by the library, and what the library packs is read by libmseed, in all encodings and
 * lengths, and integers in both byte orders: the samples have to be the same, and the same as went in.
 *
 *   library_interop
 *
 * A line for each try says what differs, or `the same`.
 */
#include "mseed.h"
#include <libmseed.h>

#include <stdio.h>
#include <stdlib.h>
#include <string.h>

#define SAMPLES 5000
#define ROOM (1u << 21)

static const struct
{
  const char *word;
  int code;
} ENCODINGS[4] = { { "int16", DE_INT16 }, { "int32", DE_INT32 }, { "steim1", DE_STEIM1 }, { "steim2", DE_STEIM2 } };

static int32_t samples[SAMPLES], read_back[2 * SAMPLES];
static uint8_t archive[ROOM];
static size_t size;
static mseed_row rows[SAMPLES];

/* A slow wave under noise, in which each number of bits comes up now and then. */
static void
make_samples (int bits)
{
  uint64_t state = 88172645463325252ULL;
  int i;
  for (i = 0; i < SAMPLES; i++)
  {
    int width = 1 + i / 97 % bits;
    state ^= state << 13;
    state ^= state >> 7;
    state ^= state << 17;
    samples[i] = (int32_t)(state % (1ULL << width)) - (1 << (width - 1)) + i % 50 - 25;
  }
}

static void
take_record (char *record, int length, void *unused)
{
  (void)unused;
  if (size + (size_t)length > ROOM)
    exit (2);
  memcpy (archive + size, record, (size_t)length);
  size += (size_t)length;
}

static const char *
pack_by_libmseed (int encoding, int length, int order)
{
  MSRecord *msr = msr_init (NULL);
  int64_t packed = 0;
  size = 0;
  strcpy (msr->network, "XX");
  strcpy (msr->station, "STA");
  strcpy (msr->channel, "BHZ");
  msr->dataquality = 'D';
  msr->samprate = 20.0;
  msr->starttime = 1704067200000000LL;
  msr->reclen = length;
  msr->encoding = (int8_t)encoding;
  msr->byteorder = (int8_t)order;
  msr->sampletype = 'i';
  msr->datasamples = samples;
  msr->numsamples = SAMPLES;
  msr_pack (msr, take_record, NULL, &packed, 1, 0);
  msr->datasamples = NULL;
  msr_free (&msr);
  return packed == SAMPLES ? NULL : "libmseed's packing";
}

static const char *
pack_by_mseed (int encoding, int length)
{
  mseed_heading heading;
  mseed_packed packed;
  uint32_t code;
  memset (&heading, 0, sizeof heading);
  memset (&packed, 0, sizeof packed);
  heading.start = 1704067200000000LL;
  heading.sequence = 1;
  heading.length = (uint16_t)length;
  heading.factor = 20;
  heading.multiplier = 1;
  heading.encoding = (uint8_t)encoding;
  memcpy (heading.key, "XXSTA    BHZ", 12);
  code = mseed_pack (&heading, samples, SAMPLES, archive, ROOM, &packed);
  size = (size_t)packed.records * (size_t)length;
  return code == MSEED_OK ? NULL : mseed_why (code);
}

/* Each record by libmseed. */
static const char *
read_by_libmseed (void)
{
  MSRecord *msr = NULL;
  size_t at = 0, count = 0;
  const char *differs = NULL;
  while (at < size && differs == NULL)
  {
    if (msr_parse ((char *)archive + at, (int)(size - at), &msr, -1, 1, 0) != MS_NOERROR)
      differs = "libmseed's reading";
    else if (count + (size_t)msr->numsamples > SAMPLES)
      differs = "libmseed's count";
    else
    {
      memcpy (read_back + count, msr->datasamples, (size_t)msr->numsamples * sizeof *samples);
      count += (size_t)msr->numsamples;
      at += (size_t)msr->reclen;
    }
  }
  msr_free (&msr);
  if (differs == NULL && (count != SAMPLES || memcmp (read_back, samples, sizeof samples) != 0))
    differs = "libmseed's samples";
  return differs;
}

static const char *
read_by_mseed (void)
{
  mseed_progress progress;
  uint32_t code;
  memset (&progress, 0, sizeof progress);
  code = mseed_read (archive, size, 0, rows, SAMPLES, read_back, 2 * SAMPLES, &progress);
  if (code != MSEED_OK)
    return mseed_why (code);
  return progress.filled == SAMPLES && memcmp (read_back, samples, sizeof samples) == 0 ? NULL : "the samples";
}

static void
say (const char *who, int k, int length, int order, const char *packed)
{
  const char *differs = packed != NULL ? packed : read_by_mseed ();
  if (differs == NULL)
    differs = read_by_libmseed ();
  printf ("%s packs %s in %d bytes, %s: %s\n", who, ENCODINGS[k].word, length, order ? "big" : "little",
          differs != NULL ? differs : "the same");
}

int
main (void)
{
  int k, length, order;
  for (k = 0; k < 4; k++)
    for (length = 128; length <= 4096; length *= 2)
    {
      make_samples (ENCODINGS[k].code == DE_INT16 ? 14 : 28);
      for (order = ENCODINGS[k].code >= DE_STEIM1; order < 2; order++)
        say ("libmseed", k, length, order, pack_by_libmseed (ENCODINGS[k].code, length, order));
      say ("mseed", k, length, 1, pack_by_mseed (ENCODINGS[k].code, length));
    }
  return 0;
}
