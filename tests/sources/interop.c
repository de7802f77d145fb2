/* Archives that libmseed packs, in all encodings, lengths and byte orders, are packed anew by `mseed repack`,
 * and what it writes is read by libmseed: samples, starts and rates have to be the same.
 *
 *   interop MSEED FOLDER
 *
 * The archives go to files in FOLDER. A line for each try says what differs, or `the same`.
 */
#include <libmseed.h>
#include <sys/wait.h>

#define CHANNELS 3
#define SAMPLES 5000

/* What a channel holds. */
typedef struct
{
  char name[4];
  double rate;
  hptime_t start;
  int32_t samples[SAMPLES];
} Channel;

static const struct
{
  const char *word;
  int code;
} encodings[4] = {{"int16", DE_INT16}, {"int32", DE_INT32}, {"steim1", DE_STEIM1}, {"steim2", DE_STEIM2}};

static Channel channels[CHANNELS] = {{.name = "BHE", .rate = 20.0, .start = 1704067200000000LL},
                                     {.name = "BHN", .rate = 0.1, .start = 1483228790123456LL},
                                     {.name = "BHZ", .rate = 200.0, .start = 1709251199999949LL}};
static const char *program, *folder;

/* A slow wave under noise, in which each number of bits comes up now and then. */
static void
make_samples (int bits)
{
  uint64_t state = 88172645463325252ULL;
  int c, i;

  for (c = 0; c < CHANNELS; c++)
    for (i = 0; i < SAMPLES; i++)
    {
      int width = 1 + i / 97 % bits;

      state ^= state << 13;
      state ^= state >> 7;
      state ^= state << 17;
      channels[c].samples[i] = (int32_t)(state % (1ULL << width)) - (1 << (width - 1)) + i % 50 - 25;
    }
}

static void
put_record (char *record, int length, void *file)
{
  if (fwrite (record, length, 1, file) != 1)
    exit (2);
}

static void
turn (char *bytes, int count)
{
  int i;

  for (i = 0; i < count / 2; i++)
  {
    char byte = bytes[i];
    bytes[i] = bytes[count - 1 - i];
    bytes[count - 1 - i] = byte;
  }
}

/* The same with the header and the blockettes in the other byte order, and the data as they are. */
static void
put_turned (char *record, int length, void *file)
{
  static const int places[12] = {20, 22, 28, 30, 32, 34, 44, 46, 48, 50, 56, 58};
  char turned[4096];
  int i;

  memcpy (turned, record, length);
  for (i = 0; i < 12; i++)
    turn (turned + places[i], 2);
  turn (turned + 40, 4);
  put_record (turned, length, file);
}

static int
pack_channel (FILE *file, Channel *channel, int encoding, int length, int order)
{
  int is_turned = !order && (encoding == DE_STEIM1 || encoding == DE_STEIM2);
  MSRecord *msr = msr_init (NULL);
  struct blkt_1000_s b1000 = {0};
  struct blkt_1001_s b1001 = {0};
  int64_t packed = 0;
  int records;

  strcpy (msr->network, "XX");
  strcpy (msr->station, "STA");
  strcpy (msr->channel, channel->name);
  msr->dataquality = 'D';
  msr->sequence_number = 1;
  msr->samprate = channel->rate;
  msr->starttime = channel->start;
  msr->reclen = length;
  msr->encoding = encoding;
  msr->byteorder = is_turned ? 1 : order;
  msr->sampletype = 'i';
  msr->datasamples = channel->samples;
  msr->numsamples = SAMPLES;
  msr_addblockette (msr, (char *)&b1000, sizeof b1000, 1000, 0);
  msr_addblockette (msr, (char *)&b1001, sizeof b1001, 1001, 0);
  records = msr_pack (msr, is_turned ? put_turned : put_record, file, &packed, 1, 0);
  msr->datasamples = NULL;
  msr_free (&msr);
  return records > 0 && packed == SAMPLES;
}

/* An archive of all channels; the order is that of the header, and of integers. Steim words are big-endian. */
static int
pack_archive (const char *path, int encoding, int length, int order)
{
  int c, fine = 1;
  FILE *file = fopen (path, "wb");

  if (!file)
    exit (2);
  for (c = 0; c < CHANNELS; c++)
    fine &= pack_channel (file, &channels[c], encoding, length, order);
  return fclose (file) == 0 && fine;
}

static int
repack (const char *from, const char *to, const char *encoding, int length)
{
  char line[10000];
  int status;

  snprintf (line, sizeof line, "'%s' repack --encoding %s --length %d < '%s' > '%s'", program, encoding, length, from, to);
  status = system (line);
  return WIFEXITED (status) ? WEXITSTATUS (status) : -1;
}

/* What libmseed reads of a record is what the channel has from its nth sample on. */
static const char *
compare_record (const MSRecord *msr, const Channel *channel, int64_t n, int encoding, int length)
{
  hptime_t start = channel->start + (hptime_t)(n / channel->rate * HPTMODULUS);

  if (msr->reclen != length || msr->encoding != encoding || msr->byteorder != 1)
    return "the form";
  if (n + msr->numsamples > SAMPLES || memcmp (msr->datasamples, channel->samples + n, msr->numsamples * sizeof (int32_t)))
    return "the samples";
  if (msr->samprate != channel->rate)
    return "the rate";
  if (msr->starttime < start - 1 || msr->starttime > start + 1 || (n == 0 && msr->starttime != start))
    return "the start";
  return NULL;
}

/* What differs in the archive from the channels, one after another; nothing where none does. */
static const char *
compare (const char *path, int encoding, int length)
{
  MSFileParam *state = NULL;
  MSRecord *msr = NULL;
  const char *differs = NULL;
  int64_t n = 0;
  int c = 0, code;

  while ((code = ms_readmsr_r (&state, &msr, path, 0, NULL, NULL, 0, 1, 0)) == MS_NOERROR && !differs)
  {
    if (c < CHANNELS && n == SAMPLES)
    {
      c++;
      n = 0;
    }
    if (c == CHANNELS || strcmp (msr->channel, channels[c].name))
      differs = "the channels";
    else
      differs = compare_record (msr, &channels[c], n, encoding, length);
    n += msr->numsamples;
  }
  if (!differs && (code != MS_ENDOFFILE || c != CHANNELS - 1 || n != SAMPLES))
    differs = "the end";
  ms_readmsr_r (&state, &msr, NULL, 0, NULL, NULL, 0, 0, 0);
  return differs;
}

/* Packs with libmseed, packs anew, and reads with libmseed. */
static void
try (int bits, int from, int from_length, int order, int to, int to_length)
{
  char in[4096], out[4096];
  const char *differs;

  snprintf (in, sizeof in, "%s/in.mseed", folder);
  snprintf (out, sizeof out, "%s/out.mseed", folder);
  make_samples (bits);
  if (!pack_archive (in, encodings[from].code, from_length, order))
    differs = "what libmseed packed";
  else if (repack (in, out, encodings[to].word, to_length) != 0)
    differs = "the status";
  else
    differs = compare (out, encodings[to].code, to_length);
  printf ("%d bits, %s %d %s to %s %d: %s\n", bits, encodings[from].word, from_length, order ? "big" : "little",
          encodings[to].word, to_length, differs ? differs : "the same");
}

int
main (int argc, char **argv)
{
  int from, to, order, i, j;

  if (argc < 3)
    return 3;
  program = argv[1];
  folder = argv[2];
  for (from = 0; from < 4; from++)
    for (to = 0; to < 4; to++)
      for (order = 0; order < 2; order++)
        for (i = 7; i <= 12; i++)
        {
          j = 7 + (i + from + to + order) % 6;
          try (12, from, 1 << i, order, to, 1 << j);
          if (from > 0 && to > 0)
            try (28, from, 1 << i, order, to, 1 << j);
        }
  return 0;
}
