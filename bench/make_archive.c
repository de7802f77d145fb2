/* Makes an archive to measure with: realistic, and the same bytes on every
 * machine.
 *
 *   make_archive -o PATH [-m MEGABYTES] [-E 1|3|10|11] [-R RECLEN] [-b 0|1]
 *                [-c CHANNELS] [-S SEED]
 *
 * The records are packed by libmseed itself (msr_pack), so they are what a
 * data centre's own tools write: blockettes 1000 and 1001, data at 64, first
 * sequence 1.  The channels are multiplexed as a data logger would write
 * them: each gets ten seconds of signal in turn, and a record goes out when
 * it is full.  Every channel is continuous.
 *
 * Signal of one channel: a slow resonance (microseism, AR(2)) and white
 * noise, at a level of the channel's own, and now and then an event that
 * decays exponentially.  Only +, -, * and shifts are used (no libm), so the
 * bytes are the same on every IEEE machine: compile with -ffp-contract=off.
 */
#include <getopt.h>
#include <libmseed.h>

static uint64_t rng_state;
static uint64_t
rng (void) /* splitmix64 */
{
  uint64_t z = (rng_state += 0x9E3779B97F4A7C15ULL);
  z = (z ^ (z >> 30)) * 0xBF58476D1CE4E5B9ULL;
  z = (z ^ (z >> 27)) * 0x94D049BB133111EBULL;
  return z ^ (z >> 31);
}

/* nearly normal, variance 1: the sum of four uniform 16-bit numbers */
static double
noise (void)
{
  uint64_t r = rng ();
  double s = (double)(r & 0xFFFF) + (double)((r >> 16) & 0xFFFF) +
             (double)((r >> 32) & 0xFFFF) + (double)(r >> 48);
  return (s - 131070.0) * (1.0 / 37836.9);
}

typedef struct
{
  MSRecord *msr;
  int32_t *buf;
  int64_t have, cap;
  double rate, white, a1, a2, drive, y1, y2, event, edecay, e1, e2, offset;
  uint64_t event_odds;
} Channel;

static FILE *out;
static int64_t written, limit, records;

static void
record_out (char *record, int reclen, void *ptr)
{
  (void)ptr;
  if (written >= limit)
    return;
  if (fwrite (record, reclen, 1, out) != 1)
  {
    perror ("write");
    exit (2);
  }
  written += reclen;
  records++;
}

static int32_t
sample (Channel *c)
{
  double n = noise (), y, e;

  y = c->a1 * c->y1 - c->a2 * c->y2 + c->drive * n;
  c->y2 = c->y1;
  c->y1 = y;
  if (rng () % c->event_odds == 0)
    c->event = c->white * (30.0 + (double)(rng () % 400));
  e = 1.2 * c->e1 - 0.6 * c->e2 + c->event * noise ();
  c->e2 = c->e1;
  c->e1 = e;
  c->event *= c->edecay;
  y = c->offset + y + c->white * noise () + e;
  if (y > 8388607.0)
    y = 8388607.0;
  if (y < -8388608.0)
    y = -8388608.0;
  return (int32_t)y;
}

int
main (int argc, char **argv)
{
  /* 20, 40 and 100 Hz; levels from a quiet vault to a street */
  static const struct
  {
    const char *sta, *loc, *cha;
    int rate;
    double white;
  } plan[12] = {
      {"ANMO", "00", "BHZ", 40, 2.0},   {"ANMO", "00", "BH1", 40, 2.5},
      {"ANMO", "00", "BH2", 40, 3.0},   {"KONO", "10", "HHZ", 100, 12.0},
      {"KONO", "10", "HHN", 100, 9.0},  {"KONO", "10", "HHE", 100, 15.0},
      {"TOWN", "", "HNZ", 100, 60.0},   {"TOWN", "", "HNN", 100, 45.0},
      {"TOWN", "", "HNE", 100, 130.0},  {"COLA", "00", "BHZ", 20, 25.0},
      {"COLA", "00", "BH1", 20, 6.0},   {"COLA", "00", "BH2", 20, 4.0}};
  Channel ch[12];
  const char *path = NULL;
  int opt, k, nchan = 12, reclen = 512, encoding = 11, order = 1, mega = 100;
  uint64_t seed = 1;

  while ((opt = getopt (argc, argv, "o:m:E:R:b:c:S:")) != -1)
    switch (opt)
    {
    case 'o': path = optarg; break;
    case 'm': mega = atoi (optarg); break;
    case 'E': encoding = atoi (optarg); break;
    case 'R': reclen = atoi (optarg); break;
    case 'b': order = atoi (optarg); break;
    case 'c': nchan = atoi (optarg); break;
    case 'S': seed = strtoull (optarg, NULL, 10); break;
    default: return 3;
    }
  if (!path || nchan < 1 || nchan > 12 || mega < 1)
  {
    fprintf (stderr, "usage: make_archive -o PATH [-m MB] [-E ENC] [-R LEN] [-b ORDER] [-c N] [-S SEED]\n");
    return 3;
  }
  if (!(out = fopen (path, "wb")))
  {
    perror (path);
    return 2;
  }
  limit = (int64_t)mega * 1000000 / reclen * reclen;
  rng_state = seed;

  for (k = 0; k < nchan; k++)
  {
    Channel *c = &ch[k];
    struct blkt_1001_s b1001;

    memset (c, 0, sizeof *c);
    c->rate = plan[k].rate;
    c->white = plan[k].white;
    c->a1 = 1.9990 - 0.02 / c->rate * 20;
    c->a2 = 0.9992 - 0.02 / c->rate * 20;
    c->drive = c->white * 0.3;
    c->edecay = 1.0 - 0.15 / c->rate;
    c->event_odds = (uint64_t)(c->rate * 3600); /* about one an hour */
    c->offset = (double)(int)(rng () % 20001) - 10000.0;
    c->msr = msr_init (NULL);
    strcpy (c->msr->network, "XA");
    strcpy (c->msr->station, plan[k].sta);
    strcpy (c->msr->location, plan[k].loc);
    strcpy (c->msr->channel, plan[k].cha);
    c->msr->dataquality = 'D';
    c->msr->samprate = c->rate;
    c->msr->reclen = reclen;
    c->msr->encoding = encoding;
    c->msr->byteorder = order;
    c->msr->sampletype = 'i';
    c->msr->sequence_number = 1;
    /* 2024-01-01T00:00:00 and some microseconds of the channel's own */
    c->msr->starttime = 1704067200000000LL + (hptime_t)(rng () % 1000000);
    memset (&b1001, 0, sizeof b1001);
    b1001.timing_qual = 100;
    {
      struct blkt_1000_s b1000;
      memset (&b1000, 0, sizeof b1000);
      msr_addblockette (c->msr, (char *)&b1000, sizeof b1000, 1000, 0);
    }
    msr_addblockette (c->msr, (char *)&b1001, sizeof b1001, 1001, 0);
    c->cap = 1 << 20;
    c->buf = malloc (c->cap * sizeof (int32_t));
  }

  while (written < limit)
    for (k = 0; k < nchan && written < limit; k++)
    {
      Channel *c = &ch[k];
      int64_t i, n = (int64_t)(c->rate * 10), packed = 0;

      for (i = 0; i < n; i++)
        c->buf[c->have + i] = sample (c);
      if (encoding == 1) /* a 16-bit digitizer clips */
        for (i = 0; i < n; i++)
        {
          int32_t *p = &c->buf[c->have + i];
          *p = *p > 32767 ? 32767 : *p < -32768 ? -32768 : *p;
        }
      c->have += n;
      c->msr->datasamples = c->buf;
      c->msr->numsamples = c->have;
      if (msr_pack (c->msr, record_out, NULL, &packed, 0, 0) < 0)
        return 2;
      memmove (c->buf, c->buf + packed, (c->have - packed) * sizeof (int32_t));
      c->have -= packed;
      if (c->have + 100000 > c->cap)
        return 2;
    }
  if (fclose (out))
    return 2;
  fprintf (stderr, "%s: %lld bytes, %lld records\n", path, (long long)written,
           (long long)records);
  return 0;
}
