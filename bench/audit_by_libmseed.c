/* The work of `mseed audit` as a user of libmseed 2.19 would program it: for
 * each record parse, unpack the samples, note libmseed's own warning where the
 * last Steim sample is not Xn, and compare the start with the expected one of
 * its channel within half a sample period. One buffer slides over the input.
 *
 *   audit_by_libmseed < ARCHIVE
 *
 * The lines of continuous channels, and the counts, are those of `mseed audit`,
 * byte for byte. The words `undecoded`, `lastdiffers`, `norate`, `ratechange`,
 * `gap` and `overlap` stand for what libmseed notices; it judges no fields of
 * time, no sums past 32 bits, no little-endian Steim and no blockette 100.
 * Status as of `mseed audit`: 0, 1, 2.
 */
#include <libmseed.h>
#include <unistd.h>

typedef struct
{
  char key[12]; /* network, station, location, channel */
  hptime_t start, last_start;
  double last_rate;
  int64_t last_n, records, samples, findings, number, offset;
  int32_t num, den;
  char why[64];
} Channel;

static Channel *channels;
static size_t nchannels, capacity;
static uint32_t *slots; /* open hashing, index + 1 */
static size_t nslots;

static int integrity; /* set by libmseed's warning */
static void
on_message (char *message)
{
  if (strstr (message, "integrity check"))
    integrity = 1;
}

static void *
grow (void *p, size_t n)
{
  if (!(p = realloc (p, n)))
  {
    fprintf (stderr, "no memory\n");
    exit (2);
  }
  return p;
}

static size_t
slot_of (const char *key)
{
  uint64_t a;
  uint32_t b;
  size_t s;
  memcpy (&a, key, 8);
  memcpy (&b, key + 8, 4);
  a = (a ^ (uint64_t)b << 17) * 0x9E3779B97F4A7C15ULL;
  for (s = (a >> 40) & (nslots - 1); slots[s] && memcmp (channels[slots[s] - 1].key, key, 12); s = (s + 1) & (nslots - 1))
    ;
  return s;
}

static Channel *
channel_of (const char *record)
{
  char key[12];
  size_t s, i;
  memcpy (key, record + 18, 2);
  memcpy (key + 2, record + 8, 10);
  if (2 * (nchannels + 1) > nslots)
  {
    nslots = nslots ? 2 * nslots : 64;
    slots = grow (slots, nslots * sizeof *slots);
    memset (slots, 0, nslots * sizeof *slots);
    for (i = 0; i < nchannels; i++)
      slots[slot_of (channels[i].key)] = i + 1;
  }
  s = slot_of (key);
  if (!slots[s])
  {
    if (nchannels == capacity)
      channels = grow (channels, (capacity = capacity ? 2 * capacity : 32) * sizeof *channels);
    memset (&channels[nchannels], 0, sizeof *channels);
    memcpy (channels[nchannels].key, key, 12);
    slots[s] = ++nchannels;
  }
  return &channels[slots[s] - 1];
}

static int64_t records;

static void
judge (MSRecord *msr, int undecoded, int64_t offset)
{
  Channel *c;
  char why[64];

  records++;
  if (msr->samplecnt <= 0)
    return;
  c = channel_of (msr->record);
  why[0] = '\0';
  if (undecoded)
    snprintf (why, sizeof why, "undecoded %d", msr->encoding);
  else if (integrity)
    strcpy (why, "lastdiffers");
  else if (msr->samprate <= 0.0)
    strcpy (why, "norate");
  else if (c->records)
  {
    double period = 1e6 / msr->samprate;
    double off = (double)(msr->starttime - c->last_start) - (double)c->last_n * period;

    if (!MS_ISRATETOLERABLE (msr->samprate, c->last_rate))
      strcpy (why, "ratechange");
    else if (off > period / 2)
      snprintf (why, sizeof why, "gap %lld", (long long)off);
    else if (off < -period / 2)
      snprintf (why, sizeof why, "overlap %lld", (long long)-off);
  }
  if (why[0] && c->findings++ == 0)
  {
    strcpy (c->why, why);
    c->number = records;
    c->offset = offset;
  }
  if (!c->records)
  {
    int f = msr->fsdh->samprate_fact, m = msr->fsdh->samprate_mult;
    c->start = msr->starttime;
    c->num = f > 0 ? (m > 0 ? f * m : f) : (m > 0 ? m : 1);
    c->den = f > 0 ? (m > 0 ? 1 : -m) : (m > 0 ? -f : f * m);
  }
  c->records++;
  c->samples += msr->samplecnt;
  c->last_start = msr->starttime;
  c->last_n = msr->samplecnt;
  c->last_rate = msr->samprate;
}

/* msr_parse for a record whose samples may not decode */
static int
parse (char *at, int have, MSRecord **msr, int *undecoded)
{
  int rc;
  integrity = 0;
  *undecoded = 0;
  rc = msr_parse (at, have, msr, -1, 1, 0);
  if (rc < 0 && msr_parse (at, have, msr, -1, 0, 0) == MS_NOERROR)
  {
    *undecoded = 1;
    return MS_NOERROR;
  }
  return rc;
}

static int
by_key (const void *a, const void *b)
{
  return memcmp (a, b, 12);
}

static void
print_name (const char *k)
{
  static const int from[4] = {0, 2, 7, 9}, len[4] = {2, 5, 2, 3};
  int i, j, n;
  for (i = 0; i < 4; i++)
  {
    for (n = len[i]; n > 0 && (k[from[i] + n - 1] == ' ' || k[from[i] + n - 1] == '\0'); n--)
      ;
    for (j = 0; j < n; j++)
      putchar (k[from[i] + j] >= 33 && k[from[i] + j] <= 126 ? k[from[i] + j] : '?');
    putchar (i < 3 ? '_' : ' ');
  }
}

/* Judges record after record, and reports where the input ended otherwise. */
static void
judge_all (char *fault, size_t room)
{
  MSRecord *msr = NULL;
  int64_t base = 0;
  int eof = 0, undecoded;
  size_t cap = 2 * MAXRECLEN, have = 0, at = 0;
  char *buf = grow (NULL, cap);

  for (;;)
  {
    /* read on where less than the longest record is left */
    if (!eof && have - at < MAXRECLEN)
    {
      memmove (buf, buf + at, have - at);
      base += at;
      have -= at;
      at = 0;
      while (!eof && have < cap)
      {
        ssize_t got = read (0, buf + have, cap - have);
        if (got <= 0)
          eof = 1;
        else
          have += got;
      }
    }
    if (at == have)
      return;
    int rc = parse (buf + at, have - at > MAXRECLEN ? MAXRECLEN : (int)(have - at), &msr, &undecoded);
    if (rc != MS_NOERROR)
    {
      if (rc > 0 || have - at < 48)
        snprintf (fault, room, "fault at %lld truncated %lld", (long long)(base + at), (long long)(have - at));
      else
        snprintf (fault, room, "fault at %lld notdata", (long long)(base + at));
      return;
    }
    judge (msr, undecoded, base + at);
    at += msr->reclen;
  }
}

int
main (void)
{
  char fault[64] = "", time[32];
  int i, broken = 0;

  ms_loginit (on_message, NULL, on_message, NULL);
  judge_all (fault, sizeof fault);
  if (nchannels)
    qsort (channels, nchannels, sizeof *channels, by_key);
  for (i = 0; i < (int)nchannels; i++)
  {
    Channel *c = &channels[i];
    print_name (c->key);
    if (c->findings)
    {
      broken = 1;
      printf ("broken findings %lld first record %lld offset %lld %s\n", (long long)c->findings,
              (long long)c->number, (long long)c->offset, c->why);
    }
    else
      printf ("continuous %s rate %d/%d records %lld samples %lld\n", ms_hptime2isotimestr (c->start, time, 1),
              c->num, c->den, (long long)c->records, (long long)c->samples);
  }
  printf ("records %lld channels %zu\n", (long long)records, nchannels);
  if (fault[0])
    puts (fault);
  return fault[0] ? 2 : broken;
}
