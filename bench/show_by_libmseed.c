/* The work of `mseed show` with libmseed: headers alone, one line a record, in
 * the text of `mseed show`, byte for byte where both agree.
 *
 *   show_by_libmseed < ARCHIVE
 */
#include <libmseed.h>

static void
quiet (char *message)
{
  (void)message;
}

static void
print_name (const char *r)
{
  static const int from[4] = {18, 8, 13, 15}, len[4] = {2, 5, 2, 3};
  int i, j, n;
  for (i = 0; i < 4; i++)
  {
    for (n = len[i]; n > 0 && (r[from[i] + n - 1] == ' ' || r[from[i] + n - 1] == '\0'); n--)
      ;
    for (j = 0; j < n; j++)
      putchar_unlocked (r[from[i] + j] >= 33 && r[from[i] + j] <= 126 ? r[from[i] + j] : '?');
    putchar_unlocked (i < 3 ? '_' : ' ');
  }
}

int
main (void)
{
  static char outbuf[1 << 16];
  MSFileParam *msfp = NULL;
  MSRecord *msr = NULL;
  off_t pos = 0;
  int64_t records = 0, end = 0;
  char time[40];
  int rc, status = 0;

  setvbuf (stdout, outbuf, _IOFBF, sizeof outbuf);
  ms_loginit (quiet, NULL, quiet, NULL);
  while ((rc = ms_readmsr_r (&msfp, &msr, "-", -1, &pos, NULL, 0, 0, 0)) == MS_NOERROR)
  {
    int f = msr->fsdh->samprate_fact, m = msr->fsdh->samprate_mult;

    records++;
    end = pos + msr->reclen;
    printf ("%lld ", (long long)pos);
    print_name (msr->record);
    printf ("%c length %d samples %lld start %s rate ", msr->dataquality, msr->reclen, (long long)msr->samplecnt,
            ms_hptime2isotimestr (msr->starttime, time, 1));
    if (f && m)
      printf ("%d/%d", f > 0 ? (m > 0 ? f * m : f) : (m > 0 ? m : 1), f > 0 ? (m > 0 ? 1 : -m) : (m > 0 ? -f : f * m));
    else
      printf ("none");
    printf (" encoding %d %s%s\n", (uint8_t)msr->encoding, msr->byteorder == 0 ? "little" : "big",
            msr->Blkt100 ? " blockette100" : "");
  }
  printf ("records %lld\n", (long long)records);
  if (rc != MS_ENDOFFILE)
  {
    printf ("fault at %lld %s\n", (long long)end, ms_errorstr (rc));
    status = 2;
  }
  ms_readmsr_r (&msfp, &msr, NULL, 0, NULL, NULL, 0, 0, 0);
  return status;
}
