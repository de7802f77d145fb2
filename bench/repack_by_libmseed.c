/* The work of `mseed repack` with libmseed, after its own example msrepack (the
 * same calls: mst_addmsrtogroup, mst_pack with a template).
 *
 *   repack_by_libmseed [-R LENGTH] [-E ENCODING] [-t] < ARCHIVE      512 and 11
 *
 * With -t everything is read first and then packed channel by channel, as
 * `mseed repack` does. Without it records go out as soon as they are full,
 * channels as they come, in constant memory. Neither checks that the channels
 * are continuous: a gap starts a new trace.
 */
#include <libmseed.h>

static char outbuf[1 << 16];

static void
quiet (char *message)
{
  (void)message;
}

static void
record_handler (char *record, int reclen, void *ptr)
{
  (void)ptr;
  if (fwrite (record, reclen, 1, stdout) != 1)
    exit (2);
}

static int
pack (MSTrace *mst, int reclen, int encoding, int flush)
{
  int64_t samples;
  return mst_pack (mst, record_handler, NULL, reclen, encoding, 1, &samples, flush, 0, (MSRecord *)mst->prvtptr);
}

int
main (int argc, char **argv)
{
  MSFileParam *msfp = NULL;
  MSRecord *msr = NULL;
  MSTraceGroup *mstg = mst_initgroup (NULL);
  MSTrace *mst;
  int rc, i, reclen = 512, encoding = 11, all = 0;

  for (i = 1; i < argc; i++)
    if (!strcmp (argv[i], "-R"))
      reclen = atoi (argv[++i]);
    else if (!strcmp (argv[i], "-E"))
      encoding = atoi (argv[++i]);
    else if (!strcmp (argv[i], "-t"))
      all = 1;
  setvbuf (stdout, outbuf, _IOFBF, sizeof outbuf);
  ms_loginit (quiet, NULL, quiet, NULL);

  while ((rc = ms_readmsr_r (&msfp, &msr, "-", -1, NULL, NULL, 0, 1, 0)) == MS_NOERROR)
  {
    if (msr->numsamples <= 0)
      continue;
    if (msr->fsdh->time_correct)
      msr->fsdh->act_flags |= 0x02;
    if (!(mst = mst_addmsrtogroup (mstg, msr, 0, -1.0, -1.0)))
      return 2;
    if (!mst->prvtptr)
    {
      msr->sequence_number = 1;
      mst->prvtptr = msr_duplicate (msr, 0);
    }
    if (!all && pack (mst, reclen, encoding, 0) < 0)
      return 2;
  }
  if (all)
    mst_groupsort (mstg, 0);
  for (mst = mstg->traces; mst; mst = mst->next)
    if (mst->numsamples > 0 && pack (mst, reclen, encoding, 1) < 0)
      return 2;
  if (fflush (stdout))
    return 2;
  return rc == MS_ENDOFFILE ? 0 : 2;
}
