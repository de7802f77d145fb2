/* What libmseed reads of an archive: a line for each record with samples, in their order: the channel, the start in
 * microseconds, the rate, and the samples.
 *
 *   samples_by_libmseed ARCHIVE
 */
#include <libmseed.h>

int
main (int argc, char **argv)
{
  MSFileParam *state = NULL;
  MSRecord *msr = NULL;
  int64_t i;
  int code;

  if (argc < 2)
    return 3;
  while ((code = ms_readmsr_r (&state, &msr, argv[1], 0, NULL, NULL, 0, 1, 0)) == MS_NOERROR)
  {
    if (msr->numsamples == 0)
      continue;
    printf ("%s_%s_%s_%s %lld %.17g", msr->network, msr->station, msr->location, msr->channel,
            (long long)msr->starttime, msr->samprate);
    for (i = 0; i < msr->numsamples; i++)
      printf (" %d", (int)((int32_t *)msr->datasamples)[i]);
    printf ("\n");
  }
  ms_readmsr_r (&state, &msr, NULL, 0, NULL, NULL, 0, 0, 0);
  return code == MS_ENDOFFILE ? 0 : 2;
}
