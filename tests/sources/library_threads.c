/* Eight threads call the library over one archive at once, many times: each gets what one alone gets.
 *
 *   library_threads ARCHIVE
 */
#include "mseed.h"

#include <pthread.h>
#include <stdio.h>
#include <stdlib.h>
#include <string.h>

#define THREADS 8
#define TURNS 200
#define ROWS 1024
#define SAMPLES 65536

struct answer
{
  uint32_t codes[4];
  mseed_totals totals;
  mseed_progress progress;
  mseed_packed packed;
  uint8_t text[1 << 16];
  mseed_row rows[ROWS];
  int32_t samples[SAMPLES];
  uint8_t records[1 << 18];
};

static uint8_t archive[1 << 17];
static size_t size;
static struct answer *alone;

static void
ask (struct answer *a)
{
  mseed_heading heading;
  memset (a, 0, sizeof *a);
  memset (&heading, 0, sizeof heading);
  heading.length = 512;
  heading.factor = heading.multiplier = 1;
  heading.encoding = MSEED_INT32;
  memcpy (heading.key, "XXSTA    BHZ", 12);
  a->codes[0] = mseed_audit (archive, size, a->text, sizeof a->text / 2, &a->totals);
  a->codes[1] = mseed_audit_each (archive, size, a->text + sizeof a->text / 2, sizeof a->text / 2, &a->totals);
  a->codes[2] = mseed_read (archive, size, 0, a->rows, ROWS, a->samples, SAMPLES, &a->progress);
  a->codes[3] = mseed_pack (&heading, a->samples, a->progress.filled, a->records, sizeof a->records, &a->packed);
}

static void *
run (void *unused)
{
  struct answer *mine = malloc (sizeof *mine);
  size_t turn, others = 0;
  (void)unused;
  for (turn = 0; turn < TURNS; turn++)
  {
    ask (mine);
    others += memcmp (mine, alone, sizeof *mine) != 0;
  }
  free (mine);
  return (void *)others;
}

int
main (int argc, char **argv)
{
  FILE *file = argc == 2 ? fopen (argv[1], "rb") : NULL;
  pthread_t threads[THREADS];
  size_t k, others = 0;
  if (file == NULL)
    return 2;
  size = fread (archive, 1, sizeof archive, file);
  fclose (file);
  alone = malloc (sizeof *alone);
  ask (alone);
  for (k = 0; k < THREADS; k++)
    if (pthread_create (&threads[k], NULL, run, NULL) != 0)
      return 2;
  for (k = 0; k < THREADS; k++)
  {
    void *found;
    pthread_join (threads[k], &found);
    others += (size_t)found;
  }
  printf ("%zu records, %zu other answers\n", (size_t)alone->progress.rows, others);
  return others != 0;
}
