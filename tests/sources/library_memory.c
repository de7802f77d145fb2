/* Calls the library with the first request for memory refused, the second, and so on, until all are granted: where one
 * is refused, the call says so and has written nothing; packing asks for none. Linked with --wrap=malloc,
 * --wrap=realloc.
 *
 *   library_memory ARCHIVE
 */
#include "mseed.h"

#include <stdio.h>
#include <stdlib.h>
#include <string.h>

void *__real_malloc (size_t size);
void *__real_realloc (void *old, size_t size);

static long refused, called;

static int
is_refused (void)
{
  return refused != 0 && ++called == refused;
}

void *
__wrap_malloc (size_t size)
{
  return is_refused () ? NULL : __real_malloc (size);
}

void *
__wrap_realloc (void *old, size_t size)
{
  return is_refused () ? NULL : __real_realloc (old, size);
}

static uint8_t archive[1 << 17], room[1 << 17];
static size_t size;
static mseed_totals totals;
static mseed_packed packed;

static uint32_t
call (int which)
{
  static const int32_t SAMPLES[] = { 1, 2, 3 };
  mseed_heading heading;
  memset (&heading, 0, sizeof heading);
  heading.length = 128;
  heading.factor = heading.multiplier = 1;
  heading.encoding = MSEED_STEIM2;
  memcpy (heading.key, "XXSTA    BHZ", 12);
  switch (which)
  {
  case 0: return mseed_audit (archive, size, room, sizeof room, &totals);
  case 1: return mseed_audit_each (archive, size, room, sizeof room, &totals);
  case 2: return mseed_part (archive, size, room, sizeof room, &totals);
  default: return mseed_pack (&heading, SAMPLES, 3, room, sizeof room, &packed);
  }
}

static int
is_filled (const void *bytes, size_t count)
{
  const uint8_t *at = bytes;
  size_t k;
  for (k = 0; k < count; k++)
    if (at[k] != 0xA5)
      return 0;
  return 1;
}

int
main (int argc, char **argv)
{
  FILE *file = argc == 2 ? fopen (argv[1], "rb") : NULL;
  int which;
  if (file == NULL)
    return 2;
  size = fread (archive, 1, sizeof archive, file);
  fclose (file);
  for (which = 0; which < 4; which++)
  {
    long count = 0;
    for (refused = 1;; refused++)
    {
      uint32_t code;
      memset (room, 0xA5, sizeof room);
      memset (&totals, 0xA5, sizeof totals);
      memset (&packed, 0xA5, sizeof packed);
      called = 0;
      code = call (which);
      if (called < refused)
      {
        if (code == MSEED_NO_MEMORY)
          printf ("call %d: refused without a reason\n", which);
        break;
      }
      if (code != MSEED_NO_MEMORY)
        printf ("call %d, request %ld: answered %u\n", which, refused, (unsigned)code);
      if (!is_filled (room, sizeof room) || !is_filled (&totals, sizeof totals) || !is_filled (&packed, sizeof packed))
        printf ("call %d, request %ld: something was written\n", which, refused);
      count++;
    }
    if ((count != 0) != (which != 3))
      printf ("call %d called for memory %ld times\n", which, count);
  }
  return 0;
}
