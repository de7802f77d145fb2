/* Runs a command once and prints what it cost.
 *
 *   measure IN OUT COMMAND [ARGS]
 *
 * Standard input from IN, standard output to OUT, standard error dropped.
 * Prints: user+sys seconds, user, sys, wall, peak resident KiB, status.
 */
#define _GNU_SOURCE
#include <fcntl.h>
#include <stdio.h>
#include <stdlib.h>
#include <sys/resource.h>
#include <sys/wait.h>
#include <time.h>
#include <unistd.h>

int
main (int argc, char **argv)
{
  struct rusage u;
  struct timespec a, b;
  double user, sys;
  int status;
  pid_t p;

  if (argc < 4)
    return 3;
  clock_gettime (CLOCK_MONOTONIC, &a);
  if ((p = fork ()) == 0)
  {
    int in = open (argv[1], O_RDONLY), out = open (argv[2], O_WRONLY | O_CREAT | O_TRUNC, 0666),
        err = open ("/dev/null", O_WRONLY);
    if (in < 0 || out < 0 || dup2 (in, 0) < 0 || dup2 (out, 1) < 0 || dup2 (err, 2) < 0)
      _exit (126);
    close (in);
    close (out);
    close (err);
    execv (argv[3], argv + 3);
    _exit (127);
  }
  if (p < 0 || wait4 (p, &status, 0, &u) != p)
    return 2;
  clock_gettime (CLOCK_MONOTONIC, &b);
  user = (double)u.ru_utime.tv_sec + 1e-6 * (double)u.ru_utime.tv_usec;
  sys = (double)u.ru_stime.tv_sec + 1e-6 * (double)u.ru_stime.tv_usec;
  printf ("%.6f %.6f %.6f %.6f %ld %d\n", user + sys, user, sys,
          (double)(b.tv_sec - a.tv_sec) + 1e-9 * (double)(b.tv_nsec - a.tv_nsec), u.ru_maxrss,
          WIFEXITED (status) ? WEXITSTATUS (status) : 128);
  return 0;
}
