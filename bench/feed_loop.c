/* A plain loop over epoll that hands each record of its input to each link, and a clock for such a server.
 *
 *   feed_loop serve PORT            reads records of 512 bytes from standard input, and writes each as a packet to all
 *                                   links that stand; what they say is answered by two lines OK
 *   feed_loop time PORT LINKS N     dials so many links, asks each for records, writes N records to standard output,
 *                                   which is the server's input, and reports on standard error how long after its last
 *                                   byte a record was at a link: the median and the 99th of 100, in milliseconds
 *
 * The first record of the input of `time` is the one that is written, again and again.
 */
#define _GNU_SOURCE
#include <arpa/inet.h>
#include <fcntl.h>
#include <netinet/in.h>
#include <netinet/tcp.h>
#include <stdio.h>
#include <stdlib.h>
#include <string.h>
#include <sys/epoll.h>
#include <sys/socket.h>
#include <time.h>
#include <unistd.h>

#define RECORD 512
#define PACKET 520
#define MOST 1024
#define GRANTED "OK\r\nOK\r\n"

static int one = 1;

static double
now (void)
{
  struct timespec t;

  clock_gettime (CLOCK_MONOTONIC, &t);
  return 1e3 * (double)t.tv_sec + 1e-6 * (double)t.tv_nsec;
}

static void
watch (int poll, int fd)
{
  struct epoll_event event = {.events = EPOLLIN, .data.fd = fd};

  if (epoll_ctl (poll, EPOLL_CTL_ADD, fd, &event))
    exit (2);
}

/* Takes a link that dials. */
static int
take (int poll, int listener)
{
  int link = accept4 (listener, NULL, NULL, SOCK_NONBLOCK);

  if (link < 0)
    exit (2);
  setsockopt (link, IPPROTO_TCP, TCP_NODELAY, &one, sizeof one);
  if (write (link, GRANTED, 8) != 8)
    exit (2);
  watch (poll, link);
  return link;
}

static int
serve (int listener, const struct sockaddr_in *address)
{
  struct epoll_event events[64];
  char packet[PACKET], reply[256], head[9];
  int links[MOST], count = 0, poll = epoll_create1 (0), k, n, l;
  size_t held = 0;
  unsigned number = 0;

  setsockopt (listener, SOL_SOCKET, SO_REUSEADDR, &one, sizeof one);
  if (bind (listener, (const struct sockaddr *)address, sizeof *address) || listen (listener, MOST))
    return 2;
  watch (poll, 0);
  watch (poll, listener);
  while ((n = epoll_wait (poll, events, 64, -1)) >= 0)
    for (k = 0; k < n; k++)
    {
      int fd = events[k].data.fd;
      ssize_t got;

      if (fd == listener && count < MOST)
        links[count++] = take (poll, listener);
      else if (fd != 0 && read (fd, reply, sizeof reply) <= 0)
        epoll_ctl (poll, EPOLL_CTL_DEL, fd, NULL);
      if (fd != 0)
        continue;
      if ((got = read (0, packet + 8 + held, RECORD - held)) <= 0)
        return got < 0 ? 2 : 0;
      if ((held += (size_t)got) < RECORD)
        continue;
      held = 0;
      snprintf (head, sizeof head, "SL%06X", number++ & 0xFFFFFF);
      memcpy (packet, head, 8);
      for (l = 0; l < count; l++)
        if (write (links[l], packet, PACKET) != PACKET)
          return 2;
    }
  return 2;
}

static void
read_all (int link, char *bytes, size_t size)
{
  ssize_t n;

  for (; size > 0; bytes += n, size -= (size_t)n)
    if ((n = read (link, bytes, size)) <= 0)
      exit (2);
}

static int
dial (const struct sockaddr_in *address)
{
  static const char lines[] = "STATION STA XX\r\nDATA 000000\r\nEND\r\n";
  int link = socket (AF_INET, SOCK_STREAM, 0);
  char replies[8];

  if (link < 0 || connect (link, (const struct sockaddr *)address, sizeof *address))
    exit (2);
  setsockopt (link, IPPROTO_TCP, TCP_NODELAY, &one, sizeof one);
  if (write (link, lines, sizeof lines - 1) != sizeof lines - 1)
    exit (2);
  read_all (link, replies, 8);
  return link;
}

static int
by_size (const void *a, const void *b)
{
  double x = *(const double *)a, y = *(const double *)b;

  return (x > y) - (x < y);
}

static int
clock_links (const struct sockaddr_in *address, int count, int records)
{
  double *delays = malloc (sizeof (double) * (size_t)count * (size_t)records), start;
  char record[RECORD], packet[PACKET];
  struct epoll_event events[64];
  int poll = epoll_create1 (0), k, n, r, there, all = count * records, next = 0;

  read_all (0, record, RECORD);
  for (k = 0; k < count; k++)
    watch (poll, dial (address));
  for (r = 0; r < records; r++)
  {
    usleep (2000);
    if (write (1, record, RECORD) != RECORD)
      return 2;
    start = now ();
    for (there = 0; there < count; there += n)
      for (n = epoll_wait (poll, events, 64, -1), k = 0; k < n; k++)
      {
        read_all (events[k].data.fd, packet, PACKET);
        delays[next++] = now () - start;
      }
  }
  qsort (delays, (size_t)all, sizeof *delays, by_size);
  fprintf (stderr, "%.3f %.3f\n", delays[all / 2], delays[all * 99L / 100]);
  return 0;
}

int
main (int argc, char **argv)
{
  struct sockaddr_in address = {0};
  int fd = socket (AF_INET, SOCK_STREAM, 0);

  if (argc < 3 || fd < 0)
    return 3;
  address.sin_family = AF_INET;
  address.sin_addr.s_addr = htonl (INADDR_LOOPBACK);
  address.sin_port = htons ((unsigned short)atoi (argv[2]));
  if (strcmp (argv[1], "serve") == 0)
    return serve (fd, &address);
  return argc == 5 ? clock_links (&address, atoi (argv[3]), atoi (argv[4])) : 3;
}
