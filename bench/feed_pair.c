/* A pair of programs that bring the bytes of an archive over TCP on this machine, and do nothing else with them.
 *
 *   feed_pair serve PORT    holds all of standard input, takes one connection and writes 512 bytes at a time to it
 *   feed_pair fetch PORT    reads 1,024 bytes at a time, and writes each piece to standard output
 */
#define _GNU_SOURCE
#include <arpa/inet.h>
#include <netinet/in.h>
#include <netinet/tcp.h>
#include <stdlib.h>
#include <string.h>
#include <sys/socket.h>
#include <unistd.h>

static int
write_all (int fd, const char *bytes, size_t size)
{
  while (size > 0)
  {
    ssize_t n = write (fd, bytes, size);

    if (n <= 0)
      return 1;
    bytes += n;
    size -= (size_t)n;
  }
  return 0;
}

static int
serve (int listener, const struct sockaddr_in *address)
{
  size_t size = 0, room = 1 << 20, at;
  char *archive = malloc (room);
  int one = 1, link, failed = 0;
  ssize_t n;

  while (archive && (n = read (0, archive + size, room - size)) > 0)
    if ((size += (size_t)n) == room)
      archive = realloc (archive, room *= 2);
  setsockopt (listener, SOL_SOCKET, SO_REUSEADDR, &one, sizeof one);
  if (!archive || bind (listener, (const struct sockaddr *)address, sizeof *address) || listen (listener, 1))
    return 2;
  if ((link = accept (listener, NULL, NULL)) < 0)
    return 2;
  setsockopt (link, IPPROTO_TCP, TCP_NODELAY, &one, sizeof one);
  for (at = 0; at < size && !failed; at += 512)
    failed = write_all (link, archive + at, size - at < 512 ? size - at : 512);
  return failed ? 2 : 0;
}

static int
fetch (int link, const struct sockaddr_in *address)
{
  char bytes[1024];
  ssize_t n;

  if (connect (link, (const struct sockaddr *)address, sizeof *address))
    return 2;
  while ((n = read (link, bytes, sizeof bytes)) > 0)
    if (write_all (1, bytes, (size_t)n))
      return 2;
  return n < 0 ? 2 : 0;
}

int
main (int argc, char **argv)
{
  struct sockaddr_in address = {0};
  int fd = socket (AF_INET, SOCK_STREAM, 0);

  if (argc != 3 || fd < 0)
    return 3;
  address.sin_family = AF_INET;
  address.sin_addr.s_addr = htonl (INADDR_LOOPBACK);
  address.sin_port = htons ((unsigned short)atoi (argv[2]));
  return strcmp (argv[1], "serve") == 0 ? serve (fd, &address) : fetch (fd, &address);
}
