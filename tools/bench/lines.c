/* Sends lines to a server on this machine over connections, so many at once on each, and waits for a line
   back for each. Prints how many lines a second came back.

   usage: lines PORT CONNECTIONS AT_ONCE SECONDS LINE [FIRST..]

   Connection i sends the FIRST line of its number before it begins, if there is one, and waits for its
   answer: `{"seat":1}` for cam6. For redis-server LINE is `SET KEY VALUE`, and no FIRST is needed. */
#include <arpa/inet.h>
#include <netinet/tcp.h>
#include <poll.h>
#include <stdio.h>
#include <stdlib.h>
#include <string.h>
#include <sys/socket.h>
#include <time.h>
#include <unistd.h>

#define MOST 64

// The time in seconds.
static double now(void) {
  struct timespec t;
  clock_gettime(CLOCK_MONOTONIC, &t);
  return t.tv_sec + t.tv_nsec / 1e9;
}

// Prints the error of the system, and ends.
static void failed(const char *what) {
  perror(what);
  exit(1);
}

// Sends all bytes.
static void send_all(int fd, const char *bytes, size_t n) {
  while (n > 0) {
    ssize_t sent = write(fd, bytes, n);
    if (sent <= 0) failed("write");
    bytes += sent;
    n -= sent;
  }
}

/* How many lines end in what comes next. */
// Reads once, and counts the lines that end there.
static int lines_in(int fd) {
  static char bytes[1 << 16];
  ssize_t n = read(fd, bytes, sizeof bytes);
  if (n <= 0) failed("read");
  int lines = 0;
  for (ssize_t i = 0; i < n; i++) lines += bytes[i] == '\n';
  return lines;
}

int main(int argc, char **argv) {
  if (argc < 6) {
    fprintf(stderr, "usage: lines PORT CONNECTIONS AT_ONCE SECONDS LINE [FIRST..]\n");
    return 2;
  }
  int connections = atoi(argv[2]), at_once = atoi(argv[3]);
  double seconds = atof(argv[4]);
  if (connections < 1 || connections > MOST || at_once < 1) return 2;
  size_t length = strlen(argv[5]) + 1;
  char *batch = malloc(length * at_once + 1);
  for (int i = 0; i < at_once; i++) sprintf(batch + i * length, "%s\n", argv[5]);
  size_t batch_length = length * at_once;

  struct pollfd polled[MOST];
  int left[MOST];
  for (int i = 0; i < connections; i++) {
    int fd = socket(AF_INET, SOCK_STREAM, 0), one = 1;
    struct sockaddr_in to = {.sin_family = AF_INET, .sin_port = htons(atoi(argv[1]))};
    to.sin_addr.s_addr = htonl(INADDR_LOOPBACK);
    if (fd < 0 || connect(fd, (struct sockaddr *)&to, sizeof to) != 0) failed("connect");
    setsockopt(fd, IPPROTO_TCP, TCP_NODELAY, &one, sizeof one);
    if (6 + i < argc) {
      send_all(fd, argv[6 + i], strlen(argv[6 + i]));
      send_all(fd, "\n", 1);
      while (lines_in(fd) == 0) {}
    }
    polled[i] = (struct pollfd){.fd = fd, .events = POLLIN};
  }
  long lines = 0;
  double began = now(), ends = began + seconds, at = began;
  for (int i = 0; i < connections; i++) {
    send_all(polled[i].fd, batch, batch_length);
    left[i] = at_once;
  }
  while (at < ends) {
    if (connections > 1 && poll(polled, connections, -1) < 0) failed("poll");
    for (int i = 0; i < connections; i++) {
      if (connections > 1 && !(polled[i].revents & POLLIN)) continue;
      int came = lines_in(polled[i].fd);
      lines += came;
      left[i] -= came;
      if (left[i] <= 0) {
        send_all(polled[i].fd, batch, batch_length);
        left[i] += at_once;
      }
    }
    at = now();
  }
  printf("%.0f\n", lines / (at - began));
  return 0;
}
