/* A closed loop: one thread, one request in flight on each connection, as many replies in all as are asked for. The request is
   a frame of standard input, with a number of its own each time at byte 4 and, where a place is named, another at that place.
   Usage: client PORT CONNECTIONS REPLIES [PLACE FIRST] <FRAME. It prints the replies a second. */
#define _GNU_SOURCE
#include <arpa/inet.h>
#include <netinet/in.h>
#include <netinet/tcp.h>
#include <stdint.h>
#include <stdio.h>
#include <stdlib.h>
#include <string.h>
#include <sys/epoll.h>
#include <sys/socket.h>
#include <time.h>
#include <unistd.h>
#define MOST 65536
typedef struct { int fd; uint32_t number; size_t len; uint8_t bytes[MOST]; } connection_t;
static connection_t all[64];
static uint8_t frame[MOST];
static size_t size;
static long place = -1;
static uint32_t number = 1, next;
static double now(void) { struct timespec t; clock_gettime(CLOCK_MONOTONIC, &t); return (double)t.tv_sec + (double)t.tv_nsec / 1e9; }
static void ask(connection_t *c) {
  c->number = number++;
  memcpy(frame + 4, &c->number, 4);
  if (place >= 0) { memcpy(frame + place, &next, 4); next++; }
  if (send(c->fd, frame, size, 0) != (ssize_t)size) { perror("send"); exit(1); }
}
int main(int ac, char **av) {
  if (ac != 4 && ac != 6) return 2;
  int count = atoi(av[2]), one = 1, ep = epoll_create1(0);
  uint64_t wanted = strtoull(av[3], 0, 10), asked = 0, done = 0;
  if (ac == 6) { place = atol(av[4]); next = (uint32_t)atol(av[5]); }
  size = fread(frame, 1, MOST, stdin);
  struct sockaddr_in a = {.sin_family = AF_INET, .sin_port = htons((uint16_t)atoi(av[1]))};
  a.sin_addr.s_addr = htonl(INADDR_LOOPBACK);
  for (int i = 0; i < count; i++) {
    all[i].fd = socket(AF_INET, SOCK_STREAM, 0);
    if (connect(all[i].fd, (struct sockaddr *)&a, sizeof a)) { perror("connect"); return 1; }
    setsockopt(all[i].fd, IPPROTO_TCP, TCP_NODELAY, &one, sizeof one);
    struct epoll_event e = {.events = EPOLLIN, .data.u32 = (uint32_t)i};
    epoll_ctl(ep, EPOLL_CTL_ADD, all[i].fd, &e);
  }
  double start = now();
  for (int i = 0; i < count && asked < wanted; i++, asked++) ask(&all[i]);
  while (done < wanted) {
    struct epoll_event ev[64];
    int n = epoll_wait(ep, ev, 64, 10000);
    if (n == 0) { fprintf(stderr, "no reply in ten seconds\n"); return 1; }
    for (int k = 0; k < n; k++) {
      connection_t *c = &all[ev[k].data.u32];
      ssize_t r = recv(c->fd, c->bytes + c->len, MOST - c->len, 0);
      if (r <= 0) { fprintf(stderr, "the server has ended a connection\n"); return 1; }
      c->len += (size_t)r;
      uint32_t len, answered;
      if (c->len < 16) continue;
      memcpy(&len, c->bytes, 4);
      memcpy(&answered, c->bytes + 8, 4);
      if (c->len < len) continue;
      if (c->len != len || answered != c->number) { fprintf(stderr, "wrong reply\n"); return 1; }
      /* a refusal is told by its length */
      if (place >= 0 && len != 41) { fprintf(stderr, "refused\n"); return 1; }
      c->len = 0;
      done++;
      if (asked < wanted) { ask(c); asked++; }
    }
  }
  printf("%.1f\n", (double)done / (now() - start));
}
