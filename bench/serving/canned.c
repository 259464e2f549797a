/* A bare server of canned replies, for comparison: epoll, one thread, 64 places. It answers each frame by the reply that was given for
   its command, with the frame's number as the one that is answered.
   Usage: canned NAME FILE [NAME FILE ..]     NAME is a command's, and FILE holds the whole reply; the first one answers OP_QUERY and
   every command that isn't named. */
#define _GNU_SOURCE
#include <arpa/inet.h>
#include <netinet/in.h>
#include <netinet/tcp.h>
#include <stdint.h>
#include <stdio.h>
#include <stdlib.h>
#include <string.h>
#include <sys/epoll.h>
#include <sys/socket.h>
#include <unistd.h>
#define PLACES 64
#define READ 65536
typedef struct { int fd; size_t len; uint8_t bytes[2 * READ]; } place_t;
typedef struct { const char *name; size_t len; uint8_t *bytes; } reply_t;
static place_t places[PLACES];
static reply_t *replies;
static int count;
/* a frame of OP_MSG: a head of 16 bytes, 4 of flags, the section's kind, the document's length, the first value's type, its name */
static reply_t *reply_to(const uint8_t *frame, size_t len) {
  uint32_t opcode;
  memcpy(&opcode, frame + 12, 4);
  for (int i = 0; opcode == 2013 && len > 26 && i < count; i++)
    if (!strncmp((const char *)frame + 26, replies[i].name, len - 26)) return &replies[i];
  return &replies[0];
}
static void answer(place_t *p) {
  uint32_t size;
  while (p->fd >= 0 && p->len >= 16 && (memcpy(&size, p->bytes, 4), p->len >= size)) {
    reply_t *r = reply_to(p->bytes, size);
    memcpy(r->bytes + 8, p->bytes + 4, 4);
    if (send(p->fd, r->bytes, r->len, MSG_NOSIGNAL) != (ssize_t)r->len) { close(p->fd); p->fd = -1; return; }
    memmove(p->bytes, p->bytes + size, p->len -= size);
  }
}
int main(int ac, char **av) {
  count = (ac - 1) / 2;
  if (count < 1 || ac % 2 == 0 || !(replies = calloc(count, sizeof *replies))) return 2;
  for (int i = 0; i < count; i++) {
    FILE *file = fopen(av[2 * i + 2], "rb");
    replies[i].name = av[2 * i + 1];
    if (!file || !(replies[i].bytes = malloc(READ))) { perror(av[2 * i + 2]); return 1; }
    replies[i].len = fread(replies[i].bytes, 1, READ, file);
    fclose(file);
  }
  int ls = socket(AF_INET, SOCK_STREAM, 0), one = 1, ep = epoll_create1(0);
  struct sockaddr_in a = {.sin_family = AF_INET};
  socklen_t len = sizeof a;
  a.sin_addr.s_addr = htonl(INADDR_LOOPBACK);
  if (bind(ls, (struct sockaddr *)&a, sizeof a) || listen(ls, 128)) return 1;
  getsockname(ls, (struct sockaddr *)&a, &len);
  printf("listening on 127.0.0.1:%d\n", ntohs(a.sin_port));
  fflush(stdout);
  for (int i = 0; i < PLACES; i++) places[i].fd = -1;
  struct epoll_event e = {.events = EPOLLIN, .data.u64 = PLACES}, ev[PLACES + 1];
  epoll_ctl(ep, EPOLL_CTL_ADD, ls, &e);
  for (;;) {
    int n = epoll_wait(ep, ev, PLACES + 1, -1);
    for (int i = 0; i < n; i++) {
      int k = (int)ev[i].data.u64;
      if (k == PLACES) {
        int fd = accept4(ls, 0, 0, SOCK_CLOEXEC);
        for (k = 0; k < PLACES && places[k].fd >= 0; k++) {}
        if (fd < 0 || k == PLACES) { if (fd >= 0) close(fd); continue; }
        setsockopt(fd, IPPROTO_TCP, TCP_NODELAY, &one, sizeof one);
        places[k].fd = fd;
        places[k].len = 0;
        struct epoll_event c = {.events = EPOLLIN, .data.u64 = (uint64_t)k};
        epoll_ctl(ep, EPOLL_CTL_ADD, fd, &c);
        continue;
      }
      place_t *p = &places[k];
      ssize_t r = p->fd < 0 ? 0 : recv(p->fd, p->bytes + p->len, sizeof p->bytes - p->len, 0);
      if (r <= 0) { if (p->fd >= 0) close(p->fd); p->fd = -1; continue; }
      p->len += (size_t)r;
      answer(p);
    }
  }
}
