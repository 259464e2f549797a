/* The bare loop, for comparison: epoll (edge-triggered), one thread, 64 places, one read a round from each ready connection,
   then all answers, each written at once. It answers each frame by itself, with its number as the one that is answered.
   With a file it is the floor of a server that keeps something: in front of a round's answers it writes so many pages, where they follow
   those of the round before, syncs, writes a sector at the front and syncs; and a frame is answered by the first 41 bytes of it.
   Usage: echo [FILE PAGES] */
#define _GNU_SOURCE
#include <arpa/inet.h>
#include <errno.h>
#include <fcntl.h>
#include <netinet/in.h>
#include <netinet/tcp.h>
#include <stdint.h>
#include <stdio.h>
#include <stdlib.h>
#include <string.h>
#include <sys/epoll.h>
#include <sys/socket.h>
#include <unistd.h>
#define PLACES 64
#define READ 65536
#define PAGE 4096
#define SHORT 41
typedef struct { int fd, readable, hung; size_t len; uint8_t bytes[2 * READ]; } place_t;
static place_t places[PLACES];
static uint8_t pages[PLACES * 4 * PAGE];
static int file = -1;
static size_t written;
static off_t end = PAGE;
static int is_whole(const place_t *p, uint32_t *size) {
  return p->fd >= 0 && p->len >= 16 && (memcpy(size, p->bytes, 4), p->len >= *size);
}
static void commit(void) {
  if (pwrite(file, pages, written, end) != (ssize_t)written || fdatasync(file)) { perror("write"); exit(1); }
  if (pwrite(file, pages, 512, 0) != 512 || fdatasync(file)) { perror("root"); exit(1); }
  end += (off_t)written;
}
int main(int ac, char **av) {
  if (ac == 3) {
    file = open(av[1], O_RDWR | O_CREAT | O_TRUNC | O_CLOEXEC, 0600);
    written = strtoul(av[2], 0, 10) * PAGE;
    if (file < 0 || written > sizeof pages) return 2;
    memset(pages, 1, sizeof pages);
  }
  int ls = socket(AF_INET, SOCK_STREAM | SOCK_NONBLOCK, 0), one = 1, ep = epoll_create1(0), more = 0;
  struct sockaddr_in a = {.sin_family = AF_INET};
  socklen_t len = sizeof a;
  a.sin_addr.s_addr = htonl(INADDR_LOOPBACK);
  if (bind(ls, (struct sockaddr *)&a, sizeof a) || listen(ls, 128)) return 1;
  getsockname(ls, (struct sockaddr *)&a, &len);
  printf("listening on 127.0.0.1:%d\n", ntohs(a.sin_port));
  fflush(stdout);
  for (int i = 0; i < PLACES; i++) places[i].fd = -1;
  struct epoll_event e = {.events = EPOLLIN | EPOLLET, .data.u64 = PLACES}, ev[PLACES + 1];
  epoll_ctl(ep, EPOLL_CTL_ADD, ls, &e);
  for (;;) {
    int due = 0;
    for (int i = 0; i < PLACES; i++) due |= places[i].fd >= 0 && places[i].readable;
    int n = epoll_wait(ep, ev, PLACES + 1, due ? 0 : -1);
    for (int i = 0; i < n; i++) {
      if (ev[i].data.u64 == PLACES) { more = 1; continue; }
      place_t *p = &places[ev[i].data.u64];
      if (ev[i].events & (EPOLLIN | EPOLLRDHUP | EPOLLHUP | EPOLLERR)) p->readable = 1;
      if (ev[i].events & (EPOLLRDHUP | EPOLLHUP)) p->hung = 1;
    }
    while (more) {
      int k = 0;
      while (k < PLACES && places[k].fd >= 0) k++;
      int fd = k < PLACES ? accept4(ls, 0, 0, SOCK_NONBLOCK | SOCK_CLOEXEC) : -1;
      if (fd < 0) { more = 0; break; }
      setsockopt(fd, IPPROTO_TCP, TCP_NODELAY, &one, sizeof one);
      struct epoll_event c = {.events = EPOLLIN | EPOLLOUT | EPOLLRDHUP | EPOLLET, .data.u64 = (uint64_t)k};
      epoll_ctl(ep, EPOLL_CTL_ADD, fd, &c);
      places[k].fd = fd; places[k].readable = places[k].hung = 0; places[k].len = 0;
    }
    for (int i = 0; i < PLACES; i++) {
      place_t *p = &places[i];
      if (p->fd < 0 || !p->readable) continue;
      ssize_t r = recv(p->fd, p->bytes + p->len, READ, 0);
      if (r > 0) { p->len += (size_t)r; if (r < READ && !p->hung) p->readable = 0; }
      else if (r < 0 && errno == EAGAIN) p->readable = 0;
      else { close(p->fd); p->fd = -1; }
    }
    uint32_t size, given;
    int asked = 0;
    for (int i = 0; i < PLACES && file >= 0; i++) asked |= is_whole(&places[i], &size);
    if (asked) commit();
    for (int i = 0; i < PLACES; i++) {
      place_t *p = &places[i];
      while (is_whole(p, &size)) {
        given = file >= 0 && size > SHORT ? SHORT : size;
        memcpy(p->bytes, &given, 4);
        memcpy(p->bytes + 8, p->bytes + 4, 4);
        if (send(p->fd, p->bytes, given, MSG_NOSIGNAL) != (ssize_t)given) { close(p->fd); p->fd = -1; break; }
        memmove(p->bytes, p->bytes + size, p->len -= size);
      }
    }
  }
}
