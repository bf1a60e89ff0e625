/* Has one read or write of a socket go wrong, of the program that it is loaded before: the one whose number stands in FAULT. By KIND it fails, moves
   one octet at most, or is interrupted. It says which it was. Or the first connection that comes isn't accepted, by the error whose number stands in
   ACCEPT: it is taken from the queue and closed, or stays there, if STAYS is set. For `.ci/faults`. */
#define _GNU_SOURCE
#include <errno.h>
#include <stdlib.h>
#include <string.h>
#include <sys/epoll.h>
#include <sys/socket.h>
#include <sys/syscall.h>
#include <unistd.h>

#define MOST_FILES 1024

static struct epoll_event watched[MOST_FILES];
static int watchers[MOST_FILES];

/* The kind of this call's fault, if it has one. */
static const char *fault_of(const char *call) {
  static long made, number = -1;
  if (number < 0) number = getenv("FAULT") ? atol(getenv("FAULT")) : 0;
  if (++made != number) return "";
  if (write(2, call, strlen(call)) < 0) abort();
  return getenv("KIND");
}

/* Whether the call fails, or is interrupted, and is not to be made. */
static int is_refused(const char *kind) {
  if (!strcmp(kind, "fails")) return errno = ECONNRESET, 1;
  if (!strcmp(kind, "breaks")) return errno = EPIPE, 1;
  if (!strcmp(kind, "interrupted")) return errno = EINTR, 1;
  return 0;
}

/* Has the socket reported again, as one is that had room for an octet, and then for more. */
static void report_again(int file) {
  int before = errno;
  if (file < MOST_FILES && watched[file].events) syscall(SYS_epoll_ctl, watchers[file], EPOLL_CTL_MOD, file, &watched[file]);
  errno = before;
}

int epoll_ctl(int watcher, int change, int file, struct epoll_event *event) {
  if (file < MOST_FILES && change != EPOLL_CTL_DEL) {
    watched[file] = *event;
    watchers[file] = watcher;
  }
  return syscall(SYS_epoll_ctl, watcher, change, file, event);
}

int accept4(int file, struct sockaddr *address, socklen_t *length, int flags) {
  static int is_over;
  const char *error = getenv("ACCEPT");
  if (!error || is_over) return syscall(SYS_accept4, file, address, length, flags);
  if (!getenv("STAYS")) {
    int taken = syscall(SYS_accept4, file, address, length, flags);
    if (taken < 0) return taken;
    close(taken);
  }
  is_over = 1;
  return errno = atoi(error), -1;
}

ssize_t recv(int file, void *octets, size_t count, int flags) {
  const char *kind = fault_of("read\n");
  if (is_refused(kind)) return -1;
  return syscall(SYS_recvfrom, file, octets, !strcmp(kind, "one") && count ? 1 : count, flags, NULL, NULL);
}

ssize_t send(int file, const void *octets, size_t count, int flags) {
  const char *kind = fault_of("write\n");
  if (is_refused(kind)) return -1;
  int is_one = !strcmp(kind, "one");
  ssize_t put = syscall(SYS_sendto, file, octets, is_one && count ? 1 : count, flags, NULL, 0);
  if (is_one) report_again(file);
  return put;
}
