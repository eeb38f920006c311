// Lets all clocks of a program go CLOCK_SPEED times as fast: the times that it reads, and the times that it waits. What takes time
// by itself, as work does and what others send, then seems to take that many times as long.
#define _GNU_SOURCE
#include <dlfcn.h>
#include <linux/futex.h>
#include <poll.h>
#include <stdarg.h>
#include <stdlib.h>
#include <sys/socket.h>
#include <sys/syscall.h>
#include <sys/time.h>
#include <time.h>
#include <unistd.h>

#define SECOND 1000000000LL
#define REAL(name, ...) ((__typeof__(&name))dlsym(RTLD_NEXT, #name))(__VA_ARGS__)

static long long speed = 1, begun[2];

static long long in_ns(const struct timespec *it) { return it->tv_sec * SECOND + it->tv_nsec; }
static struct timespec of_ns(long long ns) { return (struct timespec){ns / SECOND, ns % SECOND}; }
static long long shorter(long long span) { return (span + speed - 1) / speed; }

__attribute__((constructor)) static void begin(void) {
  const char *text = getenv("CLOCK_SPEED");
  speed = text && atoll(text) > 0 ? atoll(text) : 1;
  for (int clock = 0; clock < 2; clock++) {
    struct timespec now;
    syscall(SYS_clock_gettime, clock, &now);
    begun[clock] = in_ns(&now);
  }
}

int clock_gettime(clockid_t clock, struct timespec *now) {
  int result = REAL(clock_gettime, clock, now);
  if (!result && clock < 2) *now = of_ns(begun[clock] + (in_ns(now) - begun[clock]) * speed);
  return result;
}

int clock_nanosleep(clockid_t clock, int flags, const struct timespec *time, struct timespec *left) {
  long long ns = in_ns(time);
  struct timespec real = of_ns(flags & TIMER_ABSTIME && clock < 2 ? begun[clock] + shorter(ns - begun[clock]) : shorter(ns));
  return REAL(clock_nanosleep, clock, flags, &real, left);
}

int nanosleep(const struct timespec *time, struct timespec *left) {
  struct timespec real = of_ns(shorter(in_ns(time)));
  return REAL(nanosleep, &real, left);
}

int poll(struct pollfd *them, nfds_t count, int ms) { return REAL(poll, them, count, ms > 0 ? (int)shorter(ms) : ms); }

int setsockopt(int fd, int level, int name, const void *value, socklen_t size) {
  struct timeval real;
  if (level == SOL_SOCKET && (name == SO_RCVTIMEO || name == SO_SNDTIMEO) && size == sizeof real) {
    const struct timeval *asked = value;
    long long us = shorter(asked->tv_sec * 1000000LL + asked->tv_usec);
    real = (struct timeval){us / 1000000, us % 1000000};
    value = &real;
  }
  return REAL(setsockopt, fd, level, name, value, size);
}

// Waits at a futex: the time of FUTEX_WAIT is a span, that of FUTEX_WAIT_BITSET a moment.
long syscall(long number, ...) {
  va_list words;
  long word[6];
  va_start(words, number);
  for (int at = 0; at < 6; at++) word[at] = va_arg(words, long);
  va_end(words);
  struct timespec real;
  int op = word[1] & FUTEX_CMD_MASK;
  if (number == SYS_futex && word[3] && (op == FUTEX_WAIT || op == FUTEX_WAIT_BITSET)) {
    int clock = word[1] & FUTEX_CLOCK_REALTIME ? CLOCK_REALTIME : CLOCK_MONOTONIC;
    long long ns = in_ns((const struct timespec *)word[3]);
    real = of_ns(op == FUTEX_WAIT ? shorter(ns) : begun[clock] + shorter(ns - begun[clock]));
    word[3] = (long)&real;
  }
  return REAL(syscall, number, word[0], word[1], word[2], word[3], word[4], word[5]);
}
