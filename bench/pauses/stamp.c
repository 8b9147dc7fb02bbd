/* How much of the processor's time a program takes between two lines of its output: for bench/pauses.py, which preloads it. A line ends
   with a write to the output, or, where the C library buffers it, with fflush. The gaps go to the file STAMPS at the end, as
   nanoseconds in words of eight bytes: the time of the thread that writes alone. */
#define _GNU_SOURCE
#include <dlfcn.h>
#include <fcntl.h>
#include <stdint.h>
#include <stdio.h>
#include <stdlib.h>
#include <sys/syscall.h>
#include <time.h>
#include <unistd.h>

#define MOST 1000000
static uint64_t gaps[MOST];
static size_t many;
static uint64_t before;

static uint64_t now(void) {
  struct timespec it;
  clock_gettime(CLOCK_THREAD_CPUTIME_ID, &it);
  return (uint64_t)it.tv_sec * 1000000000u + (uint64_t)it.tv_nsec;
}

/* Ends a gap. The write itself and what this does are in none. */
static void stop(uint64_t at) {
  if (many < MOST) gaps[many++] = at - before;
}

ssize_t write(int to, const void *bytes, size_t length) {
  if (to == 1) stop(now());
  ssize_t taken = syscall(SYS_write, to, bytes, length);
  if (to == 1) before = now();
  return taken;
}

int fflush(FILE *stream) {
  static int (*next)(FILE *);
  if (!next) next = (int (*)(FILE *))dlsym(RTLD_NEXT, "fflush");
  if (stream == stdout) stop(now());
  int status = next(stream);
  if (stream == stdout) before = now();
  return status;
}

__attribute__((constructor)) static void begin(void) { before = now(); }

__attribute__((destructor)) static void end(void) {
  const char *name = getenv("STAMPS");
  int file = name ? open(name, O_WRONLY | O_CREAT | O_TRUNC, 0600) : -1;
  if (file < 0) return;
  for (size_t at = 0; at < many * sizeof *gaps;) {
    ssize_t taken = syscall(SYS_write, file, (char *)gaps + at, many * sizeof *gaps - at);
    if (taken <= 0) break;
    at += (size_t)taken;
  }
  close(file);
}
