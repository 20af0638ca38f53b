// SPDX-License-Identifier: Apache-2.0
/* Refuses one allocation of a program, by its number: tools/refuse_memory preloads it.
   REFUSE is the number, from 1, or 0 for none. With COUNT_TO, a file, the number of all is written there at the end.
   BEYOND is how many bytes of address space the program gets beside those that it has when it starts. */
#define _GNU_SOURCE
#include <dlfcn.h>
#include <errno.h>
#include <fcntl.h>
#include <stdio.h>
#include <stdlib.h>
#include <sys/resource.h>
#include <unistd.h>

static unsigned long taken;

static int refused(void) {
  static long number = -1;
  if (number < 0) {
    const char *text = getenv("REFUSE");
    number = text ? atol(text) : 0;
  }
  taken += 1;
  if (taken != (unsigned long)number) return 0;
  errno = ENOMEM;
  return 1;
}

void *malloc(size_t size) {
  static void *(*real)(size_t);
  if (!real) real = (void *(*)(size_t))dlsym(RTLD_NEXT, "malloc");
  return refused() ? NULL : real(size);
}

void *realloc(void *old, size_t size) {
  static void *(*real)(void *, size_t);
  if (!real) real = (void *(*)(void *, size_t))dlsym(RTLD_NEXT, "realloc");
  return refused() ? NULL : real(old, size);
}

/* By now all is loaded that the program stands on. Its stack is made as large as it needs, since it can't grow later. */
__attribute__((constructor)) static void limit(void) {
  const char *beyond = getenv("BEYOND");
  volatile char stack[1 << 20];
  char pages[32] = "";
  struct rlimit most;
  int in;
  if (!beyond) return;
  for (size_t at = 0; at < sizeof stack; at += 1024) stack[at] = 0;
  in = open("/proc/self/statm", O_RDONLY);
  if (in < 0 || read(in, pages, sizeof pages - 1) <= 0) abort();
  close(in);
  most.rlim_cur = most.rlim_max = strtoul(pages, NULL, 10) * (rlim_t)sysconf(_SC_PAGESIZE) + strtoul(beyond, NULL, 10);
  if (setrlimit(RLIMIT_AS, &most)) abort();
}

__attribute__((destructor)) static void tell(void) {
  const char *name = getenv("COUNT_TO");
  unsigned long count = taken;
  FILE *out = name ? fopen(name, "w") : NULL;
  if (!out) return;
  fprintf(out, "%lu\n", count);
  fclose(out);
}
