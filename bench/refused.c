/* Refuses memory: the allocation of one number, from 1, or all from it on.

       cc -O2 -shared -fPIC -o refused.so bench/refused.c -ldl
       REFUSE_AT=7 REFUSE_ON=0 LD_PRELOAD=./refused.so PROGRAM WORDS

   REFUSE_ON is 1 where all later ones are refused too. How many there are stands in the file that
   REFUSE_TOLD names, in eight bytes. The calls of malloc and realloc are counted: the program makes
   no others. */
#define _GNU_SOURCE
#include <dlfcn.h>
#include <fcntl.h>
#include <stdlib.h>
#include <sys/mman.h>
#include <unistd.h>

static unsigned long at, on, own_count;
static unsigned long *count = &own_count;
static void *(*next_malloc)(size_t);
static void *(*next_realloc)(void *, size_t);

/* The program ends without a call of the library, so the count stands in a file at any moment. */
static void share(const char *name) {
  int file = open(name, O_RDWR | O_CREAT | O_TRUNC, 0644);
  void *place;
  if (file < 0 || ftruncate(file, sizeof *count)) return;
  place = mmap(NULL, sizeof *count, PROT_READ | PROT_WRITE, MAP_SHARED, file, 0);
  if (place != MAP_FAILED) count = place;
  close(file);
}

__attribute__((constructor)) static void begin(void) {
  const char *number = getenv("REFUSE_AT"), *later = getenv("REFUSE_ON");
  const char *name = getenv("REFUSE_TOLD");
  next_malloc = dlsym(RTLD_NEXT, "malloc");
  next_realloc = dlsym(RTLD_NEXT, "realloc");
  if (name) share(name);
  *count = 0;
  on = later && *later == '1';
  at = number ? strtoul(number, NULL, 10) : 0;
}

static int is_refused(void) {
  unsigned long number = __atomic_add_fetch(count, 1, __ATOMIC_SEQ_CST);
  return at && (number == at || (on && number > at));
}

void *malloc(size_t size) {
  if (!next_malloc) next_malloc = dlsym(RTLD_NEXT, "malloc");
  return is_refused() ? NULL : next_malloc(size);
}

void *realloc(void *place, size_t size) {
  if (!next_realloc) next_realloc = dlsym(RTLD_NEXT, "realloc");
  return is_refused() ? NULL : next_realloc(place, size);
}
