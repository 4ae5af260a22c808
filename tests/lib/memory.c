// For tests/memory: refuses one request for memory of the program that it is loaded into (LD_PRELOAD), the one whose number is REFUSE, from 1. Requests that the
// C library makes for itself aren't counted. Where COUNT names a file, the number of all requests is written there at the end.
#define _GNU_SOURCE
#include <dlfcn.h>
#include <link.h>
#include <stdio.h>
#include <stdlib.h>

static unsigned long low, high, refuse, made;

static int find(struct dl_phdr_info *info, size_t size, void *none) {
  // the first object is the program
  for (int i = 0; i < info->dlpi_phnum; i++) {
    const ElfW(Phdr) *part = &info->dlpi_phdr[i];
    if (part->p_type == PT_LOAD && (part->p_flags & PF_X)) {
      low = info->dlpi_addr + part->p_vaddr;
      high = low + part->p_memsz;
    }
  }
  return 1;
}

__attribute__((constructor)) static void begin(void) {
  const char *number = getenv("REFUSE");
  refuse = number ? strtoul(number, 0, 10) : 0;
  dl_iterate_phdr(find, 0);
}

__attribute__((destructor)) static void end(void) {
  const char *name = getenv("COUNT");
  FILE *file = name ? fopen(name, "w") : 0;
  if (file) {
    fprintf(file, "%lu\n", made);
    fclose(file);
  }
}

static int is_refused(void *caller) {
  unsigned long at = (unsigned long)caller;
  return low <= at && at < high && ++made == refuse;
}

extern void *__libc_malloc(size_t);
extern void *__libc_realloc(void *, size_t);

void *malloc(size_t size) { return is_refused(__builtin_return_address(0)) ? 0 : __libc_malloc(size); }

void *realloc(void *old, size_t size) { return is_refused(__builtin_return_address(0)) ? 0 : __libc_realloc(old, size); }
