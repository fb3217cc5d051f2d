/* Counts the allocations of a program and makes one of them fail. Loaded before the program by LD_PRELOAD.

   FAIL_ALLOCATION   the number of the allocation that fails, from 1: it returns NULL and sets errno to ENOMEM. None fails if the
                     variable is absent or 0.
   ALLOCATION_COUNT  the file that receives the number of calls of malloc, calloc and realloc, as an 8-byte integer of the machine.
                     The file is mapped, so that the number is also right for a program that is killed or that ends by _exit. */
#define _GNU_SOURCE
#include <errno.h>
#include <fcntl.h>
#include <stdint.h>
#include <stdlib.h>
#include <sys/mman.h>
#include <unistd.h>

extern void *__libc_malloc(size_t size);
extern void *__libc_calloc(size_t count, size_t size);
extern void *__libc_realloc(void *block, size_t size);

static uint64_t own_count;
static uint64_t *count = &own_count;
static uint64_t failing;

__attribute__((constructor)) static void start(void) {
  const char *number = getenv("FAIL_ALLOCATION");
  const char *name = getenv("ALLOCATION_COUNT");
  if (name) {
    int file = open(name, O_RDWR | O_CREAT | O_CLOEXEC, 0644);
    if (file < 0 || ftruncate(file, sizeof own_count) != 0) abort();
    void *mapped = mmap(NULL, sizeof own_count, PROT_READ | PROT_WRITE, MAP_SHARED, file, 0);
    if (mapped == MAP_FAILED) abort();
    close(file);
    count = mapped;
  }
  __atomic_store_n(count, 0, __ATOMIC_SEQ_CST);
  failing = number ? strtoull(number, NULL, 10) : 0;
}

/* Counts an allocation, and returns true if it is the one that fails. */
static int fails(void) {
  if (__atomic_add_fetch(count, 1, __ATOMIC_SEQ_CST) != failing) return 0;
  errno = ENOMEM;
  return 1;
}

void *malloc(size_t size) { return fails() ? NULL : __libc_malloc(size); }

void *calloc(size_t number, size_t size) { return fails() ? NULL : __libc_calloc(number, size); }

void *realloc(void *block, size_t size) { return fails() ? NULL : __libc_realloc(block, size); }
