/* Replaces the C library's allocator, and lets allocations fail.
 *
 * LD_PRELOAD names it as a shared library. Once the program has started, it counts the calls of malloc, calloc and
 * realloc, and lets those from number FAIL_FROM to number FAIL_TO of the environment fail. At exit it writes to
 * the file descriptor FAIL_REPORT_FD the number of calls, of failed calls, and of blocks that were not freed. The
 * functions with an alignment, which these programs do not call, always fail.
 */
#include <errno.h>
#include <stdio.h>
#include <stdlib.h>

/* The C library's own names of its allocator. */
void *__libc_malloc(size_t size);
void *__libc_calloc(size_t count, size_t size);
void *__libc_realloc(void *block, size_t size);
void __libc_free(void *block);

/* The counts begin when the program has started. */
static int has_started;
static unsigned long fail_from, fail_to, calls, failed;
static long leaked;

/* The number in a variable of the environment, or 0. */
static unsigned long env_number(const char *name) {
  const char *text = getenv(name);
  return text ? strtoul(text, NULL, 10) : 0;
}

__attribute__((constructor)) static void start(void) {
  fail_from = env_number("FAIL_FROM");
  fail_to = env_number("FAIL_TO");
  has_started = 1;
}

/* Runs after everything that the program does. */
__attribute__((destructor)) static void report(void) {
  dprintf((int)env_number("FAIL_REPORT_FD"), "%lu %lu %ld\n", calls, failed, leaked);
}

/* Counts a failed call, and returns its result. */
static void *fail(void) {
  failed++;
  errno = ENOMEM;
  return NULL;
}

/* Counts a call, and returns whether it must fail. */
static int must_fail(void) { return has_started && ++calls >= fail_from && calls <= fail_to; }

/* Counts a new block. */
static void *allocated(void *block) {
  leaked += has_started && block;
  return block;
}

void *malloc(size_t size) { return must_fail() ? fail() : allocated(__libc_malloc(size)); }
void *calloc(size_t count, size_t of) {
  return must_fail() ? fail() : allocated(__libc_calloc(count, of));
}

/* A block that moves stays one block. These programs never pass the size 0, which would free it. */
void *realloc(void *block, size_t size) {
  return must_fail() ? fail()
         : block     ? __libc_realloc(block, size)
                     : allocated(__libc_malloc(size));
}

void free(void *block) {
  leaked -= has_started && block;
  __libc_free(block);
}

void *aligned_alloc(size_t alignment, size_t size) { return alignment + size ? fail() : NULL; }
void *memalign(size_t alignment, size_t size) { return alignment + size ? fail() : NULL; }
int posix_memalign(void **to, size_t align, size_t size) {
  return *to = memalign(align, size), ENOMEM;
}
