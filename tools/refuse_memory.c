/* Preloaded by tools/refuse-memory: counts what a program asks of the C library, and refuses by number.
 *
 * REFUSED: seven numbers; the kind, the first and the last request that is refused, the error that is told, the first and the last
 * request that is answered by at most so many bytes, that number of bytes. COUNTS: a file, which gets a number for each kind at the end.
 * FORKED: a file. At each request for memory two copies of the process go on with it refused, one of them with all after it
 * refused, and the file gets six numbers for each copy: the request, whether those after it are refused, how it ended, the bytes
 * that it wrote on each stream, and whether they are the beginning of DUE_OUT and DUE_ERR.
 */
#define _GNU_SOURCE
#include <errno.h>
#include <fcntl.h>
#include <limits.h>
#include <stdarg.h>
#include <stdlib.h>
#include <string.h>
#include <sys/mman.h>
#include <sys/stat.h>
#include <sys/syscall.h>
#include <sys/wait.h>
#include <unistd.h>

enum { MEMORY, OPEN, READ, WRITE, CLOSE, KINDS };

static long kind = -1, first, last, error, short_first, short_last, most;
static long counts[KINDS];
static int forked = -1, is_copy;
/* What a copy wrote, on standard output and standard error, and whether another text; what is due on each. */
static struct { long written[2], other; } *copy;
static struct { const char *text; long size; } due[2];

static void copy_refused(long number, long onward) {
  memset(copy, 0, sizeof *copy);
  int child = fork(), status = 0;
  if (child == 0) {
    forked = -1, is_copy = 1, kind = MEMORY, error = ENOMEM;
    first = number, last = onward ? LONG_MAX : number;
    alarm(60);
    return;
  }
  while (waitpid(child, &status, 0) < 0 && errno == EINTR) {}
  long told[] = {number, onward, status, copy->written[0], copy->written[1], !copy->other};
  syscall(SYS_write, forked, told, sizeof told);
}

static int is_refused(int asked) {
  long number = counts[asked]++;
  for (long onward = 0; asked == MEMORY && forked >= 0 && onward < 2; onward++) copy_refused(number, onward);
  if (asked != kind || number < first || number > last) return 0;
  errno = (int)error;
  return 1;
}

static size_t taken(int asked, size_t size) {
  long number = counts[asked] - 1;
  int is_short = asked == kind && number >= short_first && number <= short_last;
  return is_short && size > (size_t)most ? (size_t)most : size;
}

static ssize_t compared(int at, const char *from, size_t size) {
  long end = copy->written[at] + (long)size;
  if (end > due[at].size || memcmp(due[at].text + copy->written[at], from, size)) copy->other = 1;
  copy->written[at] = end;
  return (ssize_t)size;
}

extern void *__libc_malloc(size_t), *__libc_calloc(size_t, size_t), *__libc_realloc(void *, size_t), *__libc_memalign(size_t, size_t);
void *malloc(size_t size) { return is_refused(MEMORY) ? NULL : __libc_malloc(size); }
void *calloc(size_t count, size_t size) { return is_refused(MEMORY) ? NULL : __libc_calloc(count, size); }
void *realloc(void *old, size_t size) { return is_refused(MEMORY) ? NULL : __libc_realloc(old, size); }
void *memalign(size_t align, size_t size) { return is_refused(MEMORY) ? NULL : __libc_memalign(align, size); }
void *aligned_alloc(size_t align, size_t size) { return memalign(align, size); }
int posix_memalign(void **to, size_t align, size_t size) {
  *to = memalign(align, size);
  return *to ? 0 : ENOMEM;
}

int open(const char *name, int flags, ...) {
  va_list rest;
  va_start(rest, flags);
  int mode = va_arg(rest, int);
  va_end(rest);
  return is_refused(OPEN) ? -1 : (int)syscall(SYS_openat, AT_FDCWD, name, flags, mode);
}
ssize_t read(int file, void *to, size_t size) { return is_refused(READ) ? -1 : syscall(SYS_read, file, to, taken(READ, size)); }
ssize_t write(int file, const void *from, size_t size) {
  if (is_refused(WRITE)) return -1;
  if (is_copy && (file == 1 || file == 2)) return compared(file - 1, from, size);
  return syscall(SYS_write, file, from, taken(WRITE, size));
}
int close(int file) {
  syscall(SYS_close, file);
  return is_refused(CLOSE) ? -1 : 0;
}

static void read_due(int at, const char *name) {
  struct stat told;
  int file = name ? (int)syscall(SYS_openat, AT_FDCWD, name, O_RDONLY, 0) : -1;
  if (file < 0 || fstat(file, &told) || told.st_size == 0) return;
  due[at].size = told.st_size;
  due[at].text = mmap(NULL, told.st_size, PROT_READ, MAP_PRIVATE, file, 0);
}

static int made_file(const char *name) {
  return name ? (int)syscall(SYS_openat, AT_FDCWD, name, O_WRONLY | O_CREAT | O_TRUNC, 0600) : -1;
}

__attribute__((constructor)) static void begin(void) {
  long *numbers[] = {&kind, &first, &last, &error, &short_first, &short_last, &most};
  char *text = getenv("REFUSED");
  for (int i = 0; text && i < 7; i++) *numbers[i] = strtol(text, &text, 10);
  read_due(0, getenv("DUE_OUT"));
  read_due(1, getenv("DUE_ERR"));
  copy = mmap(NULL, sizeof *copy, PROT_READ | PROT_WRITE, MAP_SHARED | MAP_ANONYMOUS, -1, 0);
  memset(counts, 0, sizeof counts);
  forked = made_file(getenv("FORKED"));
}

__attribute__((destructor)) static void end(void) {
  int file = is_copy ? -1 : made_file(getenv("COUNTS"));
  if (file >= 0) syscall(SYS_write, file, counts, sizeof counts);
}
