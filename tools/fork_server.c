/* Preloaded by tools/fuzz: runs a program again and again, each time in a copy of the process, without loading it anew.
 *
 * A request comes on standard input: a folder and the words of a command, a zero byte after each, and a line feed at the end. A
 * copy of the process, as it was before the program's own code began, goes to the folder and runs the program with these words;
 * its streams are the files `@out` and `@err` there, empty before. Its status as `waitpid` tells it is answered on standard
 * output, in four bytes. SECONDS bounds the processor time of each copy, and a hundred times that its time by the clock.
 */
#define _GNU_SOURCE
#include <dlfcn.h>
#include <fcntl.h>
#include <stdio.h>
#include <stdlib.h>
#include <string.h>
#include <sys/resource.h>
#include <sys/wait.h>
#include <unistd.h>

enum { WORDS = 4096 };
typedef int Main(int, char **, char **);
typedef int Start(Main *, int, char **, void (*)(void), void (*)(void), void (*)(void), void *);

static void open_as(int file, const char *name, int flags) {
  int opened = open(name, flags, 0600);
  if (opened < 0 || dup2(opened, file) < 0) _exit(70);
  close(opened);
}

/* Makes this process one that runs a command. */
static void begin_run(const char *folder) {
  unsigned seconds = (unsigned)atoi(getenv("SECONDS"));
  struct rlimit most = {seconds, seconds};
  if (chdir(folder) || setrlimit(RLIMIT_CPU, &most)) _exit(70);
  open_as(0, "/dev/null", O_RDONLY);
  open_as(1, "@out", O_WRONLY | O_CREAT | O_TRUNC);
  open_as(2, "@err", O_WRONLY | O_CREAT | O_TRUNC);
  alarm(100 * seconds);
}

/* Returns the number of words of a request after the folder, which it takes apart; the list ends in a null pointer. */
static int take_words(char *line, char *end, char **words) {
  int count = 0;
  for (char *at = line + strlen(line) + 1; at < end && count < WORDS; at += strlen(at) + 1) words[count++] = at;
  words[count] = NULL;
  return count;
}

int __libc_start_main(Main *main, int argc, char **argv, void (*init)(void), void (*fini)(void), void (*rtld_fini)(void), void *top) {
  static char *words[WORDS + 1];
  Start *start = (Start *)dlsym(RTLD_NEXT, "__libc_start_main");
  char *line = NULL;
  size_t size = 0;
  ssize_t length;
  if (!getenv("SECONDS")) return start(main, argc, argv, init, fini, rtld_fini, top);
  while ((length = getline(&line, &size, stdin)) > 0) {
    int status = 0, count = take_words(line, line + length - 1, words);
    pid_t child = fork();
    if (child == 0) {
      begin_run(line);
      return start(main, count, words, init, fini, rtld_fini, top);
    }
    if (child < 0 || waitpid(child, &status, 0) != child || write(1, &status, sizeof status) != sizeof status) _exit(70);
  }
  _exit(0);
}
