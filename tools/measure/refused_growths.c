/* Runs a program on and on: wherever it asks for memory, a copy of it is refused once and runs to its end. What the
   copies write goes to the file that REFUSED_GROWTHS names: before each a line with the byte 1 and the number of the
   request, behind each a line with the byte 2 and the copy's status. The program itself is never refused. Only requests
   of the program count, and none of the C library's own. With REFUSED_COUNT in place of REFUSED_GROWTHS nothing is
   refused, and the file that it names gets the number of requests at the end. */
#define _GNU_SOURCE
#include <dlfcn.h>
#include <fcntl.h>
#include <stddef.h>
#include <stdio.h>
#include <stdlib.h>
#include <sys/wait.h>
#include <unistd.h>

static void *(*real_malloc)(size_t);
static void *(*real_realloc)(void *, size_t);
static int log_file = -1;
static int requests = 0;

__attribute__((constructor)) static void begin(void) {
  const char *name = getenv("REFUSED_GROWTHS");
  if (real_malloc != NULL) return;
  real_malloc = (void *(*)(size_t))dlsym(RTLD_NEXT, "malloc");
  real_realloc = (void *(*)(void *, size_t))dlsym(RTLD_NEXT, "realloc");
  if (name != NULL) log_file = open(name, O_WRONLY | O_CREAT | O_APPEND, 0600);
}

__attribute__((destructor)) static void end(void) {
  const char *name = getenv("REFUSED_COUNT");
  FILE *file;
  if (name == NULL) return;
  file = fopen(name, "w");
  if (file == NULL) _exit(96);
  fprintf(file, "%d\n", requests);
  fclose(file);
}

static void note(char mark, int number) {
  char line[32];
  int length = snprintf(line, sizeof line, "%c%d\n", mark, number);
  if (write(log_file, line, length) != length) _exit(97);
}

/* Whether this is the copy, whose request is refused. */
static int is_refused(void) {
  int status = 0;
  pid_t copy;
  requests += 1;
  if (log_file < 0) return 0;
  copy = fork();
  if (copy < 0) _exit(98);
  if (copy == 0) {
    note(1, requests);
    dup2(log_file, 1);
    dup2(log_file, 2);
    log_file = -1;
    return 1;
  }
  if (waitpid(copy, &status, 0) != copy) _exit(99);
  note(2, WIFEXITED(status) ? WEXITSTATUS(status) : 1000 + status);
  return 0;
}

void *malloc(size_t size) {
  if (real_malloc == NULL) begin();
  return is_refused() ? NULL : real_malloc(size);
}

void *realloc(void *place, size_t size) {
  if (real_realloc == NULL) begin();
  return is_refused() ? NULL : real_realloc(place, size);
}
