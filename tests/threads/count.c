// Preloaded, counts the threads of a program: how many there were at once, its first one among them, and
// how many were started. A thread is there until it is joined or detached. Both numbers stand in the file
// THREADS_COUNTED from each start on, since the program ends with no call that could be waited for. With
// THREADS_REFUSED, no thread can be started.
#define _GNU_SOURCE
#include <dlfcn.h>
#include <errno.h>
#include <fcntl.h>
#include <pthread.h>
#include <stdio.h>
#include <stdlib.h>
#include <unistd.h>

static pthread_mutex_t lock = PTHREAD_MUTEX_INITIALIZER;
static long there = 1, most = 1, started;
static int file = -1;

static void write_down(void) {
  char text[64];
  int length = snprintf(text, sizeof text, "%ld %ld\n", most, started);
  if (pwrite(file, text, length, 0) != length) abort();
}

__attribute__((constructor)) static void begin(void) {
  const char *name = getenv("THREADS_COUNTED");
  if (!name) return;
  file = open(name, O_CREAT | O_WRONLY | O_TRUNC | O_CLOEXEC, 0600);
  write_down();
}

// From now on there are so many more.
static void change(long by) {
  pthread_mutex_lock(&lock);
  there += by;
  if (by > 0) started++;
  if (most < there) most = there;
  if (by > 0 && file >= 0) write_down();
  pthread_mutex_unlock(&lock);
}

int pthread_create(pthread_t *thread, const pthread_attr_t *how, void *(*work)(void *), void *with) {
  if (getenv("THREADS_REFUSED")) return EAGAIN;
  int (*create)(pthread_t *, const pthread_attr_t *, void *(*)(void *), void *) =
      dlsym(RTLD_NEXT, "pthread_create");
  change(1);
  return create(thread, how, work, with);
}

int pthread_join(pthread_t thread, void **result) {
  int (*join)(pthread_t, void **) = dlsym(RTLD_NEXT, "pthread_join");
  int status = join(thread, result);
  change(-1);
  return status;
}

int pthread_detach(pthread_t thread) {
  int (*detach)(pthread_t) = dlsym(RTLD_NEXT, "pthread_detach");
  change(-1);
  return detach(thread);
}
