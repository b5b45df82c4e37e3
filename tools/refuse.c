/* Preloaded beside a program: refuses allocations, and threads that are to be made. They are counted from 1, and where
   BEGIN is set only from when the program has written a text that begins with "begin". The one whose number stands in REFUSE
   is refused, and the file that REFUSED names is made; where ONCE is set later ones are passed on, else they are refused,
   too. At its end the program's count is written to the file that COUNT names. Whenever it writes a text that begins with
   "refused", how many threads run besides its first is written to the file that THREADS names. */
#define _GNU_SOURCE
#include <dlfcn.h>
#include <errno.h>
#include <fcntl.h>
#include <pthread.h>
#include <stdio.h>
#include <stdlib.h>
#include <string.h>
#include <sys/syscall.h>
#include <unistd.h>

static long number, wanted, threads;
static int once, begun, ready;
static void *(*real_malloc)(size_t);
static void *(*real_realloc)(void *, size_t);
static void *(*real_calloc)(size_t, size_t);
static void *(*real_aligned_alloc)(size_t, size_t);
static int (*real_posix_memalign)(void **, size_t, size_t);
static ssize_t (*real_write)(int, const void *, size_t);
static int (*real_pthread_create)(pthread_t *, const pthread_attr_t *, void *(*)(void *), void *);

__attribute__((constructor)) static void begin(void) {
  real_malloc = dlsym(RTLD_NEXT, "malloc");
  real_realloc = dlsym(RTLD_NEXT, "realloc");
  real_calloc = dlsym(RTLD_NEXT, "calloc");
  real_aligned_alloc = dlsym(RTLD_NEXT, "aligned_alloc");
  real_posix_memalign = dlsym(RTLD_NEXT, "posix_memalign");
  real_write = dlsym(RTLD_NEXT, "write");
  real_pthread_create = dlsym(RTLD_NEXT, "pthread_create");
  const char *text = getenv("REFUSE");
  wanted = text ? atol(text) : 0;
  once = getenv("ONCE") != NULL;
  begun = getenv("BEGIN") == NULL;
  ready = 1;
}

static void note(const char *variable, long value) {
  const char *file = getenv(variable);
  if (!file) return;
  int out = open(file, O_CREAT | O_WRONLY | O_TRUNC, 0600);
  char text[32];
  int length = snprintf(text, sizeof text, "%ld\n", value);
  if (out < 0 || real_write(out, text, length) != length) _exit(99);
  close(out);
}

__attribute__((destructor)) static void end(void) { note("COUNT", number); }

/* A program that ends by this runs no destructor. */
void _exit(int status) {
  end();
  for (;;) syscall(SYS_exit_group, status);
}

static int refused(void) {
  if (!ready || !begun) return 0;
  long own = __atomic_add_fetch(&number, 1, __ATOMIC_SEQ_CST);
  if (wanted == 0 || own < wanted || (once && own > wanted)) return 0;
  if (own == wanted) note("REFUSED", own);
  errno = ENOMEM;
  return 1;
}

void *malloc(size_t size) {
  if (!real_malloc) real_malloc = dlsym(RTLD_NEXT, "malloc");
  return refused() ? NULL : real_malloc(size);
}

void *realloc(void *old, size_t size) {
  if (!real_realloc) real_realloc = dlsym(RTLD_NEXT, "realloc");
  return refused() ? NULL : real_realloc(old, size);
}

void *calloc(size_t count, size_t size) {
  return real_calloc == NULL || refused() ? NULL : real_calloc(count, size);
}

void *aligned_alloc(size_t alignment, size_t size) {
  return refused() ? NULL : real_aligned_alloc(alignment, size);
}

int posix_memalign(void **place, size_t alignment, size_t size) {
  return refused() ? ENOMEM : real_posix_memalign(place, alignment, size);
}

/* A thread's work, and its count while it runs. */
struct work {
  void *(*run)(void *);
  void *with;
};

static void *counted(void *given) {
  struct work work = *(struct work *)given;
  free(given);
  void *result = work.run(work.with);
  __atomic_sub_fetch(&threads, 1, __ATOMIC_SEQ_CST);
  return result;
}

int pthread_create(pthread_t *thread, const pthread_attr_t *attributes, void *(*run)(void *), void *with) {
  if (refused()) return EAGAIN;
  struct work *work = real_malloc(sizeof *work);
  if (!work) return EAGAIN;
  work->run = run;
  work->with = with;
  __atomic_add_fetch(&threads, 1, __ATOMIC_SEQ_CST);
  int status = real_pthread_create(thread, attributes, counted, work);
  if (status) {
    __atomic_sub_fetch(&threads, 1, __ATOMIC_SEQ_CST);
    free(work);
  }
  return status;
}

ssize_t write(int to, const void *text, size_t length) {
  if (!real_write) real_write = dlsym(RTLD_NEXT, "write");
  if (to == 1 && length >= 5 && !memcmp(text, "begin", 5)) begun = 1;
  if (to == 1 && length >= 7 && !memcmp(text, "refused", 7)) {
    // a thread that was joined in effect may be in its last instructions
    for (int turn = 0; turn < 2000 && __atomic_load_n(&threads, __ATOMIC_SEQ_CST); turn++) usleep(1000);
    note("THREADS", __atomic_load_n(&threads, __ATOMIC_SEQ_CST));
  }
  return real_write(to, text, length);
}
