// Programs with threads and signals.
#include "hostile.h"
#include <dlfcn.h>

enum { MOST = 200 };
static pthread_t threads[MOST];
static int run_threads(int number, void *(*function)(void *)) {
  for (intptr_t i = 0; i < number; i++)
    if (pthread_create(&threads[i], NULL, function, (void *)i)) return 1;
  for (int i = 0; i < number; i++)
    if (pthread_join(threads[i], NULL)) return 1;
  return 0;
}

static void *requests(void *unused) { return request(100), unused; }
PROGRAM(many, "200 threads that request") { return run_threads(MOST, requests); }
PROGRAM(in_turn, "1,000 threads in turn") {
  for (int i = 0; i < 1000; i++)
    if (run_threads(1, requests)) return 1;
  return 0;
}

// each frees what its neighbour has requested
static void *volatile given[MOST][64];
static pthread_barrier_t barrier;
static void *exchange(void *word) {
  intptr_t me = (intptr_t)word;
  for (int turn = 0; turn < 20; turn++) {
    for (int i = 0; i < 64; i++) given[me][i] = malloc(100 + i);
    pthread_barrier_wait(&barrier);
    for (int i = 0; i < 64; i++) free(given[(me + 1) % 50][i]);
    pthread_barrier_wait(&barrier);
  }
  return NULL;
}
PROGRAM(exchanges, "threads that exchange blocks") {
  return pthread_barrier_init(&barrier, NULL, 50) || run_threads(50, exchange);
}

static void *resize(void *word) {
  char *block = NULL;
  for (int i = 1; i < 500; i++) block = realloc(block, i * 37 % 5000 + 1);
  return free(block), word;
}
PROGRAM(resizes, "threads that resize") { return run_threads(16, resize); }

static pthread_key_t key;
static void on_end(void *block) { free(block), request(3); }
static void *with_key(void *unused) { return pthread_setspecific(key, malloc(500)), unused; }
PROGRAM(keys, "threads that request at their end") {
  return pthread_key_create(&key, on_end) || run_threads(100, with_key);
}

static void *cancelled(void *unused) {
  request(2);
  for (;;) pause();
  return unused;
}
PROGRAM(cancels, "threads that are cancelled") {
  for (int i = 0; i < 50; i++) {
    if (pthread_create(&threads[0], NULL, cancelled, NULL)) return 1;
    usleep(1000), pthread_cancel(threads[0]), pthread_join(threads[0], NULL);
  }
  return 0;
}

static int number_of_ends;
static void *detached(void *unused) {
  pthread_detach(pthread_self()), request(5), __atomic_add_fetch(&number_of_ends, 1, __ATOMIC_RELEASE);
  return unused;
}
PROGRAM(detaches, "threads that nobody joins") {
  for (int i = 0; i < 100; i++)
    if (pthread_create(&threads[0], NULL, detached, NULL)) return 1;
  while (__atomic_load_n(&number_of_ends, __ATOMIC_ACQUIRE) < 100) usleep(1000);
  return request(1), 0;
}

static void *forks(void *unused) {
  for (int i = 0; i < 5; i++) {
    pid_t child = fork();
    if (!child) request(2), _exit(0);
    ended(child);
  }
  return unused;
}
PROGRAM(each_forks, "threads that fork") { return run_threads(8, forks); }

static void *runs(void *unused) { return request(2), (void *)(intptr_t)become("plain"), unused; }
PROGRAM(becomes, "a thread becomes a program") { return request(1), run_threads(1, runs), 1; }

// ---- objects that come and go

static int load(int (*of)(const char *), int times) {
  for (int i = 0; i < times; i++)
    if (of(i % 2 ? "libz.so.1" : "liblzma.so.5")) return 1;
  return request(2), 0;
}
static int open_and_close(const char *name) {
  void *object = dlopen(name, RTLD_NOW);
  return object ? dlclose(object) : 0;
}
PROGRAM(comes_and_goes, "objects that come and go") { return load(open_and_close, 200); }
#ifdef __GLIBC__
static int open_apart(const char *name) { return dlmopen(LM_ID_NEWLM, name, RTLD_NOW), 0; }
PROGRAM(apart, "objects with a libc of their own") { return load(open_apart, 2); }
#endif
// each of these requests from its own code; the second is where the first was
PROGRAM(in_its_place, "an object in the place of another") {
  for (int i = 0; i < 20; i++) {
    void *object = dlopen(i % 2 ? "./hostile_small.so" : "./hostile_large.so", RTLD_NOW);
    void (*requests_there)(void) = object ? (void (*)(void))dlsym(object, "requests_there") : NULL;
    if (!requests_there) return 1;
    requests_there(), dlclose(object);
  }
  return 0;
}

static void *loads(void *unused) { return load(open_and_close, 20) ? NULL : unused; }
PROGRAM(all_load, "threads that load objects") { return run_threads(8, loads); }

// ---- signals

static volatile sig_atomic_t came;
static void on_signal(int number) { (void)number, came++; }
static void on_request(int number) {
  (void)number;
  if (came < 200) came++, request(1);
}
static void *volatile kept;
static void on_resize(int number) { (void)number, kept = realloc(kept, came++ * 13 % 4000 + 1); }

static int timed(void (*handler)(int), int microseconds) {
  struct sigaction action = {.sa_handler = handler, .sa_flags = SA_RESTART};
  struct itimerval timer = {{0, microseconds}, {0, microseconds}};
  return sigaction(SIGALRM, &action, NULL) || setitimer(ITIMER_REAL, &timer, NULL);
}
PROGRAM(interrupted, "signals during requests") {
  if (timed(on_signal, 50)) return 1;
  for (int i = 0; i < 300000; i++) request(1);
  struct itimerval none = {0};
  return setitimer(ITIMER_REAL, &none, NULL);
}
PROGRAM(resizes_in_handlers, "handlers that resize") {
  signal(SIGUSR1, on_resize);
  for (int i = 0; i < 1000; i++) raise(SIGUSR1), request(1);
  return free(kept), 0;
}
// they come while it requests nothing, and each of its blocks is whole
PROGRAM(requests_in_handlers, "handlers that request") {
  if (timed(on_request, 200)) return 1;
  while (came < 200)
    ;
  struct itimerval none = {0};
  return setitimer(ITIMER_REAL, &none, NULL), 0;
}
static void *waits(void *unused) {
  sigset_t all;
  int number;
  sigfillset(&all);
  for (int i = 0; i < 100; i++) sigwait(&all, &number), request(1);
  return unused;
}
PROGRAM(waits_for_signals, "a thread that waits for signals") {
  sigset_t all;
  sigfillset(&all), sigdelset(&all, SIGSEGV), pthread_sigmask(SIG_BLOCK, &all, NULL);
  if (pthread_create(&threads[0], NULL, waits, NULL)) return 1;
  for (int i = 0; i < 100; i++) pthread_kill(threads[0], SIGUSR1), usleep(500);
  while (!pthread_kill(threads[0], 0) && pthread_tryjoin_np(threads[0], NULL))
    pthread_kill(threads[0], SIGUSR1), usleep(500);
  return 0;
}
