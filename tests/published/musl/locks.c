// Threads that try musl's locks. What they do with their data is right if the locks are.
#include "pthread_impl.h"
#include <semaphore.h>

enum { THREADS = 3, ROUNDS = 2 };

// What pthread_create makes for a thread: its own structure. The stack is given by the program that starts the threads.
static struct pthread threads[THREADS];
void __set_thread_state(void *, int, int, int);

void begin(int at) {
  threads[at].self = &threads[at];
  threads[at].tid = at + 1;
  __set_thread_state(&threads[at], 0, 0, 1);
  // Else it would wait in slices of 100 ms.
  pthread_setcancelstate(PTHREAD_CANCEL_DISABLE, 0);
}

static int wrong, done;

static pthread_mutex_t mutex = PTHREAD_MUTEX_INITIALIZER;

void mutex_thread(int at) {
  for (int round = 0; round < ROUNDS; round++) {
    pthread_mutex_lock(&mutex);
    done++;
    pthread_mutex_unlock(&mutex);
  }
}

int mutex_check(void) { return done == THREADS * ROUNDS; }

// A slot: thread 0 fills it, the others empty it.
static pthread_cond_t changed = PTHREAD_COND_INITIALIZER;
static int slot;

void condition_thread(int at) {
  for (int round = 1; round < (at == 0 ? THREADS : 2); round++) {
    pthread_mutex_lock(&mutex);
    while ((slot == 0) != (at == 0)) pthread_cond_wait(&changed, &mutex);
    done += slot;
    slot = at == 0 ? round : 0;
    if (at == 0) pthread_cond_signal(&changed);
    else pthread_cond_broadcast(&changed);
    pthread_mutex_unlock(&mutex);
  }
}

int condition_check(void) { return done == THREADS * (THREADS - 1) / 2 && slot == 0; }

static pthread_barrier_t barrier;
static int cells[THREADS];

void barrier_thread(int at) {
  for (int round = 1; round <= ROUNDS; round++) {
    cells[at] = round;
    if (pthread_barrier_wait(&barrier)) done++;
    for (int other = 0; other < THREADS; other++) if (cells[other] != round) wrong++;
    pthread_barrier_wait(&barrier);
  }
}

int barrier_check(void) { return wrong == 0 && done == ROUNDS; }

static pthread_rwlock_t rwlock = PTHREAD_RWLOCK_INITIALIZER;
static int first, second;

void rwlock_thread(int at) {
  for (int round = 0; round < ROUNDS; round++) {
    if (at == round) {
      pthread_rwlock_wrlock(&rwlock);
      first++;
      second++;
    } else {
      pthread_rwlock_rdlock(&rwlock);
      if (first != second) wrong++;
    }
    pthread_rwlock_unlock(&rwlock);
  }
}

int rwlock_check(void) { return wrong == 0 && first == ROUNDS && second == ROUNDS; }

static sem_t items, room;

// The same slot, by semaphores.
void semaphore_thread(int at) {
  for (int round = 1; round < (at == 0 ? THREADS : 2); round++) {
    sem_wait(at == 0 ? &room : &items);
    done += slot;
    slot = at == 0 ? round : 0;
    sem_post(at == 0 ? &items : &room);
  }
}

int semaphore_check(void) { return condition_check(); }

void init(void) {
  pthread_barrier_init(&barrier, 0, THREADS);
  sem_init(&items, 0, 0);
  sem_init(&room, 0, 1);
}
