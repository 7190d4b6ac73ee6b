/* Two threads with a cell each: c-threads TIMES INSTANCE PLAN INSTANCE PLAN has each of them judge and explain a plan of its own and
   drive a cell of it, so many times and both at once. Each time they are answered as one thread alone is; else the status is 1. */
#define _POSIX_C_SOURCE 200809L
#include "c-driving.h"

#include <pthread.h>

struct work {
  struct text instance, plan;
  uint64_t wanted;
  long times, wrong;
};

static pthread_barrier_t start;

/* A number made of all answers to one thread that goes over all calls which take memory, and drives a cell meanwhile. */
static uint64_t answered(const struct work *work) {
  static const uint8_t no_name[1];
  uint8_t text[4096];
  size_t length = 0;
  struct cellplan_cell cell = {0};
  const struct text instance = work->instance, plan = work->plan;
  uint64_t answers = with(0, cellplan_check(instance.bytes, instance.length, no_name, 0, plan.bytes, plan.length, text, sizeof text, &length));
  for (size_t i = 0; i < length && length <= sizeof text; i++) answers = with(answers, text[i]);
  answers = with(answers, cellplan_cell_new(instance.bytes, instance.length, no_name, 0, plan.bytes, plan.length, &cell));
  answers = with(answers, driven(&cell));
  cellplan_cell_free(&cell);
  answers = with(answers, cellplan_explain(instance.bytes, instance.length, no_name, 0, plan.bytes, plan.length, text, sizeof text, &length));
  for (size_t i = 0; i < length && length <= sizeof text; i++) answers = with(answers, text[i]);
  return answers;
}

static void *worked(void *given) {
  struct work *work = given;
  pthread_barrier_wait(&start);
  for (long i = 0; i < work->times; i++) work->wrong += answered(work) != work->wanted;
  return NULL;
}

int main(int argc, char **argv) {
  struct work works[2];
  pthread_t threads[2];
  if (argc != 6 || pthread_barrier_init(&start, NULL, 2)) return 2;
  for (int i = 0; i < 2; i++) {
    works[i] = (struct work){whole(argv[2 + 2 * i]), whole(argv[3 + 2 * i]), 0, strtol(argv[1], NULL, 10), 0};
    works[i].wanted = answered(&works[i]);
  }
  for (int i = 0; i < 2; i++)
    if (pthread_create(&threads[i], NULL, worked, &works[i])) return 9;
  for (int i = 0; i < 2; i++)
    if (pthread_join(threads[i], NULL)) return 9;
  for (int i = 0; i < 2; i++) {
    free(works[i].instance.bytes);
    free(works[i].plan.bytes);
  }
  if (works[0].wanted == works[1].wanted) return 9;
  printf("%ld times each, %ld and %ld of them answered otherwise\n", works[0].times, works[0].wrong, works[1].wrong);
  return works[0].wrong || works[1].wrong;
}
