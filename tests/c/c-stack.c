/* How much stack the calls of the library for C touch: c-stack INSTANCE PLAN judges and explains the plan, begins a cell of it, or else of
   another one, hands it over to the plan, asks for the rest of its run, and drives and frees it, each on a thread whose stack was painted
   before, and prints how far down from the top the paint is gone. Memory below that isn't counted, so what a frame takes and never uses at
   its end isn't seen. */
#define _GNU_SOURCE
#include "c-driving.h"

#include <pthread.h>
#include <string.h>

#define STACK ((size_t)4 << 20)
#define PAINT 0xa5

static const uint8_t no_name[1];
static const char two[] = "two\n2 2\n0 3 1 2\n1 4 0 1\n";
static const char in_time[] = "release = [0, 0]\nbudget = [5, 10]\norder = [[0, 1], [0, 1]]\n";
static struct text instance, plan;
static struct cellplan_cell cell;
static uint8_t answer[1 << 20];

static void *nothing(void *unused) { return unused; }

static void *check(void *unused) {
  size_t length = 0;
  cellplan_check(instance.bytes, instance.length, no_name, 0, plan.bytes, plan.length, answer, sizeof answer, &length);
  return unused;
}

static void *explain(void *unused) {
  size_t length = 0;
  cellplan_explain(instance.bytes, instance.length, no_name, 0, plan.bytes, plan.length, answer, sizeof answer, &length);
  return unused;
}

static void *begin(void *unused) {
  cellplan_cell_new(instance.bytes, instance.length, no_name, 0, plan.bytes, plan.length, &cell);
  return unused;
}

static void *over(void *unused) {
  struct cellplan_order orders[1];
  size_t count = 0;
  cellplan_cell_hand_over(&cell, instance.bytes, instance.length, no_name, 0, plan.bytes, plan.length, 0, orders, 1, &count);
  return unused;
}

static void *rest(void *unused) {
  size_t length = 0;
  cellplan_cell_check(&cell, 0, answer, sizeof answer, &length);
  cellplan_cell_schedule(&cell, 0, answer, sizeof answer, &length);
  return unused;
}

static void *drive(void *unused) {
  driven(&cell);
  return unused;
}

static void *end(void *unused) {
  cellplan_cell_free(&cell);
  return unused;
}

/* How many bytes of its stack a thread with this work has touched. */
static size_t touched(void *(*work)(void *)) {
  pthread_t thread;
  pthread_attr_t attributes;
  uint8_t *stack = aligned_alloc(4096, STACK);
  if (!stack) exit(CELLPLAN_NO_MEMORY);
  memset(stack, PAINT, STACK);
  if (pthread_attr_init(&attributes) || pthread_attr_setstack(&attributes, stack, STACK) ||
      pthread_create(&thread, &attributes, work, NULL) || pthread_join(thread, NULL))
    exit(9);
  size_t low = 0;
  while (low < STACK && stack[low] == PAINT) low++;
  free(stack);
  return STACK - low;
}

int main(int argc, char **argv) {
  if (argc != 3) return 2;
  instance = whole(argv[1]);
  plan = whole(argv[2]);
  size_t alone = touched(nothing);
  printf("check %zu explain %zu new", touched(check) - alone, touched(explain) - alone);
  printf(" %zu", touched(begin) - alone);
  if (cellplan_cell_now(&cell, &(uint64_t){0}) != CELLPLAN_GOOD &&
      cellplan_cell_new((const uint8_t *)two, strlen(two), no_name, 0, (const uint8_t *)in_time, strlen(in_time), &cell) != CELLPLAN_GOOD)
    return 9;
  printf(" over %zu rest %zu", touched(over) - alone, touched(rest) - alone);
  printf(" reports %zu", touched(drive) - alone);
  printf(" free %zu\n", touched(end) - alone);
  free(instance.bytes);
  free(plan.bytes);
  return 0;
}
