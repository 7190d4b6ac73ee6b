/* The time of a report: c-bench INSTANCE PLAN drives the cell, each report at a moment one later than the last, and prints the
   nanoseconds of a report. */
#define _POSIX_C_SOURCE 200809L
#include "cellplan.h"

#include <inttypes.h>
#include <stdio.h>
#include <stdlib.h>
#include <time.h>

struct ended {
  uint32_t kind, job, machine;
};

static uint8_t *whole(const char *path, size_t *length) {
  FILE *file = fopen(path, "rb");
  uint8_t *bytes = malloc(1 << 26);
  if (!file || !bytes) exit(5);
  *length = fread(bytes, 1, 1 << 26, file);
  fclose(file);
  return bytes;
}

static double nanoseconds(void) {
  struct timespec now;
  clock_gettime(CLOCK_MONOTONIC, &now);
  return now.tv_sec * 1e9 + now.tv_nsec;
}

/* Reports what has ended, in the order in which it began, until nothing goes on, and gives the number of reports. */
static size_t driven(struct cellplan_cell *cell, struct ended *queue, struct cellplan_order *orders, uint32_t jobs, size_t *moves) {
  size_t head = 0, tail = 0;
  for (; tail < jobs; tail++) queue[tail] = (struct ended){CELLPLAN_ARRIVE, (uint32_t)tail, 0};
  for (; head < tail; head++) {
    size_t count = 0;
    bool late = false;
    uint64_t detail = 0;
    struct ended next = queue[head];
    uint32_t status = cellplan_cell_report(cell, next.kind, next.job, next.machine, head, orders, jobs, &count, &late, &detail);
    if (status != CELLPLAN_GOOD) exit((int)status);
    *moves += count;
    for (size_t i = 0; i < count; i++)
      if (orders[i].target != CELLPLAN_OUT) queue[tail++] = (struct ended){CELLPLAN_FINISH, orders[i].job, orders[i].target};
  }
  return head;
}

int main(int argc, char **argv) {
  static const uint8_t no_name[1];
  struct cellplan_cell cell = {0};
  uint32_t jobs = 0;
  uint64_t total = 0, left = 0;
  size_t instance_length = 0, plan_length = 0, moves = 0;
  if (argc != 3) return 2;
  uint8_t *instance = whole(argv[1], &instance_length), *plan = whole(argv[2], &plan_length);
  double begun = nanoseconds();
  uint32_t status = cellplan_cell_new(instance, instance_length, no_name, 0, plan, plan_length, &cell);
  double made = nanoseconds();
  if (status != CELLPLAN_GOOD) return (int)status;
  cellplan_cell_jobs(&cell, &jobs);
  cellplan_cell_reports_left(&cell, &total);
  struct ended *queue = malloc((total + 1) * sizeof *queue);
  struct cellplan_order *orders = malloc((jobs + 1) * sizeof *orders);
  if (!queue || !orders) return CELLPLAN_NO_MEMORY;
  double from = nanoseconds();
  size_t reports = driven(&cell, queue, orders, jobs, &moves);
  double to = nanoseconds();
  cellplan_cell_reports_left(&cell, &left);
  printf("%zu reports, %zu moves, %" PRIu64 " left; begun in %.1f ms; %.1f ns a report\n", reports, moves, left,
         (made - begun) / 1e6, (to - from) / (double)reports);
  cellplan_cell_free(&cell);
  free(queue);
  free(orders);
  free(instance);
  free(plan);
  return 0;
}
