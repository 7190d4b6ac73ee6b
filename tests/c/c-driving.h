/* What the programs of tests/c/c-library that drive cells share: a file as a text, and a cell driven from its start to its end. */
#include "cellplan.h"

#include <stdio.h>
#include <stdlib.h>

struct text {
  uint8_t *bytes;
  size_t length;
};

/* What has ended, or is going on. */
struct ended {
  uint32_t kind, job, machine;
};

static inline void *room_for(size_t count, size_t size) {
  void *room = calloc(count + 1, size);
  if (!room) exit(CELLPLAN_NO_MEMORY);
  return room;
}

/* The bytes of a file of at most a mebibyte. */
static inline struct text whole(const char *path) {
  FILE *file = fopen(path, "rb");
  struct text text = {room_for(1 << 20, 1), 0};
  if (!file) exit(5);
  text.length = fread(text.bytes, 1, 1 << 20, file);
  fclose(file);
  return text;
}

/* A number that is another one, but by chance, where a further answer is. */
static inline uint64_t with(uint64_t answers, uint64_t answer) { return (answers ^ answer) * 1099511628211u; }

/* Drives the cell: each activity ends in the order in which it began, at a moment one later than the last. Gives a number made of all that
   was answered, which ends with the number of the reports that are left. */
static inline uint64_t driven(struct cellplan_cell *cell) {
  uint64_t left = 0, answers = 0, due = 0;
  uint32_t jobs = 0;
  size_t head = 0, tail = 0;
  cellplan_cell_reports_left(cell, &left);
  cellplan_cell_jobs(cell, &jobs);
  struct ended *queue = room_for(left, sizeof *queue);
  struct cellplan_order *orders = room_for(jobs, sizeof *orders);
  for (; tail < jobs; tail++) queue[tail] = (struct ended){CELLPLAN_ARRIVE, (uint32_t)tail, 0};
  for (; head < tail; head++) {
    size_t count = 0;
    bool late = false;
    uint64_t detail = 0;
    struct ended next = queue[head];
    uint32_t status = cellplan_cell_report(cell, next.kind, next.job, next.machine, head, orders, jobs, &count, &late, &detail);
    answers = with(with(with(answers, status), late), detail);
    for (size_t i = 0; i < count; i++) {
      answers = with(with(with(with(answers, orders[i].job), orders[i].source), orders[i].target), orders[i].at);
      if (orders[i].target != CELLPLAN_OUT) queue[tail++] = (struct ended){CELLPLAN_FINISH, orders[i].job, orders[i].target};
      if (orders[i].source != CELLPLAN_OUT && cellplan_cell_clean_due(cell, orders[i].source, &due) == CELLPLAN_GOOD)
        queue[tail++] = (struct ended){CELLPLAN_CLEAN, 0, orders[i].source};
    }
  }
  cellplan_cell_reports_left(cell, &left);
  free(queue);
  free(orders);
  return with(answers, left);
}
