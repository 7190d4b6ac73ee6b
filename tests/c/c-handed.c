/* A cell that is handed over in mid-run: c-handed INSTANCE PLAN OTHER_INSTANCE OTHER_PLAN REPORTS drives a cell of the first plan for so many
   reports, hands it over to the other one at the last moment, and drives it to its end. It prints the log of the run, and on the standard
   error how many lines of it there were once the cell was handed over, and then what is answered of the rest from there: the check, and the
   schedule. */
#include "c-driving.h"

#include <inttypes.h>

static const uint8_t no_name[1];
static struct ended *queue;
static struct cellplan_order *orders;
static size_t head, tail, lines;

static void spot(uint32_t machine) {
  if (machine == CELLPLAN_OUT)
    printf(" out");
  else
    printf(" %" PRIu32, machine);
}

/* The moves are printed, and what begins with them is to end. */
static void moved(struct cellplan_cell *cell, size_t count) {
  for (size_t i = 0; i < count; i++) {
    uint32_t after = 0;
    printf("order %" PRIu64 " %" PRIu32, orders[i].at, orders[i].job);
    spot(orders[i].source);
    spot(orders[i].target);
    printf("\n");
    lines++;
    if (orders[i].target != CELLPLAN_OUT) queue[tail++] = (struct ended){CELLPLAN_FINISH, orders[i].job, orders[i].target};
    if (orders[i].source != CELLPLAN_OUT && cellplan_cell_cleaned_after(cell, orders[i].source, &after) == CELLPLAN_GOOD)
      queue[tail++] = (struct ended){CELLPLAN_CLEAN_AFTER, after, orders[i].source};
  }
}

/* What has gone on the longest ends when it is due, or at the last moment where that is later. */
static void reported(struct cellplan_cell *cell, uint32_t jobs) {
  struct ended next = queue[head++];
  uint64_t now = 0, due = 0, detail = 0;
  size_t count = 0;
  bool late = false;
  cellplan_cell_now(cell, &now);
  uint32_t status = next.kind == CELLPLAN_CLEAN_AFTER ? cellplan_cell_clean_due(cell, next.machine, &due) : cellplan_cell_due(cell, next.job, &due);
  if (status == CELLPLAN_GOOD)
    status = cellplan_cell_report(cell, next.kind, next.job, next.machine, due < now ? now : due, orders, jobs, &count, &late, &detail);
  if (status != CELLPLAN_GOOD) exit((int)status);
  printf("report %" PRIu64, due < now ? now : due);
  if (next.kind == CELLPLAN_ARRIVE) printf(" arrive %" PRIu32 "\n", next.job);
  if (next.kind == CELLPLAN_FINISH) printf(" finish %" PRIu32 " %" PRIu32 "\n", next.job, next.machine);
  if (next.kind == CELLPLAN_CLEAN_AFTER) printf(" clean %" PRIu32 "\n", next.machine);
  lines++;
  moved(cell, count);
}

/* Prints what a call answers of the rest of the cell at a moment. */
static void print_rest(uint32_t (*call)(struct cellplan_cell *, uint64_t, uint8_t *, size_t, size_t *), struct cellplan_cell *cell, uint64_t at) {
  uint8_t nothing[1];
  size_t length = 0;
  if (call(cell, at, nothing, 0, &length) != CELLPLAN_NO_ROOM) exit(9);
  uint8_t *text = room_for(length, 1);
  uint32_t status = call(cell, at, text, length, &length);
  if (status > CELLPLAN_REFUSED) exit((int)status);
  fwrite(text, 1, length, stderr);
  free(text);
}

int main(int argc, char **argv) {
  struct cellplan_cell cell = {0};
  uint32_t jobs = 0, more = 0;
  uint64_t now = 0;
  size_t count = 0;
  if (argc != 6) return 2;
  struct text texts[4];
  for (int i = 0; i < 4; i++) texts[i] = whole(argv[1 + i]);
  uint32_t status = cellplan_cell_new(texts[0].bytes, texts[0].length, no_name, 0, texts[1].bytes, texts[1].length, &cell);
  if (status != CELLPLAN_GOOD) return (int)status;
  cellplan_cell_jobs(&cell, &jobs);
  queue = room_for(1 << 16, sizeof *queue);
  orders = room_for(256, sizeof *orders);
  for (uint32_t j = 0; j < jobs; j++) queue[tail++] = (struct ended){CELLPLAN_ARRIVE, j, 0};
  for (long reports = atol(argv[5]); reports > 0 && head < tail; reports--) reported(&cell, jobs);
  cellplan_cell_now(&cell, &now);
  status = cellplan_cell_hand_over(&cell, texts[2].bytes, texts[2].length, no_name, 0, texts[3].bytes, texts[3].length, now, orders, 256, &count);
  if (status != CELLPLAN_GOOD) return (int)status;
  moved(&cell, count);
  fprintf(stderr, "%zu\n", lines);
  print_rest(cellplan_cell_check, &cell, now);
  print_rest(cellplan_cell_schedule, &cell, now);
  cellplan_cell_jobs(&cell, &more);
  for (uint32_t j = jobs; j < more; j++) queue[tail++] = (struct ended){CELLPLAN_ARRIVE, j, 0};
  while (head < tail) reported(&cell, more);
  cellplan_cell_free(&cell);
  for (int i = 0; i < 4; i++) free(texts[i].bytes);
  free(queue);
  free(orders);
  return 0;
}
