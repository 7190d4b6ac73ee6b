/* Drives a cell of two jobs and two machines, with a list of what ends, and prints the moves. */
#include "cellplan.h"

#include <inttypes.h>
#include <stdio.h>
#include <string.h>

#define TEXT(text) (const uint8_t *)(text), strlen(text)

static const char instance[] = "two\n2 2\n0 3 1 2\n1 4 0 1\n";
static const char plan[] = "release = [0, 0]\nbudget = [5, 10]\norder = [[0, 1], [0, 1]]\n";

static const struct {
  uint32_t kind, job, machine;
  uint64_t at;
} ended[] = {{CELLPLAN_ARRIVE, 0, 0, 0}, {CELLPLAN_ARRIVE, 1, 0, 0}, {CELLPLAN_FINISH, 0, 0, 3},
             {CELLPLAN_FINISH, 0, 1, 5}, {CELLPLAN_FINISH, 1, 1, 9}, {CELLPLAN_FINISH, 1, 0, 10}};

static void move(struct cellplan_order order) {
  printf("at %" PRIu64 " job %" PRIu32 " goes ", order.at, order.job);
  if (order.target == CELLPLAN_OUT)
    printf("out\n");
  else
    printf("onto machine %" PRIu32 "\n", order.target);
}

int main(void) {
  struct cellplan_cell cell = {0};
  uint32_t status = cellplan_cell_new(TEXT(instance), TEXT(""), TEXT(plan), &cell);
  for (size_t i = 0; status == CELLPLAN_GOOD && i < sizeof ended / sizeof *ended; i++) {
    struct cellplan_order orders[2];
    size_t count = 0;
    bool late = false;
    uint64_t detail = 0;
    status = cellplan_cell_report(&cell, ended[i].kind, ended[i].job, ended[i].machine, ended[i].at, orders, 2, &count, &late, &detail);
    for (size_t k = 0; k < count; k++) move(orders[k]);
  }
  cellplan_cell_free(&cell);
  return (int)status;
}
