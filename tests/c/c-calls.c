/* The statuses of the calls of the library for C, each seen once; by tests/c/c-library, also with memory that is refused.

     c-calls once                              makes the calls that take memory, and says how they ended
     c-calls asked                             makes those that take none, between a line `asked` and the next one on the standard error
     c-calls check|explain INSTANCE PLAN NAME  prints what this call answers to the two files, and ends with its status */
#define _POSIX_C_SOURCE 200809L
#include "cellplan.h"

#include <stdio.h>
#include <stdlib.h>
#include <string.h>
#include <unistd.h>

static const char two[] = "two\n2 2\n0 3 1 2\n1 4 0 1\n";
static const char in_time[] = "release = [0, 0]\nbudget = [5, 10]\norder = [[0, 1], [0, 1]]\n";
static const char late[] = "release = [0, 0]\nbudget = [5, 9]\norder = [[0, 1], [0, 1]]\n";
static const char cleaned[] = "version = 2\nrelease = [0, 0]\nbudget = [5, 12]\norder = [[0, 1], [0, 1]]\nclean = [0, 2]\n";
static const char chain[] = "chain\n5 5\n0 1 1 1\n1 1 2 1\n2 1 3 1\n3 1 4 1\n4 1\n";
static const char chained[] = "release = [0, 0, 0, 0, 0]\nbudget = [9, 9, 9, 9, 9]\norder = [[0], [1, 0], [2, 1], [3, 2], [4, 3]]\n";
static const char alone[] = "release = [0]\nbudget = [7]\norder = [[0]]\n";
static const char crossed[] = "release = [0, 0]\nbudget = [99, 99]\norder = [[0, 1], [1, 0]]\n";
static const char turned[] = "release = [0, 0]\nbudget = [99, 99]\norder = [[1, 0], [1, 0]]\n";
static const char line_of_two[] = "line\n2 1\n0 3\n0 4\n";
static const char first_0[] = "release = [0, 0]\nbudget = [20, 20]\norder = [[0, 1]]\n";
static const char first_1[] = "release = [0, 0]\nbudget = [20, 20]\norder = [[1, 0]]\n";
static const char in_a_hurry[] = "release = [0, 0]\nbudget = [8, 20]\norder = [[1, 0]]\n";
static const char collection[] = "instance one\none\n1 1\n0 7\n\ninstance two\ntwo\n2 2\n0 3 1 2\n1 4 0 1\n";
static const char rinse[] = "a rinse tank\n2 2 recrc\n0 3 1 2 0 3\n0 3\n";
static const char rinsed[] = "version = 2\nrelease = [0, 0]\nbudget = [40, 40]\norder = [[0, 0, 1], [0]]\nclean = [6, 0]\n";
static const uint8_t nothing[1];
static int missed;

#define TEXT(text) (const uint8_t *)(text), strlen(text)
#define NO_NAME nothing, 0

static void same(const char *what, uint64_t got, uint64_t wanted) {
  if (got == wanted) return;
  printf("%s: %llu and not %llu\n", what, (unsigned long long)got, (unsigned long long)wanted);
  missed++;
}

typedef uint32_t judge(const uint8_t *, size_t, const uint8_t *, size_t, const uint8_t *, size_t, uint8_t *, size_t, size_t *);

/* The text of an answer, its status, and that one byte less is no room for it. */
static void judged(judge *call, const char *plan, uint32_t status, const char *text) {
  uint8_t room[512];
  size_t length = 7;
  memset(room, '#', sizeof room);
  same(text, call(TEXT(two), NO_NAME, TEXT(plan), room, sizeof room, &length), status);
  same("its length", length, strlen(text));
  same("its text", (uint64_t)memcmp(room, text, strlen(text)), 0);
  same("what is behind it", room[strlen(text)], '#');
  memset(room, '#', sizeof room);
  same("too little room", call(TEXT(two), NO_NAME, TEXT(plan), room, strlen(text) - 1, &length), CELLPLAN_NO_ROOM);
  same("the length that it needs", length, strlen(text));
  same("what is written then", room[0], '#');
}

static uint8_t *whole(const char *path, size_t *length) {
  static uint8_t rooms[2][1 << 20];
  static int used;
  FILE *file = fopen(path, "rb");
  if (!file) exit(9);
  *length = fread(rooms[used], 1, sizeof *rooms, file);
  fclose(file);
  return rooms[used++];
}

static int printed(judge *call, char **words) {
  size_t instance_length, plan_length, length = 0;
  uint8_t *instance = whole(words[0], &instance_length), *plan = whole(words[1], &plan_length);
  uint8_t none[1];
  uint32_t status = call(instance, instance_length, TEXT(words[2]), plan, plan_length, none, 0, &length);
  if (status != CELLPLAN_NO_ROOM) return 9;
  uint8_t *text = malloc(length);
  if (!text) return 9;
  status = call(instance, instance_length, TEXT(words[2]), plan, plan_length, text, length, &length);
  fwrite(text, 1, length, stdout);
  free(text);
  return (int)status;
}

/* Where a cell has a report behind it and memory is refused for another one, it is what it was. */
static int begun_again(struct cellplan_cell *cell, uint32_t ended[2]) {
  struct cellplan_order orders[2];
  uint64_t at = 9, detail = 0, wanted = 0;
  size_t count = 0;
  bool late = false;
  ended[0] = cellplan_cell_new(TEXT(two), NO_NAME, TEXT(in_time), cell);
  uint32_t got = ended[0] == CELLPLAN_GOOD ? CELLPLAN_GOOD : CELLPLAN_NO_CELL;
  int bad = cellplan_cell_report(cell, CELLPLAN_ARRIVE, 0, 0, 3, orders, 2, &count, &late, &detail) != got;
  ended[1] = cellplan_cell_new(TEXT(two), NO_NAME, TEXT(in_time), cell);
  if (ended[1] == CELLPLAN_GOOD)
    got = CELLPLAN_GOOD;
  else
    wanted = got == CELLPLAN_GOOD ? 3 : 9;
  bad |= cellplan_cell_now(cell, &at) != got || at != wanted;
  return bad;
}

/* Two texts, and the status that the calls over them have unless memory runs out. */
static const struct {
  const char *instance, *plan;
  uint32_t status;
} texts[] = {{two, in_time, CELLPLAN_GOOD},
             {two, late, CELLPLAN_REFUSED},
             {two, alone, CELLPLAN_REFUSED},
             {"x", in_time, CELLPLAN_FAULT},
             {two, "x", CELLPLAN_FAULT}};

/* Makes a call over each two texts, and says how it ended. */
static int each_judged(const char *name, judge *call) {
  int bad = 0;
  fprintf(stderr, "%s", name);
  for (size_t i = 0; i < sizeof texts / sizeof *texts; i++) {
    uint8_t text[512];
    size_t length = 7;
    uint32_t ended = call(TEXT(texts[i].instance), NO_NAME, TEXT(texts[i].plan), text, sizeof text, &length);
    bad |= ended == CELLPLAN_NO_MEMORY ? length != 0 : ended != texts[i].status || length == 0;
    fprintf(stderr, " %u", (unsigned)ended);
  }
  return bad;
}

static int each_begun(void) {
  int bad = 0;
  fprintf(stderr, " new");
  for (size_t i = 0; i < sizeof texts / sizeof *texts; i++) {
    struct cellplan_cell cell = {0};
    uint32_t ended = cellplan_cell_new(TEXT(texts[i].instance), NO_NAME, TEXT(texts[i].plan), &cell);
    bad |= ended != CELLPLAN_NO_MEMORY && ended != texts[i].status;
    bad |= (ended == CELLPLAN_GOOD) != (cellplan_cell_now(&cell, &(uint64_t){0}) == CELLPLAN_GOOD);
    cellplan_cell_free(&cell);
    fprintf(stderr, " %u", (unsigned)ended);
  }
  return bad;
}

/* Two texts, and the status of handing over to them a cell of `two` by `in_time` that job 0 has entered at moment 3. */
static const struct {
  const char *instance, *plan;
  uint32_t status;
} others[] = {{two, cleaned, CELLPLAN_GOOD},      {two, late, CELLPLAN_GOOD}, {two, alone, CELLPLAN_REFUSED},
              {two, crossed, CELLPLAN_REFUSED},   {"x", in_time, CELLPLAN_FAULT}, {two, "x", CELLPLAN_FAULT},
              {two, turned, CELLPLAN_KEEPS_NOT}};

/* Hands such a cell over to each, and says how it ended. One that isn't is what it was. */
static int each_handed_over(void) {
  int bad = 0;
  fprintf(stderr, " over");
  for (size_t i = 0; i < sizeof others / sizeof *others; i++) {
    struct cellplan_cell cell = {0};
    struct cellplan_order orders[2];
    size_t count = 9;
    bool late = false;
    uint64_t detail = 0, leaves = 0;
    uint32_t ended = cellplan_cell_new(TEXT(two), NO_NAME, TEXT(in_time), &cell);
    if (ended == CELLPLAN_GOOD) {
      bad |= cellplan_cell_report(&cell, CELLPLAN_ARRIVE, 0, 0, 3, orders, 2, &count, &late, &detail) != CELLPLAN_GOOD;
      ended = cellplan_cell_hand_over(&cell, TEXT(others[i].instance), NO_NAME, TEXT(others[i].plan), 4, orders, 2, &count);
      bad |= ended != CELLPLAN_NO_MEMORY && ended != others[i].status;
      bad |= count != 0 || cellplan_cell_leaves(&cell, 1, &leaves) != CELLPLAN_GOOD;
      bad |= ended != CELLPLAN_GOOD && leaves != 10;
    }
    fprintf(stderr, " %u", (unsigned)ended);
    cellplan_cell_free(&cell);
  }
  return bad;
}

/* Asks for the rest of a cell, and says how it ended. The cell is what it was. */
static int each_rest_answered(void) {
  static uint32_t (*const calls[])(struct cellplan_cell *, uint64_t, uint8_t *, size_t, size_t *) = {cellplan_cell_check, cellplan_cell_schedule};
  int bad = 0;
  fprintf(stderr, " rest");
  for (size_t i = 0; i < sizeof calls / sizeof *calls; i++) {
    struct cellplan_cell cell = {0};
    uint8_t text[512];
    size_t length = 7;
    uint64_t now = 9;
    uint32_t ended = cellplan_cell_new(TEXT(two), NO_NAME, TEXT(in_time), &cell);
    if (ended == CELLPLAN_GOOD) {
      ended = calls[i](&cell, 0, text, sizeof text, &length);
      bad |= ended == CELLPLAN_NO_MEMORY ? length != 0 : ended != CELLPLAN_GOOD || length == 0;
      bad |= cellplan_cell_now(&cell, &now) != CELLPLAN_GOOD || now != 0;
    }
    fprintf(stderr, " %u", (unsigned)ended);
    cellplan_cell_free(&cell);
  }
  return bad;
}

static int once(void) {
  struct cellplan_cell cell = {0};
  uint32_t ended[2];
  int bad = each_judged("check", cellplan_check);
  bad |= each_judged(" explain", cellplan_explain);
  bad |= each_begun();
  bad |= each_handed_over();
  bad |= each_rest_answered();
  bad |= begun_again(&cell, ended);
  cellplan_cell_free(&cell);
  fprintf(stderr, " again %u %u\n", (unsigned)ended[0], (unsigned)ended[1]);
  for (int i = 0; i < 2; i++) bad |= ended[i] != CELLPLAN_GOOD && ended[i] != CELLPLAN_NO_MEMORY;
  return bad;
}

static void reported(struct cellplan_cell *cell, uint32_t kind, uint32_t job, uint32_t machine, uint64_t at, uint32_t status,
                     uint64_t detail, size_t count, bool late) {
  struct cellplan_order orders[4];
  size_t got = 9;
  bool was_late = !late;
  uint64_t named = 9;
  same("a report", cellplan_cell_report(cell, kind, job, machine, at, orders, 4, &got, &was_late, &named), status);
  same("its orders", got, count);
  same("what it names", named, detail);
  same("late", was_late, late);
}

static void reported_step(struct cellplan_cell *cell, uint32_t kind, uint32_t job, uint32_t step, uint32_t machine, uint64_t at,
                          uint32_t status, uint64_t detail, size_t count, bool late) {
  struct cellplan_order orders[4];
  size_t got = 9;
  bool was_late = !late;
  uint64_t named = 9;
  same("a report of a step", cellplan_cell_report_step(cell, kind, job, step, machine, at, orders, 4, &got, &was_late, &named), status);
  same("its orders", got, count);
  same("what it names", named, detail);
  same("late", was_late, late);
}

/* A report of a step that the cell doesn't expect. */
static void unexpected_step(struct cellplan_cell *cell, uint32_t kind, uint32_t job, uint32_t step, uint64_t at) {
  reported_step(cell, kind, job, step, 0, at, CELLPLAN_NOT_EXPECTED, 0, 0, false);
}

/* Each reason for which a report is refused, and the reports before them. */
static void refused(struct cellplan_cell *cell) {
  struct cellplan_phase phase = {0};
  uint32_t step = 9;
  reported_step(cell, CELLPLAN_ARRIVE, 0, 0, 0, 0, CELLPLAN_NO_KIND, 0, 0, false);
  reported_step(cell, CELLPLAN_CLEAN, 0, 0, 0, 0, CELLPLAN_NO_KIND, 0, 0, false);
  reported_step(cell, CELLPLAN_FINISH, 2, 0, 0, 0, CELLPLAN_JOB_OUT_OF_RANGE, 0, 0, false);
  reported_step(cell, CELLPLAN_FINISH, 0, 100, 0, UINT64_MAX, CELLPLAN_STEP_OUT_OF_RANGE, 0, 0, false);
  reported_step(cell, CELLPLAN_CLEAN_AFTER, 0, 100, 0, 0, CELLPLAN_STEP_OUT_OF_RANGE, 0, 0, false);
  reported_step(cell, CELLPLAN_CLEAN_AFTER, 0, 100, 2, 0, CELLPLAN_MACHINE_OUT_OF_RANGE, 0, 0, false);
  reported_step(cell, CELLPLAN_FINISH, 0, 0, 0, UINT64_MAX, CELLPLAN_MOMENT_TOO_LARGE, 0, 0, false);
  reported_step(cell, CELLPLAN_FINISH, 0, 0, 9, 0, CELLPLAN_WRONG_KIND, 0, 0, false);
  reported_step(cell, CELLPLAN_CLEAN_AFTER, 0, 0, 0, 0, CELLPLAN_NOT_EXPECTED, 0, 0, false);
  same("no step outside", cellplan_cell_step(cell, 0, &step), CELLPLAN_NONE);
  reported(cell, 4, 0, 0, 0, CELLPLAN_NO_KIND, 0, 0, false);
  reported(cell, CELLPLAN_ARRIVE, 2, 0, 0, CELLPLAN_JOB_OUT_OF_RANGE, 0, 0, false);
  reported(cell, CELLPLAN_CLEAN_AFTER, 2, 0, 0, CELLPLAN_JOB_OUT_OF_RANGE, 0, 0, false);
  reported(cell, CELLPLAN_CLEAN_AFTER, 2, 2, 0, CELLPLAN_MACHINE_OUT_OF_RANGE, 0, 0, false);
  reported(cell, CELLPLAN_CLEAN, 0, 2, 0, CELLPLAN_MACHINE_OUT_OF_RANGE, 0, 0, false);
  reported(cell, CELLPLAN_ARRIVE, 0, 0, UINT64_MAX, CELLPLAN_MOMENT_TOO_LARGE, 0, 0, false);
  reported(cell, CELLPLAN_FINISH, 0, 0, 0, CELLPLAN_WRONG_KIND, 0, 0, false);
  same("outside", cellplan_cell_phase(cell, 0, &phase) + phase.place, CELLPLAN_OUTSIDE);
  reported(cell, CELLPLAN_ARRIVE, 0, 0, 3, CELLPLAN_GOOD, 0, 1, true);
  reported(cell, CELLPLAN_ARRIVE, 1, 0, 2, CELLPLAN_BACKWARDS, 3, 0, false);
  reported(cell, CELLPLAN_FINISH, 0, 1, 6, CELLPLAN_WRONG_MACHINE, 0, 0, false);
  reported(cell, CELLPLAN_CLEAN, 0, 0, 6, CELLPLAN_NOT_EXPECTED, 0, 0, false);
  reported(cell, CELLPLAN_CLEAN_AFTER, 0, 0, 6, CELLPLAN_NOT_EXPECTED, 0, 0, false);
}

/* What is read of a cell in which job 0 has entered machine 0 at moment 3, late. */
static void read_of_a_job(struct cellplan_cell *cell) {
  uint64_t at = 0;
  uint32_t number = 0;
  size_t count = 9;
  struct cellplan_phase phase = {0};
  struct cellplan_order orders[4];
  same("orders", cellplan_cell_orders(cell, 0, orders, 4, &count), CELLPLAN_GOOD);
  same("of them", count, 1);
  same("the job", orders[0].job, 0);
  same("the source", orders[0].source, CELLPLAN_OUT);
  same("the target", orders[0].target, 0);
  same("the moment", orders[0].at, 3);
  same("orders from the end on", cellplan_cell_orders(cell, 1, orders, 4, &count), CELLPLAN_GOOD);
  same("phase", cellplan_cell_phase(cell, 0, &phase), CELLPLAN_GOOD);
  same("place", phase.place, CELLPLAN_ON_MACHINE);
  same("machine", phase.machine, 0);
  same("ready", phase.ready, false);
  same("no phase", cellplan_cell_phase(cell, 2, &phase), CELLPLAN_NONE);
  same("holder", cellplan_cell_holder(cell, 0, &number), CELLPLAN_GOOD);
  same("the job that holds", number, 0);
  same("no holder", cellplan_cell_holder(cell, 1, &number), CELLPLAN_NONE);
  same("due", cellplan_cell_due(cell, 0, &at), CELLPLAN_GOOD);
  same("the due moment", at, 6);
  same("no due", cellplan_cell_due(cell, 2, &at), CELLPLAN_NONE);
  same("no cleaning", cellplan_cell_clean_due(cell, 0, &at), CELLPLAN_NONE);
}

static void read_of_all(struct cellplan_cell *cell) {
  uint64_t at = 0;
  uint32_t number = 0;
  bool yes = true;
  same("now", cellplan_cell_now(cell, &at), CELLPLAN_GOOD);
  same("the moment now", at, 3);
  same("left", cellplan_cell_reports_left(cell, &at), CELLPLAN_GOOD);
  same("the reports left", at, 5);
  same("punctual", cellplan_cell_punctual(cell, &yes), CELLPLAN_GOOD);
  same("is punctual", yes, false);
  same("done", cellplan_cell_is_done(cell, &yes), CELLPLAN_GOOD);
  same("is done", yes, false);
  same("jobs", cellplan_cell_jobs(cell, &number) + number, 2);
  same("machines", cellplan_cell_machines(cell, &number) + number, 2);
  same("leaves", cellplan_cell_leaves(cell, 1, &at) + at, 10);
  same("leaves of no job", cellplan_cell_leaves(cell, 2, &at), CELLPLAN_NONE);
}

static void driven(struct cellplan_cell *cell) {
  refused(cell);
  read_of_a_job(cell);
  read_of_all(cell);
}

/* A report is accepted whatever the room, and its other orders are had afterwards. */
static void beyond_the_room(struct cellplan_cell *cell) {
  struct cellplan_order orders[2];
  size_t count = 9;
  bool late = true;
  uint64_t detail = 9;
  memset(orders, '#', sizeof orders);
  reported(cell, CELLPLAN_ARRIVE, 1, 0, 0, CELLPLAN_GOOD, 0, 0, false);
  reported(cell, CELLPLAN_FINISH, 0, 0, 3, CELLPLAN_GOOD, 0, 1, false);
  reported(cell, CELLPLAN_FINISH, 0, 0, 3, CELLPLAN_WRONG_MACHINE, 1, 0, false);
  same("a report", cellplan_cell_report(cell, CELLPLAN_FINISH, 0, 1, 5, orders, 1, &count, &late, &detail), CELLPLAN_GOOD);
  same("all orders", count, 2);
  same("the first job", orders[0].job, 0);
  same("the first target", orders[0].target, CELLPLAN_OUT);
  same("no second one", orders[1].job, 0x23232323);
  same("no orders", cellplan_cell_orders(cell, 0, orders, 0, &count), CELLPLAN_GOOD);
  same("still all", count, 2);
  same("the others", cellplan_cell_orders(cell, 1, orders, 2, &count), CELLPLAN_GOOD);
  same("the second job", orders[0].job, 1);
  same("the second target", orders[0].target, 1);
  same("none behind it", orders[1].job, 0x23232323);
  same("beyond all", cellplan_cell_orders(cell, SIZE_MAX, orders, 2, &count), CELLPLAN_GOOD);
  same("and still all", count, 2);
}

/* The cell of beyond_the_room, driven to its end. */
static void to_the_end(struct cellplan_cell *cell) {
  struct cellplan_phase phase = {0};
  uint64_t left = 9;
  bool done = false;
  reported(cell, CELLPLAN_FINISH, 1, 1, 9, CELLPLAN_GOOD, 0, 1, false);
  reported(cell, CELLPLAN_FINISH, 1, 0, 10, CELLPLAN_GOOD, 0, 1, false);
  same("done in the end", cellplan_cell_is_done(cell, &done), CELLPLAN_GOOD);
  same("it is done", done, true);
  same("left in the end", cellplan_cell_reports_left(cell, &left), CELLPLAN_GOOD);
  same("no report is left", left, 0);
  same("the last job", cellplan_cell_phase(cell, 1, &phase), CELLPLAN_GOOD);
  same("when it left", phase.at, 10);
  reported(cell, CELLPLAN_FINISH, 1, 0, 10, CELLPLAN_NOT_EXPECTED, 0, 0, false);
}

/* A job that is gone, and the machine that is being cleaned behind it. */
static void gone(struct cellplan_cell *cell) {
  struct cellplan_phase phase = {0};
  uint64_t at = 0;
  uint32_t number = 9, step = 9;
  reported(cell, CELLPLAN_ARRIVE, 0, 0, 0, CELLPLAN_GOOD, 0, 1, false);
  same("the step of a job inside", cellplan_cell_step(cell, 0, &step), CELLPLAN_GOOD);
  same("its first one", step, 0);
  reported(cell, CELLPLAN_ARRIVE, 1, 0, 0, CELLPLAN_GOOD, 0, 0, false);
  reported(cell, CELLPLAN_FINISH, 0, 0, 3, CELLPLAN_GOOD, 0, 1, false);
  reported(cell, CELLPLAN_FINISH, 0, 1, 5, CELLPLAN_GOOD, 0, 1, false);
  same("the phase of a gone job", cellplan_cell_phase(cell, 0, &phase), CELLPLAN_GOOD);
  same("its place", phase.place, CELLPLAN_GONE);
  same("its machine", phase.machine, 0);
  same("it isn't ready", phase.ready, false);
  same("when it left", phase.at, 5);
  same("nothing due of it", cellplan_cell_due(cell, 0, &at), CELLPLAN_NONE);
  same("a cleaning", cellplan_cell_clean_due(cell, 1, &at), CELLPLAN_GOOD);
  same("its due moment", at, 7);
  same("no machine to clean", cellplan_cell_clean_due(cell, 2, &at), CELLPLAN_NONE);
  same("after a job", cellplan_cell_cleaned_after(cell, 1, &number), CELLPLAN_GOOD);
  same("after job 0", number, 0);
  same("no cleaning of machine 0", cellplan_cell_cleaned_after(cell, 0, &number), CELLPLAN_NONE);
  same("no step of a cleaning there", cellplan_cell_cleaned_after_step(cell, 0, &number, &step), CELLPLAN_NONE);
  same("after a step", cellplan_cell_cleaned_after_step(cell, 1, &number, &step), CELLPLAN_GOOD);
  same("after step 1 of job 0", number + 10 * step, 10);
  same("no step of a gone job", cellplan_cell_step(cell, 0, &step), CELLPLAN_NONE);
  same("no step of a job outside", cellplan_cell_step(cell, 1, &step), CELLPLAN_NONE);
  reported(cell, CELLPLAN_CLEAN_AFTER, 1, 1, 7, CELLPLAN_NOT_EXPECTED, 0, 0, false);
  reported(cell, CELLPLAN_CLEAN_AFTER, 0, 1, 4, CELLPLAN_BACKWARDS, 5, 0, false);
  reported(cell, CELLPLAN_CLEAN_AFTER, 0, 1, 7, CELLPLAN_GOOD, 0, 1, false);
  reported(cell, CELLPLAN_CLEAN_AFTER, 0, 1, 7, CELLPLAN_NOT_EXPECTED, 0, 0, false);
  same("cleaned", cellplan_cell_clean_due(cell, 1, &at), CELLPLAN_NONE);
  same("cleaned after no job", cellplan_cell_cleaned_after(cell, 1, &number), CELLPLAN_NONE);
  same("the next job", cellplan_cell_holder(cell, 1, &number), CELLPLAN_GOOD);
  same("its number", number, 1);
}

/* Job 0 is at this step. */
static void at_step(struct cellplan_cell *cell, uint32_t wanted) {
  uint32_t step = 9;
  same("a step", cellplan_cell_step(cell, 0, &step), CELLPLAN_GOOD);
  same("its number", step, wanted);
}

/* Machine 0 is being cleaned after this step of job 0. */
static void cleaned_after_step(struct cellplan_cell *cell, uint32_t wanted) {
  uint32_t job = 9, step = 9;
  same("after a step", cellplan_cell_cleaned_after_step(cell, 0, &job, &step), CELLPLAN_GOOD);
  same("of job 0", job, 0);
  same("the step before", step, wanted);
}

/* A tank, machine 0, in which job 0 rinses twice and then job 1, driven to its end by steps. Copies are refused, and reports of other steps. */
static void rinsed_twice(struct cellplan_cell *cell) {
  uint32_t step = 9;
  bool done = false;
  reported(cell, CELLPLAN_ARRIVE, 0, 0, 0, CELLPLAN_GOOD, 0, 1, false);
  reported(cell, CELLPLAN_ARRIVE, 1, 0, 0, CELLPLAN_GOOD, 0, 0, false);
  at_step(cell, 0);
  unexpected_step(cell, CELLPLAN_FINISH, 0, 2, 3);
  reported_step(cell, CELLPLAN_FINISH, 0, 0, 9, 3, CELLPLAN_GOOD, 0, 1, false);
  unexpected_step(cell, CELLPLAN_FINISH, 0, 0, 3);
  at_step(cell, 1);
  cleaned_after_step(cell, 0);
  reported_step(cell, CELLPLAN_FINISH, 0, 1, 0, 5, CELLPLAN_GOOD, 0, 0, false);
  unexpected_step(cell, CELLPLAN_CLEAN_AFTER, 0, 2, 9);
  reported_step(cell, CELLPLAN_CLEAN_AFTER, 0, 0, 0, 9, CELLPLAN_GOOD, 0, 1, false);
  unexpected_step(cell, CELLPLAN_CLEAN_AFTER, 0, 0, 9);
  at_step(cell, 2);
  unexpected_step(cell, CELLPLAN_FINISH, 0, 0, 12);
  reported_step(cell, CELLPLAN_FINISH, 0, 2, 0, 12, CELLPLAN_GOOD, 0, 1, false);
  same("no step behind the last", cellplan_cell_step(cell, 0, &step), CELLPLAN_NONE);
  cleaned_after_step(cell, 2);
  unexpected_step(cell, CELLPLAN_CLEAN_AFTER, 0, 0, 18);
  reported_step(cell, CELLPLAN_CLEAN_AFTER, 0, 2, 0, 18, CELLPLAN_GOOD, 0, 1, false);
  reported_step(cell, CELLPLAN_FINISH, 1, 0, 0, 21, CELLPLAN_GOOD, 0, 1, false);
  unexpected_step(cell, CELLPLAN_CLEAN_AFTER, 0, 2, 27);
  reported_step(cell, CELLPLAN_CLEAN_AFTER, 1, 0, 0, 28, CELLPLAN_GOOD, 0, 0, true);
  same("all is rinsed", cellplan_cell_is_done(cell, &done), CELLPLAN_GOOD);
  same("it is", done, true);
}

/* Cells of the instances of a collection. Where there is no new one, the cell is that of before. */
static void of_a_collection(struct cellplan_cell *cell) {
  uint32_t number = 0;
  same("an instance", cellplan_cell_new(TEXT(collection), TEXT("two"), TEXT(cleaned), cell), CELLPLAN_GOOD);
  gone(cell);
  same("no such name", cellplan_cell_new(TEXT(collection), TEXT("three"), TEXT(cleaned), cell), CELLPLAN_FAULT);
  same("no name", cellplan_cell_new(TEXT(collection), NO_NAME, TEXT(cleaned), cell), CELLPLAN_FAULT);
  same("another's plan", cellplan_cell_new(TEXT(collection), TEXT("one"), TEXT(cleaned), cell), CELLPLAN_REFUSED);
  same("jobs of before", cellplan_cell_jobs(cell, &number) + number, 2);
  same("another instance", cellplan_cell_new(TEXT(collection), TEXT("one"), TEXT(alone), cell), CELLPLAN_GOOD);
  same("its jobs", cellplan_cell_jobs(cell, &number) + number, 1);
}

static void without_a_cell(struct cellplan_cell *cell) {
  uint64_t at = 7;
  uint32_t number = 7;
  bool yes = true;
  size_t count = 7;
  struct cellplan_order orders[4];
  struct cellplan_phase phase = {0};
  uint8_t text[8];
  reported(cell, 4, 0, 0, 0, CELLPLAN_NO_KIND, 0, 0, false);
  reported(cell, CELLPLAN_ARRIVE, 0, 0, 0, CELLPLAN_NO_CELL, 0, 0, false);
  reported(cell, CELLPLAN_CLEAN_AFTER, 0, 0, 0, CELLPLAN_NO_CELL, 0, 0, false);
  reported_step(cell, CELLPLAN_FINISH, 0, 0, 0, 0, CELLPLAN_NO_CELL, 0, 0, false);
  same("none handed over", cellplan_cell_hand_over(cell, TEXT("x"), NO_NAME, TEXT("x"), UINT64_MAX, orders, 4, &count), CELLPLAN_NO_CELL);
  same("without orders", count, 0);
  count = 7;
  same("no check", cellplan_cell_check(cell, UINT64_MAX, text, sizeof text, &count), CELLPLAN_NO_CELL);
  same("without a line", count, 0);
  count = 7;
  same("no schedule", cellplan_cell_schedule(cell, UINT64_MAX, text, sizeof text, &count), CELLPLAN_NO_CELL);
  same("without lines", count, 0);
  same("no orders", cellplan_cell_orders(cell, 0, orders, 4, &count), CELLPLAN_NO_CELL);
  same("their number", count, 0);
  same("no phase", cellplan_cell_phase(cell, 0, &phase), CELLPLAN_NO_CELL);
  same("no holder", cellplan_cell_holder(cell, 0, &number), CELLPLAN_NO_CELL);
  same("no due", cellplan_cell_due(cell, 0, &at), CELLPLAN_NO_CELL);
  same("no clean due", cellplan_cell_clean_due(cell, 0, &at), CELLPLAN_NO_CELL);
  same("no job before", cellplan_cell_cleaned_after(cell, 0, &number), CELLPLAN_NO_CELL);
  same("no step", cellplan_cell_step(cell, 0, &number), CELLPLAN_NO_CELL);
  same("no step before", cellplan_cell_cleaned_after_step(cell, 0, &number, &number), CELLPLAN_NO_CELL);
  same("no now", cellplan_cell_now(cell, &at), CELLPLAN_NO_CELL);
  same("no left", cellplan_cell_reports_left(cell, &at), CELLPLAN_NO_CELL);
  same("no punctual", cellplan_cell_punctual(cell, &yes), CELLPLAN_NO_CELL);
  same("no done", cellplan_cell_is_done(cell, &yes), CELLPLAN_NO_CELL);
  same("no jobs", cellplan_cell_jobs(cell, &number), CELLPLAN_NO_CELL);
  same("no machines", cellplan_cell_machines(cell, &number), CELLPLAN_NO_CELL);
  same("no leaves", cellplan_cell_leaves(cell, 0, &at), CELLPLAN_NO_CELL);
  same("nothing written", at + number + yes, 15);
}

/* A handing over that is refused leaves the cell as it was. */
static void not_over(struct cellplan_cell *cell, const char *instance, const char *plan, uint64_t at, uint32_t status) {
  struct cellplan_order orders[4];
  uint64_t leaves = 0, now = 9;
  size_t count = 9;
  memset(orders, '#', sizeof orders);
  same("handed over", cellplan_cell_hand_over(cell, TEXT(instance), NO_NAME, TEXT(plan), at, orders, 4, &count), status);
  same("no orders then", count, 0);
  same("none written", orders[0].job, 0x23232323);
  same("its leaving", cellplan_cell_leaves(cell, 1, &leaves), CELLPLAN_GOOD);
  same("as before", leaves, 10);
  same("its last moment", cellplan_cell_now(cell, &now), CELLPLAN_GOOD);
  same("that of before", now, 3);
}

/* Each reason for which a cell that job 0 has entered at moment 3 isn't handed over; the first that holds is got. */
static void never_over(struct cellplan_cell *cell) {
  reported(cell, CELLPLAN_ARRIVE, 0, 0, 3, CELLPLAN_GOOD, 0, 1, true);
  not_over(cell, "x", "x", 1000000000001u, CELLPLAN_MOMENT_TOO_LARGE);
  not_over(cell, "x", "x", 2, CELLPLAN_FAULT);
  not_over(cell, two, "x", 2, CELLPLAN_FAULT);
  not_over(cell, two, alone, 2, CELLPLAN_REFUSED);
  not_over(cell, two, turned, 2, CELLPLAN_KEEPS_NOT);
  not_over(cell, two, crossed, 2, CELLPLAN_BACKWARDS);
  not_over(cell, two, crossed, 3, CELLPLAN_REFUSED);
}

/* What a call answers of the rest at a moment, its status, and that one byte less is no room for it. */
static void answers(uint32_t (*call)(struct cellplan_cell *, uint64_t, uint8_t *, size_t, size_t *), struct cellplan_cell *cell, uint64_t at,
                 uint32_t status, const char *text) {
  uint8_t room[512];
  size_t length = 7;
  memset(room, '#', sizeof room);
  same(text, call(cell, at, room, sizeof room, &length), status);
  same("its length", length, strlen(text));
  same("its text", (uint64_t)memcmp(room, text, strlen(text)), 0);
  same("what is behind it", room[strlen(text)], '#');
  memset(room, '#', sizeof room);
  same("too little room", call(cell, at, room, strlen(text) - 1, &length), CELLPLAN_NO_ROOM);
  same("the length that it needs", length, strlen(text));
  same("what is written then", room[0], '#');
  same("a moment that is past", call(cell, 1, room, sizeof room, &length), CELLPLAN_BACKWARDS);
  same("no length", length, 0);
  same("a moment beyond all", call(cell, 1000000000001u, room, sizeof room, &length), CELLPLAN_MOMENT_TOO_LARGE);
  same("no length either", length, 0);
}

/* Job 1 waits for job 0, which is late: by the other plan it goes first, at once. */
static void over(struct cellplan_cell *cell) {
  struct cellplan_order orders[2];
  uint64_t at = 0;
  bool yes = false;
  size_t count = 9;
  same("a cell", cellplan_cell_new(TEXT(line_of_two), NO_NAME, TEXT(first_0), cell), CELLPLAN_GOOD);
  reported(cell, CELLPLAN_ARRIVE, 1, 0, 1, CELLPLAN_GOOD, 0, 0, true);
  memset(orders, '#', sizeof orders);
  same("handed over", cellplan_cell_hand_over(cell, TEXT(line_of_two), NO_NAME, TEXT(first_1), 2, orders, 0, &count), CELLPLAN_GOOD);
  same("all its orders", count, 1);
  same("no room for them", orders[0].job, 0x23232323);
  same("they are had afterwards", cellplan_cell_orders(cell, 0, orders, 2, &count), CELLPLAN_GOOD);
  same("all of them", count, 1);
  same("job 1", orders[0].job, 1);
  same("from outside", orders[0].source, CELLPLAN_OUT);
  same("onto machine 0", orders[0].target, 0);
  same("at moment 2", orders[0].at, 2);
  same("no other one", orders[1].job, 0x23232323);
  same("the last moment", cellplan_cell_now(cell, &at), CELLPLAN_GOOD);
  same("it is 2", at, 2);
  same("punctual from there", cellplan_cell_punctual(cell, &yes), CELLPLAN_GOOD);
  same("it is", yes, true);
  same("job 0 leaves", cellplan_cell_leaves(cell, 0, &at), CELLPLAN_GOOD);
  same("at 9", at, 9);
  same("job 1 leaves", cellplan_cell_leaves(cell, 1, &at), CELLPLAN_GOOD);
  same("at 6", at, 6);
  answers(cellplan_cell_check, cell, 2, CELLPLAN_GOOD, "accepted makespan 9 leaves 9 6\n");
  answers(cellplan_cell_check, cell, 7, CELLPLAN_GOOD, "accepted makespan 10 leaves 10 7\n");
  answers(cellplan_cell_schedule, cell, 2, CELLPLAN_GOOD,
       "accepted makespan 9 leaves 9 6\njob 0 arrives 2 by 17\njob 0 on machine 0 from 6 to 9 by 20 leaves 9\n"
       "job 1 on machine 0 since 2 to 6 by 17 leaves 6\n");
  same("once more", cellplan_cell_hand_over(cell, TEXT(line_of_two), NO_NAME, TEXT(in_a_hurry), 2, orders, 2, &count), CELLPLAN_GOOD);
  same("with no orders", count, 0);
  answers(cellplan_cell_check, cell, 2, CELLPLAN_REFUSED, "refused late 0 9 1.1 0.0 0.1\n");
  answers(cellplan_cell_schedule, cell, 2, CELLPLAN_REFUSED,
       "refused late 0 9 1.1 0.0 0.1\njob 0 arrives 2\njob 0 on machine 0 from 6 to 9 leaves 9\njob 1 on machine 0 since 2 to 6 leaves 6\n");
}

/* The cell of over, driven to its end. */
static void over_to_the_end(struct cellplan_cell *cell) {
  uint64_t left = 0;
  bool yes = true;
  reported(cell, CELLPLAN_ARRIVE, 0, 0, 3, CELLPLAN_GOOD, 0, 0, true);
  same("punctual no more", cellplan_cell_punctual(cell, &yes), CELLPLAN_GOOD);
  same("it isn't", yes, false);
  reported(cell, CELLPLAN_FINISH, 1, 0, 6, CELLPLAN_GOOD, 0, 2, false);
  same("what is left", cellplan_cell_reports_left(cell, &left), CELLPLAN_GOOD);
  same("one is", left, 1);
  reported(cell, CELLPLAN_FINISH, 0, 0, 9, CELLPLAN_GOOD, 0, 1, false);
  same("done then", cellplan_cell_is_done(cell, &yes), CELLPLAN_GOOD);
  same("it is done then", yes, true);
  answers(cellplan_cell_check, cell, 9, CELLPLAN_GOOD, "accepted makespan 9 leaves 9 6\n");
}

static void named(uint32_t number, const char *wanted) {
  uint8_t name[32];
  size_t length = 7;
  same(wanted, cellplan_reason(number, name, sizeof name, &length), CELLPLAN_GOOD);
  same("its length", length, strlen(wanted));
  same("its text", (uint64_t)memcmp(name, wanted, length), 0);
  same("too little room", cellplan_reason(number, name, length - 1, &length), CELLPLAN_NO_ROOM);
}

static void names(void) {
  uint8_t name[8];
  size_t length = 7;
  named(CELLPLAN_JOB_OUT_OF_RANGE, "JobOutOfRange");
  named(CELLPLAN_MACHINE_OUT_OF_RANGE, "MachineOutOfRange");
  named(CELLPLAN_MOMENT_TOO_LARGE, "MomentTooLarge");
  named(CELLPLAN_BACKWARDS, "Backwards");
  named(CELLPLAN_NOT_EXPECTED, "NotExpected");
  named(CELLPLAN_WRONG_KIND, "WrongKind");
  named(CELLPLAN_WRONG_MACHINE, "WrongMachine");
  named(CELLPLAN_STEP_OUT_OF_RANGE, "StepOutOfRange");
  same("no reason", cellplan_reason(15, name, sizeof name, &length) + length, CELLPLAN_NONE);
  same("no reason behind them", cellplan_reason(24, name, sizeof name, &length) + length, CELLPLAN_NONE);
}

static void said(const char *line) {
  if (write(STDERR_FILENO, line, strlen(line)) != (ssize_t)strlen(line)) exit(9);
}

/* A report that frees one machine after the other: its orders are more than the four that a controller holds in itself. */
static void all_move(struct cellplan_cell *cell) {
  struct cellplan_order orders[5];
  size_t count = 9;
  for (uint32_t j = 0; j < 5; j++) reported(cell, CELLPLAN_ARRIVE, j, 0, 0, CELLPLAN_GOOD, 0, 1, false);
  for (uint32_t j = 0; j < 4; j++) reported(cell, CELLPLAN_FINISH, j, j, 1, CELLPLAN_GOOD, 0, 0, false);
  reported(cell, CELLPLAN_FINISH, 4, 4, 1, CELLPLAN_GOOD, 0, 5, false);
  same("their orders", cellplan_cell_orders(cell, 0, orders, 5, &count), CELLPLAN_GOOD);
  for (uint32_t i = 0; i < 5; i++) {
    same("the job that moves", orders[i].job, 4 - i);
    same("where from", orders[i].source, 4 - i);
    same("where to", orders[i].target, i == 0 ? CELLPLAN_OUT : 5 - i);
  }
}

/* The calls that take no memory. */
static int asked(void) {
  struct cellplan_cell cells[7] = {{0}, {0}, {0}, {0}, {0}, {0}, {0}}, none = {0};
  struct cellplan_order orders[2];
  size_t count = 9;
  same("begun", cellplan_cell_new(TEXT(two), NO_NAME, TEXT(in_time), &cells[0]), CELLPLAN_GOOD);
  same("another", cellplan_cell_new(TEXT(two), NO_NAME, TEXT(in_time), &cells[1]), CELLPLAN_GOOD);
  same("one with cleaning", cellplan_cell_new(TEXT(two), NO_NAME, TEXT(cleaned), &cells[2]), CELLPLAN_GOOD);
  same("one in which all move", cellplan_cell_new(TEXT(chain), NO_NAME, TEXT(chained), &cells[3]), CELLPLAN_GOOD);
  for (int i = 4; i < 6; i++) {
    same("one for another plan", cellplan_cell_new(TEXT(two), NO_NAME, TEXT(in_time), &cells[i]), CELLPLAN_GOOD);
    same("which takes over", cellplan_cell_hand_over(&cells[i], TEXT(i == 4 ? chain : two), NO_NAME, TEXT(i == 4 ? chained : cleaned), 0, orders, 2, &count), CELLPLAN_GOOD);
  }
  same("one with a tank", cellplan_cell_new(TEXT(rinse), NO_NAME, TEXT(rinsed), &cells[6]), CELLPLAN_GOOD);
  said("asked\n");
  same("version", cellplan_version(), CELLPLAN_VERSION);
  driven(&cells[0]);
  reported(&cells[1], CELLPLAN_ARRIVE, 0, 0, 0, CELLPLAN_GOOD, 0, 1, false);
  beyond_the_room(&cells[1]);
  to_the_end(&cells[1]);
  gone(&cells[2]);
  all_move(&cells[3]);
  all_move(&cells[4]);
  gone(&cells[5]);
  rinsed_twice(&cells[6]);
  without_a_cell(&none);
  names();
  said("ended\n");
  for (int i = 0; i < 7; i++) cellplan_cell_free(&cells[i]);
  return missed != 0;
}

static void judged_all(void) {
  judged(cellplan_check, in_time, CELLPLAN_GOOD, "accepted makespan 10 leaves 5 10\n");
  judged(cellplan_check, late, CELLPLAN_REFUSED, "refused late 1 10 0.0 0.1 0.2 1.0 1.1 1.2\n");
  judged(cellplan_explain, in_time, CELLPLAN_GOOD,
         "accepted makespan 10 leaves 5 10\njob 0 leaves 5 budget 5 slack 0\njob 1 leaves 10 budget 10 slack 0\n"
         "0 0.0 release of job 0\n3 0.1 job 0 on machine 0 for 3\n5 0.2 job 0 on machine 1 for 2\n"
         "5 1.0 machine 1 from job 0 to job 1\n9 1.1 job 1 on machine 1 for 4\n10 1.2 job 1 on machine 0 for 1\n");
  judged(cellplan_explain, late, CELLPLAN_REFUSED,
         "refused late 1 10 0.0 0.1 0.2 1.0 1.1 1.2\njob 0 leaves 5 budget 5 slack 0\njob 1 leaves 10 budget 9 late 1\n"
         "0 0.0 release of job 0\n3 0.1 job 0 on machine 0 for 3\n5 0.2 job 0 on machine 1 for 2\n"
         "5 1.0 machine 1 from job 0 to job 1\n9 1.1 job 1 on machine 1 for 4\n10 1.2 job 1 on machine 0 for 1\n");
}

int main(int argc, char **argv) {
  struct cellplan_cell cell = {0};
  bool punctual = false;
  if (argc == 2) return strcmp(argv[1], "asked") == 0 ? asked() : once();
  if (argc == 5) return printed(strcmp(argv[1], "check") == 0 ? cellplan_check : cellplan_explain, argv + 2);
  same("version", cellplan_version(), CELLPLAN_VERSION);
  judged_all();
  without_a_cell(&cell);
  same("refused", cellplan_cell_new(TEXT(two), NO_NAME, TEXT(late), &cell), CELLPLAN_REFUSED);
  same("no instance", cellplan_cell_new(TEXT("x"), NO_NAME, TEXT(late), &cell), CELLPLAN_FAULT);
  same("still none", cellplan_cell_now(&cell, &(uint64_t){0}), CELLPLAN_NO_CELL);
  same("begun", cellplan_cell_new(TEXT(two), NO_NAME, TEXT(in_time), &cell), CELLPLAN_GOOD);
  driven(&cell);
  same("refused again", cellplan_cell_new(TEXT(two), NO_NAME, TEXT(late), &cell), CELLPLAN_REFUSED);
  reported(&cell, CELLPLAN_FINISH, 0, 0, 6, CELLPLAN_GOOD, 0, 1, true);
  same("begun anew", cellplan_cell_new(TEXT(two), NO_NAME, TEXT(in_time), &cell), CELLPLAN_GOOD);
  reported(&cell, CELLPLAN_ARRIVE, 0, 0, 0, CELLPLAN_GOOD, 0, 1, false);
  same("punctual then", cellplan_cell_punctual(&cell, &punctual), CELLPLAN_GOOD);
  same("is punctual then", punctual, true);
  beyond_the_room(&cell);
  to_the_end(&cell);
  of_a_collection(&cell);
  same("a tank", cellplan_cell_new(TEXT(rinse), NO_NAME, TEXT(rinsed), &cell), CELLPLAN_GOOD);
  rinsed_twice(&cell);
  same("begun for another plan", cellplan_cell_new(TEXT(two), NO_NAME, TEXT(in_time), &cell), CELLPLAN_GOOD);
  never_over(&cell);
  over(&cell);
  over_to_the_end(&cell);
  cellplan_cell_free(&cell);
  cellplan_cell_free(&cell);
  without_a_cell(&cell);
  names();
  return missed != 0;
}
