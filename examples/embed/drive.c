/* Drives a cell whose activities are simulated, and prints the log of the run, as `cellplan drive` does.

     drive INSTANCE PLAN [SEED [LOG]]

   Without a seed, or with 0, each activity ends when it is due; with another one each ends early, in time or late, as
   the seed has it. With a log, which may have been cut anywhere, the run is recovered: the reports that stand whole in it
   are reported again, and it goes on from there. Ends with status 0 where the run has ended in time, with 11, which is no
   status of a call, where it was late, with 2 where the words are wrong, with the status of cellplan_cell_new where there
   is no cell, with 5 where a file can't be read, a line of the log is damaged or the log can't be written, and with the
   number of the reason where a report of the log isn't possible. */
#include "cellplan.h"

#include <inttypes.h>
#include <limits.h>
#include <stdio.h>
#include <stdlib.h>
#include <string.h>

#define NEVER UINT64_MAX
#define LATE 11

struct text {
  uint8_t *bytes;
  size_t length;
};

/* The floor: when the activity of each job, and the cleaning of each machine, will have ended. */
struct floor {
  struct cellplan_cell cell;
  uint32_t jobs, machines;
  uint64_t *job_ends, *clean_ends;
  struct cellplan_order *orders;
  uint64_t seed;
};

static void stop(const char *why, int status) {
  fprintf(stderr, "drive: %s\n", why);
  exit(status);
}

static void *room_for(size_t count, size_t size) {
  void *room = calloc(count ? count : 1, size);
  if (!room) stop("out of memory", CELLPLAN_NO_MEMORY);
  return room;
}

/* The bytes of a file, with a zero byte behind them. */
static struct text whole(const char *path) {
  FILE *file = fopen(path, "rb");
  long size = -1;
  if (file && fseek(file, 0, SEEK_END) == 0) size = ftell(file);
  if (size < 0 || size == LONG_MAX) stop(path, 5);
  rewind(file);
  struct text text = {room_for((size_t)size + 1, 1), (size_t)size};
  if (fread(text.bytes, 1, text.length, file) != text.length) stop(path, 5);
  fclose(file);
  return text;
}

/* The cell of the plan; where there is none, the line that says why is printed. Memory may run out in any of the calls. */
static void begin(struct floor *floor, struct text instance, struct text plan) {
  static const uint8_t no_name[1];
  uint32_t status = cellplan_cell_new(instance.bytes, instance.length, no_name, 0, plan.bytes, plan.length, &floor->cell);
  if (status == CELLPLAN_GOOD) return;
  if (status == CELLPLAN_NO_MEMORY) stop("out of memory", CELLPLAN_NO_MEMORY);
  size_t length = 0;
  uint8_t nothing[1];
  cellplan_check(instance.bytes, instance.length, no_name, 0, plan.bytes, plan.length, nothing, 0, &length);
  uint8_t *line = room_for(length, 1);
  if (cellplan_check(instance.bytes, instance.length, no_name, 0, plan.bytes, plan.length, line, length, &length) != status)
    stop("out of memory", CELLPLAN_NO_MEMORY);
  fwrite(line, 1, length, status == CELLPLAN_REFUSED ? stdout : stderr);
  exit((int)status);
}

/* What is printed so far stands in the log, before anything on the floor follows from it. */
static void keep(void) {
  if (fflush(stdout) != 0) stop("the log can't be written", 5);
}

/* When an activity that begins now and is due then will have ended. */
static uint64_t drawn(struct floor *floor, uint64_t now, uint64_t due) {
  if (floor->seed == 0 || due <= now) return due;
  floor->seed ^= floor->seed << 13;
  floor->seed ^= floor->seed >> 7;
  floor->seed ^= floor->seed << 17;
  uint64_t eighth = (due - now) / 8;
  uint64_t draw = floor->seed % 16;
  if (draw < 8) return due - draw * eighth;
  return draw == 15 ? due + eighth + 1 : due;
}

static void print_spot(uint32_t machine) {
  if (machine == CELLPLAN_OUT)
    printf(" out");
  else
    printf(" %" PRIu32, machine);
}

/* A move is made: it is printed, and what begins with it. */
static void move(struct floor *floor, struct cellplan_order order) {
  uint64_t due = 0;
  printf("order %" PRIu64 " %" PRIu32, order.at, order.job);
  print_spot(order.source);
  print_spot(order.target);
  printf("\n");
  if (cellplan_cell_due(&floor->cell, order.job, &due) == CELLPLAN_GOOD)
    floor->job_ends[order.job] = drawn(floor, order.at, due);
  if (order.source != CELLPLAN_OUT && cellplan_cell_clean_due(&floor->cell, order.source, &due) == CELLPLAN_GOOD)
    floor->clean_ends[order.source] = drawn(floor, order.at, due);
}

/* Something has ended: it is reported, and the moves that then are to be made are made. */
static void report(struct floor *floor, uint32_t kind, uint32_t job, uint32_t machine, uint64_t at) {
  size_t count = 0;
  bool late = false;
  uint64_t detail = 0;
  uint32_t status = cellplan_cell_report(&floor->cell, kind, job, machine, at, floor->orders, floor->jobs, &count, &late, &detail);
  if (status != CELLPLAN_GOOD) {
    uint8_t name[32];
    size_t length = 0;
    if (cellplan_reason(status, name, sizeof name, &length) != CELLPLAN_GOOD) length = 0;
    fprintf(stderr, "drive: a report is refused: %" PRIu32 " %.*s %" PRIu64 "\n", status, (int)length, (char *)name, detail);
    exit((int)status);
  }
  printf("report %" PRIu64, at);
  if (kind == CELLPLAN_ARRIVE) printf(" arrive %" PRIu32 "\n", job);
  if (kind == CELLPLAN_FINISH) printf(" finish %" PRIu32 " %" PRIu32 "\n", job, machine);
  if (kind == CELLPLAN_CLEAN) printf(" clean %" PRIu32 "\n", machine);
  if (late) printf("late %" PRIu64 "\n", at);
  keep();
  if (kind == CELLPLAN_CLEAN)
    floor->clean_ends[machine] = NEVER;
  else
    floor->job_ends[job] = NEVER;
  for (size_t i = 0; i < count; i++) move(floor, floor->orders[i]);
}

/* The text behind the word, or NULL where it doesn't begin with it. */
static const char *after_word(const char *text, const char *word) {
  return text && strncmp(text, word, strlen(word)) == 0 ? text + strlen(word) : NULL;
}

/* The text behind the number, or NULL where it doesn't begin with one that is at most `most`. */
static const char *after_number(const char *text, uint64_t most, uint64_t *number) {
  if (!text || *text < '0' || *text > '9') return NULL;
  for (*number = 0; *text >= '0' && *text <= '9'; text++) {
    uint64_t digit = (uint64_t)(*text - '0');
    if (digit > most || *number > (most - digit) / 10) return NULL;
    *number = 10 * *number + digit;
  }
  return text;
}

/* Reports again what a line of the log says. */
static void report_again(struct floor *floor, const char *line, const char *end) {
  uint64_t at = 0, job = 0, machine = 0;
  const char *event = after_number(after_word(line, "report "), UINT64_MAX, &at);
  const char *finish = after_number(after_word(event, " finish "), UINT32_MAX, &job);
  if (after_number(after_word(finish, " "), UINT32_MAX, &machine) == end)
    report(floor, CELLPLAN_FINISH, (uint32_t)job, (uint32_t)machine, at);
  else if (after_number(after_word(event, " arrive "), UINT32_MAX, &job) == end)
    report(floor, CELLPLAN_ARRIVE, (uint32_t)job, 0, at);
  else if (after_number(after_word(event, " clean "), UINT32_MAX, &machine) == end)
    report(floor, CELLPLAN_CLEAN, 0, (uint32_t)machine, at);
  else
    stop("a line of the log is damaged", 5);
}

/* Reports again what stands whole in the log. */
static void recover(struct floor *floor, struct text log) {
  const char *line = (const char *)log.bytes, *behind = line + log.length, *end;
  while ((end = memchr(line, '\n', (size_t)(behind - line)))) {
    if (after_word(line, "report")) report_again(floor, line, end);
    line = end + 1;
  }
}

/* Reports what ends next. */
static void continue_run(struct floor *floor) {
  uint64_t soonest = NEVER, now = 0;
  uint32_t next = 0;
  bool is_job = true;
  for (uint32_t j = 0; j < floor->jobs; j++)
    if (floor->job_ends[j] < soonest) soonest = floor->job_ends[next = j];
  for (uint32_t m = 0; m < floor->machines; m++)
    if (floor->clean_ends[m] < soonest) {
      soonest = floor->clean_ends[next = m];
      is_job = false;
    }
  cellplan_cell_now(&floor->cell, &now);
  if (soonest < now) soonest = now;
  if (!is_job) {
    report(floor, CELLPLAN_CLEAN, 0, next, soonest);
    return;
  }
  struct cellplan_phase phase = {0};
  cellplan_cell_phase(&floor->cell, next, &phase);
  report(floor, phase.place == CELLPLAN_OUTSIDE ? CELLPLAN_ARRIVE : CELLPLAN_FINISH, next, phase.machine, soonest);
}

/* The floor before the first report: each job arrives when it is due, or as the seed has it. */
static void open_floor(struct floor *floor) {
  cellplan_cell_jobs(&floor->cell, &floor->jobs);
  cellplan_cell_machines(&floor->cell, &floor->machines);
  floor->job_ends = room_for(floor->jobs, sizeof *floor->job_ends);
  floor->clean_ends = room_for(floor->machines, sizeof *floor->clean_ends);
  floor->orders = room_for(floor->jobs, sizeof *floor->orders);
  for (uint32_t m = 0; m < floor->machines; m++) floor->clean_ends[m] = NEVER;
  for (uint32_t j = 0; j < floor->jobs; j++) {
    uint64_t due = 0;
    cellplan_cell_due(&floor->cell, j, &due);
    floor->job_ends[j] = drawn(floor, 0, due);
  }
}

static void close_floor(struct floor *floor) {
  cellplan_cell_free(&floor->cell);
  free(floor->job_ends);
  free(floor->clean_ends);
  free(floor->orders);
}

int main(int argc, char **argv) {
  if (argc < 3 || argc > 5) stop("wants INSTANCE PLAN [SEED [LOG]]", 2);
  if (cellplan_version() != CELLPLAN_VERSION) stop("the header is of another version than the library", 2);
  struct floor floor = {{0}, 0, 0, NULL, NULL, NULL, argc > 3 ? strtoull(argv[3], NULL, 10) : 0};
  struct text instance = whole(argv[1]), plan = whole(argv[2]);
  begin(&floor, instance, plan);
  free(instance.bytes);
  free(plan.bytes);
  open_floor(&floor);
  if (argc > 4) {
    struct text log = whole(argv[4]);
    recover(&floor, log);
    free(log.bytes);
  }
  bool done = false, punctual = false;
  uint64_t now = 0;
  while (cellplan_cell_is_done(&floor.cell, &done) == CELLPLAN_GOOD && !done) continue_run(&floor);
  cellplan_cell_now(&floor.cell, &now);
  cellplan_cell_punctual(&floor.cell, &punctual);
  printf("done %" PRIu64 "\n", now);
  keep();
  close_floor(&floor);
  return punctual ? 0 : LATE;
}
