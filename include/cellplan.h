/* cellplan.h - the controller of a cell, for C, C++ and whatever calls C.

   A cell is begun from the text of an instance and the text of an accepted plan, told by reports what has ended, and
   orders the moves that then keep the plan. Texts are those of the program `cellplan`; docs/EMBEDDING.md goes from the
   sources to a driven cell. A moment, as `at` everywhere, is a number of whole time units from moment 0 of the run on, of
   the unit that the instance's times have. Jobs and machines are numbered from 0.

   What each call answers is proved, by the clauses at its function in crates/cellplan_c. What no clause can say, and a
   caller has to keep to:

   - A cell begins as zero bytes (`struct cellplan_cell cell = {0};`, in C++ `cellplan_cell cell{};`) and lies at one place
     until it is freed: it is never copied, and none of its members is read or written. A copy would free the same
     controller twice.
   - Pointers aren't null, also to a room of 0 bytes, and point to as much as is said. What a call writes overlaps
     nothing else that it is given.
   - Lengths and rooms of texts are in bytes. No zero byte ends a text, and none is counted: of a literal, `sizeof` is one
     too many. A room for orders is a number of orders: with `sizeof orders` for it a call writes past the array.
   - A `bool` that a call writes into holds true or false before the call, and so does that of a phase:
     `bool late = false;`, `struct cellplan_phase phase = {0};`, in C++ `cellplan_phase phase{};`.
   - A cell stays on the thread that began it, and one call at a time is in it. Each call that is given a cell counts, also
     one that only reads it: it takes the controller out of the struct and puts it back, so it writes the struct meanwhile.
     Cells are apart: each thread may have cells of its own. No call is made from a signal handler, or in the child of a
     fork of a process with threads.
   - `malloc`, `realloc` and `free` are those of one allocator. What the first two give begins at a multiple of 16, as with
     those of glibc; no call asks for more.
   - The stack has room. cellplan_check, cellplan_explain, cellplan_cell_new and cellplan_cell_hand_over touch some 26,000 bytes
     of it, for texts of any length; give them 32 KiB. A plan's text that nests tables within tables needs more before it is
     refused: the deepest that was found, 80 within 80, touches 1,600,000 bytes, so where a plan may be anybody's text give them
     2 MiB. cellplan_cell_check and cellplan_cell_schedule touch less than 4 KiB, and all other calls less than 1 KiB.
     (tests/c/c-library measures it.)
   - The library is for Linux on x86-64, with glibc as the C library.

   cellplan_check, cellplan_explain, cellplan_cell_new, cellplan_cell_hand_over, cellplan_cell_check and cellplan_cell_schedule
   take memory, and so may answer CELLPLAN_NO_MEMORY. No other call answers so, not even a report. Only these six and
   cellplan_cell_free call malloc, realloc or free.

   Of the line that cellplan_check writes, which is also the first of cellplan_explain, some words are in no clause, and
   tests alone show them: those behind `not shaped `, `instance: ` and `plan: `, which name the fault. */
#ifndef CELLPLAN_H
#define CELLPLAN_H

#include <stdbool.h>
#include <stddef.h>
#include <stdint.h>

#ifdef __cplusplus
extern "C" {
#endif

/* The version of this header's calls. The library is of the same where cellplan_version() gives it. */
#define CELLPLAN_VERSION 3

/* The version of cellplan that this header comes from: `cellplan --version` prints that of a program. */
#define CELLPLAN_VERSION_TEXT "3.2.0"

/* The statuses: those of the program, then those of these calls alone. */
enum {
  CELLPLAN_GOOD = 0,       /* done; of a plan: accepted */
  CELLPLAN_REFUSED = 1,    /* the plan isn't accepted */
  CELLPLAN_FAULT = 3,      /* the text of the instance or of the plan is refused */
  CELLPLAN_NO_MEMORY = 4,  /* memory ran out */
  CELLPLAN_NO_ROOM = 6,    /* the text is longer than the room for it; its length is given */
  CELLPLAN_NONE = 7,       /* there is none of what was asked for */
  CELLPLAN_NO_CELL = 8,    /* the cell holds no controller */
  CELLPLAN_NO_KIND = 9,    /* the report is of no kind */
  CELLPLAN_KEEPS_NOT = 10  /* the run so far isn't one of the plan to which the cell is to be handed over, as far as the cell knows it */
};

/* The reasons for which a report isn't possible; the first that holds, in this order, is the status. */
enum {
  CELLPLAN_JOB_OUT_OF_RANGE = 16,     /* of CELLPLAN_CLEAN_AFTER after the next one */
  CELLPLAN_MACHINE_OUT_OF_RANGE = 17, /* of both cleanings; a wrong machine of CELLPLAN_FINISH has one of the last three */
  CELLPLAN_MOMENT_TOO_LARGE = 18,     /* over 1000000000000 */
  CELLPLAN_BACKWARDS = 19,            /* with the last moment: of the last accepted report, or of the orders at a handing over */
  CELLPLAN_NOT_EXPECTED = 20,         /* the job waits for its move or is gone; the machine isn't being cleaned, or not after this job */
  CELLPLAN_WRONG_KIND = 21,           /* an arrival of a job that is inside, or a finish of one that is outside */
  CELLPLAN_WRONG_MACHINE = 22,        /* with the machine on which the job is */
  CELLPLAN_STEP_OUT_OF_RANGE = 23     /* of cellplan_cell_report_step after that of the job: the route has no such step */
};

/* The kinds of reports. */
enum {
  CELLPLAN_ARRIVE = 0, /* the job has arrived; the machine isn't read */
  CELLPLAN_FINISH = 1, /* the machine has ended its operation on the job */
  CELLPLAN_CLEAN = 2,  /* the machine is clean; the job isn't read */
  CELLPLAN_CLEAN_AFTER = 3 /* the machine is clean after just this job */
};

/* The places of a job. */
enum {
  CELLPLAN_OUTSIDE = 0,
  CELLPLAN_ON_MACHINE = 1,
  CELLPLAN_GONE = 2
};

/* In the place of a machine: outside the cell. */
#define CELLPLAN_OUT UINT32_MAX

/* A cell, or none: see above how it begins. */
struct cellplan_cell {
  bool full;
  void *slot;
};

/* A move to be made at this moment: the job leaves the source and enters the target. */
struct cellplan_order {
  uint32_t job;
  uint32_t source; /* a machine, or CELLPLAN_OUT */
  uint32_t target; /* a machine, or CELLPLAN_OUT */
  uint64_t at;
};

/* Where a job is. */
struct cellplan_phase {
  uint32_t place;   /* CELLPLAN_OUTSIDE, CELLPLAN_ON_MACHINE or CELLPLAN_GONE */
  uint32_t machine; /* on which it is; 0 where it is on none */
  bool ready;       /* its arrival, or the end of its operation there, was reported; false where it is gone */
  uint64_t at;      /* the moment at which it left; 0 where it isn't gone */
};

/* The version of the library. */
uint32_t cellplan_version(void);

/* Writes the name of the reason with this number, as `JobOutOfRange`, and its length, which is 17 at most; no zero byte
   ends it.
   GOOD, NO_ROOM (the length alone is written), or NONE for a number that is no reason's (the length is 0). */
uint32_t cellplan_reason(uint32_t number, uint8_t *name, size_t room, size_t *length);

/* Judges a plan: writes the line that `cellplan check` prints, and its length, with its line feed and no zero byte.
   With a name the first text is a collection with an instance of this name; with a name of length 0 it is one instance,
   where `cellplan check --instance ''` looks for an instance of a collection, and there is none. A text may have any
   length, where `cellplan check` refuses one over 67108864 bytes, with status 5.
   GOOD where the plan is accepted, REFUSED where it isn't, each with the line; FAULT with the line that the program
   prints on its standard error, which begins with `cellplan: `; NO_ROOM with the length of the line, which isn't written;
   NO_MEMORY with the length 0. */
uint32_t cellplan_check(const uint8_t *instance, size_t instance_length, const uint8_t *name, size_t name_length,
                        const uint8_t *plan, size_t plan_length, uint8_t *line, size_t room, size_t *length);

/* Says why: writes the text that `cellplan explain` prints, of one line or many, and its length. All else is as above; with
   a room of 0 bytes either call gives how many its answer needs, and then has judged the plan once more. */
uint32_t cellplan_explain(const uint8_t *instance, size_t instance_length, const uint8_t *name, size_t name_length,
                          const uint8_t *plan, size_t plan_length, uint8_t *text, size_t room, size_t *length);

/* Begins a cell with the plan, before the first report; what the cell held before is freed. The texts are as above, and
   aren't read any more when the call has ended.
   GOOD; REFUSED, FAULT or NO_MEMORY, and then the cell holds what it held. cellplan_check says why. */
uint32_t cellplan_cell_new(const uint8_t *instance, size_t instance_length, const uint8_t *name, size_t name_length,
                           const uint8_t *plan, size_t plan_length, struct cellplan_cell *cell);

/* Frees what the cell holds, and leaves a cell that holds none; one that holds none stays as it is. */
void cellplan_cell_free(struct cellplan_cell *cell);

/* Hands the cell over to another plan in mid-run: at moment `at`, which isn't before the last one, it becomes a cell of this
   plan, for the same instance or for another one, as changed times, further jobs or other orders. What was done so far has to be
   part of a run by this plan too, and no cycle may be in it; the budgets aren't asked for: cellplan_cell_check says whether they are
   kept. Makes the moves that this plan has then: writes as many of their orders as there is room for, in the order in which they
   are made, and the number of them all, and cellplan_cell_orders gives them too. The texts are as above. `room` is a number of
   orders, not of bytes.
   GOOD; NO_CELL, and else MOMENT_TOO_LARGE, and else FAULT, and else REFUSED where the plan isn't well shaped, and else KEEPS_NOT
   (also where a cleaning time rises from 0 on a machine that a job has left: the cell doesn't know when it left), and else BACKWARDS, and else REFUSED where the plan has a cycle. NO_MEMORY may come in place of any but the first two of these
   refusals. If it isn't GOOD the cell holds what it held, and the number is 0. */
uint32_t cellplan_cell_hand_over(struct cellplan_cell *cell, const uint8_t *instance, size_t instance_length,
                                 const uint8_t *name, size_t name_length, const uint8_t *plan, size_t plan_length,
                                 uint64_t at, struct cellplan_order *orders, size_t room, size_t *count);

/* Judges what is left of the cell's run, from moment `at` on, by the plan that it has: writes the line that `cellplan check` prints
   `--after` the log of this run, `--at` this moment, and its length. The cell holds what it held.
   GOOD where each job that isn't gone is out by its budget, as long as nothing lasts longer than its nominal time and what is overdue
   ends now; REFUSED where one isn't; each with the line; NO_ROOM with the length of the line, which isn't written; NO_CELL,
   and else MOMENT_TOO_LARGE, and else BACKWARDS where `at` is before the last moment, or NO_MEMORY, with the length 0. */
uint32_t cellplan_cell_check(struct cellplan_cell *cell, uint64_t at, uint8_t *line, size_t room, size_t *length);

/* Says when what is left begins and ends, and how late it may end: writes the text that `cellplan schedule` prints `--after` the log,
   of one line or many, and its length. All else is as above. */
uint32_t cellplan_cell_schedule(struct cellplan_cell *cell, uint64_t at, uint8_t *text, size_t room, size_t *length);

/* Reports that something has ended, at a moment that isn't before the last one; it may have ended early, also
   an arrival before the job's release. Makes the moves that the plan has then: writes as many of their orders as there is
   room for, in the order in which they are made, and the number of them all. `late` says whether the report came past the
   due moment of something that was going on. `room` is a number of orders, not of bytes.
   GOOD; NO_KIND, and else NO_CELL; or else the number of the reason for which the report isn't possible, with the moment or
   the machine that it names in `detail` (0 with every other status). A report that isn't GOOD changes nothing, its count is
   0, and `late` is false. */
uint32_t cellplan_cell_report(struct cellplan_cell *cell, uint32_t kind, uint32_t job, uint32_t machine, uint64_t at,
                              struct cellplan_order *orders, size_t room, size_t *count, bool *late, uint64_t *detail);

/* Reports that an operation, or the cleaning behind it, has ended, which is named by its job and its step: the same, of the kinds
   CELLPLAN_FINISH (the machine isn't read) and CELLPLAN_CLEAN_AFTER. A route's steps are numbered from 0. Where a job visits a
   machine again, a copy of such a report is never one of another visit.
   NO_KIND for any other kind. The reasons are those of the kind, with STEP_OUT_OF_RANGE after JOB_OUT_OF_RANGE; NOT_EXPECTED where
   the job isn't at work on this step, or the machine isn't being cleaned after it, in the place of WRONG_MACHINE. */
uint32_t cellplan_cell_report_step(struct cellplan_cell *cell, uint32_t kind, uint32_t job, uint32_t step, uint32_t machine,
                                   uint64_t at, struct cellplan_order *orders, size_t room, size_t *count, bool *late,
                                   uint64_t *detail);

/* Writes the orders of the last accepted report, or of the handing over that came after it, from number `first` on, as many as
   there is room for, and the number of all its orders, whatever `first` is: 0 before the first report. There is at most one for
   each job. `room` is a number of orders, not of bytes. GOOD; or NO_CELL, and then the number is 0. */
uint32_t cellplan_cell_orders(struct cellplan_cell *cell, size_t first, struct cellplan_order *orders, size_t room,
                              size_t *count);

/* The calls below read a cell: it holds after them what it held before. Each is GOOD, and has written its answer, or
   NO_CELL, or NONE where that is said, and has written nothing. */

/* Where the job is; NONE for a number that is no job's. */
uint32_t cellplan_cell_phase(struct cellplan_cell *cell, uint32_t job, struct cellplan_phase *phase);

/* The job that is on the machine; NONE where it is free, or no machine. */
uint32_t cellplan_cell_holder(struct cellplan_cell *cell, uint32_t machine, uint32_t *job);

/* When the job's arrival is due, which is at its release, or its operation: at the moment of the order by which it entered
   the machine and its nominal time. NONE where neither goes on. */
uint32_t cellplan_cell_due(struct cellplan_cell *cell, uint32_t job, uint64_t *at);

/* When the machine's cleaning is due: at the moment of the order by which the last job left it and its cleaning time. NONE
   where it isn't being cleaned. */
uint32_t cellplan_cell_clean_due(struct cellplan_cell *cell, uint32_t machine, uint64_t *at);

/* The job after which the machine is being cleaned, the last that was on it. NONE where it isn't being cleaned. */
uint32_t cellplan_cell_cleaned_after(struct cellplan_cell *cell, uint32_t machine, uint32_t *job);

/* The step at which the job is; NONE where it is on no machine. */
uint32_t cellplan_cell_step(struct cellplan_cell *cell, uint32_t job, uint32_t *step);

/* The job and its step after which the machine is being cleaned. NONE where it isn't being cleaned. */
uint32_t cellplan_cell_cleaned_after_step(struct cellplan_cell *cell, uint32_t machine, uint32_t *job, uint32_t *step);

/* The last moment: of the last accepted report, or of the orders at a handing over; 0 before the first of them. */
uint32_t cellplan_cell_now(struct cellplan_cell *cell, uint64_t *at);

/* Whether no accepted report was late, or none since the last handing over, but that what was overdue then has ended then. */
uint32_t cellplan_cell_punctual(struct cellplan_cell *cell, bool *punctual);

/* How many reports are still to come. This call and the next one look at each job and machine. */
uint32_t cellplan_cell_reports_left(struct cellplan_cell *cell, uint64_t *left);

/* Whether the run has ended: all jobs are gone, and no machine is being cleaned. */
uint32_t cellplan_cell_is_done(struct cellplan_cell *cell, bool *done);

/* How many jobs and machines the shop has: jobs are numbered from 0, and machines too. */
uint32_t cellplan_cell_jobs(struct cellplan_cell *cell, uint32_t *count);
uint32_t cellplan_cell_machines(struct cellplan_cell *cell, uint32_t *count);

/* The job's earliest leaving by the plan, which it keeps to while no report is late; NONE for a number that is no job's. Of a cell
   that was handed over it is the moment that was given then: of a job that was gone that at which it left, of the others the
   earliest from there. */
uint32_t cellplan_cell_leaves(struct cellplan_cell *cell, uint32_t job, uint64_t *at);

#ifdef __cplusplus
}
#endif

#endif
