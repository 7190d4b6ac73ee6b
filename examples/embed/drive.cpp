// Drives a cell, each activity of which ends when it is due, and prints the log of the run, as `cellplan drive` does.
//
//     drive INSTANCE PLAN
#include "cellplan.h"

#include <fstream>
#include <iostream>
#include <iterator>
#include <map>
#include <stdexcept>
#include <string>
#include <vector>

namespace {

// A text that the library reads.
struct Text {
  std::string bytes;
  const std::uint8_t *data() const { return reinterpret_cast<const std::uint8_t *>(bytes.data()); }
  std::size_t size() const { return bytes.size(); }
};

// What the library holds of a cell, freed with its owner. It stays where it is made.
struct Held {
  cellplan_cell cell{};
  Held() = default;
  ~Held() { cellplan_cell_free(&cell); }
  Held(const Held &) = delete;
  Held &operator=(const Held &) = delete;
};

// A cell. It can't be copied, as what it holds can't.
class Cell {
public:
  Cell(const Text &instance, const Text &plan) {
    const Text name;
    const auto status = cellplan_cell_new(instance.data(), instance.size(), name.data(), 0, plan.data(), plan.size(), &held.cell);
    if (status != CELLPLAN_GOOD) throw std::runtime_error("no cell: status " + std::to_string(status));
    std::uint32_t jobs = 0;
    cellplan_cell_jobs(&held.cell, &jobs);
    room.resize(jobs);
  }

  // The orders of an accepted report.
  std::vector<cellplan_order> report(std::uint32_t kind, std::uint32_t job, std::uint32_t machine, std::uint64_t at, bool &late) {
    std::size_t count = 0;
    std::uint64_t detail = 0;
    const auto status = cellplan_cell_report(&held.cell, kind, job, machine, at, room.data(), room.size(), &count, &late, &detail);
    if (status != CELLPLAN_GOOD) throw std::runtime_error("a report is refused: reason " + std::to_string(status));
    return {room.begin(), room.begin() + static_cast<std::ptrdiff_t>(count)};
  }
  std::uint32_t jobs() const { return static_cast<std::uint32_t>(room.size()); }
  bool is_done() {
    bool done = false;
    cellplan_cell_is_done(&held.cell, &done);
    return done;
  }
  std::uint64_t now() {
    std::uint64_t at = 0;
    cellplan_cell_now(&held.cell, &at);
    return at;
  }
  bool due(std::uint32_t job, std::uint64_t &at) { return cellplan_cell_due(&held.cell, job, &at) == CELLPLAN_GOOD; }
  bool clean_due(std::uint32_t machine, std::uint64_t &at) { return cellplan_cell_clean_due(&held.cell, machine, &at) == CELLPLAN_GOOD; }
  cellplan_phase phase(std::uint32_t job) {
    cellplan_phase phase{};
    cellplan_cell_phase(&held.cell, job, &phase);
    return phase;
  }

private:
  Held held;
  std::vector<cellplan_order> room;
};

Text whole(const char *path) {
  std::ifstream file(path, std::ios::binary);
  if (!file) throw std::runtime_error(path);
  return {std::string(std::istreambuf_iterator<char>(file), {})};
}

std::string spot(std::uint32_t machine) { return machine == CELLPLAN_OUT ? "out" : std::to_string(machine); }

void drive(Cell &cell) {
  std::map<std::uint32_t, std::uint64_t> cleanings;
  while (!cell.is_done()) {
    std::uint64_t soonest = UINT64_MAX, at = 0;
    std::uint32_t kind = CELLPLAN_ARRIVE, job = 0, machine = 0;
    for (std::uint32_t j = 0; j < cell.jobs(); j++)
      if (cell.due(j, at) && at < soonest) {
        const auto phase = cell.phase(j);
        soonest = at;
        job = j;
        machine = phase.machine;
        kind = phase.place == CELLPLAN_OUTSIDE ? CELLPLAN_ARRIVE : CELLPLAN_FINISH;
      }
    for (const auto &[m, due] : cleanings)
      if (due < soonest) {
        soonest = due;
        machine = m;
        kind = CELLPLAN_CLEAN;
      }
    bool late = false;
    const auto orders = cell.report(kind, job, machine, soonest, late);
    std::cout << "report " << soonest;
    if (kind == CELLPLAN_ARRIVE) std::cout << " arrive " << job << "\n";
    if (kind == CELLPLAN_FINISH) std::cout << " finish " << job << " " << machine << "\n";
    if (kind == CELLPLAN_CLEAN) std::cout << " clean " << machine << "\n";
    if (late) std::cout << "late " << soonest << "\n";
    if (kind == CELLPLAN_CLEAN) cleanings.erase(machine);
    for (const auto &order : orders) {
      std::cout << "order " << order.at << " " << order.job << " " << spot(order.source) << " " << spot(order.target) << "\n";
      if (order.source != CELLPLAN_OUT && cell.clean_due(order.source, at)) cleanings[order.source] = at;
    }
  }
  std::cout << "done " << cell.now() << "\n";
}

} // namespace

int main(int argc, char **argv) {
  try {
    if (argc != 3) throw std::runtime_error("wants INSTANCE PLAN");
    if (cellplan_version() != CELLPLAN_VERSION) throw std::runtime_error("the header is of another version than the library");
    const Text instance = whole(argv[1]), plan = whole(argv[2]);
    Cell cell(instance, plan);
    drive(cell);
  } catch (const std::exception &why) {
    std::cerr << "drive: " << why.what() << "\n";
    return 1;
  }
}
