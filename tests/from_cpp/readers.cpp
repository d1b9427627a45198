// Asks one index from many threads at once while another edits it: each answer is of one state, and of none before the last edit that had
// returned. Threads that have copies wait neither for one another nor for an edit; one that asks alone makes none. Calls of s2ix.h are wrapped
// by the linker, so that a thread can be held in one, memory for a copy refused, and the sanitizer of threads sees which calls have a handle. It
// ends with 'N passed, M failed', after a line for each wrong answer.
#include "checks.hpp"
#include "s2ix.hpp"

#include <array>
#include <atomic>
#include <chrono>
#include <functional>
#include <iostream>
#include <stdexcept>
#include <string>
#include <thread>

namespace {

using Handle = ::s2ix_handle*;
using Number = std::size_t*;

// How many copies there are, and how many were made. Whether memory for them is refused, or for what has them.
std::atomic<int> copies, made;
std::atomic<bool> are_copies_refused, are_lists_refused;
// The handle that a call of this thread had last.
thread_local const ::s2ix_handle* asked;

// A call has a handle: for the sanitizer it writes to it, as the library does, in which the sanitizer sees nothing.
void Have(Handle handle) {
  volatile bool& is_open = handle->is_open;
  is_open = is_open;
  asked = handle;
}

// What holds the next call of a name within the library until another thread lets it go.
struct Gate {
  std::atomic<bool> is_shut{false}, is_reached{false};

  void Pass() {
    if (!is_shut) return;
    is_reached = true;
    while (is_shut) std::this_thread::yield();
  }
  void Wait() const {
    while (!is_reached) std::this_thread::yield();
  }
  void Shut() {
    is_reached = false;
    is_shut = true;
  }
};
Gate journals, records;

}  // namespace

// A call that is wrapped: its parameters, and their names alone.
#define WRAPPED(name, parameters, names, before)      \
  extern "C" std::uint32_t __real_##name parameters;  \
  extern "C" std::uint32_t __wrap_##name parameters { \
    Have(handle);                                     \
    before;                                           \
    return __real_##name names;                       \
  }

WRAPPED(s2ix_at, (Handle handle, std::uint64_t leaf, ::s2ix_row* rows, std::size_t room, Number number), (handle, leaf, rows, room, number), )
WRAPPED(s2ix_meet, (Handle handle, const std::uint64_t* cells, std::size_t len, ::s2ix_row* rows, std::size_t room, Number number),
        (handle, cells, len, rows, room, number), )
WRAPPED(s2ix_meet_from,
        (Handle handle, const std::uint64_t* cells, std::size_t len, std::size_t from, ::s2ix_row* rows, std::size_t room, Number number),
        (handle, cells, len, from, rows, room, number), )
WRAPPED(s2ix_labels, (Handle handle, const std::uint64_t* cells, std::size_t len, std::uint32_t* labels, std::size_t room, Number number),
        (handle, cells, len, labels, room, number), )
WRAPPED(s2ix_of_label, (Handle handle, std::uint32_t label, ::s2ix_row* rows, std::size_t room, Number number),
        (handle, label, rows, room, number), )
WRAPPED(s2ix_len, (Handle handle, Number number), (handle, number), )
WRAPPED(s2ix_journal, (Handle handle, std::uint8_t* text, std::size_t room, Number number), (handle, text, room, number), journals.Pass())
WRAPPED(s2ix_record, (Handle handle, const ::s2ix_entry* entries, std::size_t len, Number number), (handle, entries, len, number), records.Pass())
WRAPPED(s2ix_undo, (Handle handle, Number number), (handle, number), )

extern "C" std::uint32_t __real_s2ix_copy(Handle handle, Handle copy);
extern "C" std::uint32_t __wrap_s2ix_copy(Handle handle, Handle copy) {
  Have(handle);
  if (are_copies_refused) return S2IX_OUT_OF_MEMORY;
  copies -= copy->is_open;
  const std::uint32_t status = __real_s2ix_copy(handle, copy);
  copies += copy->is_open;
  made += status == S2IX_DONE;
  return status;
}

extern "C" void __real_s2ix_close(Handle handle);
extern "C" void __wrap_s2ix_close(Handle handle) {
  Have(handle);
  // (an index that was opened and is closed is counted too: so a count is compared with one of the same indexes)
  copies -= handle->is_open;
  __real_s2ix_close(handle);
}

// (operator new of lists)
extern "C" void* __real__Znam(std::size_t size);
extern "C" void* __wrap__Znam(std::size_t size) { return are_lists_refused ? throw std::bad_alloc() : __real__Znam(size); }

namespace {

constexpr std::uint64_t kFaces[] = {0x1000000000000000, 0x3000000000000000, 0x5000000000000000};
constexpr std::uint32_t kZone = 7, kNoState = 0xffffffff;
constexpr int kThreads = 8;

using Index = s2ix::S2CellIndex;
using Cells = std::vector<std::uint64_t>;

const Cells kAll(std::begin(kFaces), std::end(kFaces));

// The zone in a state: on each of three faces a cell of level 12, at every fourth place, so that no cells become their parent.
Cells ZoneIn(std::uint32_t state) {
  Cells cells;
  for (const std::uint64_t face : kFaces) cells.push_back(face - 0x1000000000000000 + (std::uint64_t{state} << 39) + (std::uint64_t{1} << 36));
  return cells;
}

// The state that some cells are the zone of.
std::uint32_t StateOf(const Cells& cells) {
  const std::uint32_t state = cells.size() == 3 ? static_cast<std::uint32_t>(cells[0] >> 39) : kNoState;
  return state != kNoState && cells == ZoneIn(state) ? state : kNoState;
}
std::uint32_t StateOf(const std::vector<s2ix::Row>& rows) {
  Cells cells;
  for (const s2ix::Row& row : rows) {
    if (row.label == kZone) cells.push_back(row.cell);
  }
  return StateOf(cells);
}

// The forms in which the zone is asked for.
std::uint32_t ByLabel(const Index& zones) { return StateOf(zones.index().of_label(kZone)); }
std::uint32_t ByMeet(const Index& zones) { return StateOf(zones.index().meet(kAll)); }
std::uint32_t ByVisit(const Index& zones) {
  Cells cells;
  zones.VisitIntersectingCells(kAll, [&](std::uint64_t cell, int label) {
    if (label == static_cast<int>(kZone)) cells.push_back(cell);
    return true;
  });
  return StateOf(cells);
}

// The zone in state 0, and so many labels of the faces.
Index Zones(int labels) {
  Index zones;
  for (int label = 100; label < 100 + labels; label++) zones.Add(kFaces[label % 3], label);
  zones.index().set_label(kZone, ZoneIn(0));
  return zones;
}

// Runs some work on several threads, which begin together.
void AtOnce(int number, const std::function<void()>& work) {
  std::atomic<int> waiting{number};
  std::vector<std::thread> threads;
  for (int k = 0; k < number; k++) {
    threads.emplace_back([&] {
      for (waiting--; waiting > 0;) std::this_thread::yield();
      work();
    });
  }
  for (std::thread& thread : threads) thread.join();
}

// Another thread's call, which has the store itself until it is let go.
class Held {
 public:
  explicit Held(const s2ix::Index& index) {
    journals.Shut();
    other_ = std::thread([&index, this] {
      (void)index.journal();
      store_ = asked;
    });
    journals.Wait();
  }
  Held(const Held&) = delete;
  Held& operator=(const Held&) = delete;
  ~Held() { LetGo(); }

  // Returns the handle of the store.
  const ::s2ix_handle* LetGo() {
    journals.is_shut = false;
    if (other_.joinable()) other_.join();
    return store_;
  }

 private:
  std::thread other_;
  const ::s2ix_handle* store_ = nullptr;
};

// Lets the calling thread wait for another, which gives it a copy. Returns whether it asks that.
bool GetCopy(const s2ix::Index& index) {
  const ::s2ix_handle* store = nullptr;
  for (int milliseconds = 1; milliseconds < 1000; milliseconds *= 2) {
    Held held(index);
    std::thread other([&] {
      std::this_thread::sleep_for(std::chrono::milliseconds(milliseconds));
      store = held.LetGo();
    });
    (void)index.len();
    other.join();
    (void)index.len();
    if (asked != store) return true;
  }
  return false;
}

using Asking = std::uint32_t (*)(const Index&);

// Many threads ask while one edits. What is held goes through the states of a plan, and `moment` is how far it is at least.
class AskedWhileEdited {
 public:
  AskedWhileEdited(int labels, std::vector<Asking> forms, std::uint32_t moves) : zones_(Zones(labels)), forms_(std::move(forms)) {
    for (std::uint32_t state = 1; state <= moves; state++) {
      plan_.push_back(state);
      // (an undo, and the same again)
      if (state % 3 == 0) plan_.insert(plan_.end(), {state - 1, state});
    }
    std::thread editor([&] { Edit(); });
    AtOnce(kThreads, [&] { Ask(); });
    editor.join();
    EXPECT(ByLabel(zones_) == moves && ByMeet(zones_) == moves && ByVisit(zones_) == moves);
  }

 private:
  void Edit() {
    for (std::size_t next = 1; next < plan_.size();) {
      // (most states are asked, and some are passed by)
      for (const std::size_t wanted = answers_ + 20; next % 4 != 0 && answers_ < wanted;) std::this_thread::yield();
      try {
        if (plan_[next] < plan_[next - 1]) {
          zones_.index().undo();
        } else {
          zones_.index().set_label(kZone, ZoneIn(plan_[next]));
        }
        moment_ = next++;
        is_refused_ = false;
      } catch (const std::logic_error&) {
        // (visits let the edit go first)
        is_refused_ = true;
      }
    }
  }

  void Ask() {
    int wrong = 0;
    for (std::size_t turn = 0; moment_ + 1 < plan_.size(); turn++, answers_++) {
      const Asking form = is_refused_ ? ByLabel : forms_[turn % forms_.size()];
      const std::size_t before = moment_;
      const std::uint32_t found = form(zones_);
      // (an edit may have been done and not have returned)
      const auto first = plan_.begin() + static_cast<std::ptrdiff_t>(before);
      const auto end = plan_.begin() + static_cast<std::ptrdiff_t>(std::min(moment_ + 2, plan_.size()));
      wrong += std::find(first, end, found) == end;
    }
    EXPECT(wrong == 0);
  }

  Index zones_;
  const std::vector<Asking> forms_;
  std::vector<std::uint32_t> plan_ = {0};
  std::atomic<std::size_t> moment_{0}, answers_{0};
  std::atomic<bool> is_refused_{false};
};

// A thread that has a copy waits neither for a long question of another thread nor for an edit. After the edit it is told what is new.
void WaitForNobody() {
  Index zones = Zones(0);
  AtOnce(1, [&] {
    EXPECT(GetCopy(zones.index()));
    Held held(zones.index());
    EXPECT(ByLabel(zones) == 0 && ByMeet(zones) == 0 && ByVisit(zones) == 0 && zones.index().is_open());
    held.LetGo();
    records.Shut();
    std::thread editor([&] { zones.index().set_label(kZone, ZoneIn(1)); });
    records.Wait();
    EXPECT(ByLabel(zones) == 0 && ByMeet(zones) == 0 && zones.index().copy().len() == 3);
    records.is_shut = false;
    editor.join();
    EXPECT(ByLabel(zones) == 1 && ByMeet(zones) == 1 && ByVisit(zones) == 1);
  });
}

// One thread that asks and edits, while no other does, makes no copy. Copies that nobody asks any more are freed.
void FewCopies() {
  Index zones = Zones(0);
  const int made_before = made, copies_before = copies;
  AtOnce(1, [&] {
    for (std::uint32_t state = 1; state < 300; state++) {
      zones.index().set_label(kZone, ZoneIn(state));
      EXPECT(ByLabel(zones) == state && ByVisit(zones) == state);
    }
    EXPECT(made == made_before);
    EXPECT(GetCopy(zones.index()) && made > made_before && copies > copies_before);
    const int made_later = made;
    for (int turn = 0; turn < 100; turn++) EXPECT(ByLabel(zones) == 299);
    EXPECT(made == made_later && !zones.index().line("add 1 1").empty());
    // (the next question frees the old copy)
    EXPECT(ByLabel(zones) == 299 && copies == copies_before);
    EXPECT(GetCopy(zones.index()) && copies > copies_before);
  });
  for (std::uint32_t state = 300; state < 400; state++) zones.index().set_label(kZone, ZoneIn(state));
  EXPECT(copies == copies_before && made < made_before + 40);
}

// If memory for copies is refused, threads take turns.
void Refused() {
  const Index zones = Zones(0);
  for (std::atomic<bool>* is_refused : {&are_lists_refused, &are_copies_refused}) {
    *is_refused = true;
    AtOnce(1, [&] { EXPECT(!GetCopy(zones.index()) && ByLabel(zones) == 0 && ByMeet(zones) == 0); });
    *is_refused = false;
  }
  AtOnce(1, [&] { EXPECT(GetCopy(zones.index()) && ByLabel(zones) == 0 && ByVisit(zones) == 0); });
}

// Whether a call is refused because of a visit.
template <class Call>
bool IsRefused(Call call) {
  try {
    call();
  } catch (const std::logic_error&) {
    return true;
  }
  return false;
}

// A visit of a copy refuses edits as any visit does, on each thread, and no query. It goes on if another visit in it throws, and ends if the index
// is closed.
void VisitsOfCopies() {
  Index zones = Zones(3000);
  AtOnce(1, [&] {
    EXPECT(GetCopy(zones.index()));
    int visited = 0;
    EXPECT(zones.VisitIntersectingCells(kAll, [&](std::uint64_t, int) {
      if (visited++ % 500 != 0) return true;
      EXPECT(IsRefused([&] { zones.index().set_label(kZone, ZoneIn(1)); }) && IsRefused([&] { zones.Add(kFaces[0], 1); }));
      AtOnce(2, [&] { EXPECT(IsRefused([&] { zones.index().undo(); }) && ByLabel(zones) == 0 && ByVisit(zones) == 0); });
      EXPECT(ByMeet(zones) == 0 && ByVisit(zones) == 0);
      EXPECT(IsRefused([&] { zones.VisitIntersectingCells(kAll, [](std::uint64_t, int) -> bool { throw std::logic_error("mine"); }); }));
      return true;
    }));
    EXPECT(visited == 3003 && zones.index().set_label(kZone, ZoneIn(1)) == 6 && ByVisit(zones) == 1);
    EXPECT(GetCopy(zones.index()));
    try {
      zones.VisitIntersectingCells(kAll, [&](std::uint64_t, int) { return zones.index().close(), true; });
      EXPECT(false);
    } catch (const s2ix::Error& error) {
      EXPECT(error.status() == S2IX_CLOSED && !zones.index().is_open());
    }
  });
}

// An index that is moved leaves its copies behind, and one whose handle was handed out makes none.
void MovedAndHandedOut() {
  Index first = Zones(0), second = Zones(0);
  second.index().set_label(kZone, ZoneIn(5));
  AtOnce(1, [&] {
    EXPECT(GetCopy(first.index()) && GetCopy(second.index()));
    std::swap(first, second);
    EXPECT(ByLabel(first) == 5 && ByLabel(second) == 0 && GetCopy(first.index()));
    second = std::move(first);
    EXPECT(ByLabel(second) == 5 && !first.index().is_open() && GetCopy(second.index()));
    std::size_t number = 0;
    ::s2ix_handle* handle = second.index().handle();
    for (int turn = 0; turn < 3; turn++) EXPECT(s2ix_undo(handle, &number) == (turn < 2 ? S2IX_DONE : S2IX_NOTHING_TO_UNDO));
    EXPECT(second.index().len() == 0 && !GetCopy(second.index()));
  });
}

}  // namespace

int main() {
  AskedWhileEdited(0, {ByLabel, ByMeet}, 100);
  AskedWhileEdited(1100, {ByMeet, ByLabel, ByVisit}, 15);
  WaitForNobody();
  FewCopies();
  Refused();
  VisitsOfCopies();
  MovedAndHandedOut();
  return EndOfChecks();
}
