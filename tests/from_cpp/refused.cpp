// Refuses each growth of memory in turn, in each call of s2ix.hpp that may want memory: the call must throw std::bad_alloc and leave its
// index, or answer and change as it does with all its growths. It ends with 'N passed, M failed', after a line for each other outcome.
#include "s2ix.hpp"

#include <functional>
#include <iostream>

extern "C" void* __libc_malloc(std::size_t size);
extern "C" void* __libc_realloc(void* old, std::size_t size);

namespace {

// How many growths are left up to the one that is refused; 0 if none is. Whether one was refused.
long left;
bool was_refused;

bool IsRefused() {
  if (left == 0 || --left > 0) return false;
  was_refused = true;
  return true;
}

}  // namespace

extern "C" void* malloc(std::size_t size) { return IsRefused() ? nullptr : __libc_malloc(size); }
extern "C" void* realloc(void* old, std::size_t size) { return IsRefused() ? nullptr : __libc_realloc(old, size); }

namespace {

constexpr std::uint64_t kFirst = 0x0400000000000000, kSecond = 0x0c00000000000000, kFace = 0x1000000000000000, kLeaf = 0x0400000000000001;

s2ix::Index Zones() {
  s2ix::Index index;
  index.add_union({kFirst, kSecond}, 7);
  index.add(kLeaf, 8, 3);
  index.remove(kLeaf, 8);
  index.add(0x3000000000000000, 9);
  index.undo();
  return index;
}

// Answers as texts, to be compared.
std::string TextOf(std::uint64_t number) { return std::to_string(number); }
std::string TextOf(const std::string& text) { return text; }
std::string TextOf(const s2ix::Row& row) { return TextOf(row.cell) + ":" + TextOf(row.label) + ":" + TextOf(row.count); }
std::string TextOf(const s2ix::Entry& entry) { return TextOf(entry.cell) + ":" + TextOf(entry.before) + ":" + TextOf(entry.after); }
std::string TextOf(const s2ix::HeldLabel& held) { return TextOf(held.label) + ":" + TextOf(held.pairs) + ":" + TextOf(held.copies); }
std::string TextOf(const s2ix::Index& index) { return index.dump(); }
template <class Item>
std::string TextOf(const std::vector<Item>& items) {
  std::string text;
  for (const Item& item : items) text += TextOf(item) + "\n";
  return text;
}
std::string TextOf(const s2ix::RowsOfEach& found) { return TextOf(found.ends) + TextOf(found.rows); }
std::string TextOf(const s2ix::LabelsOfEach& found) { return TextOf(found.ends) + TextOf(found.labels); }

// What S2's names find over the pairs of an index.
std::string AsInS2(const s2ix::Index& index) {
  s2ix::S2CellIndex same;
  same.index().add_all(index.pairs(0, 10));
  std::string text;
  same.VisitIntersectingCells(std::vector<std::uint64_t>{kFace}, [&](std::uint64_t cell, int label) {
    text += TextOf(cell) + ":" + TextOf(label) + "\n";
    return true;
  });
  text += TextOf(same.GetIntersectingLabels(std::vector<std::uint64_t>{kFace}).size());
  for (s2ix::S2CellIndex::CellIterator cells(&same); !cells.done(); cells.Next()) text += TextOf(cells.cell_id());
  return text;
}

// What is said of a change that can't be taken back, since a later one took what it gave.
std::string TakenBack(s2ix::Index& index) {
  try {
    return TextOf(index.revert(2));
  } catch (const s2ix::Error& error) {
    left = 0;
    return error.what();
  }
}

// A call, whose answer becomes a text when no growth is refused any more.
struct Call {
  template <class Made>
  Call(const char* its_name, Made made) : name(its_name) {
    make = [made](s2ix::Index& index) {
      const auto answer = made(index);
      left = 0;
      return TextOf(answer);
    };
  }

  const char* name;
  std::function<std::string(s2ix::Index&)> make;
};

constexpr char kDump[] = "s2ix 2\n04 7 1\nend 1 1\n";

const Call kCalls[] = {
    {"Index", [](s2ix::Index&) { return s2ix::Index(); }},
    {"load", [](s2ix::Index&) { return s2ix::Index::load(kDump); }},
    {"replay", [](s2ix::Index&) { return s2ix::Index::replay(kDump, "s2ix-journal 2\nchange 1\n04 7 1 3\nend 1\n"); }},
    {"rewind", [](s2ix::Index&) { return s2ix::Index::rewind(kDump, "s2ix-journal 2\nchange 1\n04 7 0 1\nend 1\n"); }},
    {"resume", [](s2ix::Index&) { return s2ix::Index::resume(kDump, "s2ix-journal 2\nchange 1\n04 7 0 1\nend 1\n"); }},
    {"copy", [](s2ix::Index& index) { return index.copy(); }},
    {"add", [](s2ix::Index& index) { return index.add(kFace, 1); }},
    {"add_all", [](s2ix::Index& index) { return index.add_all({{kSecond, 9, 1}, {kFirst, 7, 2}, {kSecond, 9, 1}}); }},
    {"remove", [](s2ix::Index& index) { return index.remove(kFirst, 7); }},
    {"remove_all", [](s2ix::Index& index) { return index.remove_all({{kLeaf, 8, 1}, {kFirst, 7, 1}, {kLeaf, 8, 1}}); }},
    {"add_union", [](s2ix::Index& index) { return index.add_union({kFace, kSecond}, 7); }},
    {"drop_label", [](s2ix::Index& index) { return index.drop_label(7); }},
    {"set_label", [](s2ix::Index& index) { return index.set_label(7, {kFace, kLeaf}); }},
    {"set_label of no cells", [](s2ix::Index& index) { return index.set_label(7, {}); }},
    {"relabel", [](s2ix::Index& index) { return index.relabel(7, 9); }},
    {"grow", [](s2ix::Index& index) { return index.grow(7, 1); }},
    {"normalise_label", [](s2ix::Index& index) { return index.normalise_label(8); }},
    {"revert", [](s2ix::Index& index) { return index.revert(1); }},
    {"revert of what was taken", [](s2ix::Index& index) { return TakenBack(index); }},
    {"restore", [](s2ix::Index& index) { return index.restore(7, 1); }},
    {"record", [](s2ix::Index& index) { return index.record({{kFirst, 7, 1, 2}, {kFace, 7, 0, 1}}); }},
    {"difference", [](s2ix::Index& index) { return index.difference(s2ix::Index::load(kDump)); }},
    {"apply", [](s2ix::Index& index) { return index.apply("s2ix-journal 2\nchange 2\n04 7 1 3\n1c 7 0 1\nchange 1\n3 9 0 1\nend 2\n"); }},
    {"join", [](s2ix::Index& index) { return index.join(2); }},
    {"undo", [](s2ix::Index& index) { return index.undo(); }},
    {"redo", [](s2ix::Index& index) { return index.redo(); }},
    {"clear", [](s2ix::Index& index) { index.clear(); return index.copies(); }},
    {"at", [](s2ix::Index& index) { return index.at(kLeaf); }},
    {"meet", [](s2ix::Index& index) { return index.meet({kFace, kSecond}); }},
    {"meet_from", [](s2ix::Index& index) { return index.meet_from({kFace, kSecond}, 1, 2); }},
    {"contents", [](s2ix::Index& index) { return index.contents(1); }},
    {"labels", [](s2ix::Index& index) { return index.labels({kFace, kSecond}); }},
    {"at_each", [](s2ix::Index& index) { return index.at_each(std::vector<std::uint64_t>(70, kLeaf)); }},
    {"labels_at_each", [](s2ix::Index& index) { return index.labels_at_each(std::vector<std::uint64_t>(70, kLeaf)); }},
    {"meet_each", [](s2ix::Index& index) { return index.meet_each({{kFace, kSecond}, {kFirst}, {kFace}, {kFace}, {kFace}, {kFace}}); }},
    {"labels_each", [](s2ix::Index& index) { return index.labels_each({{kFace, kSecond}, {kFirst}, {}, {kFace}}); }},
    {"region", [](s2ix::Index& index) { return index.region(7); }},
    {"change", [](s2ix::Index& index) { return index.change(1); }},
    {"dump", [](s2ix::Index& index) { return index.dump(); }},
    {"journal", [](s2ix::Index& index) { return index.journal(); }},
    {"journal_from", [](s2ix::Index& index) { return index.journal_from(2); }},
    {"S2's names", [](s2ix::Index& index) { return AsInS2(index); }},
    {"held_labels", [](s2ix::Index& index) { return index.held_labels(); }},
    {"export_json", [](s2ix::Index& index) { return index.export_json(); }},
    {"line of an edit", [](s2ix::Index& index) { return index.line("add 1 1"); }},
    {"line of a query", [](s2ix::Index& index) { return index.line("export"); }},
    {"border", [](s2ix::Index&) { return s2ix::cell::border(kFirst, 3); }},
    {"normalise", [](s2ix::Index&) { return s2ix::cell_union::normalise({kFirst, kSecond}); }},
    {"from_leaves", [](s2ix::Index&) { return s2ix::cell_union::from_leaves(3, 77); }},
    {"union_of", [](s2ix::Index&) { return s2ix::cell_union::union_of({kFirst}, {kSecond}); }},
    {"intersection", [](s2ix::Index&) { return s2ix::cell_union::intersection({kFace}, {kSecond}); }},
    {"difference", [](s2ix::Index&) { return s2ix::cell_union::difference({kFace}, {kSecond}); }},
    {"contains", [](s2ix::Index&) { return s2ix::cell_union::contains({kFace}, kFirst); }},
    {"leaf_count", [](s2ix::Index&) { return s2ix::cell_union::leaf_count({kFace}); }},
};

// What a call answers on a fresh index, or that it throws, and what it leaves there.
std::string OutcomeOf(const Call& call, long growth) {
  s2ix::Index index = Zones();
  std::string outcome;
  was_refused = false;
  left = growth;
  try {
    outcome = call.make(index);
  } catch (const std::bad_alloc&) {
    outcome = "thrown";
  }
  left = 0;
  return outcome + "\n" + index.dump();
}

}  // namespace

int main() {
  int passed = 0, failed = 0;
  for (const Call& call : kCalls) {
    const std::string answered = OutcomeOf(call, 0), thrown = "thrown\n" + Zones().dump();
    for (long growth = 1; growth == 1 || was_refused; growth++) {
      const std::string outcome = OutcomeOf(call, growth);
      const bool holds = outcome == answered || (was_refused && outcome == thrown);
      (holds ? passed : failed)++;
      if (!holds) std::cout << "refused.cpp: " << call.name << ", growth " << growth << ": a wrong outcome\n";
    }
  }
  std::cout << passed << " passed, " << failed << " failed\n";
  return failed == 0 ? 0 : 1;
}
