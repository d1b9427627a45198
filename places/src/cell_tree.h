// A tree of cells with items, for all items of the cells that have a leaf.
#ifndef S2IX_PLACES_CELL_TREE_H
#define S2IX_PLACES_CELL_TREE_H

#include <algorithm>
#include <array>
#include <cstdint>
#include <vector>

#include "s2/s2cell_id.h"

namespace places {

// Each node has the cells of one or two levels within its own cell. Items are pointers, and belong to others.
template <typename Item>
class CellTree {
 public:
  CellTree() : nodes_(1 + S2CellId::kNumFaces), blocks_(1) {}

  // Puts an item to a cell. If memory is refused, nothing has changed but for empty nodes, which Remove takes away.
  void Add(S2CellId cell, const Item* item) {
    uint32_t node = 1 + static_cast<uint32_t>(cell.face());
    int level = 0;
    for (; cell.level() > level + kLevels; level += kLevels) {
      const int at = Place(cell, level + kLevels);
      if (nodes_[node].children[at] == 0) {
        const uint32_t child = Take(&nodes_, &free_nodes_);
        nodes_[node].children[at] = child;
      }
      node = nodes_[node].children[at];
    }
    AddItem(node, Slot(cell, level), item);
  }

  // Takes away what Add has put.
  void Remove(S2CellId cell, const Item* item) { Remove(1 + static_cast<uint32_t>(cell.face()), 0, cell, item); }

  // Calls `visit` with the items of all cells that have a leaf.
  template <typename Visit>
  void VisitAt(S2CellId leaf, Visit visit) const {
    uint32_t node = 1 + static_cast<uint32_t>(leaf.face());
    VisitBlocks(nodes_[node].whole, visit);
    for (int level = 0; level < S2CellId::kMaxLevel; level += kLevels) {
      const int at = Place(leaf, level + kLevels);
      const Node& here = nodes_[node];
      node = here.children[at];
      VisitBlocks(here.quarters[at / 4], visit);
      VisitBlocks(here.items[at], visit);
      if (node == 0) return;
    }
  }

 private:
  static constexpr int kLevels = 2;
  static constexpr int kEntries = 16;

  // The first blocks of items of the cells one and two levels below, and of a face itself; and the nodes of those two below. 0 is none.
  struct Node {
    std::array<uint32_t, kEntries> children = {};
    std::array<uint32_t, kEntries> items = {};
    std::array<uint32_t, 4> quarters = {};
    uint32_t whole = 0;
  };
  struct Block {
    uint32_t number = 0;
    uint32_t next = 0;
    std::array<const Item*, 3> items = {};
  };

  // Which of the cells of a level within a node a cell is in.
  static int Place(S2CellId cell, int level) {
    return static_cast<int>(cell.id() >> (2 * (S2CellId::kMaxLevel - level) + 1)) & (kEntries - 1);
  }

  // Where a node has the first block of a cell.
  struct Slot {
    int below, place;
    Slot(S2CellId cell, int level) : below(cell.level() - level), place(below == 0 ? 0 : Place(cell, cell.level())) {}
    uint32_t& in(Node* node) const {
      return below == 0 ? node->whole : below == 1 ? node->quarters[place % 4] : node->items[place];
    }
  };

  template <typename Visit>
  void VisitBlocks(uint32_t block, Visit visit) const {
    for (; block != 0; block = blocks_[block].next) {
      for (uint32_t at = 0; at < blocks_[block].number; at++) visit(*blocks_[block].items[at]);
    }
  }

  template <typename Taken>
  static uint32_t Take(std::vector<Taken>* from, std::vector<uint32_t>* free) {
    if (free->empty()) {
      // (so that nothing that is given back later wants memory)
      if (from->size() == from->capacity()) from->reserve(2 * from->size());
      free->reserve(from->capacity());
      from->emplace_back();
      return static_cast<uint32_t>(from->size() - 1);
    }
    const uint32_t taken = free->back();
    free->pop_back();
    (*from)[taken] = Taken();
    return taken;
  }

  void AddItem(uint32_t node, Slot slot, const Item* item) {
    const uint32_t first = slot.in(&nodes_[node]);
    if (first == 0 || blocks_[first].number == blocks_[first].items.size()) {
      const uint32_t block = Take(&blocks_, &free_blocks_);
      blocks_[block].next = first;
      slot.in(&nodes_[node]) = block;
    }
    Block& block = blocks_[slot.in(&nodes_[node])];
    block.items[block.number++] = item;
  }

  void Remove(uint32_t node, int level, S2CellId cell, const Item* item) {
    if (cell.level() <= level + kLevels) return RemoveItem(&Slot(cell, level).in(&nodes_[node]), item);
    uint32_t& child = nodes_[node].children[Place(cell, level + kLevels)];
    if (child == 0) return;
    Remove(child, level + kLevels, cell, item);
    if (!IsEmpty(nodes_[child])) return;
    free_nodes_.push_back(child);
    child = 0;
  }

  static bool IsEmpty(const Node& node) {
    const auto is_none = [](uint32_t entry) { return entry == 0; };
    return std::all_of(node.children.begin(), node.children.end(), is_none) && std::all_of(node.items.begin(), node.items.end(), is_none) &&
           std::all_of(node.quarters.begin(), node.quarters.end(), is_none);
  }

  // Puts the last item of the first block in the place of an item.
  void RemoveItem(uint32_t* entry, const Item* item) {
    Block& first = blocks_[*entry];
    for (uint32_t block = *entry; block != 0; block = blocks_[block].next) {
      for (uint32_t at = 0; at < blocks_[block].number; at++) {
        if (blocks_[block].items[at] != item) continue;
        blocks_[block].items[at] = first.items[--first.number];
        if (first.number > 0) return;
        free_blocks_.push_back(*entry);
        *entry = first.next;
        return;
      }
    }
  }

  std::vector<Node> nodes_;  // none, then those of the faces
  std::vector<Block> blocks_;
  std::vector<uint32_t> free_nodes_, free_blocks_;
};

}  // namespace places

#endif
