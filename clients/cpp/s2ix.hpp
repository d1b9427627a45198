// The S2 cell index that can be edited, for C++17: headers over s2ix.h, which need libs2ix.
//
// Index holds a store of pairs of cells and labels, with counts, and has the calls of s2ix.h on a store as methods (s2ix_index.hpp). S2CellIndex has the
// names of S2's own class over such a store (s2ix_cell_index.hpp): a program for S2 changes one include and one type, and gains edits and undo.
//
// Cells are S2's 64-bit ids, or what has id(), as S2CellId. A call that is refused leaves the store as it was and throws: std::bad_alloc if
// memory is refused, std::logic_error if an S2CellIndex is to change while it is visited, else Error, which has the number that is no
// cell's or no label's.
//
// Include S2's headers before this one. They set an option for all functions after them, and g++ puts no function that has it into one that
// doesn't. So in the other order each S2CellId costs a call or two.
//
// Threads may share an Index, and a const one as any const object of C++: any number of them ask it side by side, while one at a time edits it.
// Each answer is that of one state: that after the last edit that had returned when the thread asked, or a later one. While glibc says that
// the process has one thread, no lock is taken.
//
// The namespace cell has calls on single cells, cell_union those on unions of cells (s2ix_cells.hpp). FORMATS.md, which says what the texts
// are, lies in docs of the repository, and in share/doc/s2ix where ./install put this file.
#ifndef S2IX_HPP
#define S2IX_HPP

#include "s2ix_cell_index.hpp"
#include "s2ix_cells.hpp"
#include "s2ix_each.hpp"
#include "s2ix_index.hpp"

#endif
