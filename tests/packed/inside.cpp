// Prints what inside.c does, by s2ix_places.hpp.
#include <iostream>
#include <s2ix_places.hpp>

int main() {
  s2ix_places::Rings square;
  square.corner(0, 0).corner(0, 10).corner(10, 10).corner(10, 0).corner(0, 0).end_ring().end_polygon();
  s2ix_places::ShapeSet set;
  set.put(7, s2ix_places::Shape(square));
  std::cout << s2ix_places::version() << ": " << set.at(5, 5).size() << " " << set.at(5, 15).size() << "\n";
}
