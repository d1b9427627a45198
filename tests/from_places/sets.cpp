// Sets of shapes beside single shapes: many points, pairs, changes, and threads that ask while one changes.
#include <algorithm>
#include <atomic>
#include <cmath>
#include <limits>
#include <map>
#include <thread>

#include "checks.h"

namespace {

struct FreedSet {
  void operator()(s2ix_shape_set* set) const { s2ix_shape_set_free(set); }
};
using Set = std::unique_ptr<s2ix_shape_set, FreedSet>;

Set NewSet(uint32_t cells) {
  s2ix_shape_set* set = nullptr;
  Check(s2ix_shape_set_new(cells, &set) == S2IX_PLACES_DONE && set != nullptr, "a new set");
  return Set(set);
}

// Stars of all sizes, some with holes; some lie over the date line.
Shape RandomShape(Random* random) {
  const double reach = std::exp(random->Between(std::log(1e-7), std::log(15))), longitude = random->Below(2) ? 179 : 30;
  const int corners = random->Below(20) ? 3 + static_cast<int>(random->Below(30)) : 2000;
  Given given;
  given.Ring(Star(random, longitude + random->Between(0, 3), random->Between(-4, 4), reach, corners));
  if (random->Below(3) == 0) {
    const Corners outer = Box(40, 50, 50, 60), hole = Star(random, 45, 55, 3, 9);
    given.Next().Ring(outer).Ring(hole);
  }
  Read read = ReadShape(given);
  return read.shape ? std::move(read.shape) : Sound(Given().Ring(Box(0, 0, 10, 10)), "a box");
}

struct Points {
  std::vector<double> latitudes, longitudes;

  void Add(double latitude, double longitude) {
    latitudes.push_back(latitude);
    longitudes.push_back(longitude);
  }
};

// Points everywhere, and the corners of a shape and points beside them.
Points RandomPoints(Random* random, const s2ix_shape* shape) {
  Points points;
  for (int at = 0; at < 300; at++) points.Add(random->Between(-90, 90), random->Between(-180, 180));
  for (int at = 0; at < 500; at++) points.Add(random->Between(-8, 8), std::remainder(random->Below(2) ? random->Between(170,
      190) : random->Between(20, 45), 360));
  Outline outline;
  if (outline.Of(shape) != S2IX_PLACES_DONE) return points;
  for (int at = 0; at < 400; at++) {
    const size_t corner = random->Below(outline.latitudes.size());
    const double off = random->Below(3) ? std::exp(random->Between(-30, 0)) : 0;
    points.Add(std::max(-90.0, std::min(90.0, outline.latitudes[corner] + random->Between(-off, off))),
               std::max(-180.0, std::min(180.0, outline.longitudes[corner] + random->Between(-off, off))));
  }
  return points;
}

struct Answer {
  std::vector<size_t> ends;
  std::vector<uint32_t> found;
};

Answer AtEach(const s2ix_shape_set* set, const Points& points, size_t room) {
  Answer answer{std::vector<size_t>(points.latitudes.size()), std::vector<uint32_t>(room)};
  size_t number = 0;
  const uint32_t status = s2ix_shape_set_at_each(set, points.latitudes.data(), points.longitudes.data(), points.latitudes.size(),
                                                 answer.ends.data(), answer.found.data(), room, &number);
  Check(status == S2IX_PLACES_DONE && number <= room, "a set answers");
  answer.found.resize(number);
  return answer;
}

// A set beside the shapes that it must have.
void CheckSet(const s2ix_shape_set* set, const std::map<uint32_t, const s2ix_shape*>& shapes, const Points& points) {
  std::vector<uint32_t> numbers(shapes.size() + 1);
  size_t number = 0;
  Check(s2ix_shape_set_numbers(set, numbers.data(), numbers.size(), &number) == S2IX_PLACES_DONE && number == shapes.size(), "its numbers");
  std::vector<const s2ix_shape*> all;
  for (const auto& [key, shape] : shapes) {
    Check(numbers[all.size()] == key, "a number");
    all.push_back(shape);
  }
  const size_t len = points.latitudes.size(), room = len * shapes.size();
  const Answer answer = AtEach(set, points, room);
  Answer wanted{std::vector<size_t>(len), std::vector<uint32_t>(room)};
  Check(s2ix_shapes_at_each(all.data(), all.size(), points.latitudes.data(), points.longitudes.data(), len, wanted.ends.data(),
                            wanted.found.data(), room, &number) == S2IX_PLACES_DONE, "the shapes answer");
  wanted.found.resize(number);
  for (uint32_t& place : wanted.found) place = numbers[place];
  Check(answer.ends == wanted.ends && answer.found == wanted.found, "a set answers otherwise than its shapes");
  std::vector<uint32_t> points_of, numbers_of;
  std::vector<bool> held;
  for (size_t at = 0; at < len; at++) {
    const auto begin = answer.found.begin() + static_cast<std::ptrdiff_t>(at == 0 ? 0 : answer.ends[at - 1]);
    const auto end = answer.found.begin() + static_cast<std::ptrdiff_t>(answer.ends[at]);
    for (size_t shape = 0; shape < all.size(); shape++) {
      points_of.push_back(static_cast<uint32_t>(at));
      numbers_of.push_back(numbers[shape]);
      held.push_back(std::binary_search(begin, end, numbers[shape]));
    }
  }
  const auto inside = std::make_unique<bool[]>(held.size());
  Check(s2ix_shape_set_hold_each(set, points.latitudes.data(), points.longitudes.data(), len, points_of.data(), numbers_of.data(),
                                 held.size(), inside.get(), &number) == S2IX_PLACES_DONE && number == 0, "pairs of a set are answered");
  Check(std::equal(held.begin(), held.end(), inside.get()), "pairs of a set are as its lists");
}

void CheckChanges() {
  Random random(23);
  for (uint32_t cells : {1u, 8u, 50u, 400u}) {
    const Set set = NewSet(cells);
    std::map<uint32_t, const s2ix_shape*> shapes;
    std::map<uint32_t, Shape> owned;
    for (int round = 0; round < 12; round++) {
      std::vector<uint32_t> numbers;
      std::vector<const s2ix_shape*> given;
      std::vector<Shape> made;
      for (size_t left = 1 + random.Below(6); left > 0; left--) {
        numbers.push_back(random.Below(8) ? static_cast<uint32_t>(random.Below(9)) : std::numeric_limits<uint32_t>::max());
        if (random.Below(3)) {
          made.push_back(RandomShape(&random));
          given.push_back(made.back().get());
        } else {
          given.push_back(nullptr);
        }
      }
      Check(s2ix_shape_set_put(set.get(), numbers.data(), given.data(), given.size()) == S2IX_PLACES_DONE, "a set is changed");
      for (size_t at = 0; at < numbers.size(); at++) {
        shapes.erase(numbers[at]);
        if (given[at] != nullptr) shapes[numbers[at]] = given[at];
      }
      for (Shape& shape : made) {
        for (const auto& [number, has] : shapes) {
          if (has == shape.get()) owned[number] = std::move(shape);
        }
      }
      const Shape box = Sound(Given().Ring(Box(178, 0, 179, 1)), "a box");
      CheckSet(set.get(), shapes, RandomPoints(&random, shapes.empty() ? box.get() : shapes.begin()->second));
    }
  }
}

// Each point of the sphere lies in one of the eight parts of it, however near it is to their rims.
void CheckNoGaps() {
  const Set set = NewSet(20);
  std::vector<Shape> shapes;
  for (double west : {-180.0, -90.0, 0.0, 90.0}) {
    shapes.push_back(Sound(Given().Ring({{west, 0}, {west + 90, 0}, {west, 90}}), "an eighth"));
    shapes.push_back(Sound(Given().Ring({{west, 0}, {west + 90, 0}, {west, -90}}), "an eighth"));
  }
  for (uint32_t at = 0; at < shapes.size(); at++) {
    const s2ix_shape* shape = shapes[at].get();
    Check(s2ix_shape_set_put(set.get(), &at, &shape, 1) == S2IX_PLACES_DONE, "an eighth is put");
    shapes[at].reset();
  }
  Points points;
  for (double latitude = -90; latitude <= 90; latitude += 7.5) {
    for (double longitude = -180; longitude <= 180; longitude += 7.5) points.Add(latitude, longitude);
  }
  for (double latitude : {-90.0, -45.0, -0.0, 0.0, 1e-300, 45.0, std::nextafter(90, 0), 90.0}) {
    for (double longitude : {-180.0, -90.0, std::nextafter(-90, 0), 0.0, 5e-324, 90.0, std::nextafter(180, 0),
        180.0}) points.Add(latitude, longitude);
  }
  const Answer answer = AtEach(set.get(), points, 8 * points.latitudes.size());
  size_t wrong = 0;
  for (size_t at = 0; at < answer.ends.size(); at++) wrong += answer.ends[at] != at + 1;
  Check(wrong == 0, std::to_string(wrong) + " points are not in exactly one eighth");
}

void CheckThreads() {
  Random random(29);
  const Set set = NewSet(30);
  const Shape one = Sound(Given().Ring(Box(0, 0, 10, 10)), "a box"), other = Sound(Given().Ring(Box(0, 0, 10, 20)), "a larger box");
  const auto put = [&](const s2ix_shape* shape) {
    const uint32_t number = 5;
    return s2ix_shape_set_put(set.get(), &number, &shape, 1) == S2IX_PLACES_DONE;
  };
  Check(put(one.get()), "a box is put");
  std::atomic<size_t> wrong{0};
  std::atomic<bool> is_over{false};
  std::vector<std::thread> threads;
  for (int thread = 0; thread < 3; thread++) {
    threads.emplace_back([&] {
      const double latitudes[] = {5, 15, 15}, longitudes[] = {5, 5, 5};
      while (!is_over) {
        size_t ends[3], number = 0;
        uint32_t found[3];
        const uint32_t status = s2ix_shape_set_at_each(set.get(), latitudes, longitudes, 3, ends, found, 3, &number);
        // (all points of a call are answered by one state)
        wrong += status != S2IX_PLACES_DONE || ends[0] != 1 || (number != 1 && number != 3);
      }
    });
  }
  size_t puts = 0;
  for (int at = 0; at < 300; at++) puts += put(at % 2 ? one.get() : other.get());
  is_over = true;
  for (std::thread& thread : threads) thread.join();
  Check(wrong == 0 && puts == 300, "threads ask a set while another changes it");
}

}  // namespace

void AnswersFromSets() {
  CheckChanges();
  CheckNoGaps();
  CheckThreads();
}

void RefusesSets() {
  s2ix_shape_set* none = nullptr;
  for (uint32_t cells : {0u, 100'001u}) Check(s2ix_shape_set_new(cells, &none) == S2IX_PLACES_NO_LIMITS && none == nullptr, "no limits");
  Check(s2ix_shape_set_new(5, nullptr) == S2IX_PLACES_NO_POINTER, "nowhere to put the set");
  s2ix_shape_set_free(nullptr);
  const Set set = NewSet(50);
  const Shape box = Sound(Given().Ring(Box(0, 0, 10, 10)), "a box");
  const s2ix_shape* shapes[] = {box.get(), box.get(), nullptr, box.get()};
  const uint32_t numbers[] = {7, 3, 7, 9};
  Check(s2ix_shape_set_put(nullptr, numbers, shapes, 4) == S2IX_PLACES_NO_POINTER, "no set");
  Check(s2ix_shape_set_put(set.get(), nullptr, shapes, 4) == S2IX_PLACES_NO_POINTER, "no numbers");
  Check(s2ix_shape_set_put(set.get(), numbers, nullptr, 4) == S2IX_PLACES_NO_POINTER, "no shapes");
  Check(s2ix_shape_set_put(set.get(), nullptr, nullptr, 0) == S2IX_PLACES_DONE, "no change");
  Check(s2ix_shape_set_put(set.get(), numbers, shapes, 4) == S2IX_PLACES_DONE, "the last of a number counts");
  uint32_t all[3] = {1, 1, 1};
  size_t number = 0;
  Check(s2ix_shape_set_numbers(set.get(), all, 1, &number) == S2IX_PLACES_NO_ROOM && number == 2 && all[0] == 1, "too little room");
  Check(s2ix_shape_set_numbers(set.get(), all, 3, &number) == S2IX_PLACES_DONE && number == 2 && all[0] == 3 && all[1] == 9,
      "numbers rise");
  Check(s2ix_shape_set_numbers(nullptr, all, 3, &number) == S2IX_PLACES_NO_POINTER, "no set");
  const double latitudes[] = {5, 6, 95}, longitudes[] = {5, 60, 5};
  size_t ends[3];
  uint32_t found[4];
  const auto at_each = [&](size_t points, size_t room) {
    return s2ix_shape_set_at_each(set.get(), latitudes, longitudes, points, ends, found, room, &number);
  };
  Check(at_each(2, 4) == S2IX_PLACES_DONE && number == 2 && ends[0] == 2 && ends[1] == 2 && found[0] == 3 && found[1] == 9, "two shapes");
  Check(at_each(2, 1) == S2IX_PLACES_NO_ROOM && number == 2, "too little room for what is found");
  Check(at_each(3, 4) == S2IX_PLACES_NO_POINT && number == 2, "a latitude of 95");
  Check(s2ix_shape_set_at_each(set.get(), nullptr, longitudes, 2, ends, found, 4, &number) == S2IX_PLACES_NO_POINTER, "no latitudes");
  Check(s2ix_shape_set_at_each(nullptr, latitudes, longitudes, 2, ends, found, 4, &number) == S2IX_PLACES_NO_POINTER, "no set to ask");
  Check(s2ix_shape_set_at_each(set.get(), nullptr, nullptr, 0, nullptr, nullptr, 0, &number) == S2IX_PLACES_DONE, "no points");
  const uint32_t points_of[] = {0, 1, 2, 3}, numbers_of[] = {3, 9, 3, 7};
  bool inside[4] = {false, true, true, true};
  const auto hold_each = [&](size_t points, size_t pairs) {
    return s2ix_shape_set_hold_each(set.get(), latitudes, longitudes, points, points_of, numbers_of, pairs, inside, &number);
  };
  Check(hold_each(3, 4) == S2IX_PLACES_NO_POINT && number == 2 && !inside[0] && inside[1], "a pair of a wrong point");
  Check(hold_each(2, 3) == S2IX_PLACES_NO_SHAPE && number == 2 && inside[1], "a pair without a point");
  Check(hold_each(3, 2) == S2IX_PLACES_DONE && inside[0] && !inside[1] && inside[2], "a wrong point without a pair is not looked at");
  Check(s2ix_shape_set_hold_each(set.get(), latitudes, longitudes, 2, points_of, numbers, 1, inside, &number) == S2IX_PLACES_NO_SHAPE,
        "a pair without a shape");
  Check(s2ix_shape_set_hold_each(set.get(), latitudes, longitudes, 2, nullptr, numbers, 1, inside, &number) == S2IX_PLACES_NO_POINTER,
        "no pairs");
}
