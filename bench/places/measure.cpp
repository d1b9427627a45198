// Measures the library of places beside S2's own classes, with equal answers: README.md says how.
#include <algorithm>
#include <cstdio>
#include <cstdlib>
#include <ctime>
#include <memory>
#include <string>

#include "s2/mutable_s2shape_index.h"
#include "s2/s2contains_point_query.h"
#include "s2/s2latlng.h"
#include "s2/s2polygon.h"
#include "s2ix_places.h"
#include "scene.h"

namespace {

struct Freed {
  void operator()(s2ix_shape* shape) const { s2ix_shape_free(shape); }
  void operator()(s2ix_shape_set* set) const { s2ix_shape_set_free(set); }
};
using Shape = std::unique_ptr<s2ix_shape, Freed>;
using Set = std::unique_ptr<s2ix_shape_set, Freed>;

// The answer of many points: lists one after the other.
struct Answer {
  std::vector<size_t> ends;
  std::vector<uint32_t> found;

  bool operator==(const Answer& other) const { return ends == other.ends && found == other.found; }
};

void Require(bool is_so, const char* what) {
  if (is_so) return;
  std::printf("%s\n", what);
  std::exit(1);
}

// The time of the processor, which others that run beside it don't count in.
double Seconds() { return static_cast<double>(std::clock()) / CLOCKS_PER_SEC; }

// The least time of some runs.
template <typename Run>
double Best(int runs, Run run) {
  double best = 1e9;
  for (int at = 0; at < runs; at++) {
    const double begin = Seconds();
    run();
    best = std::min(best, Seconds() - begin);
  }
  return best;
}

Shape Read(const Zone& zone) {
  std::vector<double> latitudes, longitudes;
  std::vector<size_t> ends;
  for (const Ring& ring : zone) {
    for (const auto& corner : ring) longitudes.push_back(corner.first), latitudes.push_back(corner.second);
    ends.push_back(latitudes.size());
  }
  const size_t polygon = ends.size();
  const s2ix_rings rings = {latitudes.data(), longitudes.data(), latitudes.size(), ends.data(), ends.size(), &polygon, 1};
  s2ix_shape* shape;
  s2ix_fault fault;
  Require(s2ix_shape_read(&rings, false, &shape, &fault) == S2IX_PLACES_DONE, "a zone is faulty");
  return Shape(shape);
}

std::vector<Shape> ReadAll(const Scene& scene) {
  std::vector<Shape> shapes;
  for (const Zone& zone : scene.zones) shapes.push_back(Read(zone));
  return shapes;
}

std::vector<uint64_t> Covering(decltype(s2ix_shape_cover) cover, const s2ix_shape* shape, uint32_t most) {
  std::vector<uint64_t> cells(most + 6);
  size_t number;
  Require(cover(shape, most, 0, 30, cells.data(), cells.size(), &number) == S2IX_PLACES_DONE, "a zone is not covered");
  cells.resize(number);
  return cells;
}

void MeasureReading(const Scene& scene) {
  for (uint32_t most : {50u, 200u}) {
    size_t cells = 0, inner = 0, larger = 0;
    const double begin = Seconds();
    const std::vector<Shape> shapes = ReadAll(scene);
    const double read = Seconds();
    for (const Shape& shape : shapes) {
      const size_t outer = Covering(s2ix_shape_cover, shape.get(), most).size();
      cells += outer;
      larger += outer > most;
    }
    const double covered = Seconds();
    for (const Shape& shape : shapes) inner += Covering(s2ix_shape_cover_inside, shape.get(), most).size();
    std::printf("%zu zones, at most %u cells: read %.2f s, covered %.2f s, covered inside %.2f s; %zu outer cells, %zu inner, %zu zones have more\n",
                shapes.size(), most, read - begin, covered - read, Seconds() - covered, cells, inner, larger);
  }
}

// S2's own polygons in S2's own index.
struct Own {
  std::vector<std::unique_ptr<S2Polygon>> polygons;
  MutableS2ShapeIndex index;

  explicit Own(const Scene& scene) {
    for (const Zone& zone : scene.zones) {
      std::vector<std::unique_ptr<S2Loop>> loops;
      for (const Ring& ring : zone) {
        std::vector<S2Point> points;
        for (size_t at = 0; at + 1 < ring.size(); at++) points.push_back(S2LatLng::FromDegrees(ring[at].second, ring[at].first).ToPoint());
        loops.push_back(std::make_unique<S2Loop>(points));
        loops.back()->Normalize();
      }
      polygons.push_back(std::make_unique<S2Polygon>());
      polygons.back()->InitNested(std::move(loops));
      index.Add(std::make_unique<S2Polygon::Shape>(polygons.back().get()));
    }
    index.ForceBuild();
  }

  size_t Bytes() const {
    size_t bytes = index.SpaceUsed();
    for (const auto& polygon : polygons) bytes += polygon->SpaceUsed();
    return bytes;
  }

  // Takes a shape away, puts one like it, and asks a point of it; returns the number of the new one.
  int Redraw(int number) {
    const S2Point point = polygons[number]->loop(0)->vertex(0);
    index.Release(number);
    polygons.push_back(std::unique_ptr<S2Polygon>(polygons[number]->Clone()));
    const int put = index.Add(std::make_unique<S2Polygon::Shape>(polygons.back().get()));
    MakeS2ContainsPointQuery(&index).Contains(point);
    return put;
  }

  Answer AtEach(const Scene& scene) {
    Answer answer;
    auto query = MakeS2ContainsPointQuery(&index);
    std::vector<uint32_t> found;
    for (size_t at = 0; at < scene.latitudes.size(); at++) {
      found.clear();
      const S2Point point = S2LatLng::FromDegrees(scene.latitudes[at], scene.longitudes[at]).ToPoint();
      query.VisitContainingShapes(point, [&found](S2Shape* shape) {
        found.push_back(static_cast<uint32_t>(shape->id()));
        return true;
      });
      std::sort(found.begin(), found.end());
      answer.found.insert(answer.found.end(), found.begin(), found.end());
      answer.ends.push_back(answer.found.size());
    }
    return answer;
  }
};

Set MakeSet(const std::vector<Shape>& shapes, uint32_t cells) {
  s2ix_shape_set* set;
  Require(s2ix_shape_set_new(cells, &set) == S2IX_PLACES_DONE, "no set");
  Set made(set);
  std::vector<uint32_t> numbers;
  std::vector<const s2ix_shape*> all;
  for (const Shape& shape : shapes) numbers.push_back(static_cast<uint32_t>(numbers.size())), all.push_back(shape.get());
  Require(s2ix_shape_set_put(set, numbers.data(), all.data(), all.size()) == S2IX_PLACES_DONE, "the set takes no shapes");
  return made;
}

Answer AtEach(const s2ix_shape_set* set, const Scene& scene, size_t room) {
  Answer answer{std::vector<size_t>(scene.latitudes.size()), std::vector<uint32_t>(room)};
  size_t number;
  Require(s2ix_shape_set_at_each(set, scene.latitudes.data(), scene.longitudes.data(), scene.latitudes.size(), answer.ends.data(),
                                 answer.found.data(), room, &number) == S2IX_PLACES_DONE, "points have no answer");
  answer.found.resize(number);
  return answer;
}

void MeasureSet(const Scene& scene, const std::vector<Shape>& shapes, const Answer& wanted, double own_seconds) {
  const size_t points = scene.latitudes.size();
  for (uint32_t cells : {8u, 50u, 200u}) {
    const double begin = Seconds();
    const Set set = MakeSet(shapes, cells);
    const double made = Seconds() - begin;
    Answer answer;
    const double seconds = Best(5, [&] { answer = AtEach(set.get(), scene, wanted.found.size()); });
    Require(answer == wanted, "a set answers otherwise than S2");
    const uint32_t number = 7;
    const s2ix_shape* shape = shapes[7].get();
    const double put = Best(100, [&] { s2ix_shape_set_put(set.get(), &number, &shape, 1); });
    std::printf("a set of %u cells a zone: made in %.3f s, %.2f million points a second, %.2f times S2, a redraw takes %.3f ms\n", cells,
        made,
                points / seconds / 1e6, own_seconds / seconds, put * 1e3);
  }
}

template <typename Item>
void WriteItems(const std::string& path, const std::vector<Item>& items) {
  std::FILE* file = std::fopen(path.c_str(), "wb");
  Require(file != nullptr && std::fwrite(items.data(), sizeof(Item), items.size(), file) == items.size() && std::fclose(file) == 0,
          "items aren't written");
}

void WriteAnswer(const Answer& answer, const std::string& folder) {
  WriteItems(folder + "/ends", answer.ends);
  WriteItems(folder + "/found", answer.found);
}

void MeasurePoints(const Scene& scene, const std::string& folder) {
  const size_t points = scene.latitudes.size();
  const double begin = Seconds();
  Own own(scene);
  std::printf("S2's own index: made in %.3f s\n", Seconds() - begin);
  Answer wanted;
  const double seconds = Best(3, [&] { wanted = own.AtEach(scene); });
  std::printf("S2ContainsPointQuery: %.2f million points a second, %zu pairs of %zu points\n", points / seconds / 1e6,
      wanted.found.size(), points);
  if (!folder.empty()) WriteAnswer(wanted, folder);
  std::printf("S2's own polygons and index take %.1f MB\n", own.Bytes() / 1e6);
  int drawn = 7;
  const double redraw = Best(20, [&] { drawn = own.Redraw(drawn); });
  std::printf("S2's own index: a redraw takes %.3f ms\n", redraw * 1e3);
  MeasureSet(scene, ReadAll(scene), wanted, seconds);
}

// The zones as GeoJSON.
void WriteZones(const Scene& scene, std::FILE* file) {
  std::fprintf(file, "{\"type\":\"FeatureCollection\",\"features\":[");
  for (size_t at = 0; at < scene.zones.size(); at++) {
    std::fprintf(file, "%s\n{\"type\":\"Feature\",\"id\":\"%zu\",\"properties\":{\"zone_id\":\"%zu\"},", at == 0 ? "" : ",", at, at);
    std::fprintf(file, "\"geometry\":{\"type\":\"Polygon\",\"coordinates\":[");
    for (size_t ring = 0; ring < scene.zones[at].size(); ring++) {
      const char* before = ring == 0 ? "[" : ",[";
      for (const auto& corner : scene.zones[at][ring]) {
        std::fprintf(file, "%s[%.17g,%.17g]", before, corner.first, corner.second);
        before = ",";
      }
      std::fprintf(file, "]");
    }
    std::fprintf(file, "]}}");
  }
  std::fprintf(file, "\n]}\n");
}

// Zones and points as other tools read them.
void WriteScene(const Scene& scene, const std::string& folder) {
  std::FILE* file = std::fopen((folder + "/zones.geojson").c_str(), "w");
  Require(file != nullptr, "the zones can't be written");
  WriteZones(scene, file);
  Require(std::fclose(file) == 0, "the zones aren't written");
  WriteItems(folder + "/latitudes", scene.latitudes);
  WriteItems(folder + "/longitudes", scene.longitudes);
}

}  // namespace

int main(int words, char** word) {
  const size_t zones = words > 1 ? std::stoul(word[1]) : 2'000, points = words > 2 ? std::stoul(word[2]) : 1'000'000;
  const std::string part = words > 3 ? word[3] : "all", folder = words > 4 ? word[4] : "";
  const Scene scene = MakeScene(zones, points);
  if (!folder.empty()) WriteScene(scene, folder);
  if (part != "points") MeasureReading(scene);
  if (part != "reading") MeasurePoints(scene, folder);
}
