// The zones and points that are measured: made from a seed, so equal in each run.
#ifndef BENCH_PLACES_SCENE_H
#define BENCH_PLACES_SCENE_H

#include <cmath>
#include <cstdint>
#include <random>
#include <utility>
#include <vector>

// A ring of longitudes and latitudes, whose last corner repeats the first.
using Ring = std::vector<std::pair<double, double>>;

// A zone: an outer ring and its holes.
using Zone = std::vector<Ring>;

class Random {
 public:
  explicit Random(uint64_t seed) : engine_(seed) {}
  double Between(double low, double high) { return low + (high - low) * (engine_() >> 11) * 0x1p-53; }
  size_t Below(size_t limit) { return engine_() % limit; }

 private:
  std::mt19937_64 engine_;
};

struct Scene {
  std::vector<Zone> zones;
  std::vector<double> latitudes, longitudes;
};

// A ring around a place with corners at random distances; no two of its edges cross.
inline Ring Star(Random* random, double longitude, double latitude, double reach, int corners, double roughness) {
  Ring ring;
  for (int at = 0; at < corners; at++) {
    const double angle = 2 * M_PI * at / corners, away = reach * random->Between(1 - roughness, 1);
    ring.push_back({longitude + away * std::cos(angle), latitude + away * std::sin(angle)});
  }
  ring.push_back(ring.front());
  return ring;
}

constexpr double kCities[5][2] = {{13.4, 52.5}, {2.35, 48.85}, {-74, 40.7}, {139.7, 35.7}, {28.0, -26.2}};

// Zones that overlap a little, in five cities, one in eight with a hole; then one over the date line, one around a pole, one of 20,000
// corners.
inline void AddZones(Random* random, size_t number, Scene* scene) {
  for (size_t at = 0; at + 3 < number; at++) {
    const auto& city = kCities[at % 5];
    const double reach = std::exp(random->Between(std::log(0.005), std::log(0.03)));
    const double longitude = city[0] + random->Between(-0.18, 0.18), latitude = city[1] + random->Between(-0.18, 0.18);
    const int corners = static_cast<int>(8 + random->Below(80));
    Zone zone = {Star(random, longitude, latitude, reach, corners, 0.4)};
    if (at % 8 == 0) zone.push_back(Star(random, longitude, latitude, reach * 0.4, 9, 0.4));
    scene->zones.push_back(zone);
  }
  Ring line = Star(random, 180, -17, 3, 40, 0.3), pole;
  for (auto& corner : line) corner.first = std::remainder(corner.first, 360);
  for (int longitude = -180; longitude < 180; longitude += 9) pole.push_back({longitude, -70 + random->Between(0, 5)});
  pole.push_back(pole.front());
  scene->zones.push_back({line});
  scene->zones.push_back({pole});
  scene->zones.push_back({Star(random, 9.5, 47, 2, 20'000, 0.05)});
}

// Points in the cities, and one in fifty near the last three zones.
inline void AddPoints(Random* random, size_t number, Scene* scene) {
  for (size_t at = 0; at < number; at++) {
    double latitude, longitude;
    switch (at % 150) {
      case 0: latitude = random->Between(-20.5, -13.5), longitude = std::remainder(180 + random->Between(-3.5, 3.5), 360); break;
      case 50: latitude = random->Between(-90, -60), longitude = random->Between(-180, 180); break;
      case 100: latitude = random->Between(44.9, 49.1), longitude = random->Between(7.4, 11.6); break;
      default: {
        const auto& city = kCities[random->Below(5)];
        latitude = city[1] + random->Between(-0.2, 0.2), longitude = city[0] + random->Between(-0.2, 0.2);
      }
    }
    scene->latitudes.push_back(latitude);
    scene->longitudes.push_back(longitude);
  }
}

inline Scene MakeScene(size_t zones, size_t points) {
  Random random(2026);
  Scene scene;
  AddZones(&random, zones, &scene);
  AddPoints(&random, points, &scene);
  return scene;
}

#endif
