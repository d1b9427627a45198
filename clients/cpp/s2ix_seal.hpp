// The seals of a file of an index, for C++17: numbers by which a row shows whether it is as it was written. Include s2ix_durable.hpp.
#ifndef S2IX_SEAL_HPP
#define S2IX_SEAL_HPP

#include <array>
#include <charconv>
#include <cstddef>
#include <cstdint>
#include <string_view>

namespace s2ix {

namespace detail {

// Tables of CRC-32, by which eight bytes are taken at once: table k has what a byte adds that k bytes follow.
using CrcTables = std::array<std::array<std::uint32_t, 256>, 8>;

constexpr CrcTables crc_tables() noexcept {
  CrcTables tables{};
  for (std::uint32_t byte = 0; byte < 256; byte++) {
    std::uint32_t crc = byte;
    for (int bit = 0; bit < 8; bit++) crc = crc >> 1 ^ (crc & 1 ? 0xedb88320u : 0u);
    tables[0][byte] = crc;
  }
  for (std::size_t k = 1; k < tables.size(); k++) {
    for (std::size_t byte = 0; byte < 256; byte++) tables[k][byte] = tables[k - 1][byte] >> 8 ^ tables[0][tables[k - 1][byte] & 0xff];
  }
  return tables;
}

// A CRC-32, as zlib has it, of the bytes that are added one after the other.
class Crc {
 public:
  explicit Crc(std::uint32_t before = 0) noexcept : crc_(~before) {}

  void add(std::string_view bytes) noexcept {
    const auto* at = reinterpret_cast<const unsigned char*>(bytes.data());
    const auto* const end = at + bytes.size();
    for (; end - at >= 8; at += 8) {
      const std::uint32_t low = crc_ ^ (at[0] | at[1] << 8 | at[2] << 16 | std::uint32_t{at[3]} << 24);
      crc_ = tables[7][low & 0xff] ^ tables[6][low >> 8 & 0xff] ^ tables[5][low >> 16 & 0xff] ^ tables[4][low >> 24] ^ tables[3][at[4]] ^
             tables[2][at[5]] ^ tables[1][at[6]] ^ tables[0][at[7]];
    }
    for (; at != end; at++) add_byte(*at);
  }

  [[nodiscard]] std::uint32_t sum() const noexcept { return ~crc_; }

 private:
  static constexpr CrcTables tables = crc_tables();

  void add_byte(unsigned char byte) noexcept { crc_ = crc_ >> 8 ^ tables[0][(crc_ ^ byte) & 0xff]; }

  std::uint32_t crc_;
};

// The seal of a row: a CRC-32 of its values, each of which ends with the byte 31. A text begins with a `=`; of none there is nothing.
class Seal {
 public:
  // It may go on from the seal of the row before.
  explicit Seal(std::uint32_t before = 0) noexcept : crc_(before) {}

  Seal& add(std::int64_t value) noexcept {
    char digits[24];
    const auto [end, _] = std::to_chars(digits, digits + sizeof digits, value);
    return end_with({digits, static_cast<std::size_t>(end - digits)});
  }
  Seal& add(std::string_view text) noexcept {
    crc_.add("=");
    return end_with(text);
  }
  Seal& add_none() noexcept { return end_with({}); }

  [[nodiscard]] std::uint32_t sum() const noexcept { return crc_.sum(); }

 private:
  Seal& end_with(std::string_view bytes) noexcept {
    crc_.add(bytes);
    crc_.add("\x1f");
    return *this;
  }

  Crc crc_;
};

}  // namespace detail

}  // namespace s2ix

#endif
