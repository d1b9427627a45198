// Follows an index in a file as it is told, a line at a time; kCommands has the words that lines begin with. It answers each line, and ends
// its answer with a line of one dot. What a call throws is answered as `raised CLASS: WORDS`.
#include "s2ix_durable.hpp"

#include <atomic>
#include <functional>
#include <iostream>
#include <map>
#include <sstream>

#include <sys/wait.h>

namespace {

constexpr std::uint64_t kFirst = 0x0400000000000000, kSecond = 0x0c00000000000000;

std::optional<s2ix::Durable> zones;

// A text of any bytes as one word, and a text of such a word.
std::string Word(const std::optional<std::string>& text) {
  if (!text) return "-";
  std::ostringstream word;
  word << '=' << std::hex;
  for (const unsigned char byte : *text) word << (byte >> 4) << (byte & 15);
  return word.str();
}
std::string Text(const std::string& word) {
  std::string text;
  for (std::size_t place = 1; place < word.size(); place += 2) {
    text.push_back(static_cast<char>(std::stoi(word.substr(place, 2), nullptr, 16)));
  }
  return text;
}

std::chrono::system_clock::time_point Time(std::int64_t micros) {
  return std::chrono::system_clock::time_point(std::chrono::microseconds(micros));
}

template <class Number>
Number Next(std::istream& words) {
  Number number{};
  words >> number;
  return number;
}

std::string Open(std::istream& words) {
  std::string path;
  int milliseconds = 0;
  words >> path >> milliseconds;
  zones.reset();
  zones.emplace(Text(path), std::chrono::milliseconds(milliseconds));
  return zones->path() == Text(path) ? "opened\n" : "opened another path\n";
}

// The steps that `NAME VALUE` after NAME VALUE ask for, a line for each.
std::string Log(std::istream& words) {
  s2ix::Asked asked;
  std::string name, value;
  while (words >> name >> value) {
    if (name == "who") asked.who = Text(value);
    if (name == "label") asked.label = static_cast<std::uint32_t>(std::stoul(value));
    if (name == "cell") asked.cell = std::stoull(value);
    if (name == "first") asked.first = std::stoll(value);
    if (name == "limit") asked.limit = std::stoll(value);
    if (name == "since") asked.since = Time(std::stoll(value));
    if (name == "before") asked.before = Time(std::stoll(value));
    if (name == "most") asked.most = std::stoull(value);
    if (name == "newest") asked.is_newest_first = true;
  }
  std::ostringstream lines;
  for (const s2ix::Logged& step : zones->log(asked)) {
    lines << step.id << ' ' << step.time.time_since_epoch().count() << ' ' << Word(step.who) << ' ' << Word(step.note) << ' ' << step.kind
          << ' ' << step.of_step.value_or(-1) << ' ' << step.is_undone << '\n';
  }
  return lines.str();
}

std::string Entries(std::istream& words) {
  std::ostringstream lines;
  for (const s2ix::Entry& entry : zones->entries(Next<std::int64_t>(words))) {
    lines << entry.cell << ' ' << entry.label << ' ' << entry.before << ' ' << entry.after << '\n';
  }
  return lines.str();
}

std::string Limits(std::istream&) {
  const s2ix::Limits limits = zones->limits();
  return std::to_string(limits.pairs) + " " + std::to_string(limits.copies) + " " + std::to_string(limits.changes) + "\n";
}

// What an index is that was asked for stays as it is, when steps have come since.
std::string Keeps(std::istream&) {
  const std::shared_ptr<const s2ix::Index> before = zones->index();
  const std::string dump = before->dump();
  const bool is_new = zones->refresh();
  return std::to_string(is_new) + " " + std::to_string(before->dump() == dump) + " " + std::to_string(zones->index() != before) + "\n";
}

// What a forked child is told, whose Durable its end leaves alone.
std::string Fork(std::istream&) {
  int ends[2];
  if (::pipe(ends) != 0) return "no pipe\n";
  const ::pid_t child = ::fork();
  if (child == 0) {
    std::string words = "nothing";
    try {
      zones->refresh();
    } catch (const s2ix::FileError& error) {
      words = error.what();
    }
    const std::size_t written = static_cast<std::size_t>(::write(ends[1], words.data(), words.size()));
    zones.reset();
    ::_exit(written == words.size() ? 0 : 1);
  }
  ::close(ends[1]);
  char words[512];
  const ::ssize_t size = ::read(ends[0], words, sizeof words);
  ::close(ends[0]);
  ::waitpid(child, nullptr, 0);
  return std::string(words, size > 0 ? static_cast<std::size_t>(size) : 0) + "\n";
}

// Refreshes for some milliseconds, while other threads ask. The file has as many copies of one pair as of another after each whole step.
std::string Race(std::istream& words) {
  const auto end = std::chrono::steady_clock::now() + std::chrono::milliseconds(Next<int>(words));
  std::atomic<bool> is_over{false};
  std::atomic<int> asked{0}, halves{0};
  std::vector<std::thread> threads;
  for (int k = 0; k < 3; k++) {
    threads.emplace_back([&] {
      while (!is_over) {
        const std::shared_ptr<const s2ix::Index> now = zones->index();
        if (now->count(kFirst, 1) != now->count(kSecond, 1) || (*zones)->copies() % 2 != 0) halves++;
        const std::int64_t last = zones->last();
        if (asked++ % 16 == 0 && last > 0 && zones->entries(last).size() != 2) halves++;
      }
    });
  }
  int news = 0;
  while (std::chrono::steady_clock::now() < end) news += zones->refresh();
  is_over = true;
  for (std::thread& thread : threads) thread.join();
  return std::to_string(news > 0) + " " + std::to_string(asked > 0) + " " + std::to_string(halves) + "\n";
}

const std::map<std::string, std::function<std::string(std::istream&)>> kCommands = {
    {"open", Open},
    {"refresh", [](std::istream&) { return std::to_string(zones->refresh()) + "\n"; }},
    {"dump", [](std::istream&) { return (*zones)->dump(); }},
    {"last", [](std::istream&) { return std::to_string(zones->last()) + "\n"; }},
    {"limits", Limits},
    {"log", Log},
    {"entries", Entries},
    {"as_of", [](std::istream& words) { return zones->as_of(Next<std::int64_t>(words)).dump(); }},
    {"at_time", [](std::istream& words) { return zones->as_of(Time(Next<std::int64_t>(words))).dump(); }},
    {"keeps", Keeps},
    {"fork", Fork},
    {"race", Race},
    {"close", [](std::istream&) { return zones.reset(), "closed\n"; }},
};

// What a line is answered.
std::string Answer(const std::string& line) {
  std::istringstream words(line);
  std::string command;
  words >> command;
  try {
    return kCommands.at(command)(words);
  } catch (const s2ix::LaterForm& error) {
    return "raised LaterForm: " + std::string(error.what()) + "\n" + std::to_string(error.form()) + "\n";
  } catch (const s2ix::Spoilt& error) {
    return "raised Spoilt: " + std::string(error.what()) + "\n" + std::to_string(error.row()) + "\n";
  } catch (const s2ix::NoSuchStep& error) {
    return "raised NoSuchStep: " + std::string(error.what()) + "\n" + std::to_string(error.step()) + "\n";
  } catch (const s2ix::FileError& error) {
    return "raised FileError: " + std::string(error.what()) + "\n" + std::to_string(error.code()) + "\n";
  } catch (const std::exception& error) {
    return "raised exception: " + std::string(error.what()) + "\n";
  }
}

}  // namespace

int main() {
  for (std::string line; std::getline(std::cin, line);) std::cout << Answer(line) << ".\n" << std::flush;
}
