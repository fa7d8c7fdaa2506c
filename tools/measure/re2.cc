// Measures the works with RE2: prints for each work its name, what it counted, and the microseconds of processor time.
#include <re2/re2.h>
#include <re2/set.h>
#include <algorithm>
#include <cstdint>
#include <cstdio>
#include <cstdlib>
#include <cstring>
#include <ctime>
#include <string>
#include <vector>

using re2::RE2;
using re2::StringPiece;

static const size_t kSize = 1 << 24;
static const char kShort[] = "in 2018, worwx and 12";
static const char kOne[] = "abcdefghijklmnopqrstuvwxyz .,;-+";
static const char kLine[] = "aorax then some other text eoreX and more eorex of it, then gorgx and more morm";
static const char kOther[] = "xxray then some other text yoreX and more zorez of it, then vorgx and more worm";

static long now() {
  timespec t;
  clock_gettime(CLOCK_PROCESS_CPUTIME_ID, &t);
  return t.tv_sec * 1000000L + t.tv_nsec / 1000;
}

// Repeats a piece as often as it fits into a size.
static std::string text_of(const char* piece, size_t size) {
  std::string text;
  for (size_t n = size / strlen(piece); n > 0; n--) text += piece;
  return text;
}

// Pseudorandom letters, the same in each program.
struct Noise {
  uint32_t state;
  void step() { state = state * 1664525 + 1013904223; }
  char letter() {
    step();
    return 'a' + (state >> 28);
  }
};

static std::vector<std::string> random_words(size_t count) {
  std::vector<std::string> words(count);
  Noise noise{1};
  for (std::string& word : words)
    for (int i = 0; i < 6; i++) word += noise.letter();
  return words;
}

static std::string random_text(size_t size) {
  std::string text;
  Noise noise{2};
  for (size_t i = 0; i < size; i++) text += noise.letter();
  return text;
}

// Returns a number below a count.
static size_t below(Noise& noise, size_t count) {
  noise.step();
  return (noise.state >> 16) * count >> 16;
}

// Adds `count` bytes, each one of `bytes`.
static void add(std::string& text, Noise& noise, const char* bytes, size_t count) {
  size_t length = strlen(bytes);
  for (; count > 0; count--) text += bytes[below(noise, length)];
}

// Returns lines of a log: a time, a level, a name, and words and numbers.
static std::string log_text() {
  static const char* const levels[] = {" DEBUG ", " INFO ", " WARN ", " ERROR "};
  static const char digits[] = "0123456789", letters[] = "abcdefghijklmnopqrstuvwxyz";
  std::string text;
  Noise noise{3};
  while (text.size() < kSize) {
    for (char separator : {':', ':', '.'}) {
      add(text, noise, digits, 2);
      text += separator;
    }
    add(text, noise, digits, 3);
    text += levels[below(noise, 4)];
    size_t length = below(noise, 6) + 3;
    add(text, noise, letters, length);
    length = below(noise, 3);
    add(text, noise, digits, length);
    text += ':';
    for (size_t fields = below(noise, 4) + 3; fields > 0; fields--) {
      text += ' ';
      const char* of = below(noise, 2) == 0 ? letters : digits;
      length = below(noise, 6) + 1;
      add(text, noise, of, length);
    }
    text += '\n';
  }
  text.resize(kSize);
  return text;
}

static std::string given_text() {
  std::string given;
  for (int byte; (byte = getchar()) != EOF;) given += byte;
  return given;
}

// Returns the lines of standard input, shuffled again and again.
static std::string running_text() {
  std::string given = given_text(), text;
  std::vector<std::string> lines(1);
  for (char byte : given)
    if (byte == '\n') lines.emplace_back();
    else lines.back() += byte;
  Noise noise{4};
  while (text.size() < kSize) {
    for (size_t at = 0; at < lines.size(); at++) std::swap(lines[at], lines[at + below(noise, lines.size() - at)]);
    for (const std::string& line : lines) text += line + '\n';
  }
  text.resize(kSize);
  return text;
}

// Returns the lines of from_c.c: ten words each; every tenth line ends in a date.
static std::string dated_text(size_t size) {
  std::string text;
  Noise noise{5};
  for (size_t line = 1; text.size() < size; line++) {
    for (int word = 0; word < 10; word++) {
      for (size_t letters = below(noise, 8) + 2; letters > 0; letters--) text += 'a' + below(noise, 26);
      text += ' ';
    }
    if (line % 10 == 0) {
      unsigned year = below(noise, 90) + 10, month = below(noise, 12) + 1, day = below(noise, 28) + 1;
      char date[16];
      snprintf(date, sizeof date, "20%02u-%02u-%02u", year, month, day);
      text += date;
    }
    text += '\n';
  }
  text.resize(size);
  return text;
}

static std::string joined(const std::vector<std::string>& words) {
  std::string all;
  for (const std::string& word : words) all += (all.empty() ? "" : "|") + word;
  return all;
}

// Returns how often a text of a size is searched.
static size_t turns(size_t size) { return size < kSize ? kSize / size : 1; }

static RE2::Options latin() {
  RE2::Options o;
  o.set_encoding(RE2::Options::EncodingLatin1);
  return o;
}

static void tell(const char* work, long count, long start) {
  printf("%s %ld %ld\n", work, count, now() - start);
}


// RE2 cannot search for only the end of a match, so it searches for spans here too.
static void matches_in(const char* work, const std::string& pattern, const std::string& text, size_t size = kSize,
                       const RE2::Options& options = latin()) {
  RE2 re(pattern, options);
  long start = now(), count = 0;
  for (size_t turn = turns(size); turn > 0; turn--) {
    size_t at = 0;
    StringPiece m;
    while (re.Match(text, at, text.size(), RE2::UNANCHORED, &m, 1)) {
      count++;
      at = m.data() + m.size() - text.data();
    }
  }
  tell(work, count, start);
}

// Counts the lines that have a date.
static void dates(const char* work) {
  std::string text = dated_text(100 << 20);
  RE2 re("[0-9]{4}-[0-9]{2}-[0-9]{2}", latin());
  long start = now(), count = 0;
  size_t at = 0;
  StringPiece m;
  while (at < text.size() && re.Match(text, at, text.size(), RE2::UNANCHORED, &m, 1)) {
    count++;
    at = text.find('\n', m.data() + m.size() - text.data());
    at = at == std::string::npos ? text.size() : at + 1;
  }
  tell(work, count, start);
}

// Returns options for text in UTF-8, with as much memory as the other programs have.
static RE2::Options with_memory() {
  RE2::Options options;
  options.set_max_mem(1 << 26);
  return options;
}

// Counts matches in what made.py writes: a line with a pattern, and a text.
static void spans_read(const char* work) {
  std::string given = given_text();
  size_t line = given.find('\n');
  matches_in(work, given.substr(0, line), given.substr(line + 1), kSize, with_memory());
}

// The same for a line with words between bars: counts the words that each line of the text contains.
static void which_read(const char* work) {
  std::string given = given_text();
  size_t at = 0, line = given.find('\n');
  RE2::Set set(with_memory(), RE2::UNANCHORED);
  for (size_t bar; at <= line; at = bar + 1) {
    bar = std::min(given.find('|', at), line);
    set.Add(given.substr(at, bar - at), nullptr);
  }
  set.Compile();
  std::vector<int> v;
  long start = now(), count = 0;
  for (size_t end; at < given.size(); at = end + 1) {
    end = std::min(given.find('\n', at), given.size());
    set.Match(StringPiece(given.data() + at, end - at), &v);
    count += v.size();
  }
  tell(work, count, start);
}

static void matches(const char* work, const char* pattern, const char* piece, size_t size = kSize) {
  matches_in(work, pattern, text_of(piece, size), size);
}

static void ends(const char* work, const char* piece, size_t size = kSize) { matches(work, "[0-9]{4}", piece, size); }

static void spans(const char* work, const char* piece, size_t size = kSize) { matches(work, "[a-z]+", piece, size); }

// Opaque to the compiler, so that a loop keeps each call.
__attribute__((noipa)) static bool has_byte(const std::string& text) {
  return memchr(text.data(), '#', text.size()) != nullptr;
}

// Measures the C library's search for a byte that the text does not have.
static void memory(const char* work, size_t size) {
  std::string text = text_of(kOne, size);
  long start = now(), count = 0;
  for (size_t turn = turns(size); turn > 0; turn--) count += has_byte(text);
  tell(work, count, start);
}

static void shorts(const char* work, const char* piece) {
  RE2 re("[0-9]{4}", latin());
  StringPiece text(piece);
  long start = now(), count = 0;
  for (int i = 0; i < 1 << 20; i++)
    if (re.Match(text, 0, text.size(), RE2::UNANCHORED, nullptr, 0)) count++;
  tell(work, count, start);
}

static void sets(const char* work, const char* line) {
  RE2::Set set(latin(), RE2::UNANCHORED);
  for (char c = 'a'; c < 'u'; c++) set.Add(std::string{c, 'o', 'r', c, 'x'}, nullptr);
  set.Compile();
  std::vector<int> v;
  long start = now(), count = 0;
  for (int i = 0; i < 200000; i++) {
    set.Match(line, &v);
    count += v.size();
  }
  tell(work, count, start);
}

// Measures the first search of a new regex, without the time to compile its program, which corresponds to our NFA.
static void first(const char* work, const std::string& pattern, const std::string& text, int turns) {
  RE2::Options options = latin();
  options.set_max_mem(1 << 26);
  long count = 0, time = 0;
  for (int i = 0; i < turns; i++) {
    RE2 re(pattern, options);
    long start = now();
    if (re.Match(text, 0, text.size(), RE2::UNANCHORED, nullptr, 0)) count++;
    time += now() - start;
  }
  printf("%s %ld %ld\n", work, count, time);
}

// The same, with the time to parse and compile it.
static void whole(const char* work, const std::string& pattern) {
  StringPiece text(kShort);
  long count = 0, time = 0;
  for (int i = 0; i < 20000; i++) {
    long start = now();
    RE2 re(pattern, latin());
    if (re.Match(text, 0, text.size(), RE2::UNANCHORED, nullptr, 0)) count++;
    time += now() - start;
  }
  printf("%s %ld %ld\n", work, count, time);
}

// Measures first searches of 1 KB for any of `words` words, a thousand words in all regexes together.
static void first_words(const char* work, int words) {
  first(work, joined(random_words(words)), random_text(1 << 10), std::max(1000 / words, 1));
}

// Finds which words 256 KB have, or 16 KB for 10,000 words or more, with a set that is compiled beforehand.
static void set_words(const char* work, int words) {
  RE2::Options options = latin();
  options.set_max_mem(1 << 27);
  RE2::Set set(options, RE2::UNANCHORED);
  for (const std::string& word : random_words(words)) set.Add(word, nullptr);
  set.Compile();
  std::string text = random_text(words < 10000 ? 1 << 18 : 1 << 14);
  std::vector<int> v;
  long start = now();
  set.Match(text, &v);
  tell(work, v.size(), start);
}

// Searches 256 KB with 4,096 states. RE2 uses two thirds of its memory for the forward search.
static void room(const char* work, size_t capacity) {
  RE2::Options options = latin();
  options.set_max_mem(capacity / 2 * 3);
  options.set_log_errors(false);
  RE2 re("a[ab]{11}c", options);
  std::string text = random_text(1 << 18);
  for (char& letter : text) letter = letter < 'i' ? 'a' : 'b';
  long start = now();
  bool found = re.ok() && re.Match(text, 0, text.size(), RE2::UNANCHORED, nullptr, 0);
  if (re.ok()) tell(work, found, start);
  else printf("%s -\n", work);
}

static std::string twenty() {
  std::string p;
  for (char c = 'a'; c < 'u'; c++) p += std::string(p.empty() ? "" : "|") + c + "or" + c + "x";
  return p;
}

// Runs a work whose pattern and text are on standard input. Returns whether this is one.
static bool is_read(const char* work) {
  std::string kind(work, strcspn(work, "_"));
  if (kind == "spans") spans_read(work);
  else if (kind == "which") which_read(work);
  else return false;
  return true;
}

// Runs a work whose name ends in a number, with K for 1,024 and M for 1,048,576. Returns whether this is one.
static bool grow(const char* work) {
  size_t letters = strcspn(work, "0123456789");
  char* unit;
  size_t size = strtoul(work + letters, &unit, 10);
  if (*unit == 'K') size <<= 10;
  if (*unit == 'M') size <<= 20;
  std::string name(work, letters);
  if (name == "scan") ends(work, kOne, size);
  else if (name == "dense") spans(work, "word ", size);
  else if (name == "memory") memory(work, size);
  else if (name == "words") first_words(work, size);
  else if (name == "set") set_words(work, size);
  else if (name == "room" && size > 0) room(work, size);
  else return false;
  return true;
}

int main(int n, char** words) {
  for (int i = 1; i < n; i++) {
    std::string w = words[i];
    const char* name = words[i];
    if (w == "scan") ends(name, kOne);
    else if (w == "turns") ends(name, "a1b2c3d4");
    else if (w == "ends") ends(name, "1234abcd");
    else if (w == "back") ends(name, kOne);
    else if (w == "dense") spans(name, "word ");
    else if (w == "sparse") spans(name, (std::string(232, '.') + "wordword").c_str());
    else if (w == "long") spans(name, "abcdefghijklmnopqrstuvwxyz");
    else if (w == "short") shorts(name, "ab1cd23efghi 456");
    else if (w == "sets") sets(name, kLine);
    else if (w == "nosets") sets(name, kOther);
    else if (w == "first") first(name, "[0-9]{4}", kShort, 20000);
    else if (w == "first20") first(name, twenty(), kShort, 20000);
    else if (w == "whole") whole(name, "[0-9]{4}");
    else if (w == "whole20") whole(name, twenty());
    else if (w == "dates") dates(name);
    else if (w == "date") matches_in(name, "[0-9]{4}-[0-9]{2}-[0-9]{2}", log_text());
    else if (w == "numbers") matches_in(name, "\\b[0-9]+\\b", log_text());
    else if (w == "prose") matches_in(name, "[a-z]+", running_text());
    else if (!is_read(name) && !grow(name)) printf("%s -\n", name);
  }
}
