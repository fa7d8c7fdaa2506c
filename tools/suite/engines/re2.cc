// RE2 with its defaults, 8 MB among them; in Latin-1 where a work is of bytes. Several patterns are one alternation, or
// an RE2::Set.
#include "../engine.h"
#include <re2/re2.h>
#include <re2/set.h>
#include <memory>
#include <string>
#include <vector>

extern "C" const char *const engine_name = "re2";

namespace {

struct Engine {
    std::unique_ptr<re2::RE2> regex;
    std::unique_ptr<re2::RE2::Set> set;
    std::vector<int> found;
    std::vector<re2::StringPiece> groups;
};

re2::StringPiece pattern(const work &work, size_t i) {
    return re2::StringPiece(work.text[i], work.length[i]);
}

bool make_set(Engine &it, const work &work, const re2::RE2::Options &options) {
    it.set.reset(new re2::RE2::Set(options, re2::RE2::UNANCHORED));
    for (size_t i = 0; i < work.patterns; i++)
        if (it.set->Add(pattern(work, i), nullptr) < 0) return false;
    return it.set->Compile();
}

bool make_regex(Engine &it, const work &work, const re2::RE2::Options &options) {
    std::string all = pattern(work, 0).as_string();
    if (work.patterns > 1) all = "(?:" + all + ")";
    for (size_t i = 1; i < work.patterns; i++) all += "|(?:" + pattern(work, i).as_string() + ")";
    it.regex.reset(new re2::RE2(all, options));
    if (it.regex->ok()) it.groups.resize(static_cast<size_t>(it.regex->NumberOfCapturingGroups()) + 1);
    return it.regex->ok();
}

}  // namespace

void *engine_new(const struct work *work) {
    re2::RE2::Options options;
    options.set_log_errors(false);
    options.set_encoding(work->unicode ? re2::RE2::Options::EncodingUTF8 : re2::RE2::Options::EncodingLatin1);
    options.set_never_capture(work->set);
    std::unique_ptr<Engine> it(new Engine());
    bool is_made = work->set ? make_set(*it, *work, options) : make_regex(*it, *work, options);
    return is_made ? it.release() : nullptr;
}

void engine_free(void *engine) {
    delete static_cast<Engine *>(engine);
}

int engine_all(void *engine, const uint8_t *text, size_t length, struct total *total) {
    const re2::RE2 &regex = *static_cast<Engine *>(engine)->regex;
    const char *begin = reinterpret_cast<const char *>(text);
    re2::StringPiece all(begin, length), found;
    size_t at = 0, last = static_cast<size_t>(-1);
    while (at <= length && regex.Match(all, at, length, re2::RE2::UNANCHORED, &found, 1)) {
        size_t from = static_cast<size_t>(found.data() - begin), to = from + found.size();
        if (!found.empty() || from != last) {
            total->count++;
            total->sum += found.size();
        }
        last = to;
        at = found.empty() ? to + 1 : to;
    }
    return 0;
}

int engine_groups(void *engine, const uint8_t *text, size_t length, struct total *total) {
    Engine &it = *static_cast<Engine *>(engine);
    const char *begin = reinterpret_cast<const char *>(text);
    re2::StringPiece all(begin, length), &found = it.groups[0];
    int number = static_cast<int>(it.groups.size());
    size_t at = 0, last = static_cast<size_t>(-1);
    while (at <= length && it.regex->Match(all, at, length, re2::RE2::UNANCHORED, it.groups.data(), number)) {
        size_t from = static_cast<size_t>(found.data() - begin), to = from + found.size();
        if (!found.empty() || from != last) {
            for (const re2::StringPiece &group : it.groups) {
                total->count += group.data() != nullptr;
                total->sum += group.size();
            }
        }
        last = to;
        at = found.empty() ? to + 1 : to;
    }
    return 0;
}

int engine_is_match(void *engine, const uint8_t *text, size_t length) {
    re2::StringPiece all(reinterpret_cast<const char *>(text), length);
    return static_cast<Engine *>(engine)->regex->Match(all, 0, length, re2::RE2::UNANCHORED, nullptr, 0);
}

int engine_which(void *engine, const uint8_t *text, size_t length, struct total *total) {
    Engine &it = *static_cast<Engine *>(engine);
    re2::RE2::Set::ErrorInfo error;
    it.found.clear();
    it.set->Match(re2::StringPiece(reinterpret_cast<const char *>(text), length), &it.found, &error);
    for (int pattern : it.found) total->sum += static_cast<uint64_t>(pattern);
    total->count += it.found.size();
    return error.kind != re2::RE2::Set::kNoError;
}
