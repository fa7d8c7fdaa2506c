// Compares the first match of random patterns, and all of its groups, with what RE2 reports: for one pattern and for
// two, unanchored and anchored. Two patterns are one with two alternatives for RE2, each in a group.
//
//     groups [SEARCHES [SEED]]
//
// prints each difference, up to twenty, and how many patterns, matches and groups were compared.
#include <lazydfa_automata.h>
#include <re2/re2.h>
#include <cstdio>
#include <cstdlib>
#include <string>
#include <vector>

namespace {

uint64_t random_now;

unsigned below(unsigned limit) {
    random_now = random_now * 6364136223846793005u + 1442695040888963407u;
    return static_cast<unsigned>(random_now >> 33) % limit;
}

// A pattern in the syntax of each engine, how many groups it has, and whether it may read nothing: RE2 counts the rounds
// of such a repetition otherwise.
struct Pattern {
    std::string ours, theirs;
    int groups = 0;
    bool may_be_empty = false;
};

Pattern atom(const std::string &text, bool may_be_empty = false) {
    Pattern p;
    p.ours = p.theirs = text;
    p.may_be_empty = may_be_empty;
    return p;
}

Pattern leaf() {
    static const char *const bytes[] = { "a", "b", "c", "\xC3\xA9", "[ab]", "[^a]", ".", "[b-d\xC3\xA9]", "ab", "(?i:bA)" };
    static const char *const looks[] = { "^", "$", "\\A", "\\z", "(?m:^)", "(?m:$)" };
    switch (below(12)) {
    case 0: return atom(looks[below(6)], true);
    case 1: {
        Pattern p = atom("\\b", true);
        p.ours = "(?-u:\\b)";
        return p;
    }
    case 2: return atom("", true);
    default: return atom(bytes[below(10)]);
    }
}

Pattern make(int depth, int &names);

Pattern group(int depth, int &names) {
    Pattern p = make(depth - 1, names);
    std::string open = "(";
    if (below(4) == 0) open = "(?P<g" + std::to_string(names++) + ">";
    p.ours = open + p.ours + ")";
    p.theirs = open + p.theirs + ")";
    p.groups++;
    return p;
}

Pattern joined(int depth, int &names, const char *between, bool any) {
    Pattern p = make(depth - 1, names), q = make(depth - 1, names);
    Pattern r;
    r.ours = "(?:" + p.ours + between + q.ours + ")";
    r.theirs = "(?:" + p.theirs + between + q.theirs + ")";
    r.groups = p.groups + q.groups;
    r.may_be_empty = any ? p.may_be_empty || q.may_be_empty : p.may_be_empty && q.may_be_empty;
    return r;
}

Pattern repeated(int depth, int &names) {
    static const char *const counts[] = { "*", "+", "?", "{2}", "{1,2}", "{0,2}", "*?", "+?", "??", "{1,2}?", "{2,}" };
    Pattern p = make(depth - 1, names);
    std::string count = counts[below(11)];
    if (p.may_be_empty && count != "?" && count != "??") return p;
    p.ours = "(?:" + p.ours + ")" + count;
    p.theirs = "(?:" + p.theirs + ")" + count;
    p.may_be_empty = p.may_be_empty || count[0] == '*' || count[0] == '?' || count[1] == '0';
    return p;
}

Pattern make(int depth, int &names) {
    if (depth == 0) return leaf();
    switch (below(6)) {
    case 0: return leaf();
    case 1: case 2: return group(depth, names);
    case 3: return joined(depth, names, "|", true);
    case 4: return joined(depth, names, "", false);
    default: return repeated(depth, names);
    }
}

std::string random_text() {
    static const char *const parts[] = { "a", "b", "c", "\xC3\xA9", "\n", " ", "B", "A" };
    std::string text;
    for (unsigned i = below(12); i > 0; i--) text += parts[below(8)];
    return text;
}

long compared, matched, spans, differences;

void differ(const std::vector<Pattern> &patterns, const std::string &text, const char *what) {
    if (differences++ >= 20) return;
    for (const Pattern &p : patterns) std::printf("'%s' ", p.ours.c_str());
    std::printf("in '%s': %s\n", text.c_str(), what);
}

bool is_same(const lazydfa_span &ours, const re2::StringPiece &theirs, const std::string &text) {
    if (theirs.data() == nullptr) return ours.start == LAZYDFA_NO_OFFSET && ours.end == LAZYDFA_NO_OFFSET;
    size_t start = static_cast<size_t>(theirs.data() - text.data());
    return ours.start == start && ours.end == start + theirs.size();
}

void compare(const std::vector<Pattern> &patterns, const RE2 &re, lazydfa_cache *cache, const std::string &text,
             bool anchored) {
    std::vector<re2::StringPiece> theirs(static_cast<size_t>(re.NumberOfCapturingGroups()) + 1);
    bool is_match = re.Match(text, 0, text.size(), anchored ? RE2::ANCHOR_START : RE2::UNANCHORED, theirs.data(),
                             static_cast<int>(theirs.size()));
    const uint8_t *hay = reinterpret_cast<const uint8_t *>(text.data());
    lazydfa_input input = lazydfa_whole(text.size());
    lazydfa_match found;
    input.anchored = anchored;
    uint32_t code = lazydfa_find(cache, hay, text.size(), &input, &found).code;
    compared++;
    if (code != (is_match ? LAZYDFA_OK : LAZYDFA_NONE)) return differ(patterns, text, "another code");
    if (!is_match) return;
    size_t first = 1, which = 0, count;
    while (theirs[first].data() == nullptr && which + 1 < patterns.size())
        first += static_cast<size_t>(patterns[which++].groups) + 1;
    std::vector<lazydfa_span> ours(100);
    code = lazydfa_groups(cache, hay, text.size(), &found, ours.data(), ours.size(), &count).code;
    if (code != LAZYDFA_OK || found.pattern != which) return differ(patterns, text, "another pattern");
    if (count != static_cast<size_t>(patterns[which].groups) + 1) return differ(patterns, text, "another count");
    matched++;
    for (size_t i = 0; i < count; i++, spans++)
        if (!is_same(ours[i], theirs[first + i], text)) return differ(patterns, text, "another span");
}

void compare_patterns(const std::vector<Pattern> &patterns) {
    std::vector<lazydfa_text> texts;
    std::string theirs;
    for (const Pattern &p : patterns) {
        texts.push_back({ p.ours.data(), p.ours.size() });
        theirs += (theirs.empty() ? "(" : "|(") + p.theirs + ")";
    }
    RE2::Options quiet;
    quiet.set_log_errors(false);
    RE2 re(theirs, quiet);
    lazydfa_regex regex = LAZYDFA_INIT;
    lazydfa_cache cache = LAZYDFA_INIT;
    lazydfa_options options = LAZYDFA_OPTIONS_INIT;
    options.groups = 1;
    bool is_built = lazydfa_regex_any_of(&regex, texts.data(), texts.size(), &options, nullptr).code == LAZYDFA_OK;
    if (is_built != re.ok()) return differ(patterns, "", "built by one engine");
    if (!is_built) return;
    if (lazydfa_cache_new(&cache, &regex).code != LAZYDFA_OK) std::abort();
    for (int i = 0; i < 10; i++) compare(patterns, re, &cache, random_text(), i % 3 == 0);
    lazydfa_cache_close(&cache);
    lazydfa_regex_close(&regex);
}

}  // namespace

int main(int argc, char **argv) {
    long searches = argc > 1 ? std::atol(argv[1]) : 400000;
    random_now = argc > 2 ? std::strtoull(argv[2], nullptr, 10) : 1;
    for (long i = 0; i < searches / 10; i++) {
        int names = 0;
        std::vector<Pattern> patterns(1, make(4, names));
        // RE2 allows no name twice, in two patterns either.
        if (below(2)) patterns.push_back(make(4, names));
        compare_patterns(patterns);
    }
    std::printf("%ld searches, %ld matches, %ld groups, %ld differences\n", compared, matched, spans, differences);
    return differences != 0;
}
