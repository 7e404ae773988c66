// Audits a log with times as ./fdb_audit does, by the same five rules, in plain C++ over simdjson: it tells the first fault
// without its reason, or counts what a verdict stands on. bench/run measures ./fdb_audit beside it.
//
//     g++ -O2 -march=x86-64-v2 -std=c++17 -o plain_audit bench/plain_audit.cpp -lsimdjson && ./plain_audit LOG
#include <simdjson.h>

#include <algorithm>
#include <cstdint>
#include <cstdio>
#include <string>
#include <tuple>
#include <unordered_map>
#include <vector>

using u64 = uint64_t;
enum Kind : uint8_t { Read, Commit, Ask, Report };
constexpr const char *kinds[] = {"read", "commit", "ask", "report"};
constexpr u64 never = UINT64_MAX;

struct Line {
    u64 version, began, ended;
    uint32_t client, place;
    Kind kind;
    bool draws() const { return kind == Commit || kind == Ask; }
    bool reports() const { return kind == Commit || kind == Report; }
    bool shows() const { return kind != Ask; }
};

// What a line knew: the greatest version shown, and the greatest drawn.
struct Known {
    u64 shown = 0, drawn = 0;
    void add(const Line &line) {
        if (line.shows()) shown = std::max(shown, line.version);
        if (line.draws()) drawn = std::max(drawn, line.version);
    }
    void add(const Known &other) {
        shown = std::max(shown, other.shown);
        drawn = std::max(drawn, other.drawn);
    }
};

static std::vector<Line> read_log(const char *path, uint32_t &clients) {
    auto text = simdjson::padded_string::load(path).value();
    simdjson::ondemand::parser parser;
    std::unordered_map<std::string, uint32_t> names;
    std::vector<Line> lines;
    auto documents = parser.iterate_many(text, 1 << 20).value();
    for (auto document : documents) {
        Line line{0, 0, never, UINT32_MAX, uint32_t(lines.size()), Read};
        for (auto member : document.get_object()) {
            std::string_view key = member.unescaped_key().value();
            if (key == "client") {
                std::string name(member.value().get_string().value());
                line.client = names.try_emplace(std::move(name), names.size()).first->second;
            } else if (key == "began") {
                line.began = member.value().get_uint64().value();
            } else if (key == "ended") {
                if (!member.value().is_null()) line.ended = member.value().get_uint64().value();
            } else {
                for (int kind = Read; kind <= Report; kind++)
                    if (key == kinds[kind]) line.kind = Kind(kind), line.version = member.value().get_uint64().value();
            }
        }
        lines.push_back(line);
    }
    clients = names.size();
    return lines;
}

using Moments = std::vector<std::pair<u64, uint32_t>>; // a time, and the place of a line

// Of the ends before each begin: what they let be known, and how many there are. With `strict` an end has to be earlier
// by more than the margin; else at the same moment the line above comes first.
template <class Add> static void sweep(const Moments &begun, const Moments &ended, u64 margin, bool strict, Add add) {
    size_t past = 0;
    for (const auto &begin : begun) {
        size_t from = past;
        while (past < ended.size() && ended[past] < begin
               && (!strict || begin.first - ended[past].first > margin)) past++;
        add(begin.second, from, past);
    }
}

static void sort(Moments &moments) { std::sort(moments.begin(), moments.end()); }

// For each line what came before it, and of how many pairs one did.
static std::vector<Known> know(const std::vector<Line> &lines, uint32_t clients, u64 margin, u64 &ordered) {
    std::vector<Known> known(lines.size());
    Moments begun, ended;
    std::vector<std::pair<Moments, Moments>> own(clients);
    for (const Line &line : lines) {
        begun.emplace_back(line.began, line.place);
        if (line.ended != never) ended.emplace_back(line.ended, line.place);
        if (line.client == UINT32_MAX) continue;
        own[line.client].first.emplace_back(line.began, line.place);
        if (line.ended != never) own[line.client].second.emplace_back(line.ended, line.place);
    }
    sort(begun), sort(ended);
    Known all;
    sweep(begun, ended, margin, true, [&](uint32_t place, size_t from, size_t to) {
        for (; from < to; from++) all.add(lines[ended[from].second]);
        known[place] = all, ordered += to;
    });
    for (auto &[begins, ends] : own) {
        sort(begins), sort(ends);
        Known earlier;
        sweep(begins, ends, 0, false, [&](uint32_t place, size_t from, size_t to) {
            for (; from < to; from++) earlier.add(lines[ends[from].second]);
            known[place].add(earlier), ordered += to;
        });
        // (these were counted among all)
        sweep(begins, ends, margin, true, [&](uint32_t, size_t, size_t to) { ordered -= to; });
    }
    return known;
}

int main(int count, char **words) {
    if (count < 2) return 2;
    u64 margin = count > 2 ? std::stoull(words[2]) : 0, ordered = 0, unreported = 0, of_kind[4] = {};
    uint32_t clients;
    std::vector<Line> lines = read_log(words[1], clients);
    std::vector<Known> known = know(lines, clients, margin, ordered);
    std::vector<const Line *> by_version;
    for (const Line &line : lines) by_version.push_back(&line), of_kind[line.kind]++;
    std::sort(by_version.begin(), by_version.end(), [](auto *a, auto *b) {
        return std::tie(a->version, a->client) < std::tie(b->version, b->client);
    });
    std::tuple<uint32_t, const char *> fault{UINT32_MAX, ""};
    auto tell = [&](const Line *line, const char *what) { if (line->place <= std::get<0>(fault)) fault = {line->place, what}; };
    for (size_t first = 0, last; first < by_version.size(); first = last) {
        u64 version = by_version[first]->version, draws = 0, asks = 0;
        bool is_read = false, is_reported = false, is_raised = false;
        for (last = first; last < by_version.size() && by_version[last]->version == version; last++) {
            const Line *line = by_version[last];
            draws += line->draws(), asks += line->kind == Ask, is_read |= line->kind == Read;
            if (line->reports()) is_reported = true, is_raised |= known[line->place].shown < version;
        }
        unreported += is_read && !is_reported && version != 0;
        for (size_t at = first, next; at < last; at = next) {
            bool is_own = false;
            for (next = at; next < last && by_version[next]->client == by_version[at]->client; next++)
                is_own |= by_version[next]->draws();
            for (size_t it = at; it < next; it++) {
                const Line *line = by_version[it];
                const Known &knew = known[line->place];
                // (the last that is told of a line counts: those that go first by name come last)
                if (line->kind == Report && (draws ? !is_own : version == 0)) tell(line, "Stray");
                if (line->draws() && draws > 1 && (asks || line->kind == Ask)) tell(line, "Twice");
                if (line->draws() && version <= std::max(knew.shown, knew.drawn)) tell(line, "NotAbove");
                if (line->kind == Read && version != 0 && is_reported && !is_raised) tell(line, "Wrong");
                if (line->kind == Read && version < knew.shown) tell(line, "Order");
            }
        }
    }
    if (std::get<0>(fault) != UINT32_MAX) {
        printf("audit fault: %s %u\n", std::get<1>(fault), std::get<0>(fault) + 1);
        return 4;
    }
    printf("audit ok lines %zu timed %zu reads %lu commits %lu asks %lu reports %lu learns 0 unreported %lu ordered %lu\n",
           lines.size(), lines.size(), of_kind[Read], of_kind[Commit], of_kind[Ask], of_kind[Report], unreported, ordered);
    return 0;
}
