// Runs the batches of generate.py with the library and with RE2::Set, turn by turn, compares all masks, and prints the figures.
// usage: compare FOLDER ROUNDS
#include <re2/re2.h>
#include <re2/set.h>

#include <algorithm>
#include <cstdio>
#include <cstdlib>
#include <ctime>
#include <fstream>
#include <iterator>
#include <map>
#include <memory>
#include <string>
#include <vector>

#include "../bindings/c/line_batch.h"

using Bytes = std::vector<uint8_t>;
using Masks = std::vector<uint64_t>;

static void fail(const std::string &what)
{
    fprintf(stderr, "compare: %s\n", what.c_str());
    exit(1);
}

static Bytes load(const std::string &path)
{
    std::ifstream file(path, std::ios::binary);
    if (!file)
        fail("cannot read " + path);
    return Bytes(std::istreambuf_iterator<char>(file), {});
}

// processor time of this program, so that others on the machine count for less
static double now()
{
    timespec t;
    clock_gettime(CLOCK_PROCESS_CPUTIME_ID, &t);
    return t.tv_sec * 1e9 + t.tv_nsec;
}

// Rules as RE2 takes them: after each change a new set is compiled, but the first rules make one set.
class Peer {
  public:
    Masks run(const Bytes &batch)
    {
        Masks masks;
        bool read = false;
        for (const uint8_t *at = batch.data(); at < batch.data() + batch.size();) {
            if (*at == 'L') {
                size_t length = at[1] << 8 | at[2];
                if (!read)
                    compile();
                read = true;
                masks.push_back(match(at + 3, length));
                at += 3 + length;
                continue;
            }
            if (*at == 'A') {
                size_t length = at[4] << 8 | at[5];
                rules[at[1]] = std::string(at + 6, at + 6 + length);
                at += 6 + length;
            } else {
                rules.erase(at[1]);
                at += 2;
            }
            if (read)
                compile();
        }
        return masks;
    }

  private:
    std::map<int, std::string> rules;
    std::unique_ptr<re2::RE2::Set> set;
    std::vector<int> numbers, hits;

    void compile()
    {
        re2::RE2::Options options;
        options.set_encoding(re2::RE2::Options::EncodingLatin1);
        options.set_dot_nl(true);
        options.set_never_capture(true);
        set = std::make_unique<re2::RE2::Set>(options, re2::RE2::ANCHOR_BOTH);
        numbers.clear();
        for (const auto &[number, text] : rules) {
            if (set->Add(text, nullptr) < 0)
                fail("RE2 refuses " + text);
            numbers.push_back(number);
        }
        if (!set->Compile())
            fail("RE2 has no memory");
    }

    uint64_t match(const uint8_t *text, size_t length)
    {
        uint64_t mask = 0;
        if (set->Match(re2::StringPiece(reinterpret_cast<const char *>(text), length), &hits))
            for (int hit : hits)
                mask |= uint64_t{1} << numbers[hit];
        return mask;
    }
};

struct Workload {
    std::string name;
    Bytes batch, patterns;
    Masks masks; // the library's
    size_t lines = 0;
    std::vector<double> ours, theirs;
};

static double run_ours(Workload &w)
{
    line_batch_outcome outcome;
    double begin = now();
    uint32_t status = line_batch_run(w.batch.data(), w.batch.size(), w.masks.data(), w.masks.size(), &outcome);
    double took = now() - begin;
    if (status != LINE_BATCH_RUN || outcome.refused != 0)
        fail("batch " + w.name + " was not run whole");
    w.lines = outcome.lines;
    return took;
}

static double run_theirs(Workload &w)
{
    Peer peer;
    double begin = now();
    Masks masks = peer.run(w.patterns);
    double took = now() - begin;
    if (masks.size() != w.lines || !std::equal(masks.begin(), masks.end(), w.masks.begin()))
        fail("the masks of " + w.name + " differ");
    return took;
}

static uint64_t checksum(const Workload &w)
{
    uint64_t sum = 0;
    for (size_t i = 0; i < w.lines; i++) {
        sum = (sum ^ w.masks[i]) * 0x9E3779B97F4A7C15u;
        sum ^= sum >> 32;
    }
    return sum;
}

static double median(std::vector<double> times)
{
    std::sort(times.begin(), times.end());
    return times[times.size() / 2];
}

// the median of times less a base, in shares, and the least and the greatest
static std::string row(const std::vector<double> &times, double base, double shares)
{
    auto [least, greatest] = std::minmax_element(times.begin(), times.end());
    char text[96];
    snprintf(text, sizeof text, "%.1f (%.1f to %.1f)", (median(times) - base) / shares, (*least - base) / shares,
             (*greatest - base) / shares);
    return text;
}

int main(int argc, char **argv)
{
    if (argc != 3)
        fail("usage: compare FOLDER ROUNDS");
    std::vector<Workload> all;
    for (const char *name : {"start", "few", "many", "changes", "shift", "busy"}) {
        std::string path = std::string(argv[1]) + "/" + name;
        all.push_back({name, load(path + ".batch"), load(path + ".patterns"), Masks(300000), 0, {}, {}});
    }
    for (int round = 0; round < atoi(argv[2]); round++)
        for (Workload &w : all) {
            w.ours.push_back(run_ours(w));
            w.theirs.push_back(run_theirs(w));
        }
    printf("| | library | RE2::Set | checksum of both |\n|---|---|---|---|\n");
    for (const Workload &w : all)
        if (w.lines > 1)
            printf("| %s: ns for each line | %s | %s | %016llx |\n", w.name.c_str(), row(w.ours, 0, w.lines).c_str(),
                   row(w.theirs, 0, w.lines).c_str(), (unsigned long long)checksum(w));
    const Workload &start = all[0], &changes = all[3];
    printf("| changes: µs for each change | %s | %s | |\n", row(changes.ours, median(start.ours), 200e3).c_str(),
           row(changes.theirs, median(start.theirs), 200e3).c_str());
    printf("| start: µs for 24 rules and a line | %s | %s | |\n", row(start.ours, 0, 1e3).c_str(), row(start.theirs, 0, 1e3).c_str());
}
