// Times the same questions and sheets through each library, compares the answers, and prints the rows of tables.
#include <algorithm>
#include <array>
#include <cstdio>
#include <cstdlib>
#include <ctime>
#include <fstream>
#include <map>
#include <sstream>
#include <string>
#include <vector>

#include "libraries.h"

namespace {

struct Question {
  vault_site site;
  vault_code code;
  uint16_t start;
  std::vector<uint16_t> nodes;  // eight to a block
  std::vector<uint8_t> lens;

  // 0, or the set of blocks in the way of the last one.
  uint32_t admit(Admit ask) const {
    uint32_t set = 0;
    size_t before = lens.size() - 1;
    ask(&site, code.c, nodes.data(), 8 * before, lens.data(), before, nodes.data() + 8 * before, lens[before], &set);
    return set;
  }

  size_t plan(Plan ask, uint16_t *out) const {
    size_t len = 0;
    ask(&site, &code, nodes.data(), nodes.size(), lens.data(), lens.size(), start, out, 24, &len);
    return len;
  }
};

using Questions = std::vector<Question>;

struct Flows {
  double nanoseconds;
  size_t step;
  std::vector<uint32_t> answers;
};

std::vector<std::pair<std::string, Questions>> read_questions(const std::string &path) {
  std::vector<std::pair<std::string, Questions>> classes;
  std::ifstream in(path);
  for (std::string text; std::getline(in, text);) {
    std::istringstream words(text);
    std::string name;
    Question q;
    size_t blocks;
    words >> name >> q.site.racks >> q.site.each >> q.site.targets >> q.code.c >> q.code.n >> q.code.k >> q.start >> blocks;
    for (size_t b = 0; b < blocks; b++) {
      unsigned len, node;
      words >> len;
      q.lens.push_back(len);
      for (unsigned i = 0; i < len; i++) {
        words >> node;
        q.nodes.push_back(node);
      }
      q.nodes.resize(8 * q.lens.size());
    }
    if (classes.empty() || classes.back().first != name) classes.push_back({name, {}});
    classes.back().second.push_back(q);
  }
  return classes;
}

// What networkx answered, and how long it took.
std::map<std::string, Flows> read_flows(const std::string &path) {
  std::map<std::string, Flows> flows;
  std::ifstream in(path);
  for (std::string text; std::getline(in, text);) {
    std::istringstream words(text);
    std::string name;
    Flows f;
    words >> name >> f.nanoseconds >> f.step;
    f.nanoseconds *= 1e9;
    for (uint32_t w; words >> w;) f.answers.push_back(w);
    flows[name] = f;
  }
  return flows;
}

volatile uint64_t sink;

// The processor time of this program in nanoseconds: other programs on the machine do not count.
double now() {
  timespec t;
  clock_gettime(CLOCK_PROCESS_CPUTIME_ID, &t);
  return t.tv_sec * 1e9 + t.tv_nsec;
}

// The nanoseconds of one question, over so many passes through all of them.
template <class Q, class F> double one_round(const std::vector<Q> &questions, size_t passes, F ask) {
  double begin = now();
  uint64_t sum = 0;
  for (size_t p = 0; p < passes; p++)
    for (const Q &q : questions) sum += ask(q);
  double took = now() - begin;
  sink = sum;
  return took / (passes * questions.size());
}

// As many passes as take ten milliseconds or more.
template <class Q, class F> size_t enough(const std::vector<Q> &questions, F ask) {
  size_t passes = 1;
  while (one_round(questions, passes, ask) * passes * questions.size() < 10e6) passes *= 2;
  return passes;
}

// The shortest of many rounds for each of some ways to answer; they take turns, so that what else the machine does falls on
// all of them alike.
template <class Q, class... F> std::array<double, sizeof...(F)> shortest(const std::vector<Q> &questions, F... asks) {
  std::array<size_t, sizeof...(F)> passes{enough(questions, asks)...};
  std::array<double, sizeof...(F)> best;
  best.fill(1e18);
  for (int rounds = 0; rounds < 50; rounds++) {
    size_t i = 0;
    ((best[i] = std::min(best[i], one_round(questions, passes[i], asks)), i++), ...);
  }
  return best;
}

void fail(const std::string &name, size_t i, const char *what) {
  fprintf(stderr, "%s, question %zu: %s\n", name.c_str(), i, what);
  exit(1);
}

void compare_plans(const std::string &name, const Questions &questions) {
  for (size_t i = 0; i < questions.size(); i++) {
    uint16_t ours[24] = {0}, peers[24] = {0};
    const Question &q = questions[i];
    if (q.plan(vault_plan, ours) != q.code.n) fail(name, i, "no whole plan");
    if (q.plan(peer_plan, peers) != q.code.n || !std::equal(ours, ours + 24, peers)) fail(name, i, "the plans differ");
  }
}

void compare_words(const std::string &name, const Questions &questions, const Flows &flows) {
  bool refused = name.rfind("refused", 0) == 0;
  for (size_t i = 0; i < questions.size(); i++) {
    uint32_t word = questions[i].admit(vault_admit);
    if ((word != 0) != refused) fail(name, i, "admitted and refused are mixed up");
    if (questions[i].admit(peer_admit) != word) fail(name, i, "the Rust peer differs");
    if (questions[i].admit(lemon_admit) != word) fail(name, i, "LEMON differs");
    if (i % flows.step == 0 && flows.answers.at(i / flows.step) != word) fail(name, i, "networkx differs");
  }
}

const char *label(const std::string &name) {
  static const std::map<std::string, const char *> labels = {
      {"filling", "offer admitted, mean of 0 to 15 blocks before it"},
      {"admitted", "offer admitted, 15 blocks before it"},
      {"admitted_crowded", "the same, all lists within 16 racks"},
      {"refused_9", "offer refused, 15 blocks before it, tight set of 9"},
      {"refused_16", "offer refused, 15 blocks before it, tight set of 16"},
      {"seal", "seal: first choice and 8 parity nodes"},
      {"seal_crowded", "the same, all lists within 16 racks"},
      {"admitted_k4", "offer admitted, 3 blocks before it"},
      {"admitted_k8", "offer admitted, 7 blocks before it"},
      {"admitted_k12", "offer admitted, 11 blocks before it"},
      {"refused_k4", "offer refused, tight set of 4, all of them"},
      {"refused_k8", "offer refused, tight set of 8, all of them"},
      {"refused_k12", "offer refused, tight set of 12, all of them"},
      {"seal_k4", "seal, k = 4"},
      {"seal_k8", "seal, k = 8"},
      {"seal_k12", "seal, k = 12"},
  };
  return labels.at(name);
}

void print_row(const std::string &name, double ours, double peer, double lemon, double flows) {
  printf("| %s | %.2f | %.2f | %.2f |", label(name), ours / 1000, peer / 1000, ours / peer);
  if (lemon > 0)
    printf(" %.2f | %.1f | %.0f | %.0f |\n", lemon / 1000, lemon / ours, flows / 1000, flows / ours);
  else
    printf(" | | | |\n");
  fflush(stdout);
}

void time_questions(const std::string &folder) {
  puts("| question | library µs | Rust µs | library ÷ Rust | LEMON µs | LEMON ÷ library | networkx µs | networkx ÷ library |");
  puts("|---|---|---|---|---|---|---|---|");
  auto flows = read_flows(folder + "/networkx");
  for (auto &[name, questions] : read_questions(folder + "/questions")) {
    if (name.rfind("seal", 0) == 0) {
      compare_plans(name, questions);
      uint16_t out[24];
      auto [ours, peer] = shortest(
          questions, [&](const Question &q) { return q.plan(vault_plan, out) + out[3]; },
          [&](const Question &q) { return q.plan(peer_plan, out) + out[3]; });
      print_row(name, ours, peer, 0, 0);
    } else {
      compare_words(name, questions, flows.at(name));
      auto [ours, peer, lemon] = shortest(
          questions, [](const Question &q) { return q.admit(vault_admit); },
          [](const Question &q) { return q.admit(peer_admit); }, [](const Question &q) { return q.admit(lemon_admit); });
      print_row(name, ours, peer, lemon, flows.at(name).nanoseconds);
    }
  }
}

struct Sheet {
  std::string text;

  size_t run(RunSheet ask, std::string &out) const {
    return ask(reinterpret_cast<const uint8_t *>(text.data()), text.size(), reinterpret_cast<uint8_t *>(&out[0]), out.size());
  }
};

std::vector<Sheet> read_sheets(const std::string &folder, int kibibytes) {
  std::vector<Sheet> sheets;
  for (int i = 0; i < 8; i++) {
    std::ifstream in(folder + "/sheet_" + std::to_string(kibibytes) + "_" + std::to_string(i));
    std::ostringstream text;
    text << in.rdbuf();
    sheets.push_back({text.str()});
  }
  return sheets;
}

std::string answers(const Sheet &sheet, RunSheet ask) {
  std::string out(1 << 20, ' ');
  out.resize(sheet.run(ask, out));
  return out;
}

void time_sheets(const std::string &folder) {
  puts("| sheets | calls | refused | library µs | Rust µs | library ÷ Rust | library µs for a call |");
  puts("|---|---|---|---|---|---|---|");
  std::string out(1 << 20, ' ');
  for (int kibibytes : {8, 16, 32, 64}) {
    auto sheets = read_sheets(folder, kibibytes);
    size_t calls = 0, refused = 0;
    for (size_t i = 0; i < sheets.size(); i++) {
      std::string ours = answers(sheets[i], vault_run_sheet);
      if (ours != answers(sheets[i], peer_run_sheet)) fail("sheet_" + std::to_string(kibibytes), i, "the answers differ");
      std::istringstream lines(ours);
      std::string line;
      std::getline(lines, line);
      while (std::getline(lines, line)) calls++, refused += line.rfind("ok,", 0) != 0;
    }
    auto [ours, peer] = shortest(
        sheets, [&](const Sheet &s) { return s.run(vault_run_sheet, out); },
        [&](const Sheet &s) { return s.run(peer_run_sheet, out); });
    double each = double(calls) / sheets.size();
    printf("| %d KiB | %.0f | %.0f | %.0f | %.0f | %.2f | %.2f |\n", kibibytes, each, double(refused) / sheets.size(), ours / 1000,
           peer / 1000, ours / peer, ours / 1000 / each);
    fflush(stdout);
  }
}

}  // namespace

int main(int argc, char **argv) {
  if (argc != 2) return 2;
  time_questions(argv[1]);
  puts("");
  time_sheets(argv[1]);
}
