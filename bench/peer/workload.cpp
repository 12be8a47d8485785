// workload gen SEED: evaluates the generated hopping chain of a seed and prints its scalar, sites and steps; on standard
// error the seconds of the contraction and the number of products.
#include <cstdint>
#include <cstdio>
#include <cstdlib>

#include "engine.hpp"

static Leg leg(bool out, long least, long greatest, int dim) {
  Leg l;
  l.out = out;
  for (long q = least; q <= greatest; ++q) l.sectors.push_back({{q}, dim});
  return l;
}

// All admissible tuples of the legs, ascending.
static void admissible(const std::vector<Leg>& legs, long left, Tuple& tuple, std::vector<Tuple>& out) {
  if (tuple.size() == legs.size()) {
    if (left == 0) out.push_back(tuple);
    return;
  }
  const Leg& l = legs[tuple.size()];
  for (size_t s = 0; s < l.sectors.size(); ++s) {
    long q = l.sectors[s].first[0];
    tuple.push_back((int)s);
    admissible(legs, left - (l.out ? q : -q), tuple, out);
    tuple.pop_back();
  }
}

struct Workload {
  int sites, filled, width;
  uint64_t x;

  explicit Workload(long seed) : sites(8 + int(seed % 25)), filled(sites / 2), x(seed % 2147483648u) {
    width = sites <= 12 ? 8 : sites <= 16 ? 4 : sites <= 22 ? 2 : 1;
  }
  long draw() {
    x = (1103515245ull * x + 12345) % 2147483648ull;
    return long((x / 65536) % 5) - 2;
  }
  Leg link(int j, bool out) const {
    int half = j / 2;
    return leg(out, std::max({0, j - (sites - filled), half - 1}), std::min({j, filled, half + 1}), width);
  }
  std::vector<Tensor> state() {
    std::vector<Tensor> chain;
    for (int j = 1; j <= sites; ++j) {
      Tensor t;
      if (j > 1) t.legs.push_back(link(j - 1, true));
      t.legs.push_back(leg(true, 0, 1, 1));
      if (j < sites) t.legs.push_back(link(j, false));
      t.flux = {j == sites ? filled : 0};
      std::vector<Tuple> tuples;
      Tuple tuple;
      admissible(t.legs, t.flux[0], tuple, tuples);
      for (auto& u : tuples) {
        long size = 1;
        for (size_t i = 0; i < u.size(); ++i) size *= t.legs[i].sectors[u[i]].second;
        Block b{u, std::vector<Gauss>(size)};
        for (auto& e : b.entries) e = Gauss{draw(), 0};
        t.blocks.push_back(std::move(b));
      }
      chain.push_back(std::move(t));
    }
    return chain;
  }
};

// The automaton of the hopping sum. A link's states: not begun, done, C to come, Cdag to come; their sectors are
// -1 (Cdag to come), 0 (not begun, done) and 1 (C to come).
enum State { NotBegun, Done, AwaitsC, AwaitsCdag };
static int sector(int state) { return state == AwaitsCdag ? 0 : state == AwaitsC ? 2 : 1; }
static int offset(int state) { return state == Done ? 1 : 0; }

static Tensor automaton(int site, int sites, long density) {
  Tensor t;
  bool has_left = site > 1, has_right = site < sites;
  auto link = [](bool out) { return Leg{out, {{{-1}, 1}, {{0}, 2}, {{1}, 1}}}; };
  if (has_left) t.legs.push_back(link(true));
  t.legs.push_back(leg(true, 0, 1, 1));
  t.legs.push_back(leg(false, 0, 1, 1));
  if (has_right) t.legs.push_back(link(false));
  t.flux = {0};
  std::map<Tuple, std::vector<Gauss>> blocks;
  auto add = [&](int left, int right, int row, int column, long value) {
    if ((has_left ? left == Done && right == NotBegun : left != NotBegun) || (!has_right && right != Done)) return;
    Tuple tuple;
    if (has_left) tuple.push_back(sector(left));
    tuple.push_back(row);
    tuple.push_back(column);
    if (has_right) tuple.push_back(sector(right));
    long rows = has_left ? (sector(left) == 1 ? 2 : 1) : 1, columns = has_right ? (sector(right) == 1 ? 2 : 1) : 1;
    auto& e = blocks[tuple];
    if (e.empty()) e.assign(rows * columns, Gauss{0, 0});
    e[(has_left ? offset(left) : 0) * columns + (has_right ? offset(right) : 0)].re += value;
  };
  for (int s = 0; s < 2; ++s) {
    if (has_right) add(NotBegun, NotBegun, s, s, 1);
    if (has_left) add(Done, Done, s, s, 1);
  }
  add(NotBegun, Done, 1, 1, density);
  if (has_right) {
    add(NotBegun, AwaitsC, 1, 0, 1);
    add(NotBegun, AwaitsCdag, 0, 1, -1);
  }
  if (has_left) {
    add(AwaitsC, Done, 0, 1, 1);
    add(AwaitsCdag, Done, 1, 0, 1);
  }
  for (auto& p : blocks) t.blocks.push_back({p.first, p.second});
  return t;
}

static Tensor conjugate(const Tensor& a) {
  Tensor r;
  r.flux = {-a.flux[0]};
  std::vector<int> order;
  for (int i = (int)a.legs.size() - 1; i >= 0; --i) {
    order.push_back(i);
    r.legs.push_back(Leg{!a.legs[i].out, a.legs[i].sectors});
  }
  for (auto& b : a.blocks) {
    Block c{taken(b.tuple, order), {}};
    moved(a, b, order, c.entries);
    for (auto& e : c.entries) e.im = -e.im;
    r.blocks.push_back(std::move(c));
  }
  sort_blocks(r);
  return r;
}

int main(int count, char** words) {
  if (count < 3) return 2;
  group = {{0, true}};
  Workload w(atol(words[2]));
  int n = w.sites;
  std::vector<long> densities;
  for (int j = 0; j < n; ++j) densities.push_back(w.draw());
  std::vector<Tensor> bra = w.state(), ket = w.state();
  double begun = seconds();
  Network net;
  auto add = [&](Tensor t, std::vector<int> labels) {
    net.tensors.push_back(std::move(t));
    net.labels.push_back(std::move(labels));
  };
  auto with_links = [&](int j, int link, std::vector<int> middle) {
    if (j > 1) middle.insert(middle.begin(), 5 * (j - 1) + link);
    if (j < n) middle.push_back(5 * j + link);
    return middle;
  };
  for (int j = n; j >= 1; --j) {
    std::vector<int> labels = with_links(j, -2, {5 * j - 4});
    std::reverse(labels.begin(), labels.end());
    add(conjugate(bra[j - 1]), labels);
  }
  for (int j = 1; j <= n; ++j) add(automaton(j, n, densities[j - 1]), with_links(j, -1, {5 * j - 4, 5 * j - 3}));
  for (int j = 1; j <= n; ++j) add(ket[j - 1], with_links(j, 0, {5 * j - 3}));
  std::vector<int> order;
  for (int label = 1; label <= 5 * n; ++label) order.push_back(label);
  int steps = net.contract_all(order);
  const Tensor& last = net.tensors[0];
  Gauss value = last.blocks.empty() ? Gauss{0, 0} : last.blocks[0].entries[0];
  printf("{\"scalar\":[\"%s\",\"%s\"],\"sites\":%d,\"steps\":%d}\n", decimal(value.re).c_str(),
         decimal(value.im).c_str(), n, steps);
  fprintf(stderr, "contract %.6f products %lld\n", seconds() - begun, products);
}
