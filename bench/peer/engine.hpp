// A plain block-sparse engine over Gaussian integers of 128-bit parts, as a good C++ programmer writes it in a day:
// no proof, no checks, no overflow told. It is the yardstick of bench/run.
#pragma once
#include <algorithm>
#include <chrono>
#include <map>
#include <string>
#include <unordered_map>
#include <utility>
#include <vector>

typedef __int128 i128;
typedef std::vector<long> Charge;
typedef std::vector<int> Tuple;
typedef std::vector<std::pair<int, int>> Pairs;

struct Gauss {
  i128 re, im;
};
struct Factor {
  long n;  // 0 for U(1)
  bool fermion;
};
inline std::vector<Factor> group;
struct Leg {
  bool out;
  std::vector<std::pair<Charge, int>> sectors;
};
struct Block {
  Tuple tuple;
  std::vector<Gauss> entries;
};
struct Tensor {
  std::vector<Leg> legs;
  Charge flux;
  std::vector<Block> blocks;
};
inline long long products = 0;

inline double seconds() {
  return std::chrono::duration<double>(std::chrono::steady_clock::now().time_since_epoch()).count();
}

inline bool is_odd(const Charge& c) {
  bool odd = false;
  for (size_t i = 0; i < group.size(); ++i)
    if (group[i].fermion) odd ^= c[i] & 1;
  return odd;
}

inline Charge plus(const Charge& a, const Charge& b) {
  Charge c(a.size());
  for (size_t i = 0; i < a.size(); ++i) {
    c[i] = a[i] + b[i];
    if (group[i].n) c[i] %= group[i].n;
  }
  return c;
}

inline std::string decimal(i128 x) {
  if (x == 0) return "0";
  bool minus = x < 0;
  unsigned __int128 u = minus ? -(unsigned __int128)x : (unsigned __int128)x;
  char text[48];
  int at = 48;
  for (; u; u /= 10) text[--at] = char('0' + int(u % 10));
  if (minus) text[--at] = '-';
  return std::string(text + at, 48 - at);
}

inline int dim(const Tensor& t, int leg, const Tuple& tuple) {
  return t.legs[leg].sectors[tuple[leg]].second;
}

inline bool odd_at(const Tensor& t, int leg, const Tuple& tuple) {
  return is_odd(t.legs[leg].sectors[tuple[leg]].first);
}

// The entries of a block with its legs in another order.
inline void moved(const Tensor& t, const Block& b, const std::vector<int>& order, std::vector<Gauss>& out) {
  int n = (int)order.size();
  std::vector<long> whole(n, 1), stride(n), size(n), at(n, 0);
  for (int i = n - 2; i >= 0; --i) whole[i] = whole[i + 1] * dim(t, i + 1, b.tuple);
  bool same = true;
  for (int k = 0; k < n; ++k) {
    stride[k] = whole[order[k]];
    size[k] = dim(t, order[k], b.tuple);
    same &= order[k] == k;
  }
  if (same) {
    out = b.entries;
    return;
  }
  out.resize(b.entries.size());
  long offset = 0;
  for (size_t p = 0; p < out.size(); ++p) {
    out[p] = b.entries[offset];
    for (int k = n - 1; k >= 0; --k) {
      offset += stride[k];
      if (++at[k] < size[k]) break;
      offset -= stride[k] * size[k];
      at[k] = 0;
    }
  }
}

// The exchange sign: whether an odd number of pairs of odd legs is reversed in the goal.
inline bool is_minus(const std::vector<char>& odd, const std::vector<int>& goal) {
  bool minus = false;
  for (size_t x = 0; x < goal.size(); ++x)
    if (odd[goal[x]])
      for (size_t y = x + 1; y < goal.size(); ++y)
        if (odd[goal[y]] && goal[y] < goal[x]) minus = !minus;
  return minus;
}

inline void append_couple(std::vector<int>& goal, bool first_is_out, int first, int second) {
  goal.push_back(first_is_out ? second : first);
  goal.push_back(first_is_out ? first : second);
}

inline Tuple taken(const Tuple& t, const std::vector<int>& places) {
  Tuple out;
  for (int i : places) out.push_back(t[i]);
  return out;
}

inline std::vector<int> left_over(size_t count, const std::vector<int>& used) {
  std::vector<int> out;
  for (int i = 0; i < (int)count; ++i)
    if (!std::count(used.begin(), used.end(), i)) out.push_back(i);
  return out;
}

struct TupleHash {
  size_t operator()(const Tuple& t) const {
    size_t h = 1469598103934665603ull;
    for (int x : t) {
      h ^= (size_t)x + 0x9e37;
      h *= 1099511628211ull;
    }
    return h;
  }
};

// out[x][y] += (-1)^minus sum over z of a[x][z] b[z][y]
inline void add_product(const std::vector<Gauss>& a, const std::vector<Gauss>& b, bool minus, long rows, long summed,
                        long columns, std::vector<Gauss>& out) {
  if (out.empty()) out.assign(rows * columns, Gauss{0, 0});
  products += rows * summed * columns;
  for (long x = 0; x < rows; ++x)
    for (long z = 0; z < summed; ++z) {
      Gauss p = a[x * summed + z];
      if (p.re == 0 && p.im == 0) continue;
      if (minus) p = Gauss{-p.re, -p.im};
      Gauss* o = &out[x * columns];
      const Gauss* q = &b[z * columns];
      for (long y = 0; y < columns; ++y) {
        o[y].re += p.re * q[y].re - p.im * q[y].im;
        o[y].im += p.re * q[y].im + p.im * q[y].re;
      }
    }
}

// Two tensors contracted over pairs of legs; between: whether what stands between the two is odd.
inline Tensor contract(const Tensor& a, const Tensor& b, const Pairs& shared, bool between) {
  std::vector<int> shared_a, shared_b, goal;
  int n = (int)a.legs.size();
  for (auto& p : shared) {
    shared_a.push_back(p.first);
    shared_b.push_back(p.second);
    append_couple(goal, a.legs[p.first].out, p.first, n + p.second);
  }
  std::vector<int> kept_a = left_over(n, shared_a), kept_b = left_over(b.legs.size(), shared_b);
  Tensor r;
  r.flux = plus(a.flux, b.flux);
  for (int i : kept_a) {
    r.legs.push_back(a.legs[i]);
    goal.push_back(i);
  }
  for (int i : kept_b) {
    r.legs.push_back(b.legs[i]);
    goal.push_back(n + i);
  }
  std::vector<int> order_a = kept_a, order_b = shared_b;
  order_a.insert(order_a.end(), shared_a.begin(), shared_a.end());
  order_b.insert(order_b.end(), kept_b.begin(), kept_b.end());
  std::unordered_map<Tuple, std::vector<int>, TupleHash> index;
  std::vector<std::vector<Gauss>> matrices(b.blocks.size());
  for (size_t j = 0; j < b.blocks.size(); ++j) {
    index[taken(b.blocks[j].tuple, shared_b)].push_back((int)j);
    moved(b, b.blocks[j], order_b, matrices[j]);
  }
  std::map<Tuple, std::vector<Gauss>> out;
  std::vector<Gauss> matrix;
  std::vector<char> odd(goal.size());
  for (auto& x : a.blocks) {
    auto found = index.find(taken(x.tuple, shared_a));
    if (found == index.end()) continue;
    moved(a, x, order_a, matrix);
    long rows = 1, summed = 1;
    for (int i : kept_a) rows *= dim(a, i, x.tuple);
    for (int i : shared_a) summed *= dim(a, i, x.tuple);
    for (int i = 0; i < n; ++i) odd[i] = odd_at(a, i, x.tuple);
    for (int j : found->second) {
      const Block& y = b.blocks[j];
      long columns = 1;
      for (int i : kept_b) columns *= dim(b, i, y.tuple);
      for (size_t i = 0; i < b.legs.size(); ++i) odd[n + i] = odd_at(b, (int)i, y.tuple);
      Tuple t = taken(x.tuple, kept_a), more = taken(y.tuple, kept_b);
      t.insert(t.end(), more.begin(), more.end());
      bool minus = (between && is_odd(b.flux)) ^ is_minus(odd, goal);
      add_product(matrix, matrices[j], minus, rows, summed, columns, out[t]);
    }
  }
  for (auto& p : out) r.blocks.push_back({p.first, std::move(p.second)});
  return r;
}

// A tensor with couples of its legs summed over.
inline Tensor trace(const Tensor& a, const Pairs& couples) {
  std::vector<int> used, goal;
  for (auto& p : couples) {
    used.push_back(p.first);
    used.push_back(p.second);
    append_couple(goal, a.legs[p.first].out, p.first, p.second);
  }
  std::vector<int> kept = left_over(a.legs.size(), used), order = kept;
  Tensor r;
  r.flux = a.flux;
  for (int i : kept) {
    r.legs.push_back(a.legs[i]);
    goal.push_back(i);
  }
  for (auto& p : couples) order.push_back(p.first);
  for (auto& p : couples) order.push_back(p.second);
  std::map<Tuple, std::vector<Gauss>> out;
  std::vector<Gauss> entries;
  std::vector<char> odd(a.legs.size());
  for (auto& b : a.blocks) {
    bool meets = true;
    for (auto& p : couples) meets &= b.tuple[p.first] == b.tuple[p.second];
    if (!meets) continue;
    for (size_t i = 0; i < a.legs.size(); ++i) odd[i] = odd_at(a, (int)i, b.tuple);
    bool minus = is_minus(odd, goal);
    moved(a, b, order, entries);
    long size = 1, summed = 1;
    for (int i : kept) size *= dim(a, i, b.tuple);
    for (auto& p : couples) summed *= dim(a, p.first, b.tuple);
    auto& o = out[taken(b.tuple, kept)];
    if (o.empty()) o.assign(size, Gauss{0, 0});
    for (long x = 0; x < size; ++x)
      for (long z = 0; z < summed; ++z) {
        const Gauss& e = entries[(x * summed + z) * summed + z];
        o[x].re += minus ? -e.re : e.re;
        o[x].im += minus ? -e.im : e.im;
      }
  }
  for (auto& p : out) r.blocks.push_back({p.first, std::move(p.second)});
  return r;
}

inline void sort_blocks(Tensor& t) {
  std::sort(t.blocks.begin(), t.blocks.end(), [](auto& x, auto& y) { return x.tuple < y.tuple; });
}

// A tensor with its legs in another order.
inline Tensor permute(const Tensor& a, const std::vector<int>& order) {
  Tensor r;
  r.flux = a.flux;
  for (int i : order) r.legs.push_back(a.legs[i]);
  std::vector<char> odd(a.legs.size());
  for (auto& b : a.blocks) {
    for (size_t i = 0; i < odd.size(); ++i) odd[i] = odd_at(a, (int)i, b.tuple);
    Block c{taken(b.tuple, order), {}};
    moved(a, b, order, c.entries);
    if (is_minus(odd, order))
      for (auto& e : c.entries) e = Gauss{-e.re, -e.im};
    r.blocks.push_back(std::move(c));
  }
  sort_blocks(r);
  return r;
}

// A network: tensors with a label on each leg, and the labels in the order in which they are summed.
struct Network {
  std::vector<Tensor> tensors;
  std::vector<std::vector<int>> labels;

  int place(int g, int label) const {
    return int(std::find(labels[g].begin(), labels[g].end(), label) - labels[g].begin());
  }
  bool has(int g, int label) const { return place(g, label) < (int)labels[g].size(); }
  void drop_labels(int g, const std::vector<int>& gone, std::vector<int>& out) const {
    for (int q : labels[g])
      if (!std::count(gone.begin(), gone.end(), q)) out.push_back(q);
  }

  void pair_step(int i, int j) {
    std::vector<int> common, left;
    for (int q : labels[i])
      if (q > 0 && has(j, q)) common.push_back(q);
    std::sort(common.begin(), common.end());
    Pairs shared;
    for (int q : common) shared.push_back({place(i, q), place(j, q)});
    bool between = false;
    for (int g = i + 1; g < j; ++g) between ^= is_odd(tensors[g].flux);
    tensors[i] = contract(tensors[i], tensors[j], shared, between);
    drop_labels(i, common, left);
    drop_labels(j, common, left);
    labels[i] = left;
    tensors.erase(tensors.begin() + j);
    labels.erase(labels.begin() + j);
  }

  void trace_step(int g) {
    std::vector<int> twice, left;
    for (int q : labels[g])
      if (q > 0 && std::count(labels[g].begin(), labels[g].end(), q) == 2) twice.push_back(q);
    std::sort(twice.begin(), twice.end());
    twice.erase(std::unique(twice.begin(), twice.end()), twice.end());
    Pairs couples;
    for (int q : twice) {
      int first = place(g, q);
      int second = int(std::find(labels[g].begin() + first + 1, labels[g].end(), q) - labels[g].begin());
      couples.push_back({first, second});
    }
    tensors[g] = trace(tensors[g], couples);
    drop_labels(g, twice, left);
    labels[g] = left;
  }

  // The number of steps.
  int contract_all(const std::vector<int>& order) {
    int steps = 0;
    for (int label : order) {
      std::vector<int> where;
      for (size_t g = 0; g < labels.size(); ++g)
        for (int q : labels[g])
          if (q == label) where.push_back((int)g);
      if (where.empty()) continue;
      where[0] == where[1] ? trace_step(where[0]) : pair_step(where[0], where[1]);
      ++steps;
    }
    for (; tensors.size() > 1; ++steps) pair_step(0, 1);
    return steps;
  }
};
