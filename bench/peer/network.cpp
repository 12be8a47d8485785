// network contract < DOCUMENT: reads a network document of tensors over any group, contracts it in its order and prints
// the tensor's text; on standard error the seconds of reading, contracting and printing, and the number of products.
#include <cstdio>
#include <iostream>
#include <iterator>
#include <nlohmann/json.hpp>

#include "engine.hpp"

typedef nlohmann::json Json;

static i128 part(const Json& j) {
  if (!j.is_string()) return (i128)j.get<long>();
  std::string s = j;
  bool minus = s[0] == '-';
  i128 value = 0;
  for (size_t i = minus; i < s.size(); ++i) value = value * 10 + (s[i] - '0');
  return minus ? -value : value;
}

static Tensor tensor(const Json& j) {
  Tensor t;
  for (auto& l : j["legs"]) {
    Leg leg;
    leg.out = l["dir"] == "out";
    for (auto& s : l["sectors"]) leg.sectors.push_back({s[0].get<Charge>(), s[1].get<int>()});
    t.legs.push_back(leg);
  }
  t.flux = j["flux"].get<Charge>();
  for (auto& b : j["blocks"]) {
    std::vector<Gauss> entries;
    entries.reserve(b[1].size());
    for (auto& v : b[1]) entries.push_back(v.is_array() ? Gauss{part(v[0]), part(v[1])} : Gauss{part(v), 0});
    t.blocks.push_back({b[0].get<Tuple>(), std::move(entries)});
  }
  return t;
}

template <class List>
static void put_list(std::string& s, const List& list) {
  s += '[';
  for (size_t i = 0; i < list.size(); ++i) s += (i ? "," : "") + std::to_string(list[i]);
  s += ']';
}

static std::string text(const Tensor& t, const Json& group_text) {
  std::string s = "{\"blocks\":[";
  bool first = true;
  for (auto& b : t.blocks) {
    if (std::all_of(b.entries.begin(), b.entries.end(), [](auto& e) { return e.re == 0 && e.im == 0; })) continue;
    s += first ? "[" : ",[";
    first = false;
    put_list(s, b.tuple);
    s += ",[";
    for (size_t i = 0; i < b.entries.size(); ++i) {
      s += i ? ",[\"" : "[\"";
      s += decimal(b.entries[i].re) + "\",\"" + decimal(b.entries[i].im) + "\"]";
    }
    s += "]]";
  }
  s += "],\"flux\":";
  put_list(s, t.flux);
  s += ",\"group\":" + group_text.dump() + ",\"legs\":[";
  for (size_t i = 0; i < t.legs.size(); ++i) {
    s += i ? "," : "";
    s += t.legs[i].out ? "{\"dir\":\"out\",\"sectors\":[" : "{\"dir\":\"in\",\"sectors\":[";
    for (size_t k = 0; k < t.legs[i].sectors.size(); ++k) {
      s += k ? ",[" : "[";
      put_list(s, t.legs[i].sectors[k].first);
      s += "," + std::to_string(t.legs[i].sectors[k].second) + "]";
    }
    s += "]}";
  }
  return s + "]}\n";
}

int main() {
  double begun = seconds();
  std::string bytes((std::istreambuf_iterator<char>(std::cin)), {});
  Json document = Json::parse(bytes);
  Json group_text = document["group"];
  for (auto& f : group_text) group.push_back({f["kind"] == "zn" ? f["n"].get<long>() : 0, f["fermion"].get<bool>()});
  Network net;
  std::vector<int> order;
  for (auto& m : document["tensors"]) {
    net.tensors.push_back(tensor(m));
    net.labels.push_back(m["labels"].get<std::vector<int>>());
    for (int q : net.labels.back())
      if (q > 0) order.push_back(q);
  }
  std::sort(order.begin(), order.end());
  order.erase(std::unique(order.begin(), order.end()), order.end());
  if (document.count("order")) order = document["order"].get<std::vector<int>>();
  document = Json();
  double read = seconds();
  net.contract_all(order);
  std::vector<int> open(net.labels[0].size());
  for (size_t i = 0; i < open.size(); ++i) open[-net.labels[0][i] - 1] = (int)i;
  Tensor result = permute(net.tensors[0], open);
  double contracted = seconds();
  std::string out = text(result, group_text);
  fwrite(out.data(), 1, out.size(), stdout);
  fprintf(stderr, "read %.4f contract %.4f print %.4f products %lld\n", read - begun, contracted - read,
          seconds() - contracted, products);
}
