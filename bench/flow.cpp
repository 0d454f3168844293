// The same questions through LEMON: a maximum flow from a source over blocks, nodes and racks to a sink. The graph is built
// anew for each question; only its memory is used again.
#include <lemon/preflow.h>
#include <lemon/smart_graph.h>

#include <algorithm>
#include <vector>

#include "libraries.h"

using Graph = lemon::SmartDigraph;
using Capacities = Graph::ArcMap<int>;
using Flow = lemon::Preflow<Graph, Capacities>;

namespace {

struct Network {
  Graph graph;
  Capacities capacity{graph};
  Graph::Node source, sink, block[17], node[256], rack[32];
  bool has_node[256], has_rack[32];
  vault_site site;
  uint32_t c;
  size_t blocks;

  void start(const vault_site &its_site, uint32_t its_c) {
    site = its_site, c = its_c, blocks = 0;
    std::fill(has_node, has_node + 256, false);
    std::fill(has_rack, has_rack + 32, false);
    graph.clear();
    source = graph.addNode();
    sink = graph.addNode();
  }

  void arc(Graph::Node from, Graph::Node to, int most) { capacity[graph.addArc(from, to)] = most; }

  void add_node(uint32_t v, uint32_t r) {
    if (!has_rack[r]) {
      has_rack[r] = true;
      rack[r] = graph.addNode();
      arc(rack[r], sink, c);
    }
    has_node[v] = true;
    node[v] = graph.addNode();
    arc(node[v], rack[r], 1);
  }

  void add_block(const uint16_t *nodes, size_t len) {
    Graph::Node b = block[blocks++] = graph.addNode();
    arc(source, b, 1);
    for (size_t i = 0; i < len; i++) {
      uint32_t v = nodes[i], r = v / site.each;
      if (v >= site.racks * site.each || !(site.targets >> r & 1)) continue;
      if (!has_node[v]) add_node(v, r);
      arc(b, node[v], 1);
    }
  }

  // The blocks on the source's side of the cut that is nearest to the source.
  uint32_t crowd(const Flow &flow) {
    std::vector<Graph::Node> queue{source};
    Graph::NodeMap<bool> seen(graph, false);
    seen[source] = true;
    auto reach = [&](Graph::Node n) {
      if (!seen[n]) seen[n] = true, queue.push_back(n);
    };
    for (size_t i = 0; i < queue.size(); i++) {
      for (Graph::OutArcIt a(graph, queue[i]); a != lemon::INVALID; ++a)
        if (flow.flow(a) < capacity[a]) reach(graph.target(a));
      for (Graph::InArcIt a(graph, queue[i]); a != lemon::INVALID; ++a)
        if (flow.flow(a) > 0) reach(graph.source(a));
    }
    uint32_t word = 0;
    for (size_t b = 0; b < blocks; b++)
      if (seen[block[b]]) word |= 1u << b;
    return word;
  }
};

Network network;

}  // namespace

uint32_t lemon_admit(const vault_site *site, uint32_t c, const uint16_t *nodes, size_t, const uint8_t *lens, size_t lens_len,
                     const uint16_t *offered, size_t offered_len, uint32_t *set) {
  network.start(*site, c);
  for (size_t b = 0; b < lens_len; b++) network.add_block(nodes + 8 * b, lens[b]);
  network.add_block(offered, offered_len);
  Flow flow(network.graph, network.capacity, network.source, network.sink);
  // The first phase finds the flow's value; the flow itself, which the cut is read from, needs the second.
  flow.runMinCut();
  if (flow.flowValue() == static_cast<int>(network.blocks)) return 0;
  flow.startSecondPhase();
  *set = network.crowd(flow);
  return VAULT_NO_CHOICE;
}
