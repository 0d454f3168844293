#!/usr/bin/python3
"""The same questions through networkx: feasibility and the least tight set by a maximum flow, the graph built anew each time.

Prints for each class of questions: its name, the seconds for one question by the fastest of four algorithms (the shortest of
several rounds), and the answers to every so many-th question."""
import sys
import time

import networkx as nx
from networkx.algorithms.flow import boykov_kolmogorov, edmonds_karp, preflow_push, shortest_augmenting_path

QUESTIONS, ROUNDS = 30, 4
FLOWS = (boykov_kolmogorov, edmonds_karp, preflow_push, shortest_augmenting_path)


def read_input(path):
    classes = {}
    for text in open(path):
        name, *words = text.split()
        racks, each, targets, c, n, k, start, count, *rest = map(int, words)
        blocks = []
        for _ in range(count):
            length, *rest = rest
            blocks.append(rest[:length])
            rest = rest[length:]
        classes.setdefault(name, []).append((racks, each, targets, c, blocks))
    return classes


def admit(flow_func, racks, each, targets, c, blocks):
    graph = nx.DiGraph()
    for x, nodes in enumerate(blocks):
        graph.add_edge("source", ("block", x), capacity=1)
        for v in nodes:
            rack = v // each
            if v < racks * each and targets >> rack & 1:
                graph.add_edge(("block", x), v, capacity=1)
                graph.add_edge(v, ("rack", rack), capacity=1)
                graph.add_edge(("rack", rack), "sink", capacity=c)
    graph.add_node("sink")
    left = flow_func(graph, "source", "sink")
    if left.graph["flow_value"] == len(blocks):
        return 0
    seen, queue = {"source"}, ["source"]
    for u in queue:
        for v, arc in left[u].items():
            if v not in seen and arc["flow"] < arc["capacity"]:
                seen.add(v)
                queue.append(v)
    return sum(1 << x for x in range(len(blocks)) if ("block", x) in seen)


def timed(flow_func, questions):
    best, answers = float("inf"), None
    for _ in range(ROUNDS):
        begin = time.process_time()
        answers = [admit(flow_func, *q) for q in questions]
        best = min(best, (time.process_time() - begin) / len(questions))
    return best, answers


def main():
    for name, questions in read_input(sys.argv[1]).items():
        if name.startswith("seal"):
            continue
        step = max(1, len(questions) // QUESTIONS)
        some = questions[::step]
        results = [timed(flow_func, some) for flow_func in FLOWS]
        answers = results[0][1]
        if any(found != answers for _, found in results):
            sys.exit(f"{name}: the algorithms of networkx differ")
        print(name, min(took for took, _ in results), step, *answers, flush=True)


main()
