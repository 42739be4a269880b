"""The network loaded into a graph of networkx, and nothing cleared.

    graph.py BANKS DEBTS
"""
import csv
import sys

import networkx

graph = networkx.MultiDiGraph()
with open(sys.argv[1], newline="", encoding="utf-8-sig") as file:
    next(reader := csv.reader(file))
    for name, cash, rule, *_ in reader:
        graph.add_node(name, cash=int(cash), rule=rule)
with open(sys.argv[2], newline="", encoding="utf-8-sig") as file:
    next(reader := csv.reader(file))
    for debtor, creditor, rank, claim in reader:
        graph.add_edge(debtor, creditor, key=int(rank), claim=int(claim))
