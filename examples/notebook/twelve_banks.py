# %% [markdown]
# # Twelve banks, from a DataFrame to a figure
#
# Exposures come in as a table, `clearing` says who pays what, and the answers go back into tables and figures. Then
# two questions that a single run does not answer: how much must be lost until a sound bank falls (a reverse stress test), and how far
# payments in whole units are from those in real numbers (Eisenberg and Noe 2001).
#
# The package is installed by `python3 -m pip install ./python` in the folder of the repository; this notebook also wants pandas, numpy,
# networkx and matplotlib. `python3 examples/notebook/build.py` runs it.

# %%
import pathlib

import clearing_client as cc
import matplotlib.pyplot as plt
import networkx as nx
import numpy as np
import pandas as pd

examples = next(folder / "examples" for folder in [pathlib.Path.cwd(), *pathlib.Path.cwd().parents]
                if (folder / "examples" / "twelve-banks").is_dir())

# %% [markdown]
# ## The network
#
# A DataFrame of banks and one of exposures. Any tables with these columns will do; amounts are whole units.

# %%
banks = pd.read_csv(examples / "twelve-banks" / "banks.csv")
exposures = pd.read_csv(examples / "twelve-banks" / "debts.csv")
net = cc.Network(banks, exposures)
net.check().total

# %%
exposures.head()

# %% [markdown]
# ## Who pays what, and who defaults
#
# A table has no line of sums, so that sums over a DataFrame are right.

# %%
payments = net.clear().payments.to_pandas()
standings = net.defaults().standings.to_pandas().set_index("bank")
print(f"{payments['paid'].sum():,} of {payments['claim'].sum():,} units are paid")
standings[standings["state"] != "sound"]

# %% [markdown]
# As a graph: circles are as large as what a bank owes, and coloured by its state; an arrow is as wide as a claim, and red as far as it
# is not paid.

# %%
colours = {"sound": "#a9cfdc", "contagion": "#f0a04b", "fundamental": "#9c1c2c"}
graph = net.stress([cc.Scenario("as it is")]).scenarios[0].to_networkx()
place = nx.circular_layout(graph)
edges = pd.DataFrame([{"debtor": u, "creditor": v, **data} for u, v, data in graph.edges(data=True)])
edges = edges.groupby(["debtor", "creditor"], as_index=False)[["claim", "paid"]].sum()

figure, axes = plt.subplots(figsize=(8, 7))
sizes = [200 + 2400 * graph.nodes[name]["owed"] / 2_900_000 for name in graph]
nx.draw_networkx_nodes(graph, place, ax=axes, node_size=sizes, edgecolors="#444444",
                       node_color=[colours[graph.nodes[name]["state"]] for name in graph])
for edge in edges.itertuples():
    unpaid = 1 - edge.paid / edge.claim
    nx.draw_networkx_edges(graph, place, edgelist=[(edge.debtor, edge.creditor)], ax=axes, node_size=sizes, arrowsize=10,
                           width=0.5 + 4 * edge.claim / edges["claim"].max(), connectionstyle="arc3,rad=0.12",
                           edge_color=[plt.cm.Reds(0.35 + 0.65 * unpaid) if unpaid else "#9aa5ab"])
for (name, (x, y)), size in zip(place.items(), sizes):
    side = "left" if x > 0.2 else "right" if x < -0.2 else "center"
    away = (1.11 if side == "center" else 1.06) + 0.0027 * size ** 0.5
    axes.annotate(name, (away * x, away * y), ha=side, va="center", fontsize=10)
handles = [plt.Line2D([], [], marker="o", ls="", ms=10, mfc=colour, mec="#444444", label=state) for state, colour in colours.items()]
axes.legend(handles=handles, loc="lower left", frameon=False)
axes.set_title("Four of twelve banks default")
axes.margins(0.16)
axes.set_axis_off()
plt.show()

# %% [markdown]
# ## A reverse stress test
#
# A stress test asks what a loss does; a reverse stress test asks what loss it takes. Every bank loses the same share of its cash, from
# nothing to all in steps of one per mille. `map_stress` cuts the 1,001 scenarios into runs, which go side by side.

# %%
left = cc.Stress(tuple(cc.map_stress([net], cc.Scenarios.cuts(range(1001)))))
years = left.standings.to_pandas()
years["cut"] = years["number"] - 1
in_default = years[years["state"] != "sound"]
first = in_default.groupby("bank")["cut"].min().reindex(banks["name"])
first.rename("defaults from a cut of (per mille)").to_frame()

# %% [markdown]
# More losses never help a bank: each one that is in default once stays so, which the next line checks on all scenarios. So the number above
# is the whole answer for a bank, and no search is needed between the steps.

# %%
again = in_default.groupby("bank")["cut"].count().reindex(banks["name"])
assert (first.dropna() + again.dropna() == 1001).all()

totals = left.total.to_pandas()
figure, (upper, lower) = plt.subplots(2, 1, figsize=(8, 6), sharex=True)
share = totals["number"].sub(1) / 10
upper.step(share, totals["defaults"], where="post", color="#9c1c2c")
upper.set_ylabel("banks in default")
upper.set_ylim(0, 13)
lower.plot(share, 100 * (1 - totals["paid"] / totals["owed"]), color="#9c1c2c")
lower.set_ylabel("% of all debts unpaid")
lower.set_xlabel("% of its cash that every bank loses")
lower.set_ylim(0, 100)
for axes in (upper, lower):
    axes.grid(alpha=0.3)
upper.set_title("How much must be lost until the next bank falls")
plt.show()

# %% [markdown]
# The other way round, one bank at a time: what does it do to the others if one bank loses all its cash? A cell is what the bank of the row
# then pays less than it owes, in per cent.

# %%
alone = [cc.Scenario(f"{bank.name} loses all", losses={bank.name: bank.cash}) for bank in net.banks]
lost = net.stress(alone).standings.to_pandas()
lost["unpaid"] = 100 * (1 - lost["paid"] / lost["owed"])
order = list(banks["name"])
table = lost.pivot(index="bank", columns="number", values="unpaid").reindex(order)

figure, axes = plt.subplots(figsize=(8, 6))
picture = axes.imshow(table.to_numpy(), cmap="Reds", vmin=0, vmax=100)
axes.set_xticks(range(12), order, rotation=60, ha="right")
axes.set_yticks(range(12), order)
axes.set_xlabel("the bank that loses all its cash")
axes.set_ylabel("the bank that pays less")
for row, column in zip(*np.nonzero(table.to_numpy() > 0)):
    value = table.to_numpy()[row, column]
    axes.annotate(f"{value:.0f}", (column, row), ha="center", va="center", fontsize=8, color="white" if value > 55 else "black")
figure.colorbar(picture, label="% unpaid")
axes.set_title("One bank loses all: who pays less")
plt.show()

# %% [markdown]
# ## Whole units and real numbers
#
# Pro rata in the literature is in real numbers: a bank in default pays each creditor the same share of its claim (Eisenberg and Noe 2001). The
# rule `webster` shares in proportion over many divisions, in whole units. Here is the real one in numpy, by their fictitious
# default algorithm: start from everybody paying in full, find who cannot, solve the linear equations for those, and go on until nobody
# else falls.

# %%
def pro_rata(claims, cash):
    """The greatest payments in real numbers by which every bank pays its claims, or all it has in proportion to them; and how much a
    unit too few in the estate of a bank in default can come to in all estates, by going round (1: nothing goes round)."""
    owed = claims.sum(axis=1).astype(float)
    share = np.divide(claims, owed[:, None], out=np.zeros(claims.shape), where=owed[:, None] > 0)
    fallen, paid = np.zeros(len(cash), bool), owed.copy()
    while True:
        inside = share[np.ix_(fallen, fallen)]
        flow = np.linalg.inv(np.eye(fallen.sum()) - inside.T)
        paid[fallen] = flow @ (cash[fallen] + share[np.ix_(~fallen, fallen)].T @ owed[~fallen])
        short = fallen | (cash + share.T @ paid < owed - 1e-9)
        if (short == fallen).all():
            return paid[:, None] * share, flow.sum(axis=0).max(initial=1.0)
        fallen = short


def compared(net):
    """The largest difference of a payment from the one in real numbers, in units, and the amplification."""
    real, amplification = pro_rata(net.to_matrix(), np.array(net.banks.column("cash"), float))
    return np.abs(net.clear().to_matrix() - real).max(initial=0.0), amplification


# %% [markdown]
# The twelve banks with one class and `webster` for all, in coarser and coarser units:

# %%
def in_units(unit):
    """The twelve banks, all by `webster`, in one class, with amounts rounded to units."""
    one_class = exposures.groupby(["debtor", "creditor"], sort=False, as_index=False)["claim"].sum()
    return cc.Network(banks.assign(rule="webster", cash=(banks["cash"] / unit).round()),
                      one_class.assign(claim=(one_class["claim"] / unit).round()))


units = [1, 10, 100, 1_000, 10_000, 50_000, 100_000]
pd.DataFrame([(unit, *compared(in_units(unit))) for unit in units], columns=["unit", "largest difference (units)", "amplification"])

# %% [markdown]
# Below one unit a debt, whatever the unit. Why: where a bank divides E units, each creditor gets its real share of E to within less than one
# unit (Webster's rule leaves the quota only in rare cases). But E itself may be off, by what debtors in default rounded, and that error is passed on
# in proportion. Here banks in default owe little to one another, so that errors hardly add up: a unit too few in one estate makes 1.6 in all.
#
# It is no theorem. On networks at random, with many defaults and debts that go round, some pass one unit:

# %%
def at_random(seed):
    """A network of 5 to 59 banks with too little cash."""
    chance = np.random.default_rng(seed)
    size, density = int(chance.integers(5, 60)), chance.uniform(0.05, 0.6)
    claims = (chance.random((size, size)) < density) * chance.integers(1, 300, (size, size))
    np.fill_diagonal(claims, 0)
    names = [f"B{n}" for n in range(size)]
    cash = chance.integers(0, int(claims.sum() / size * chance.uniform(0.02, 0.5)) + 2, size)
    debts = {"debtor": [], "creditor": [], "claim": []}
    for debtor, creditor in zip(*np.nonzero(claims)):
        for column, value in zip(debts.values(), (names[debtor], names[creditor], claims[debtor, creditor])):
            column.append(value)
    return cc.Network({"name": names, "cash": cash}, debts)


trials = pd.DataFrame([compared(at_random(seed)) for seed in range(200)], columns=["difference", "amplification"])
figure, axes = plt.subplots(figsize=(8, 4.5))
axes.scatter(trials["amplification"], trials["difference"], s=14, color="#28657a", alpha=0.7)
axes.axhline(1, color="#9c1c2c", lw=1)
axes.set_xscale("log")
axes.set_xlabel("amplification: a unit too few in one estate, in all estates")
axes.set_ylabel("largest difference (units)")
axes.set_title("Whole units against real numbers, 200 networks at random")
axes.grid(alpha=0.3)
plt.show()
print(f"{(trials['difference'] >= 1).sum()} of {len(trials)} networks have a debt that is off by a unit or more; the largest difference is "
      f"{trials['difference'].max():.2f}")

# %% [markdown]
# And here is a network where the difference is as large as one likes. A and B owe each other N, and A also owes C one unit; A has one
# unit of cash. In real numbers almost all of A's unit comes back to A by way of B, again and again, until all is paid. In whole units, A pays
# its one unit to B, to whom it owes so much more, and gets it back; so what goes round grows by one each time, until A has N / 2 + 1: then one unit
# is due to C, whose share is a half by then. It leaves the circle for good, nothing new comes in, and the circle stands still at half of what is owed.

# %%
def circle(n):
    return cc.Network({"A": 1, "B": 0, "C": 0}, {("A", "B"): n, ("B", "A"): n, ("A", "C"): 1})


rows = []
for n in (10, 100, 1_000, 10_000, 100_000):
    real, _ = pro_rata(circle(n).to_matrix(), np.array([1.0, 0, 0]))
    whole = circle(n).clear().to_matrix()
    rows.append((n, whole[0, 1], round(real[0, 1]), np.abs(whole - real).max()))
pd.DataFrame(rows, columns=["N", "A pays B, whole units", "A pays B, real numbers", "largest difference (units)"])

# %% [markdown]
# In real numbers there is one way to clear this circle, in whole units there are many: `clear` takes the least, and the greatest is all that is
# owed. So `bounds` tells such a network apart: where the least and the greatest payment are far from one another, look at who waits for whom.

# %%
print(circle(1_000).bounds().payments)

# %%
bounds = net.bounds().payments.to_pandas()
print(f"the twelve banks: {(bounds['least'] != bounds['greatest']).sum()} of {len(bounds)} debts have more than one payment that clears")
