"""The program `clearing` from Python: who pays what when banks owe each other more than they have.

A network
---------
Banks with their cash, each with a rule by which it divides what it has where that is not
enough, and the debts between them:

>>> import clearing_client as cc
>>> banks = [
...     ("Ash", 20, "webster"),
...     ("Elm", 5, "webster"),
...     ("Oak", 60, "equal"),
...     ("Yew", 0, "order"),
... ]
>>> debts = [
...     ("Ash", "Elm", 1, 30),
...     ("Ash", "Oak", 1, 15),
...     ("Elm", "Oak", 1, 20),
...     ("Elm", "Yew", 2, 9),
...     ("Oak", "Ash", 1, 8),
... ]
>>> net = cc.Network(banks, debts)

`Network.from_matrix`, `from_list`, `from_totals` and `from_workbook` take sheets as they come,
and raise `SheetError` with all that is wrong.

In place of these records: two DataFrames, two dicts of columns, one networkx graph, or the
names of the two files. All amounts are whole units of account, integers, and stay exact; with
decimals choose a smaller unit, such as one cent. A lower class of debts (1 to 9) is paid in
full before a higher one gets a unit.

Who pays what, who defaults, and why
------------------------------------
>>> print(net.clear().payments)
debtor  creditor  class  claim  paid
Ash     Elm           1     30    19
Ash     Oak           1     15     9
Elm     Oak           1     20    20
Elm     Yew           2      9     4
Oak     Ash           1      8     8
>>> print(net.defaults().standings)
bank  estate  outside_paid  paid  owed  equity  state
Ash       28             0    28    45       0  fundamental
Elm       24             0    24    29       0  contagion
Oak       89             0     8     8      81  sound
Yew        4             0     0     0       4  sound

Ash could not pay even if all that is owed to it were paid; Elm could.

Each result is a dataclass with tables. A table is a sequence of named tuples without lines of
sums, and has `.column(name)` and `.to_pandas()`. The whole result has `.to_pandas()` (a dict
of DataFrames), `.text` (what the program printed, byte by byte), and, where it has an amount
for each debt, `.to_networkx()`, `.to_matrix()` and, without numpy, `.to_lists()`:

>>> net.clear().to_lists()
[[0, 19, 9, 0], [0, 0, 20, 4], [8, 0, 0, 0], [0, 0, 0, 0]]

A case
------
A folder with the two files and what belongs to them: what a unit is worth in which currency, the
date, the names, where it all comes from:

>>> case = cc.Case(net, title="Four banks", unit="1000", currency="EUR", as_of="2026-01-31")
>>> case.amount(45)
Decimal('45000')

`case.write("four-banks")` writes it, and `Case.read("four-banks")` reads it back; `.network`,
`.labels` and `.notes` are what it has. Importers write cases too, by `--case FOLDER`.

`compare(before, after)` puts two cases side by side, `ensemble(cases, tasks)` says what tasks say over many
networks, and `stands(case)` which banks change when the unit, order, rule, classes or costs are changed.
`unsteady(case)` has the banks that one unit decides.

The tables and their columns; amounts are units, and a table has a place for each debt or each
bank, in the order of the files:

payments    debtor, creditor, class, claim, paid (of `bounds`: least, greatest)
standings   bank, estate, outside_paid, paid, owed, equity, state
            (of `costs`: bank, estate, lost, outside_paid, paid, equity, state; of
            `cost_bounds`: bank, and lost, equity, state at the least and at the greatest)
waves       bank, wave, gridlock, equity
journal     stamp, debtor, creditor, class, to: a place for each raise of a payment, in order
banks       name, cash, rule, outside
debts       debtor, creditor, class, claim
ranks       class, bank, rank
totals      the sums, and what is said once: a record, and for `stress` one for each scenario
cuts        of `breaking`: bank, cut, state
scenarios   of `outcomes`: scenario, cash, paid, outside_paid, equity, defaults, fundamental
banks       of `outcomes`: bank, defaults, fundamental; of `impact`: bank, cash, own, others, falls; of
            `rescues`: bank, added, short, also_saved, still_short
pairs       of `impact`: bank, of, lost, falls
saved       of `rescues`: bank, saves

What would help
---------------
>>> net.rescue("Elm")
Rescue(bank='Elm', added=5, short=1, payments=<Table of 5: debtor, creditor, class, claim, paid>)
>>> net.with_cash({"Ash": 37}).defaults().defaults
[]

Bad years
---------
>>> years = [cc.Scenario("half", cut=500), cc.Scenario("Oak loses all", losses={"Oak": 60})]
>>> left = net.stress(years)
>>> [(one.name, one.defaults) for one in left.scenarios]
[('half', ['Ash', 'Elm']), ('Oak loses all', ['Ash', 'Elm'])]
>>> print(left.total)
number  scenario       estate  outside_paid  paid  owed  equity  defaults  cash
     1  half               84             0    41    82      43         2    43
     2  Oak loses all      85             0    60    82      25         2    25

`outcomes(years)` has them in sums. `map_stress` and `map_outcomes` run many networks and any number
of scenarios side by side, on this machine or by an executor of others; their results come one
after another, whole or in sums. `bounds()` has the least and the greatest payments and the waves
of default, `costs(keep)` what is lost where estates are sold in haste, `cost_bounds(keep)` the
least and the greatest payments then, and `compress()` cancels cycles of debts.

What would break, hurt and save whom
------------------------------------
>>> print(net.breaking().cuts)
bank   cut  state
Ash      0  fundamental
Elm      0  contagion
Oak   1000  contagion
Yew   1001  sound
>>> print(net.impact().banks)
bank  cash  own  others  falls
Ash     20    0      20      0
Elm      5    0       5      0
Oak     60   60       0      0
Yew      0    0       0      0
>>> net.rescues().saved
<Table of 1: bank, saves>

A cut is per mille of all cash; 1001 is a bank that none breaks. `impact` lets each bank in turn
lose all its cash. `rescues` finds the least cash that saves each bank in default, and whom that
saves besides.

Evidence
--------
>>> done = net.clear(journal=True)
>>> net.replay(done.journal).lawful
True

Where something is wrong
------------------------
Each status of the program is an exception of its own, all of them `ClearingError`s:

UsageError         2, the words are not understood, such as 65 workers
UnreadableError    3, a file cannot be read
RefusedError       4, a file is refused
OutputError        5, the output cannot be written
OutOfMemoryError   6, want of memory
NoProgramError     8, or none: there is no program, or it cannot be built
StatusError        any other: it was ended by a signal, or is another program
SheetError         none: a sheet makes no network
CaseError          none: a folder is no case, or is written over
TableError         none: a table cannot be written as a file, as an amount is not whole
TextError          none: a text is not one that the program prints, or an answer on another network
OutOfTimeError     none: a run took longer than its `timeout`, in seconds, and was ended
MissingPackageError    none: a call wants pandas, numpy or networkx

Each call takes a `timeout`. A journal that is not lawful (status 7) is an answer, a `Verdict`. That a file is refused
says which, the row, the kind of fault, and the record:

>>> try:
...     cc.Network([("Ash", 20, "pro rata")], []).check()
... except cc.RefusedError as fault:
...     print(fault.file, fault.row, fault.kind, fault.number, fault.record)
banks 1 rule 5 ('Ash', '20', 'pro rata')

The program is the one that the environment variable CLEARING names; else the one that came in the wheel of this
package, where that has one; else that of the repository or the installation that the package stands in, which a
repository builds first where it is not built yet; else `clearing` on the path, whose absolute entries alone count.
"""
from .case import Case
from .case import ImportLine as ImportLine
from .case import ImportSummary as ImportSummary
from .case import Label as Label
from .case import Origin as Origin
from .case import Source as Source
from .compare import Comparison as Comparison
from .compare import Difference as Difference
from .compare import compare
from .ensemble import Ensemble as Ensemble
from .ensemble import Share as Share
from .ensemble import Spread as Spread
from .ensemble import ensemble
from .errors import CaseError as CaseError
from .errors import ClearingError as ClearingError
from .errors import LimitsWarning as LimitsWarning
from .errors import MissingPackageError as MissingPackageError
from .errors import NoProgramError as NoProgramError
from .errors import OutOfMemoryError as OutOfMemoryError
from .errors import OutOfTimeError as OutOfTimeError
from .errors import OutputError as OutputError
from .errors import RefusedError as RefusedError
from .errors import SheetError as SheetError
from .errors import StatusError as StatusError
from .errors import TableError as TableError
from .errors import TextError as TextError
from .errors import UnreadableError as UnreadableError
from .errors import UsageError as UsageError
from .many import map_outcomes, map_stress
from .network import Network, generate, read
from .program import find_program
from .records import Bank as Bank
from .records import BankCounts as BankCounts
from .records import Bound as Bound
from .records import BreakingCut as BreakingCut
from .records import CostBound as CostBound
from .records import CostStanding as CostStanding
from .records import Debt as Debt
from .records import Harm as Harm
from .records import Payment as Payment
from .records import Raise as Raise
from .records import Rank as Rank
from .records import Ruin as Ruin
from .records import Saved as Saved
from .records import Saving as Saving
from .records import ScenarioSums as ScenarioSums
from .records import Standing as Standing
from .records import Wave as Wave
from .results import Bounds as Bounds
from .results import Breaking as Breaking
from .results import Check as Check
from .results import Clearing as Clearing
from .results import Compression as Compression
from .results import Converted as Converted
from .results import CostBounds as CostBounds
from .results import Costs as Costs
from .results import Defaults as Defaults
from .results import Generated as Generated
from .results import Impact as Impact
from .results import Journal as Journal
from .results import Outcome as Outcome
from .results import Outcomes as Outcomes
from .results import Rescue as Rescue
from .results import Rescues as Rescues
from .results import Result as Result
from .results import Stress as Stress
from .results import Verdict as Verdict
from .scenarios import Scenario, Scenarios
from .stands import Stands as Stands
from .stands import stands
from .steady import Place as Place
from .steady import unsteady
from .table import Table

# What `help` shows in full. Records, results and exceptions are in modules of their own, and public all the same.
__all__ = [
    "Case",
    "Network",
    "Scenario",
    "Scenarios",
    "Table",
    "compare",
    "ensemble",
    "find_program",
    "generate",
    "map_outcomes",
    "map_stress",
    "read",
    "stands",
    "unsteady",
]
