"""Makes a graph of banks and debts, with what is paid and who defaults, for Gephi, igraph, networkx and others.

In:  PAYMENTS and DEFAULTS, what `clear` (or `central`) and `defaults` printed for one network. With --banks FILE, the
     banks file, also the cash of each bank, its rule and what it owes outside; with --case FOLDER these and its labels.
     Line ends of CR LF and a byte order mark are read.
Out: --out FILE, a graph in the format GraphML: directed, from debtor to creditor, with an edge for each debt, so that
     two banks may have several. A bank's node is its name; its attributes are `label` (its name), estate,
     outside_paid, paid, owed, equity, state (sound, fundamental or contagion), and cash, rule and outside. A debt's
     are `weight` (its claim), class, claim, paid, unpaid and share (what is paid of the claim, 1 where nothing is
     claimed). Amounts are whole units. In names U+FFFE and U+FFFF, which XML cannot hold, stand as <U+FFFE> and
     <U+FFFF>. It is written whole or not at all, and never over a file that is read.

networkx is needed (Debian's package python3-networkx).

Ends with 0, or with 1 and a message where a file is not as it should be, or with 2 where the words are not understood
or networkx is not there.
"""
import io
import re
from typing import TYPE_CHECKING, Dict, List, Tuple, Union

from clearing_client.case import Case

from .. import cases, cli, files
from ..runner import ToolError, command, lacking
from ..texts import lines_of, read_accounts, read_payments, read_standings

if TYPE_CHECKING:
    from networkx import MultiDiGraph

Attributes = Dict[str, Union[int, float, str]]
"""What a graph says of a bank or a debt."""


def banks_of(name: str) -> Dict[str, Attributes]:
    """What `defaults` says of each bank, by its name: what is paid outside only where the text has it."""
    standings = read_standings(name)
    words = lines_of(name)[0].split(",")[1:]
    return {bank.bank: {word: getattr(bank, word) for word in words} for bank in standings}


# Of the characters that a name may have XML can hold all but two.
BARRED = re.compile("[\ufffe\uffff]|<(?=U\\+(?:FFFE|FFFF|003C)>)")


def xml_name(name: str) -> str:
    """A name as XML can hold it: those two stand as <U+FFFE> and <U+FFFF>. Names that differ stay so."""
    return BARRED.sub(lambda match: f"<U+{ord(match[0]):04X}>", name)


def add_accounts(name: str, banks: Dict[str, Attributes]) -> None:
    """Adds what the banks file says to what is known of each bank."""
    columns, accounts = read_accounts(name)
    for other in accounts.keys() ^ banks.keys():
        raise ToolError(f"{name} is not of the network of the others: see the bank {other}")
    for bank, account in accounts.items():
        banks[bank].update({column: getattr(account, column) for column in columns})


def add_labels(case: Case, banks: Dict[str, Attributes]) -> None:
    """Adds what the labels of a case say of each bank; all banks have the attributes that one of them has."""
    for word in ("short", "full", "group", "country"):
        if any(getattr(label, word) for label in case.labels.values()):
            for bank, known in banks.items():
                known[word] = xml_name(getattr(case.label(bank), word))


def debts_of(name: str, banks: Dict[str, Attributes]) -> List[Tuple[str, str, Attributes]]:
    """The debts with what is paid on each, in file order."""
    owes = dict.fromkeys(banks, 0)
    debts: List[Tuple[str, str, Attributes]] = []
    for line, (debtor, creditor, class_, claim, paid) in enumerate(read_payments(name), 2):
        for bank in (debtor, creditor):
            if bank not in banks:
                raise ToolError(f"{name}: line {line}: the other text has no bank {bank!r}")
        if paid > claim:
            raise ToolError(f"{name}: line {line}: more is paid than is claimed")
        debt: Attributes = {
            "weight": claim,
            "class": class_,
            "claim": claim,
            "paid": paid,
            "unpaid": claim - paid,
            "share": paid / claim if claim else 1.0,
        }
        debts.append((debtor, creditor, debt))
        owes[debtor] += claim
    for bank, owed in owes.items():
        if banks[bank]["owed"] != owed:
            raise ToolError(
                f"{name}: the debts of {bank} come to {owed}, and the other text says {banks[bank]['owed']}: are "
                "they of one network?"
            )
    return debts


def graph_of(banks: Dict[str, Attributes], debts: List[Tuple[str, str, Attributes]]) -> "MultiDiGraph":
    """The graph, with a node for each bank and an edge for each debt."""
    from networkx import MultiDiGraph

    graph = MultiDiGraph()
    for name, bank in banks.items():
        graph.add_node(xml_name(name), label=xml_name(name), **bank)
    for at, (debtor, creditor, debt) in enumerate(debts, 1):
        graph.add_edge(xml_name(debtor), xml_name(creditor), key=f"debt-{at}", **debt)
    return graph


@command("to_graphml")
def main() -> None:
    """The command."""
    parser = cli.parser_of(__doc__)
    parser.add_argument("payments", metavar="PAYMENTS", help="what `clear` or `central` printed")
    parser.add_argument("defaults", metavar="DEFAULTS", help="what `defaults` printed")
    parser.add_argument(
        "--case", metavar="FOLDER", help="the case that the texts are of: its banks file, and its labels"
    )
    parser.add_argument("--banks", metavar="FILE", help="the banks file")
    parser.add_argument("--out", required=True, metavar="FILE", help="the file to write")
    args = parser.parse_args()
    beside = cases.beside(args)
    banks = banks_of(args.defaults)
    debts = debts_of(args.payments, banks)
    if beside.banks:
        add_accounts(beside.banks, banks)
    if beside.case:
        add_labels(beside.case, banks)
    try:
        import networkx

        networkx.MultiDiGraph
    except (ImportError, AttributeError) as fault:
        raise lacking("networkx", "all") from fault
    text = io.BytesIO()
    networkx.write_graphml_xml(graph_of(banks, debts), text, encoding="utf-8")
    files.write_all(
        [(args.out, text.getvalue())], [args.payments, args.defaults, beside.banks, *beside.inputs]
    )
