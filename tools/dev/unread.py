#!/usr/bin/env python3
"""Tells what the packages for Python have and nothing reads, by the types of values, as mypy finds them.

    tools/dev/unread.py [ROOT]    the packages of a checkout; of this one where none is named

Out: a line for each field and each default that is of no use.

A field is what a NamedTuple, a TypedDict, a dataclass or a Protocol has, and what an object keeps under a name. It is
read where its name stands behind a value of its class, or of one above or below it, and where a tuple is taken apart.
Another class's field of the same name is another field. A default is that of a parameter, or of a field of a record:
where no call passes anything in its place it is no choice.

The name alone counts where nothing has a type: in the templates of the report, and within a room of the packages in
functions of a type variable that is one of some types, of whose bodies mypy keeps no types.

Wants a python3 with mypy. Ends with 0, with 1 and a message where mypy cannot read the sources, and with 2 where the
words are not understood.
"""
import argparse
import ast
import io
import os
import pathlib
import re
import sys
from typing import Dict, Iterator, List, NamedTuple, Optional, Sequence, Set, Tuple

from mypy import build, maptype, modulefinder, nodes, options, types
from mypy.config_parser import parse_config_file
from mypy.errors import CompileError
from mypy.traverser import TraverserVisitor

Member = Tuple[str, str]
"""A class or a function by its whole name, and a field or a parameter of it."""
# What reads all fields of a record: behind it, of it, and of it where it is a tuple.
WHOLE = {"_asdict", "_fields"}
OF_RECORDS = {"asdict", "astuple", "fields"}
OF_TUPLES = {"list", "map", "max", "min", "set", "sorted", "sum", "tuple", "zip"}
HERE = pathlib.Path(__file__).resolve().parents[2]
SETTINGS = HERE / "python/pyproject.toml"


class Declared(NamedTuple):
    """What a module has: all fields, parameters and fields that may be left out, and the fields of each record in their
    order."""

    fields: List[Member]
    defaults: List[Member]
    records: Dict[str, List[str]]


# What is declared.


def classes_in(tree: ast.Module) -> Iterator[ast.ClassDef]:
    """The classes of a module that stand in no other."""
    for node in tree.body:
        for one in [node, *getattr(node, "body", []), *getattr(node, "orelse", [])]:
            if isinstance(one, ast.ClassDef):
                yield one


def kept_in(one: ast.ClassDef) -> Iterator[str]:
    """What an object of a class keeps: its fields, its slots, and what its methods set of it."""
    for node in one.body:
        if isinstance(node, ast.AnnAssign) and isinstance(node.target, ast.Name):
            yield node.target.id
        if isinstance(node, ast.Assign) and ast.unparse(node.targets[0]) == "__slots__":
            slots = ast.literal_eval(node.value)
            yield from [slots] if isinstance(slots, str) else slots
    for inner in ast.walk(one):
        if isinstance(inner, ast.Attribute) and isinstance(inner.ctx, ast.Store) and ast.unparse(inner.value) == "self":
            yield inner.attr


def fields_of_record(one: ast.ClassDef) -> List[Tuple[str, bool]]:
    """The fields of a record in their order, each with whether it may be left out; none of what is no record."""
    words = " ".join(map(ast.unparse, [*one.bases, *one.decorator_list]))
    if not re.search(r"\b(NamedTuple|TypedDict|dataclass)\b", words):
        return []
    annotated = [node for node in one.body if isinstance(node, ast.AnnAssign)]
    return [(ast.unparse(node.target), node.value is not None) for node in annotated]


def defaults_of(function: ast.FunctionDef) -> List[str]:
    """The parameters of a function that have a default."""
    args = function.args
    before = [*args.posonlyargs, *args.args]
    named = [one for one, default in zip(args.kwonlyargs, args.kw_defaults) if default is not None]
    return [one.arg for one in [*before[len(before) - len(args.defaults) :], *named]]


def declared_in(module: str, tree: ast.Module) -> Declared:
    """What a module has."""
    fields: Dict[Member, None] = {}
    defaults: List[Member] = []
    records: Dict[str, List[str]] = {}
    for one in classes_in(tree):
        name, in_record = f"{module}.{one.name}", fields_of_record(one)
        fields.update({(name, field): None for field in kept_in(one)})
        defaults += [(name, field) for field, may_be_left_out in in_record if may_be_left_out]
        records.update({name: [field for field, _ in in_record]} if in_record else {})
        for method in one.body:
            if isinstance(method, ast.FunctionDef):
                whole = name if method.name == "__init__" else f"{name}.{method.name}"
                defaults += [(whole, word) for word in defaults_of(method)]
    for function in tree.body:
        if isinstance(function, ast.FunctionDef):
            defaults += [(f"{module}.{function.name}", word) for word in defaults_of(function)]
    return Declared(list(fields), defaults, records)


# What is read.


def infos_of(kind: Optional[types.Type]) -> List[nodes.TypeInfo]:
    """The classes of which a value of a type may be."""
    known = types.get_proper_type(kind)
    if isinstance(known, types.UnionType):
        return [info for item in known.items for info in infos_of(item)]
    if isinstance(known, types.TypeVarType):
        return infos_of(known.upper_bound)
    if isinstance(known, types.TypeType):
        return infos_of(known.item)
    if isinstance(known, types.CallableType):
        return infos_of(known.ret_type) if known.is_type_obj() else []
    if isinstance(known, types.TupleType):
        known = known.partial_fallback
    if isinstance(known, (types.TypedDictType, types.LiteralType)):
        known = known.fallback
    return [known.type] if isinstance(known, types.Instance) else []


def owner_of(info: nodes.TypeInfo, name: str) -> str:
    """The class that has a name, of a class and those above it."""
    return next((base.fullname for base in info.mro if name in base.names), info.fullname)


def last_name(expression: nodes.Expression) -> str:
    """The last name of an expression that is one or ends with one."""
    return expression.name if isinstance(expression, (nodes.NameExpr, nodes.MemberExpr)) else ""


def function_of(node: Optional[nodes.Node]) -> Optional[nodes.FuncDef]:
    """The function that a name stands for, with or without decorators."""
    node = node.func if isinstance(node, nodes.Decorator) else node
    return node if isinstance(node, nodes.FuncDef) else None


class Reader(TraverserVisitor):
    """Goes over modules, and takes in which fields they read, and what their calls pass."""

    def __init__(self, result: build.BuildResult, order: Dict[str, List[str]]) -> None:
        super().__init__()
        self.types, self.order = result.types, order
        self.iterable = result.files["typing"].names["Iterable"].node
        self.read: Set[Member] = set()
        self.passed: Set[Member] = set()
        self.names: Set[Member] = set()  # that are read of values without a type, by the room
        self.calls: Set[Member] = set()  # of functions that are not known, by the room and their names
        self.targets: Set[nodes.Node] = set()
        self.room = ""  # of the module that is gone over, where it is of the packages

    def type_of(self, expression: nodes.Expression) -> Optional[types.ProperType]:
        """The type of an expression, None where there is none."""
        return types.get_proper_type(self.types.get(expression))

    # What is read of a value.

    def take(self, info: nodes.TypeInfo, name: str) -> None:
        """Takes in that a field of a class is read."""
        self.read.add((owner_of(info, name), name))

    def fields_of(self, info: nodes.TypeInfo) -> List[str]:
        """The fields of a NamedTuple of the packages, in their order."""
        found = (self.order[base.fullname] for base in info.mro if base.is_named_tuple and base.fullname in self.order)
        return next(found, [])

    def take_whole(self, kind: Optional[types.Type]) -> None:
        """Takes in that all fields of a record are read."""
        for base in (base for info in infos_of(kind) for base in info.mro):
            self.read.update((base.fullname, name) for name in self.order.get(base.fullname, []))

    def item_of(self, kind: Optional[types.Type]) -> Optional[types.Type]:
        """What a value gives one after the other. A tuple is read whole by that."""
        known = types.get_proper_type(kind)
        if isinstance(known, types.UnionType):
            items = [item for item in map(self.item_of, known.items) if item is not None]
            return types.UnionType.make_union(items) if items else None
        if isinstance(known, types.TupleType):
            self.take_whole(known)
            return types.UnionType.make_union(known.items) if known.items else None
        if isinstance(known, types.Instance) and known.type.has_base("typing.Iterable"):
            assert isinstance(self.iterable, nodes.TypeInfo)
            return maptype.map_instance_to_supertype(known, self.iterable).args[0]
        return None

    def take_apart(self, target: nodes.Expression, kind: Optional[types.Type]) -> None:
        """Takes in that a value is set to some names."""
        known = types.get_proper_type(kind)
        if not isinstance(target, (nodes.TupleExpr, nodes.ListExpr)):
            return
        if isinstance(known, types.UnionType):
            for item in known.items:
                self.take_apart(target, item)
        elif isinstance(known, types.TupleType):
            self.take_places(target.items, known)
        else:
            item_kind = self.item_of(known)
            for part in target.items:
                self.take_apart(part, item_kind)

    def take_places(self, parts: Sequence[nodes.Expression], kind: types.TupleType) -> None:
        """Takes in that a tuple is set to some names. What is set to one that begins with _ is not read."""
        info, count = kind.partial_fallback.type, len(kind.items)
        fields = self.fields_of(info)
        star = next((at for at, part in enumerate(parts) if isinstance(part, nodes.StarExpr)), len(parts))
        for at, part in enumerate(parts):
            last = at if at < star else at + count - len(parts)
            for place in range(star if at == star else last, min(last + 1, count)):
                if fields and not last_name(part).startswith("_"):
                    self.take(info, fields[place])
                self.take_apart(part, kind.items[place])

    def visit_assignment_stmt(self, statement: nodes.AssignmentStmt) -> None:
        """What is set is not read by that; it is another value than that of a default."""
        for target in statement.lvalues:
            self.take_apart(target, self.types.get(statement.rvalue))
            for part in getattr(target, "items", [target]):
                self.targets.add(part)
                if isinstance(part, nodes.MemberExpr):
                    owners = {owner_of(info, part.name) for info in infos_of(self.types.get(part.expr))}
                    self.passed.update((owner, part.name) for owner in owners if owner in self.order)
        super().visit_assignment_stmt(statement)

    def visit_operator_assignment_stmt(self, statement: nodes.OperatorAssignmentStmt) -> None:
        """What is counted up is not read by that."""
        self.targets.add(statement.lvalue)
        super().visit_operator_assignment_stmt(statement)

    def visit_for_stmt(self, statement: nodes.ForStmt) -> None:
        """What a loop goes over."""
        self.take_apart(statement.index, self.item_of(self.types.get(statement.expr)))
        super().visit_for_stmt(statement)

    def visit_generator_expr(self, expression: nodes.GeneratorExpr) -> None:
        """What a comprehension goes over."""
        for index, sequence in zip(expression.indices, expression.sequences):
            self.take_apart(index, self.item_of(self.types.get(sequence)))
        super().visit_generator_expr(expression)

    def visit_dictionary_comprehension(self, expression: nodes.DictionaryComprehension) -> None:
        """What a comprehension of a dict goes over."""
        for index, sequence in zip(expression.indices, expression.sequences):
            self.take_apart(index, self.item_of(self.types.get(sequence)))
        super().visit_dictionary_comprehension(expression)

    def visit_star_expr(self, expression: nodes.StarExpr) -> None:
        """A value whose items stand in its place."""
        self.item_of(self.types.get(expression.expr))
        super().visit_star_expr(expression)

    def visit_index_expr(self, expression: nodes.IndexExpr) -> None:
        """A place of a tuple, some of its places, or a key of a TypedDict."""
        known, index = self.type_of(expression.base), expression.index
        if isinstance(known, types.TupleType):
            fields = self.fields_of(known.partial_fallback.type)
            if fields and isinstance(index, nodes.IntExpr):
                self.take(known.partial_fallback.type, fields[index.value])
            else:
                self.take_whole(known)
        if isinstance(known, types.TypedDictType) and isinstance(index, nodes.StrExpr):
            bases = known.fallback.type.mro if expression not in self.targets else []
            self.read.update((base.fullname, index.value) for base in bases)
        super().visit_index_expr(expression)

    def visit_member_expr(self, expression: nodes.MemberExpr) -> None:
        """What stands behind a value. Where a package's value has no type, it counts for each class."""
        kind, value = self.types.get(expression.expr), expression.expr
        if expression not in self.targets:
            for info in infos_of(kind):
                self.take(info, expression.name)
            is_module = isinstance(value, nodes.RefExpr) and isinstance(value.node, nodes.MypyFile)
            if kind is None and not is_module:
                self.names.add((self.room, expression.name))
            if expression.name in WHOLE:
                self.take_whole(kind)
        super().visit_member_expr(expression)

    # What a call passes.

    def visit_call_expr(self, call: nodes.CallExpr) -> None:
        """What a call passes, and what it reads of its arguments."""
        name = last_name(call.callee)
        for kind in map(self.type_of, call.args):
            if name in OF_RECORDS or (name in OF_TUPLES and isinstance(kind, types.TupleType)):
                self.take_whole(kind)
        if name in ("getattr", "column"):
            self.take_by_text(call, name == "getattr")
        if name in ("replace", "_replace"):
            record = call.callee.expr if isinstance(call.callee, nodes.MemberExpr) and name[0] == "_" else call.args[0]
            for info in infos_of(self.types.get(record)):
                self.passed.update((owner_of(info, word), word) for word in call.arg_names if word)
        # The first argument of functools.partial is what the others are passed to.
        first = int(name == "partial")
        self.pass_on(call.args[0] if first else call.callee, call.arg_names[first:], call.arg_kinds[first:])
        super().visit_call_expr(call)

    def take_by_text(self, call: nodes.CallExpr, is_getattr: bool) -> None:
        """Takes in what is read by a name that is a text: of a value, or of the records of a table. Where the name is
        put together, it may be any."""
        record, name = (self.type_of(call.args[0]), call.args[1]) if is_getattr else (None, call.args[0])
        if not is_getattr and isinstance(call.callee, nodes.MemberExpr):
            table = self.type_of(call.callee.expr)
            record = types.get_proper_type(table.args[0]) if isinstance(table, types.Instance) and table.args else None
        if not isinstance(name, nodes.StrExpr):
            self.take_whole(record)
        else:
            for info in infos_of(record):
                self.take(info, name.value)

    def pass_on(
        self, callee: nodes.Expression, names: Sequence[Optional[str]], kinds: Sequence[nodes.ArgKind]
    ) -> None:
        """Takes in what is passed to a function, or to a class for an object of it."""
        found = self.called(callee)
        for parameters in map(self.parameters_of, found):
            has_star = any(kind.is_star() for kind in kinds)
            count = len(parameters) if has_star else sum(kind.is_positional() for kind in kinds)
            self.passed.update(parameters[:count])
            self.passed.update(member for member in parameters if member[1] in names)
        kind = self.type_of(callee.expr) if isinstance(callee, nodes.MemberExpr) else None
        of_module = isinstance(kind, types.Instance) and kind.type.fullname == "types.ModuleType"
        if not found and kinds and (kind is None or of_module):
            self.calls.add(("" if of_module else self.room, last_name(callee)))

    def called(self, callee: nodes.Expression) -> List[nodes.Node]:
        """The functions and classes that an expression may call."""
        members: List[Optional[nodes.SymbolTableNode]] = []
        if isinstance(callee, nodes.MemberExpr):
            members += [info.get(callee.name) for info in infos_of(self.types.get(callee.expr))]
        if isinstance(callee, nodes.SuperExpr) and callee.info:
            members += [base.names[callee.name] for base in callee.info.mro[1:] if callee.name in base.names][:1]
        found: List[nodes.Node] = [member.node for member in members if member and member.node]
        if isinstance(callee, nodes.RefExpr) and isinstance(callee.node, (nodes.FuncDef, nodes.Decorator)):
            found.append(callee.node)
        kind = self.type_of(callee)
        if isinstance(kind, types.TypeType) or (isinstance(kind, types.CallableType) and kind.is_type_obj()):
            found += infos_of(kind)
        return found

    def parameters_of(self, node: nodes.Node) -> List[Member]:
        """The parameters of a function, or of a class for an object of it, in their order."""
        if isinstance(node, nodes.TypeInfo):
            made = node.get("__init__")
            function = function_of(made.node) if made else None
            names = self.fields_of(node) or [name or "" for name in (function.arg_names[1:] if function else [])]
            return [(owner_of(node, name), name) for name in names]
        function = function_of(node)
        if function is None:
            return []
        first = int(bool(function.info) and not function.is_static)
        whole = function.info.fullname if function.name == "__init__" else function.fullname
        return [(whole, name or "") for name in function.arg_names[first:]]


# The search.


def sources_of(root: pathlib.Path) -> List[modulefinder.BuildSource]:
    """The modules of the packages, and the scripts and tests that may read what they have. Of two scripts of one name
    the first is taken."""
    source, found = root / "python/src", {}
    for path in sorted(source.rglob("*.py")):
        found[".".join(path.relative_to(source).with_suffix("").parts).removesuffix(".__init__")] = path
    for folder in ("python", "bench", "tools/dev", "tests", "tests/system"):
        for path in sorted((root / folder).glob("*.py")):
            found.setdefault(path.stem, path)
    return [modulefinder.BuildSource(str(path), module, None) for module, path in found.items()]


def result_of(root: pathlib.Path, sources: List[modulefinder.BuildSource]) -> build.BuildResult:
    """What mypy finds, with the types of all expressions, of functions without types too."""
    settings = options.Options()
    words = io.StringIO()
    parse_config_file(settings, lambda: None, str(SETTINGS), words, words)
    settings.mypy_path = [str(root / folder) for folder in ("python/src", "tests", "bench")]
    settings.cache_dir, settings.incremental = os.devnull, False
    settings.export_types = settings.preserve_asts = settings.check_untyped_defs = True
    settings.ignore_missing_imports = True
    return build.build(sources, settings)


def room_of(name: str) -> str:
    """The room of the packages in which a module stands, or what a module has."""
    return ".".join(name.split(".")[:2])


def words_of_templates(root: pathlib.Path) -> Set[str]:
    """The names behind a point or in quotation marks in the templates of pages."""
    paths = (root / "python/src").rglob("*.html")
    return {word for path in paths for word in re.findall(r"""[."'](\w+)""", path.read_text(encoding="utf-8"))}


class Family:
    """Which classes are above or below one another. One that has all names of a Protocol is below it."""

    def __init__(self, result: build.BuildResult, modules: Set[str]) -> None:
        there = [symbol.node for module in modules for symbol in result.files[module].names.values()]
        infos = {node.fullname: node for node in there if isinstance(node, nodes.TypeInfo)}
        self.infos = {name: info for name, info in infos.items() if info.module_name in modules}
        self.below = {name: {base.fullname for base in info.mro} for name, info in self.infos.items()}
        for name, info in self.infos.items():
            for other, protocol in self.infos.items():
                if protocol.is_protocol and all(info.get(member) for member in protocol.names):
                    self.below[name].add(other)

    def of(self, name: str) -> Set[str]:
        """A class with those that are above or below it."""
        return {name} | self.below.get(name, set()) | {other for other, above in self.below.items() if name in above}

    def is_of_library(self, name: str, field: str) -> bool:
        """Whether a class has a field by a class of a library, which may read it."""
        mro = self.infos[name].mro if name in self.infos else []
        others = [base for base in mro if base.fullname not in {*self.infos, "builtins.tuple", "typing.NamedTuple"}]
        return any(field in base.names for base in others)


def unread_in(root: pathlib.Path) -> Iterator[str]:
    """The fields that nothing reads, as MODULE.CLASS.FIELD, and the defaults that are no choice, as
    MODULE.FUNCTION(PARAMETER)."""
    sources, inner = sources_of(root), root / "python/src"
    result = result_of(root, sources)
    paths = {one.module: pathlib.Path(one.path or "") for one in sources}
    packages = {module: path for module, path in paths.items() if inner in path.parents}
    declared = [declared_in(module, ast.parse(path.read_text(encoding="utf-8"))) for module, path in packages.items()]
    reader = Reader(result, {name: fields for one in declared for name, fields in one.records.items()})
    for source in sources:
        reader.room = room_of(source.module) if source.module in packages else "none"
        result.files[source.module].accept(reader)
    family, templates = Family(result, set(packages)), words_of_templates(root)
    for name, field in (pair for one in declared for pair in one.fields):
        is_named = (room_of(name), field) in reader.names or (field in templates and ".report." in name)
        is_read = any((other, field) in reader.read for other in family.of(name))
        if not is_named and not is_read and not family.is_of_library(name, field):
            yield f"{name}.{field}"
    for name, word in (pair for one in declared for pair in one.defaults):
        owner, _, method = name.rpartition(".")
        others = family.of(name) | {f"{other}.{method}" for other in family.of(owner)}
        is_called = {(room_of(name), method), ("", method)} & reader.calls
        if not is_called and not any((other, word) in reader.passed for other in others):
            yield f"{name}({word})"


def main() -> None:
    """Prints what is of no use."""
    parser = argparse.ArgumentParser(description=__doc__, formatter_class=argparse.RawDescriptionHelpFormatter)
    parser.add_argument("root", metavar="ROOT", nargs="?", type=pathlib.Path, default=HERE)
    root = parser.parse_args().root.resolve()
    try:
        print("".join(f"{line}\n" for line in unread_in(root)), end="")
    except CompileError as fault:
        sys.exit("unread.py: " + "; ".join(fault.messages))


if __name__ == "__main__":
    main()
