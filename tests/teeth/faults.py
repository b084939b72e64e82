"""Makes faulty members of model.py. `systematic` changes one comparison, number, order, field or statement at a time, by the syntax of each
function; `written` are mistakes of another kind, from written.txt. `run` holds the case files against all of them. A change that a compiler
would refuse in a typed language, since a name has no value where it is used or a function ends without its answer, is no fault.

A fault has a title that does not depend on line numbers. EQUIVALENT has the titles of those that no case can tell from the model, each
with its reason, from equivalent.txt; a fault that is neither noticed nor listed there is a failure of the case files.
"""

import ast
import builtins
import collections
import copy
import os
import types

HERE = os.path.dirname(os.path.abspath(__file__))
with open(os.path.join(HERE, "model.py"), encoding="utf-8") as opened:
    SOURCE = opened.read()
TREE = ast.parse(SOURCE)
BASE = compile(SOURCE, "model.py", "exec")

# The names that every function of the model may use.
GLOBAL = set(dir(builtins)) | {part.id for top in TREE.body for part in ast.walk(top) if isinstance(top, ast.Assign) and isinstance(part, ast.Name)} \
    | {top.name for top in TREE.body if isinstance(top, (ast.FunctionDef, ast.ClassDef))}

# What prints or keeps an answer, and the fresh records that a case begins with, are no rules of the paper.
PASSED_OVER = ("Answer", "Record", "Place", "Fields")

# Which arguments a function of the model changes, by position; all others change nothing.
CHANGES = {"write": (0,), "deliver_one": (0, 1, 2), "take": (1, 2, 3, 5), "release": (1, 2, 3, 4), "settle": (0,), "acknowledge": (0, 2, 3),
           "begin": (0,), "answer_with": (0,), "pass_time": (0,), "end_standoff": (0,), "end_wait": (0,)}

COMPARISONS = {
    ast.Lt: (ast.LtE, ast.GtE, ast.NotEq), ast.LtE: (ast.Lt, ast.Gt, ast.Eq), ast.Gt: (ast.GtE, ast.LtE, ast.NotEq),
    ast.GtE: (ast.Gt, ast.Lt, ast.Eq), ast.Eq: (ast.NotEq, ast.LtE, ast.GtE), ast.NotEq: (ast.Eq, ast.Lt, ast.Gt),
    ast.Is: (ast.IsNot,), ast.IsNot: (ast.Is,), ast.In: (ast.NotIn,), ast.NotIn: (ast.In,),
}
ARITHMETIC = {ast.Add: (ast.Sub,), ast.Sub: (ast.Add,), ast.Mult: (ast.Add,), ast.Mod: (ast.FloorDiv,), ast.FloorDiv: (ast.Mod,)}
# Fields that are easily taken for one another.
TWINS = (
    ("total", "reliable", "known", "acked"), ("total", "reliable", "oldest"), ("first", "last"), ("channel", "mid", "reciprocal"),
    ("left", "count"), ("holdoff", "modulus", "maxwait"), ("expiry", "idle"), ("first", "threshold"),
)
FIELDS = {
    "record": ("total", "reliable", "known", "acked", "channel", "mid", "reciprocal", "left", "count", "holdoff", "modulus", "maxwait", "expiry",
               "idle"),
    "other": ("channel", "mid", "reciprocal"), "place": ("total", "reliable"),
    "wrapper": ("total", "reliable", "oldest", "first", "last", "threshold"),
    "join": ("total", "reliable", "channel", "mid", "reciprocal", "holdoff", "modulus", "maxwait"),
}


class Fault:
    """One faulty member: its title and the code that replaces a function, or the whole model."""

    def __init__(self, title, code):
        self.title = title
        self.code = code

    def member(self):
        module = types.ModuleType("faulty")
        exec(BASE, module.__dict__)
        exec(self.code, module.__dict__)
        return module


# ---- faults by syntax ----


def systematic():
    """A fault for every small change of every function of model.py."""
    counts = collections.Counter()
    faults = []
    for top in TREE.body:
        if not isinstance(top, (ast.FunctionDef, ast.ClassDef)) or top.name in PASSED_OVER:
            continue
        for name, change in changes_of(top):
            title = f"{top.name}: {name}"
            counts[title] += 1
            if counts[title] > 1:
                title += f" (no. {counts[title]})"
            tree = ast.fix_missing_locations(ast.Module(body=[change], type_ignores=[]))
            faults.append(Fault(title, compile(tree, "faulty", "exec")))
    return faults


def changes_of(top):
    """Each changed copy of a function or class, with what was changed."""
    for number, node in enumerate(ast.walk(top)):
        for edit in edits_of(node):
            changed = copy.deepcopy(top)
            twin = list(ast.walk(changed))[number]
            before = ast.unparse(twin)
            description = describe(before, edit(twin))
            if all(is_program(*pair) for pair in zip(functions_of(changed), functions_of(top))):
                yield (description, changed)


def functions_of(top):
    return [part for part in ast.walk(top) if isinstance(part, ast.FunctionDef)]


def is_program(changed, function):
    """Whether every name of a changed function has a value before it is used, and it gives an answer at its end if the function does."""
    answers = any(isinstance(part, ast.Return) and part.value is not None for part in ast.walk(function))
    if answers and not isinstance(changed.body[-1], ast.Return):
        return False
    names = Names(changed)
    names.in_order(changed.body)
    return not names.without_value


class Names(ast.NodeVisitor):
    """Goes over a function in the order in which it runs, and notes whether a name is used that has no value on some way there."""

    def __init__(self, function):
        self.given = {argument.arg for argument in function.args.args}
        self.without_value = False

    def in_order(self, *parts):
        for part in parts:
            for one in part if isinstance(part, list) else [part]:
                self.visit(one)

    def use(self, name):
        self.without_value = self.without_value or (name not in self.given and name not in GLOBAL)

    def visit_Name(self, node):
        if isinstance(node.ctx, ast.Store):
            self.given.add(node.id)
        else:
            self.use(node.id)

    def visit_Assign(self, node):
        self.in_order(node.value, node.targets)

    def visit_AugAssign(self, node):
        if isinstance(node.target, ast.Name):
            self.use(node.target.id)
        self.in_order(node.value, node.target)

    def visit_If(self, node):
        self.visit(node.test)
        before = set(self.given)
        ways = []
        for block in (node.body, node.orelse):
            self.given = set(before)
            self.in_order(block)
            if not block or not isinstance(block[-1], (ast.Return, ast.Continue)):
                ways.append(self.given)
        self.given = set.intersection(*ways) if ways else before

    def visit_For(self, node):
        self.visit(node.iter)
        before = set(self.given)
        self.in_order(node.target, node.body)
        self.given = before

    def visit_While(self, node):
        self.visit(node.test)
        before = set(self.given)
        self.in_order(node.body)
        self.given = before

    def visit_comprehension(self, node):
        self.in_order(node.iter, node.target, node.ifs)

    def visit_GeneratorExp(self, node):
        self.in_order(node.generators, node.elt)


def describe(before, after):
    if isinstance(after, str):
        return after
    return f"`{first_line(before)}` becomes `{first_line(ast.unparse(after))}`"


def first_line(text):
    lines = text.split("\n")
    return lines[0] if len(lines) == 1 else " ".join(line.strip() for line in lines[:2])


def edits_of(node):
    """The edits that fit a node. An edit changes it in place and gives it, or a description."""
    edits = edits_of_operators(node) + edits_of_numbers(node)
    if isinstance(node, ast.Attribute):
        edits += [put_attribute(name) for name in twins_of(node)]
    if isinstance(node, ast.Call):
        edits += edits_of_call(node)
    if isinstance(node, ast.For):
        edits += [put_loop(text) for text in ("{}[1:]", "{}[:-1]", "reversed({})")]
    for block in ("body", "orelse"):
        statements = getattr(node, block, None)
        if isinstance(statements, list) and not isinstance(node, ast.ClassDef):
            edits += edits_of_block(block, statements)
    return edits


def edits_of_operators(node):
    edits = []
    if isinstance(node, ast.Compare) and len(node.ops) == 1:
        edits += [put_operator(kind) for kind in COMPARISONS.get(type(node.ops[0]), ()) if can_differ(node, kind)]
    if isinstance(node, ast.BinOp) and not is_run(node):
        edits += [put_arithmetic(kind) for kind in ARITHMETIC.get(type(node.op), ())]
        if isinstance(node.op, (ast.Mod, ast.FloorDiv)):
            edits.append(keep_left)
    if isinstance(node, ast.BoolOp):
        edits.append(swap_boolean)
        edits += [drop_operand(number) for number in range(len(node.values))]
    if isinstance(node, ast.UnaryOp) and isinstance(node.op, ast.Not):
        edits.append(drop_not)
    return edits


def is_run(node):
    """Whether a sum is of octets or words, one run behind the other, and not of numbers."""
    if isinstance(node, ast.BinOp):
        return isinstance(node.op, ast.Add) and (is_run(node.left) or is_run(node.right))
    if isinstance(node, ast.Call):
        return not isinstance(node.func, ast.Name) or node.func.id in ("big", "pdu", "standing", "ack", "accept")
    return isinstance(node, ast.List) or (isinstance(node, ast.Name) and node.id in ("words", "owner"))


def can_differ(node, kind):
    """A text and NONE are only equal or not, and nothing that is compared with 0 for equality is below it."""
    right = node.comparators[0]
    if not isinstance(node.ops[0], (ast.Eq, ast.NotEq)) or kind in (ast.Eq, ast.NotEq):
        return True
    if ast.unparse(right) == "NONE" or (isinstance(right, ast.Constant) and isinstance(right.value, str)):
        return False
    return not (isinstance(right, ast.Constant) and right.value == 0 and kind in (ast.LtE, ast.Gt))


def edits_of_numbers(node):
    """Numbers are changed where they are used, through the field that holds them."""
    edits = []
    for field, value in ast.iter_fields(node):
        values = value if isinstance(value, list) else [value]
        for number, item in enumerate(values):
            if is_number(item) and not (isinstance(node, ast.BinOp) and isinstance(node.op, ast.Pow)):
                where = number if isinstance(value, list) else None
                edits += [put_sum(field, where, 1), put_sum(field, where, -1)]
    return edits


def is_number(node):
    if isinstance(node, ast.Constant):
        return type(node.value) is int
    if isinstance(node, ast.Name):
        return node.id.isupper() and node.id not in ("LEAVING_REASONS", "NONE") and isinstance(node.ctx, ast.Load)
    return isinstance(node, ast.BinOp) and isinstance(node.op, ast.Pow)


def edits_of_call(node):
    edits = []
    name = node.func.id if isinstance(node.func, ast.Name) else ""
    if name == "distance":
        edits += [swap_arguments, put_call("{1} - {0}"), put_call("({1} - {0}) % 2 ** 32"),
                  put_call("2 ** 31 if ({1} - {0}) % 2 ** 32 == 2 ** 31 else distance({0}, {1})")]
    if name in ("min", "max") and len(node.args) == 2:
        edits += [put_call("{0}"), put_call("{1}"), put_call(("max" if name == "min" else "min") + "({0}, {1})")]
    return edits


def edits_of_block(block, statements):
    edits = []
    for number, statement in enumerate(statements):
        last = number == len(statements) - 1
        empty = isinstance(statement, ast.Return) and last and (len(statements) == 1 or ast.unparse(statement) in ("return None", "return False"))
        if not is_documentation(statement) and not empty:
            edits.append(drop_statement(block, number))
        for later in range(number + 1, len(statements)):
            if is_check(statement) and is_check(statements[later]):
                if not exclude_each_other(statement, statements[later]):
                    edits.append(swap_statements(block, number, later))
            elif later == number + 1 and depend(statement, statements[later]):
                edits.append(swap_statements(block, number, later))
    return edits


def exclude_each_other(one, two):
    """Whether the order of two checks is idle: they give the same, or look for two values of one number."""
    if ast.dump(ast.Module(one.body, [])) == ast.dump(ast.Module(two.body, [])):
        return True
    tests = [check.test for check in (one, two)]
    return (all(isinstance(test, ast.Compare) and isinstance(test.ops[0], ast.Eq) for test in tests)
            and ast.dump(tests[0].left) == ast.dump(tests[1].left))


def is_documentation(statement):
    return isinstance(statement, ast.Expr) and isinstance(statement.value, ast.Constant)


def is_check(statement):
    return isinstance(statement, ast.If) and not statement.orelse and isinstance(statement.body[-1], (ast.Return, ast.Continue))


def depend(one, two):
    """Whether the order of two statements can matter."""
    if is_documentation(one):
        return False
    stored, used = zip(*(names_of(side) for side in (one, two)))
    if meet(stored[0], stored[1] | used[1]) or meet(stored[1], used[0]):
        return True
    lasting = [any("." in name or name in ("held", "deliver", "reply", "cells", "room") for name in side) for side in stored]
    return (leaves(one) and lasting[1]) or (leaves(two) and lasting[0])


def names_of(statement):
    """What a statement stores and what it uses, as dotted names."""
    stored, used = set(), set()
    for part in ast.walk(statement):
        if isinstance(part, (ast.Name, ast.Attribute)):
            (stored if isinstance(part.ctx, ast.Store) else used).add(ast.unparse(part))
        if isinstance(part, ast.Call) and isinstance(part.func, ast.Name):
            stored |= {ast.unparse(part.args[at]) + ".all" for at in CHANGES.get(part.func.id, ())}
        if isinstance(part, ast.Call) and isinstance(part.func, ast.Attribute):
            stored.add(ast.unparse(part.func.value))
    return stored, used


def meet(stored, others):
    """Whether something stored is among the others; `x.all` stands for all that x has."""
    for name in stored:
        owner = name.split(".")[0]
        if name in others or f"{owner}.all" in others:
            return True
        if name.endswith(".all") and any(other.split(".")[0] == owner for other in others):
            return True
    return False


def leaves(statement):
    return any(isinstance(part, (ast.Return, ast.Continue)) for part in ast.walk(statement))


def twins_of(node):
    owner = node.value.id if isinstance(node.value, ast.Name) else ""
    found = []
    for group in TWINS:
        if node.attr in group:
            found += [name for name in group if name != node.attr and name in FIELDS.get(owner, ()) and name not in found]
    return found


def put_operator(kind):
    def edit(node):
        node.ops = [kind()]
        return node
    return edit


def put_arithmetic(kind):
    def edit(node):
        node.op = kind()
        return node
    return edit


def keep_left(node):
    text = ast.unparse(node)
    node.op = ast.Add()
    node.right = ast.Constant(0)
    return f"`{text}` becomes its left side"


def swap_boolean(node):
    node.op = ast.And() if isinstance(node.op, ast.Or) else ast.Or()
    return node


def drop_operand(number):
    def edit(node):
        text = ast.unparse(node)
        gone = node.values.pop(number)
        if len(node.values) == 1:
            node.values.append(copy.deepcopy(node.values[0]))
        return f"`{text}` without `{ast.unparse(gone)}`"
    return edit


def drop_not(node):
    text = ast.unparse(node)
    node.operand = ast.UnaryOp(ast.Not(), node.operand)
    return f"`{text}` without its not"


def put_attribute(name):
    def edit(node):
        node.attr = name
        return node
    return edit


def put_call(text):
    def edit(node):
        before = ast.unparse(node)
        after = text.format(*(f"({ast.unparse(argument)})" for argument in node.args))
        node.func = ast.Lambda(ast.arguments(posonlyargs=[], args=[], kwonlyargs=[], kw_defaults=[], defaults=[]),
                               ast.parse(after, mode="eval").body)
        node.args = []
        return f"`{before}` becomes `{after}`"
    return edit


def swap_arguments(node):
    node.args.reverse()
    return node


def put_loop(text):
    def edit(node):
        before = ast.unparse(node.iter)
        after = text.format(f"list({before})")
        node.iter = ast.parse(after, mode="eval").body
        return f"the loop over `{before}` goes over `{after}`"
    return edit


def put_sum(field, where, by):
    def edit(node):
        before = ast.unparse(node)
        value = getattr(node, field)
        old = value if where is None else value[where]
        if isinstance(old, ast.Constant):
            new = ast.Constant(old.value + by)
        else:
            new = ast.BinOp(old, ast.Add() if by > 0 else ast.Sub(), ast.Constant(1))
        if where is None:
            setattr(node, field, new)
        else:
            value[where] = new
        return f"`{first_line(before)}` has {ast.unparse(new)} for {ast.unparse(old)}"
    return edit


def drop_statement(block, number):
    def edit(node):
        statements = getattr(node, block)
        gone = first_line(ast.unparse(statements[number]))
        statements[number] = ast.Pass()
        return f"without `{gone}`"
    return edit


def swap_statements(block, one, two):
    def edit(node):
        statements = getattr(node, block)
        statements[one], statements[two] = statements[two], statements[one]
        return f"`{first_line(ast.unparse(statements[one]))}` before `{first_line(ast.unparse(statements[two]))}`"
    return edit



# ---- faults that people write ----


def paragraphs(name):
    """The paragraphs of a text file beside this one, each as its lines, without comments."""
    with open(os.path.join(HERE, name), encoding="utf-8") as text:
        kept = "".join(line for line in text if not line.startswith("#"))
    return [paragraph.split("\n") for paragraph in kept.strip().split("\n\n")]


def written():
    """The faults of written.txt."""
    faults = []
    for title, *lines in paragraphs("written.txt"):
        source = SOURCE
        while lines:
            old, new = take_lines(lines, "-"), take_lines(lines, "+")
            if source.count(old) != 1:
                raise ValueError(f"{title}: its text is there {source.count(old)} times, not once")
            source = source.replace(old, new)
        faults.append(Fault(title, compile(source, "faulty", "exec")))
    return faults


def take_lines(lines, sign):
    """Takes the next lines that begin with a sign, and gives them as they stand in the model."""
    taken = []
    while lines and lines[0].startswith(sign):
        taken.append(lines.pop(0)[2:])
    return "\n".join(taken)


EQUIVALENT = {title.strip(): reason for reason, *titles in paragraphs("equivalent.txt") for title in titles}


def every():
    return systematic() + written()
