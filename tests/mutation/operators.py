"""What a mutant is: one place of a program's text where something else stands. All that a text has, in its order.

The operators are what people get wrong: a comparison turned round or off by one, another constant, a statement left out,
arguments in another order, branches exchanged, an exception swallowed or let through, a flag or a mode of a call of the system.
"""
import ast
from typing import NamedTuple

COMPARISONS = {ast.Lt: ast.LtE, ast.LtE: ast.Lt, ast.Gt: ast.GtE, ast.GtE: ast.Gt, ast.Eq: ast.NotEq, ast.NotEq: ast.Eq,
               ast.In: ast.NotIn, ast.NotIn: ast.In, ast.Is: ast.IsNot, ast.IsNot: ast.Is}
ARITHMETIC = {ast.Add: ast.Sub, ast.Sub: ast.Add, ast.Mult: ast.Add, ast.FloorDiv: ast.Mult}


class Mutant(NamedTuple):
    file: str
    place: str  # the functions and classes that it is in, joined by dots
    operator: str
    line: int
    begin: int  # where its text begins and ends, in bytes
    end: int
    old: str
    new: str

    def name(self):
        """What the mutant is called, whatever its line: its texts on one line."""
        return "%s: %s: %s: %s -> %s" % (self.file, self.place, self.operator, *(" ".join(text.split()) for text in (self.old, self.new)))

    def applied(self, text):
        """The program's bytes with the mutant's in their place, on as many lines."""
        return text[:self.begin] + self.new.encode() + text[self.end:]


def with_field(node, **fields):
    """The node with other fields, as a text. What it had is put back."""
    before = {name: getattr(node, name) for name in fields}
    for name, value in fields.items():
        setattr(node, name, value)
    text = ast.unparse(node)
    for name, value in before.items():
        setattr(node, name, value)
    return "(%s)" % text


def constant(node, is_mode):
    """Another constant in place of this one, and what was changed; None for those that nobody chooses, as None."""
    value = node.value
    if isinstance(value, bool):
        return "constant", repr(not value)
    if isinstance(value, int):
        return ("mode", oct(value ^ 0o66)) if is_mode else ("constant", repr(value + 1))
    if isinstance(value, (str, bytes)) and value:
        return "constant", repr(value + ("X" if isinstance(value, str) else b"X"))
    return None


def of_expression(node, source):
    """The operators on an expression: each with the text in its place."""
    if isinstance(node, ast.Compare) and len(node.ops) == 1 and type(node.ops[0]) in COMPARISONS:
        yield "comparison", with_field(node, ops=[COMPARISONS[type(node.ops[0])]()])
    elif isinstance(node, ast.Constant):
        changed = constant(node, source.startswith("0o"))
        if changed:
            yield changed
    elif isinstance(node, ast.BoolOp):
        yield "condition", with_field(node, op=ast.Or() if isinstance(node.op, ast.And) else ast.And())
    elif isinstance(node, ast.UnaryOp) and isinstance(node.op, ast.Not):
        yield "condition", "(%s)" % ast.unparse(node.operand)
    elif isinstance(node, ast.BinOp) and isinstance(node.op, ast.BitOr) and isinstance(node.right, (ast.Attribute, ast.Name)):
        yield "flag", "(%s)" % ast.unparse(node.left)
    elif isinstance(node, ast.BinOp) and type(node.op) in ARITHMETIC:
        yield "arithmetic", with_field(node, op=ARITHMETIC[type(node.op)]())
    elif isinstance(node, ast.IfExp):
        yield "branches", with_field(node, body=node.orelse, orelse=node.body)
    elif isinstance(node, ast.Tuple) and isinstance(node.ctx, ast.Load) and len(node.elts) > 1:
        yield "elements", with_field(node, elts=node.elts[1:])
        if not isinstance(node.elts[0], ast.Constant) and ast.dump(node.elts[0]) != ast.dump(node.elts[1]):
            yield "elements", with_field(node, elts=[node.elts[1], node.elts[0], *node.elts[2:]])
    elif isinstance(node, ast.Call):
        yield from of_call(node)


def of_call(node):
    """The operators on a call: its first two arguments exchanged, and each flag that it is given by name turned round or left out."""
    words = node.args
    if len(words) > 1 and not any(isinstance(word, ast.Starred) for word in words[:2]) and ast.dump(words[0]) != ast.dump(words[1]):
        yield "arguments", with_field(node, args=[words[1], words[0], *words[2:]])
    for at, keyword in enumerate(node.keywords):
        if keyword.arg and not isinstance(keyword.value, ast.Constant):  # a constant has an operator of its own
            yield "option", with_field(node, keywords=node.keywords[:at] + node.keywords[at + 1:])


def of_statement(node):
    """The operators on a statement: each with the text in its place."""
    if isinstance(node, ast.Raise):
        yield "exception", "pass"
    elif isinstance(node, (ast.Continue, ast.Break, ast.AugAssign, ast.Delete)):
        yield "statement", "pass"
    elif isinstance(node, ast.Expr) and isinstance(node.value, ast.Call):
        yield "statement", "pass"
    elif isinstance(node, ast.Return) and node.value is not None and not isinstance(node.value, ast.Constant):
        yield "statement", "return None"
    elif isinstance(node, ast.Assign) and not any(isinstance(target, (ast.Name, ast.Tuple)) for target in node.targets):
        yield "statement", "pass"


def is_docstring(node, above):
    return isinstance(above, ast.Expr) and isinstance(node, ast.Constant)


class Finder:
    """Finds the mutants of one text."""

    def __init__(self, file, text):
        self.file, self.text, self.found = file, text, []
        self.starts = [0]
        for line in text.split(b"\n"):
            self.starts.append(self.starts[-1] + len(line) + 1)

    def span(self, node):
        """Where a node's text begins and ends, in bytes."""
        return self.starts[node.lineno - 1] + node.col_offset, self.starts[node.end_lineno - 1] + node.end_col_offset

    def add(self, node, place, operator, new):
        begin, end = self.span(node)
        old = self.text[begin:end].decode()
        lines = "\n" * max(0, old.count("\n") - new.count("\n"))  # so each line of the program keeps its number
        new = new[:-1] + lines + new[-1] if new.endswith(")") else new + lines
        self.found.append(Mutant(self.file, place, operator, node.lineno, begin, end, old, new))

    def visit(self, node, place="", above=None):
        if isinstance(node, (ast.FunctionDef, ast.ClassDef, ast.AsyncFunctionDef)):
            place = (place + "." if place else "") + node.name
        if isinstance(node, ast.JoinedStr) or is_docstring(node, above):
            return  # the places within a formatted text are no places of the file
        if isinstance(node, ast.If):
            begin, end = self.span(node.test)
            self.add(node.test, place, "branches", "(not (%s))" % self.text[begin:end].decode())
        if isinstance(node, ast.ExceptHandler) and node.type:
            self.add(node.type, place, "handler", "()")
        if isinstance(node, ast.stmt):
            for operator, new in of_statement(node):
                self.add(node, place, operator, new)
        elif isinstance(node, ast.expr):
            begin, end = self.span(node)
            for operator, new in of_expression(node, self.text[begin:end].decode()):
                self.add(node, place, operator, new)
        for child in ast.iter_child_nodes(node):
            self.visit(child, place, node)


def is_right(text):
    try:
        compile(text, "mutant", "exec")
    except (SyntaxError, ValueError):
        return False
    return True


def mutants(file, text):
    """The mutants of a program, given its bytes, in the order of its lines. Each is a program by its syntax."""
    finder = Finder(file, text)
    finder.visit(ast.parse(text))
    return sorted(mutant for mutant in set(finder.found) if mutant.old != mutant.new)
