"""Reads the texts of schemas, policies and questions that bench/ puts to solvers: views and questions of one SELECT, with AND alone."""
import re
from typing import NamedTuple

TOKEN = re.compile(r"\s+|--[^\n]*|('(?:[^']|'')*'|-?\d+|\??\w+|<>|!=|<=|>=|[(),.;*=<>])")
# What can't be the name that a source is called by.
BEHIND_A_SOURCE = ("", ";", ",", "JOIN", "ON", "WHERE")


class Table(NamedTuple):
    name: str
    columns: list  # of (name, "Int" or "Text")
    keys: list  # of lists of columns' numbers
    links: list  # of (columns' numbers, the target's name, its columns' names)

    def numbers(self, names):
        return [[it for it, _ in self.columns].index(name) for name in names]


class Select(NamedTuple):
    """An operand is ("col", place, column), ("val", value) or ("param", name), an atom (op, left, right) with = <> < or <=."""

    tables: list  # the table of each place, by its name
    atoms: list
    head: list  # of operands


class Tokens:
    """The words of a text, which go from the left."""

    def __init__(self, text):
        self.words = [it for it in TOKEN.findall(text) if it]

    def comes(self):
        return self.words[0].upper() if self.words else ""

    def take(self):
        return self.words.pop(0)

    def took(self, *wanted):
        """Whether these words come next. They go then."""
        found = tuple(it.upper() for it in self.words[: len(wanted)]) == wanted
        if found:
            del self.words[: len(wanted)]
        return found

    def want(self, *wanted):
        if not self.took(*wanted):
            raise ValueError(f"{self.words[:4]} in place of {wanted}")


def commas(tokens, one):
    """One or more, with commas between them."""
    found = [one(tokens)]
    while tokens.took(","):
        found.append(one(tokens))
    return found


def bracketed(tokens, one):
    tokens.want("(")
    found = commas(tokens, one)
    tokens.want(")")
    return found


def read_schema(text):
    """The tables by their names."""
    tokens, tables = Tokens(text), {}
    while tokens.took("CREATE", "TABLE"):
        table = Table(tokens.take(), [], [], [])
        bracketed(tokens, lambda it, table=table: read_item(it, table))
        tokens.want(";")
        tables[table.name] = table
    return tables


def read_item(tokens, table):
    """A column of a table, or a key or a link of several."""
    if tokens.took("PRIMARY", "KEY") or tokens.took("UNIQUE"):
        table.keys.append(table.numbers(bracketed(tokens, Tokens.take)))
    elif tokens.took("FOREIGN", "KEY"):
        columns = table.numbers(bracketed(tokens, Tokens.take))
        tokens.want("REFERENCES")
        table.links.append((columns, tokens.take(), bracketed(tokens, Tokens.take)))
    else:
        name, kind = tokens.take(), tokens.take()
        table.columns.append((name, "Int" if "INT" in kind.upper() else "Text"))
        read_constraints(tokens, table, table.numbers([name]))


def read_constraints(tokens, table, column):
    while tokens.comes() not in (",", ")"):
        if tokens.took("PRIMARY", "KEY"):
            table.keys.append(column)
        elif tokens.took("REFERENCES"):
            table.links.append((column, tokens.take(), bracketed(tokens, Tokens.take)))
        else:
            tokens.want("NOT", "NULL")


def read_views(schema, text):
    """The views of a policy. Its parameters' names and kinds are passed over."""
    tokens, views = Tokens(text), []
    while tokens.words:
        if tokens.took("PARAM"):
            del tokens.words[:2]
        else:
            tokens.want("CREATE", "VIEW")
            tokens.take()
            tokens.want("AS")
            views.append(read_select(schema, tokens))
        tokens.want(";")
    return views


def read_question(schema, text):
    tokens = Tokens(text)
    select = read_select(schema, tokens)
    if tokens.words:
        raise ValueError(f"{tokens.words[:4]} behind a question")
    return select


def read_select(schema, tokens):
    tokens.want("SELECT")
    head = None if tokens.took("*") else commas(tokens, written)
    tokens.want("FROM")
    sources, atoms = read_sources(tokens)
    if tokens.took("WHERE"):
        atoms += conjuncts(tokens)
    found = [(op, operand(schema, sources, left), operand(schema, sources, right)) for op, left, right in atoms]
    heads = all_columns(schema, sources) if head is None else [operand(schema, sources, it) for it in head]
    return Select([table for table, _ in sources], found, heads)


def read_sources(tokens):
    """The sources, each a table and what it is called by, and the written atoms behind ON."""
    sources, atoms = [source(tokens)], []
    while True:
        if tokens.took(","):
            sources.append(source(tokens))
        elif tokens.took("JOIN"):
            sources.append(source(tokens))
            tokens.want("ON")
            atoms += conjuncts(tokens)
        else:
            return sources, atoms


def source(tokens):
    table = tokens.take()
    return table, table if tokens.comes() in BEHIND_A_SOURCE else tokens.take()


def conjuncts(tokens):
    found = [comparison(tokens)]
    while tokens.took("AND"):
        found.append(comparison(tokens))
    return found


def comparison(tokens):
    left, op, right = written(tokens), tokens.take(), written(tokens)
    if op in (">", ">="):
        return op.replace(">", "<"), right, left
    return op.replace("!=", "<>"), left, right


def written(tokens):
    """The words of a constant, a parameter, or a column with or without what its source is called by."""
    word = tokens.take()
    return (word, tokens.take()) if tokens.took(".") else (word,)


def operand(schema, sources, words):
    sign = words[0][0]
    if sign == "'":
        return "val", words[0][1:-1].replace("''", "'")
    if sign == "?":
        return "param", words[0][1:]
    if sign == "-" or sign.isdigit():
        return "val", int(words[0])
    for place, (table, called) in enumerate(sources):
        columns = [it for it, _ in schema[table].columns]
        if words[-1] in columns and words[:-1] in ((), (called,)):
            return "col", place, columns.index(words[-1])
    raise ValueError(f"no column {words}")


def all_columns(schema, sources):
    return [("col", place, column) for place, (table, _) in enumerate(sources) for column in range(len(schema[table].columns))]
