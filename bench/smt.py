"""Writes what a question asks as an SMT-LIB problem.

Two databases conform to the schema. Each row of a view in the first is a row of that view in the second, and each recorded row
is in its query's answer in the first. Is there then a row in the question's answer in the first that isn't in that in the
second? `sat` says yes: the question isn't strongly compliant. Whole numbers are `Int`, texts an uninterpreted sort.
"""
import itertools
from typing import NamedTuple


class Problem(NamedTuple):
    schema: dict  # of tables by their names
    views: list  # of selects
    context: dict  # of values by the parameters' names
    entries: list  # of (select, row of values)
    goal: object  # a select


class Row(NamedTuple):
    """A row of one of the databases, by a term for each column, and the condition under which it is there."""

    table: str
    cells: list
    stands: str
    name: str = ""  # of the variable, if it is one


def all_of(conditions):
    kept = [it for it in conditions if it != "true"]
    if len(kept) < 2:
        return kept[0] if kept else "true"
    return f"(and {' '.join(kept)})"


def any_of(conditions):
    if "true" in conditions:
        return "true"
    if len(conditions) < 2:
        return conditions[0] if conditions else "false"
    return f"(or {' '.join(conditions)})"


def implies(condition, other):
    if condition == "false" or other in ("true", condition):
        return "true"
    return other if condition == "true" else f"(=> {condition} {other})"


def compare(op, left, right):
    if op == "<>":
        return f"(not {compare('=', left, right)})"
    return "true" if op == "=" and left == right else f"({op} {left} {right})"


def same(left, right):
    return all_of([compare("=", *it) for it in zip(left, right)])


class Text:
    """An SMT-LIB text that grows."""

    def __init__(self, problem):
        self.problem = problem
        self.texts, self.sorts, self.declared, self.asserted = {}, ["Text"], [], []

    def constant(self, value):
        """A literal. Texts are constants, which are distinct."""
        if isinstance(value, str):
            return self.texts.setdefault(value, f"text{len(self.texts)}")
        return str(value) if value >= 0 else f"(- {-value})"

    def declare(self, name, kinds, kind):
        self.declared.append(f"(declare-fun {name} ({' '.join(kinds)}) {kind})")
        return name

    def fresh(self, kind):
        return self.declare(f"c{len(self.declared)}", [], kind)

    def say(self, condition):
        if condition != "true":
            self.asserted.append(f"(assert {condition})")

    def lines(self):
        names = list(self.texts.values())
        distinct = [f"(assert (distinct {' '.join(names)}))"] if len(names) > 1 else []
        sorts = [f"(declare-sort {it} 0)" for it in self.sorts]
        return [*sorts, *(f"(declare-fun {it} () Text)" for it in names), *self.declared, *distinct, *self.asserted]

    def term(self, operand, rows):
        if operand[0] == "col":
            return rows[operand[1]].cells[operand[2]]
        return self.constant(operand[1] if operand[0] == "val" else self.problem.context[operand[1]])

    def head(self, select, rows):
        return [self.term(it, rows) for it in select.head]

    def holds(self, atoms, rows, others=()):
        """These rows, by their places, are there, and the atoms hold of them and the others."""
        places = {**rows, **dict(others)}
        found = [compare(op, self.term(left, places), self.term(right, places)) for op, left, right in atoms]
        return all_of([it.stands for it in rows.values()] + found)

    def is_shown(self, select, rows, row):
        """The select over these rows gives the row."""
        return all_of([self.holds(select.atoms, rows), same(self.head(select, rows), row)])

    def target(self, link):
        """The columns' numbers of a link in its own table and in its target."""
        columns, target, named = link
        return columns, target, self.problem.schema[target].numbers(named)


class Bounded(Text):
    """Bounded databases: tables of so many rows, each with a condition under which it is there.

    The first database has a row for each table of the question and of each recorded row's query; the second, for each row of a view in the first, a
    row for each table of that view. Each database has, for each row and each link of its table, a row that the link names, until
    a table comes again on the way: such a link is met by one of the rows that are there.
    """

    def __init__(self, problem, spare=0):
        super().__init__(problem)
        self.spare = spare
        self.one = {table: [] for table in problem.schema}
        self.two = {table: [] for table in problem.schema}

    def write(self):
        goal = self.witness(self.problem.goal)
        for select, row in self.problem.entries:
            self.say(same(self.witness(select), [self.constant(it) for it in row]))
        self.add_spare(self.one)
        self.conform(self.one)
        for view in self.problem.views:
            self.within(view)
        self.add_spare(self.two)
        self.conform(self.two)
        for condition, row in self.answers(self.problem.goal, self.two):
            self.say(f"(not {all_of([condition, same(goal, row)])})")
        return self.lines()

    def rows(self, select, stands):
        """New rows for a select's tables."""
        schema = self.problem.schema
        return {place: Row(table, [self.fresh(kind) for _, kind in schema[table].columns], stands) for place, table in enumerate(select.tables)}

    def witness(self, select):
        """New rows of the first database, of which the select gives the row that is answered."""
        rows = self.rows(select, "true")
        for row in rows.values():
            self.add(self.one, row, [])
        self.say(self.holds(select.atoms, rows))
        return self.head(select, rows)

    def add(self, tables, row, above):
        """Adds the row, and what its links name."""
        tables[row.table].append(row)
        for link in self.problem.schema[row.table].links:
            columns, target, wanted = self.target(link)
            if target not in (*above, row.table):
                cells = [self.fresh(kind) for _, kind in self.problem.schema[target].columns]
                for column, other in zip(columns, wanted):
                    cells[other] = row.cells[column]
                self.add(tables, Row(target, cells, row.stands), [*above, row.table])

    def add_spare(self, tables):
        for table in self.problem.schema.values():
            for _ in range(self.spare):
                cells = [self.fresh(kind) for _, kind in table.columns]
                self.add(tables, Row(table.name, cells, self.fresh("Bool")), [])

    def conform(self, tables):
        for table in self.problem.schema.values():
            for key in table.keys:
                for pair in itertools.combinations(tables[table.name], 2):
                    self.keep_key(key, *pair)
            for link in table.links:
                for row in tables[table.name]:
                    self.keep_link(tables, link, row)

    def keep_key(self, key, row, other):
        agree = same([row.cells[it] for it in key], [other.cells[it] for it in key])
        self.say(implies(all_of([row.stands, other.stands, agree]), same(row.cells, other.cells)))

    def keep_link(self, tables, link, row):
        columns, target, wanted = self.target(link)
        cells = [row.cells[it] for it in columns]
        choices = [all_of([it.stands, same(cells, [it.cells[n] for n in wanted])]) for it in tables[target]]
        if row.stands not in choices:
            self.say(implies(row.stands, any_of(choices)))

    def within(self, view):
        """Each row of the view in the first database has rows of its own in the second that give it."""
        for condition, row in self.answers(view, self.one):
            shown = self.fresh("Bool")
            self.say(f"(= {shown} {condition})")
            self.show(view, row, shown)

    def show(self, view, row, shown):
        rows = self.rows(view, shown)
        for operand, cell in zip(view.head, row):
            if operand[0] == "col":
                rows[operand[1]].cells[operand[2]] = cell
        self.say(implies(shown, self.is_shown(view, rows, row)))
        for it in rows.values():
            self.add(self.two, it, [])

    def answers(self, select, tables):
        """For each choice of rows for the places that the head names: the condition under which the select gives a row, and the row."""
        named = sorted({it[1] for it in select.head if it[0] == "col"})
        others = [it for it in range(len(select.tables)) if it not in named]
        near = [it for it in select.atoms if all(side[0] != "col" or side[1] in named for side in it[1:])]
        far = [it for it in select.atoms if it not in near]
        for chosen in self.choices(select, named, tables):
            rest = any_of([self.holds(far, it, chosen) for it in self.choices(select, others, tables)])
            if rest != "false":
                yield all_of([self.holds(near, chosen), rest]), self.head(select, chosen)

    @staticmethod
    def choices(select, places, tables):
        return [dict(zip(places, it)) for it in itertools.product(*(tables[select.tables[place]] for place in places))]


class Quantified(Text):
    """Databases of any size: a sort of rows for each table, with a function for each column and two predicates for where a row is."""

    def write(self):
        for table in self.problem.schema.values():
            self.sorts.append(f"Row.{table.name}")
            self.declare_table(table)
            for side in (1, 2):
                self.conform(table, side)
        for view in self.problem.views:
            rows, others = self.rows(view, "a", 1), self.rows(view, "b", 2)
            shown = quantifier("exists", others.values(), self.is_shown(view, others, self.head(view, rows)))
            self.say(quantifier("forall", rows.values(), implies(self.holds(view.atoms, rows), shown)))
        for number, (select, row) in enumerate(self.problem.entries):
            self.say(self.is_shown(select, self.named(select, f"e{number}."), [self.constant(it) for it in row]))
        self.ask(self.problem.goal)
        return self.lines()

    def ask(self, goal):
        rows, others = self.named(goal, "g"), self.rows(goal, "b", 2)
        self.say(self.holds(goal.atoms, rows))
        self.say(quantifier("forall", others.values(), f"(not {self.is_shown(goal, others, self.head(goal, rows))})"))

    def declare_table(self, table):
        for number, (_, kind) in enumerate(table.columns):
            self.declare(f"{table.name}.{number}", [f"Row.{table.name}"], kind)
        for side in (1, 2):
            self.declare(f"{table.name}.in{side}", [f"Row.{table.name}"], "Bool")

    def row(self, table, name, side):
        columns = range(len(self.problem.schema[table].columns))
        return Row(table, [f"({table}.{it} {name})" for it in columns], f"({table}.in{side} {name})", name)

    def rows(self, select, name, side):
        return {place: self.row(table, f"{name}{place}", side) for place, table in enumerate(select.tables)}

    def named(self, select, name):
        """Constants for rows of the first database."""
        rows = self.rows(select, name, 1)
        for row in rows.values():
            self.declare(row.name, [], f"Row.{row.table}")
        return rows

    def conform(self, table, side):
        row, other = self.row(table.name, "a", side), self.row(table.name, "b", side)
        for key in table.keys:
            agree = same([row.cells[it] for it in key], [other.cells[it] for it in key])
            self.say(quantifier("forall", [row, other], implies(all_of([row.stands, other.stands, agree]), f"(= {row.name} {other.name})")))
        for link in table.links:
            columns, target, wanted = self.target(link)
            there = self.row(target, "b", side)
            meets = all_of([there.stands, same([there.cells[it] for it in wanted], [row.cells[it] for it in columns])])
            self.say(quantifier("forall", [row], implies(row.stands, quantifier("exists", [there], meets))))


def quantifier(word, rows, condition):
    variables = " ".join(f"({it.name} Row.{it.table})" for it in rows)
    return condition if condition == "true" else f"({word} ({variables}) {condition})"
