"""The questions that bench/search.py asks."""
from asks import Ask, example

FIRST_ASK = example("title_as_first_ask", "search/title_as_first_ask_is_refuted", "refuted")
SCHEMA, POLICY = FIRST_ASK.schema, FIRST_ASK.policy
OWN = "SELECT UId, EId, At FROM Attendances WHERE UId = 2"

# How many rows are recorded before a question, and whether one ask records them all. A request has at most 256 asks, the question's
# own among them.
ENTRIES = [(1, False), (8, False), (8, True), (64, False), (64, True), (255, False), (256, True)]
# How many views a policy has: the greatest number is the most that it may have.
VIEWS = [1, 8, 128]
# How many rows are recorded, by one ask, before a question that compares.
COMPARED_ROWS = [1, 8, 64, 256]
# How many answers of a hundred rows each, whose questions compare the rows' keys, are recorded before a question.
ANSWERS = [1, 2, 5, 10]
# The budgets that the hard case has.
HARD_STEPS = [60, 120, 250, 500, 1_000, 2_000]
# The budgets that are spent: from the least that there may be to the greatest.
STEPS = [16, 50, 100, 500, 1_000, 2_000, 5_000, 10_000, 20_000, 50_000, 100_000]


def attended(count):
    """Tables in which user 2 attends so many events, from event 5 on, and not event 4."""
    events = [[4 + n, f"title{n}", 30] for n in range(count + 1)]
    return {"Users": [[2, "bob"]], "Events": events, "Attendances": [[2, 5 + n, 100 + n] for n in range(count)]}


def after(count, event, said, is_together=False):
    """An event's title after so many recorded attendances, each by an ask of its own or all together by one."""
    before = [OWN] if is_together else [f"{OWN} AND EId = {5 + n}" for n in range(count)]
    question = f"SELECT Title FROM Events WHERE EId = {event}"
    name = f"title_after_{count}_own_attendances"
    return Ask(name, SCHEMA, POLICY, attended(count), {"MyUId": 2}, before, question, said)


def compared_after(count):
    """Another event's title, if the event is short, after so many recorded attendances, all by one ask."""
    ask = after(count, 4, "refuted", True)
    return ask._replace(name=f"{ask.name}_compared", question=f"{ask.question} AND Duration < 100")


def cyclic(steps):
    return example(f"cyclic_link_spends_the_budget of {steps:,}", "search/cyclic_link_spends_the_budget", "spent", steps)


def kinds():
    return [
        FIRST_ASK,
        example("title_after_own_attendance", "search/title_after_own_attendance", "proof"),
        after(32, 5, "proof"),
        example("two_views_joined_by_a_key", "search/two_views_joined_by_a_key", "proof"),
        example("narrower_range", "search/narrower_range", "proof"),
        example("wider_range", "search/wider_range_is_refuted", "refuted"),
        example("sixteen_links_and_a_view", "search/sixteen_links_and_a_view", "proof", 18),
        *(cyclic(it) for it in (50, 1_000, 2_000, 20_000, 100_000)),
        example("stuck_on_three_inequalities", "search/stuck_on_three_inequalities", "stuck"),
    ]


def viewed(count, is_first):
    """An event's title under so many views, of which one shows it and the others are of other users; as the first ask, or after an
    attendance."""
    joined = "FROM Attendances a, Events e WHERE a.EId = e.EId AND a.UId ="
    views = [f"CREATE VIEW V AS SELECT a.UId, a.EId, a.At, e.Title, e.Duration {joined} ?MyUId;"]
    views += [f"CREATE VIEW W{n} AS SELECT EId, At FROM Attendances WHERE UId = {1_000 + n};" for n in range(count - 1)]
    before = [] if is_first else [f"SELECT a.UId, a.EId, a.At {joined} 2 AND a.EId = 5"]
    policy = "\n".join(["PARAM MyUId INT;", *views])
    said = "refuted" if is_first else "proof"
    return Ask(f"{count}_views", SCHEMA, policy, attended(1), {"MyUId": 2}, before, "SELECT Title FROM Events WHERE EId = 5", said)


# Rows that are linked in a chain, and views that compare them.
CHAIN = "CREATE TABLE T (Id INT PRIMARY KEY, Boss INT NOT NULL REFERENCES T (Id), A INT NOT NULL, B INT NOT NULL);"
COMPARED = """CREATE VIEW V1 AS SELECT Id, A FROM T WHERE A < 10;
CREATE VIEW V2 AS SELECT t.Id, t.B FROM T t, T u WHERE t.Boss = u.Id AND u.A <= t.B;
CREATE VIEW V3 AS SELECT Id, Boss FROM T WHERE A <> B;"""
EDGES = "CREATE TABLE Edges (Start INT NOT NULL, Stop INT NOT NULL, Kind INT NOT NULL);"


def sources(table, count):
    return ", ".join(f"{table} t{n}" for n in range(count))


def chain(count, last=""):
    """A question of eight rows of T with so many atoms, which can all hold, and one more."""
    pairs = [(n, m) for n in range(8) for m in range(n + 1, 8)]
    atoms = [f"t{n}.Boss = t{n + 1}.Id" for n in range(7)] + [f"t{n}.A < t{n + 1}.A" for n in range(7)]
    atoms += [f"t{n}.A <> t{n}.B" for n in range(8)] + [f"t{n}.B <= t{m}.A" for n, m in pairs] + [f"t{n}.B <> t{m}.B" for n, m in pairs]
    return f"SELECT t0.Id, t7.B FROM {sources('T', 8)} WHERE {' AND '.join([*atoms[:count], last][: count + bool(last)])}"


def in_chain(name, question):
    return Ask(name, CHAIN, COMPARED, {"T": [[1, 1, 1, 2]]}, {}, [], question, "")


def many_rows(answers, said=""):
    """A trace of so many entries with 100 rows each."""
    tables = {"Users": [[n, f"name{n}"] for n in range(answers * 100)], "Events": [], "Attendances": []}
    before = [f"SELECT UId, Name FROM Users WHERE UId >= {n * 100} AND UId < {n * 100 + 100}" for n in range(answers)]
    question = "SELECT Title FROM Events WHERE EId = 5"
    return Ask(f"{answers * 100:,} recorded rows", SCHEMA, POLICY, tables, {"MyUId": 2}, before, question, said)


def hidden_last():
    """Seven tables of which all rows are shown, and one of which none is."""
    tables = {"Users": [[n, f"name{n}"] for n in range(32)], "Events": [], "Attendances": []}
    question = f"SELECT e.Title FROM {sources('Users', 7)}, Events e"
    return Ask("a hidden table behind seven shown ones", SCHEMA, POLICY, tables, {"MyUId": 2}, ["SELECT UId, Name FROM Users"], question, "")


def odd_circle():
    """Seven edges in a circle, where the recorded ones join two sets of eight points and so have no such circle."""
    pairs = [(n, m) for n in range(8) for m in range(8, 16)]
    rows = [[n, m, 1] for n, m in pairs] + [[m, n, 1] for n, m in pairs]
    before = ["SELECT Start, Stop FROM Edges WHERE Kind = 1"]
    atoms = [f"t{n}.Stop = t{(n + 1) % 7}.Start" for n in range(7)] + [f"t{n}.Kind <= 5" for n in range(7)]
    question = f"SELECT 1 FROM {sources('Edges', 7)} WHERE {' AND '.join(atoms)}"
    return Ask("a circle of seven edges", EDGES, f"CREATE VIEW V AS {before[0]};", {"Edges": rows}, {}, before, question, "")


def eight_places():
    """A view of eight rows of a table that have nothing to do with each other, and a question of as many."""
    policy = f"CREATE VIEW V AS SELECT t0.UId FROM {sources('Users', 8)};"
    tables = {"Users": [[1, "ann"]], "Events": [], "Attendances": []}
    return Ask("a view of eight tables", SCHEMA, policy, tables, {}, [], f"SELECT t0.Name FROM {sources('Users', 8)}", "")


def greatest(wide):
    """The widest question after the longest trace: 255 entries with 100 rows each of the table that it asks of."""
    tables = {"T": [[n, n, n % 10, 11] for n in range(25_500)]}
    before = [f"SELECT Id, A FROM T WHERE A < 10 AND Id >= {n * 100} AND Id < {n * 100 + 100}" for n in range(255)]
    return Ask("32 parts after 25,500 recorded rows", CHAIN, COMPARED, tables, {}, before, wide, "")


def hard(steps):
    """Eight linked rows under 40 comparisons, with a budget."""
    return in_chain(f"{steps:,} steps", chain(40))._replace(budget=steps)


def slow():
    """Questions within the limits that take long."""
    wide = " UNION ".join(chain(63, f"t0.A < {n}") for n in range(32))
    return [in_chain("eight linked rows, 40 comparisons", chain(40)), in_chain("32 parts of 64 comparisons", wide)] + [
        many_rows(255),
        hidden_last(),
        odd_circle(),
        eight_places(),
        greatest(wide),
    ]
