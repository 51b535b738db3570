#!/usr/bin/env python3
"""Measures what a question costs the decision service behind told rows.

    bench/told_rows.py PROGRAM [--rows 10,40,160,640] [--most SECONDS] [--budget B]

The ticket application of tickets/: a member of project 21 is told so many of its tickets, in one of four ways, and then asks. Each figure is the
service's processor time of the question's line alone, in milliseconds, and its decision. A row of the table ends once a question takes more than
--most seconds (4). The last row has the greatest figure of each number of told rows; covered questions are left out of the table.
"""
import argparse
import json
import os
import subprocess

TICKETS = f"{os.path.dirname(os.path.abspath(__file__))}/tickets"
ME = "00000000-0000-4000-8000-000000000001"
STATES = ["open", "pending", "closed"]
OWN = "project_id = 21 AND deleted_at IS NULL"


class Service:
    """A decision service with one open request, the member's."""

    def __init__(self, program, more):
        words = [program, "decide", "--schema", f"{TICKETS}/schema.sql", "--policy", f"{TICKETS}/policy.sql", *more]
        self.process = subprocess.Popen(words, stdin=subprocess.PIPE, stdout=subprocess.PIPE)
        self.say(begin="r", context={"Me": ME, "Tenant": 1})
        self.tell(f"SELECT project_members.* FROM project_members WHERE project_id = 21 AND user_id = '{ME}'", [[21, ME, "member"]])

    def say(self, **line):
        self.process.stdin.write(json.dumps(line).encode() + b"\n")
        self.process.stdin.flush()
        return json.loads(self.process.stdout.readline())

    def tell(self, query, rows):
        asked = self.say(ask="r", query=query)
        assert "allowed" in asked, (query, asked)
        told = self.say(told=asked["line"], rows=rows)
        assert "fault" not in told, (query, told)

    def milliseconds(self):
        with open(f"/proc/{self.process.pid}/schedstat") as file:
            return int(file.read().split()[0]) / 1e6

    def ask(self, query):
        """The decision on a question, and what it cost."""
        before = self.milliseconds()
        said = self.say(ask="r", query=query)
        return said.get("allowed") or said["blocked"], self.milliseconds() - before

    def close(self):
        self.process.stdin.close()
        self.process.wait()


def four_columns(service, count):
    service.tell(f"SELECT id, title, status, created_at FROM tickets WHERE {OWN}",
                 [[1000 + i, f"t{i}", "open", 10**15 + i] for i in range(count)])


def all_columns(service, count):
    service.tell(f"SELECT tickets.* FROM tickets WHERE {OWN}",
                 [[1000 + i, 21, f"u{i % 7}", None, f"t{i}", None, STATES[i % 3], 1, None, 10**15 + i, None] for i in range(count)])


def two_states(service, count):
    service.tell(f"SELECT id, title FROM tickets WHERE {OWN} AND status IN ('open', 'pending')",
                 [[1000 + i, f"t{i}"] for i in range(count)])


def with_comments(service, count):
    all_columns(service, count // 2)
    service.tell("SELECT c.id, c.ticket_id, c.author_id, c.body, c.created_at FROM comments c JOIN tickets t ON t.id = c.ticket_id "
                 "WHERE t.project_id = 21 AND t.deleted_at IS NULL AND c.internal = 0",
                 [[5000 + i, 1000 + i % max(1, count // 2), f"u{i % 5}", f"b{i}", 10**15 + i] for i in range(count - count // 2)])


WAYS = [four_columns, all_columns, two_states, with_comments]
ASKED = {
    "forbidden": "SELECT id, title FROM tickets WHERE project_id = 2 AND deleted_at IS NULL",
    "a ticket": f"SELECT id, body FROM tickets WHERE {OWN} AND id = 1003",
    "comments": "SELECT c.id, c.body FROM comments c WHERE c.ticket_id = 1004 AND c.internal = 0",
    "author": "SELECT u.id, u.display_name FROM users u JOIN comments c ON c.author_id = u.id WHERE c.ticket_id = 1005 AND c.internal = 0",
    "either": f"SELECT id, title FROM tickets WHERE {OWN} AND (status = 'closed' OR priority >= 3)",
}


def measure(program, more, way, query, counts, most):
    """The decisions and their costs, one for each count until one costs too much."""
    found = {}
    for count in counts:
        service = Service(program, more)
        way(service, count)
        found[count] = service.ask(query)
        service.close()
        if found[count][1] > most * 1000:
            break
    return found


def main():
    parser = argparse.ArgumentParser()
    parser.add_argument("program")
    parser.add_argument("--rows", default="10,40,160,640")
    parser.add_argument("--most", type=float, default=4)
    parser.add_argument("--budget")
    given = parser.parse_args()
    counts = [int(count) for count in given.rows.split(",")]
    more = ["--budget", given.budget] if given.budget else []
    worst = dict.fromkeys(counts, 0)
    print("| told | question |", *(f"{count} |" for count in counts))
    print("|---|---|" + "---|" * len(counts))
    for way in WAYS:
        for name, query in ASKED.items():
            found = measure(os.path.abspath(given.program), more, way, query, counts, given.most)
            for count, (_, cost) in found.items():
                worst[count] = max(worst[count], cost)
            cells = (f"{found[count][0]}, {found[count][1]:,.1f} |" if count in found else "|" for count in counts)
            print(f"| {way.__name__.replace('_', ' ')} | {name} |", *cells, flush=True)
    print("| the greatest | |", *(f"{worst[count]:,.1f} |" for count in counts))


if __name__ == "__main__":
    main()
