"""What the tests of docs/RULES.md, "Cases with numbers", share: job 7 with some of its numbers changed, and the page's tables of windows on it."""
import re

import driven

PAGE = (driven.ROOT / "docs" / "RULES.md").read_text(encoding="utf-8").split(". Cases with numbers\n")[1]


def window(t0, t1, step, question=1, other={}):
    """Job 7: a 10000, e 0, i, Ω, ω 0, period 7200, R 5000, fields 8 to 13 zero; question 1. Other fields are given by their numbers."""
    fields = {**dict.fromkeys(range(1, 14), 0.0), 1: 10000.0, 6: 7200.0, 7: 5000.0, **other}
    return driven.record(7, fields.values(), t0, t1, step, question)


def numbers(text):
    return [int(n.replace(",", "")) for n in re.findall(r"\d[\d,]*", text)]


def rows(table):
    """The rows of one of the page's tables that have a window, as cells."""
    [below] = re.findall(rf"^\*\*Run: {table},\*\*(.*?)(?=^\*\*|^\[)", PAGE, re.M | re.S)
    return [[cell.strip() for cell in row.split("|")] for row in re.findall(r"^\| (.* to .*) \|$", below, re.M)]


def asked_of(name, text, n):
    """The instants that the page has: the samples of n steps, and the halvings of each change if there are any."""
    *terms, asked = numbers(text)
    terms = terms or [asked]
    driven.count.check(f"docs/RULES.md, the instants of {name}", terms[0] == n + 1 and sum(terms) == asked)
    return asked
