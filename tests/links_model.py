"""A plain model of linked rows, the answers that it gives to rows of cases_links, and random rows.

What is answered is written here a second time, by what the calls promise alone: each row is a plain list of its items, an
item that is taken out is deleted from its list, and one that comes back is inserted at its old place. Nothing is taken from
the program's own output.
"""
from registry_rows import Random


class Rows:
    """The items of each row that are not out, each item's value, and the items that are out with their rows and places."""

    def __init__(self, lists):
        self.values = [value for values in lists for value in values]
        self.rows = []
        self.out = []
        first = 0
        for values in lists:
            self.rows.append(list(range(first, first + len(values))))
            first += len(values)

    def shown_item(self, item):
        return f"{item}:{self.values[item]}"

    def shown(self):
        return " ".join(",".join(map(self.shown_item, row)) or "-" for row in self.rows) or "no rows"

    def first(self, row):
        return self.shown_item(self.rows[row][0]) if self.rows[row] else "none"

    def next(self, row, item):
        later = self.rows[row][self.rows[row].index(item) + 1:]
        return self.shown_item(later[0]) if later else "none"

    def unlink(self, row, item):
        place = self.rows[row].index(item)
        del self.rows[row][place]
        self.out.append((row, place, item))
        return f"{self.shown_item(item)} out of {self.shown()}"

    def relink(self):
        if not self.out:
            return "none is out"
        row, place, item = self.out.pop()
        self.rows[row].insert(place, item)
        return self.shown()

    def there_and_back(self, row, item):
        self.unlink(row, item)
        return self.relink()


def answer_step(rows, step):
    word, *numbers = step.split()
    if word == "rows":
        return rows.shown()
    if word == "relink":
        return rows.relink()
    row, *items = map(int, numbers)
    if row >= len(rows.rows):
        return "no such row"
    if any(item not in rows.rows[row] for item in items):
        return "not in the row"
    call = {"first": rows.first, "next": rows.next, "unlink": rows.unlink, "there-and-back": rows.there_and_back}[word]
    return call(row, *items)


def read_lists(words):
    return [[] if word == "-" else [int(part) for part in word.split(",")] for word in words.split()]


def answer_row(row):
    """The answers to the steps of a row of cases_links."""
    lists, steps = row.split(" | ")
    rows = Rows(read_lists(lists))
    return "; ".join(answer_step(rows, step) for step in steps.split("; "))


class RandomSteps:
    """Random steps in rows of random lists."""

    def __init__(self, random):
        self.random = random
        self.lists = [[random.below(100) for _ in range(random.below(8))] for _ in range(1 + random.below(4))]
        self.rows = Rows(self.lists)

    def place(self):
        """A row and an item that is in it, mostly."""
        there = [(row, item) for row, items in enumerate(self.rows.rows) for item in items]
        if there and self.random.below(12) != 0:
            return list(self.random.one_of(there))
        return [self.random.below(len(self.lists)), self.random.below(len(self.rows.values) + 1)]

    def step(self):
        calls = ["unlink"] * 6 + ["relink"] * (5 if self.rows.out else 1) + ["next"] * 2 + ["first", "there-and-back"]
        call = self.random.one_of(calls)
        words = {"relink": 0, "first": 1}.get(call, 2)
        step = " ".join(map(str, [call, *self.place()[:words]]))
        answer_step(self.rows, step)
        return step

    def row(self, length):
        lists = " ".join(",".join(map(str, values)) or "-" for values in self.lists)
        return f"{lists} | " + "; ".join(["rows"] + [self.step() for _ in range(length)])


def link_rows(seed, count, length):
    """So many random rows of so many steps, with the model's answers."""
    random = Random(seed)
    rows = [RandomSteps(random).row(length) for _ in range(count)]
    return [(row, answer_row(row)) for row in rows]
