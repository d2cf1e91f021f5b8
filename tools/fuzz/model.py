"""An independent model of the program: what it should print for a text.

Written from docs/RULES.md, docs/FORMATS.md and docs/REFUSALS.md alone, not from the Rattle sources. It keeps the
places in a list with a dictionary beside it, and is meant to be read, not to be fast.
"""

ROOM = 1024
MOST_NODES = 256
HEAVIEST = 2**64 - 1

LINE, PART, NUM, GAP = 1, 2, 3, 4
ONE, TWO, THREE, BOX, OPEN, UM = 16, 17, 18, 19, 20, 21

# left, right symbols, mark
STOCK_COUNTS = [
    (LINE, (PART,), 0),
    (LINE, (LINE, GAP, PART), 2),
    (PART, (NUM, BOX), 3),
    (PART, (OPEN, NUM), 4),
    (PART, (NUM, BOX, OPEN), 9),
    (PART, (NUM,), 6),
    (NUM, (ONE,), 0),
    (NUM, (TWO,), 0),
    (NUM, (THREE,), 0),
    (GAP, (), 0),
    (GAP, (UM,), 1),
]


class Refused(Exception):
    def __init__(self, number):
        self.number = number


def number(field, most):
    """A number in base ten without leading zeros, or None."""
    if not field or len(field) > 5 or any(b not in b"0123456789" for b in field):
        return None
    if len(field) > 1 and field[:1] == b"0":
        return None
    value = int(field)
    return value if value <= most else None


def words_of(text):
    """The words of a text; refused with 13 for a line that is not of the form, and with 3 for a line after 128."""
    lines = text.split(b"\n")
    if lines[-1] == b"":
        lines.pop()
    words = []
    for line in lines:
        if len(words) == 128:
            raise Refused(3)
        fields = line.split(b" ")
        if len(fields) != 4:
            raise Refused(13)
        values = [number(field, most) for field, most in zip(fields, (255, 255, 255, 65535))]
        if None in values:
            raise Refused(13)
        words.append(tuple(values))
    return words


def check(words):
    for start, end, _, _ in words:
        if start >= end:
            raise Refused(1)
        if end > 31:
            raise Refused(2)


def join(a, b):
    return min(a + b, HEAVIEST)


class Chart:
    """Edges are ('passive', symbol, from, to) and ('active', rule, seen, from, to).

    Origins are ('word', number), ('empty', rule), ('first', rule, place) and ('next', place of the active edge, place).
    """

    def __init__(self, rules, words):
        self.rules = rules
        self.last = max([word[1] for word in words], default=0)
        self.edges, self.weights, self.origins, self.done = [], [], [], []
        self.place = {}
        self.full = False
        for n, (start, end, symbol, mark) in enumerate(words):
            self.arrive(("passive", symbol, start, end), mark, ("word", n))
        for node in range(self.last + 1):
            for rule, (left, right, mark) in enumerate(rules):
                if not right:
                    self.arrive(("passive", left, node, node), mark, ("empty", rule))

    def arrive(self, edge, weight, origin):
        if self.full:
            return
        at = self.place.get(edge)
        if at is None:
            if len(self.edges) == ROOM:
                self.full = True
                return
            self.place[edge] = len(self.edges)
            self.edges.append(edge)
            self.weights.append(weight)
            self.origins.append(origin)
            self.done.append(False)
        elif not self.done[at] and weight < self.weights[at]:
            self.weights[at] = weight
            self.origins[at] = origin

    def rule_edge(self, rule, seen, start, end):
        left, right, _ = self.rules[rule]
        if seen == len(right):
            return ("passive", left, start, end)
        return ("active", rule, seen, start, end)

    def step(self):
        """Pops the least (weight, place) of the agenda; False if it is empty or the chart full."""
        best = None
        for at in range(len(self.edges)):
            if not self.done[at] and (best is None or self.weights[at] < self.weights[best]):
                best = at
        if self.full or best is None:
            return False
        self.done[best] = True
        arrivals = []
        edge, weight = self.edges[best], self.weights[best]
        if edge[0] == "passive":
            _, symbol, start, end = edge
            for rule, (_, right, mark) in enumerate(self.rules):
                if right and right[0] == symbol:
                    arrivals.append((self.rule_edge(rule, 1, start, end), join(mark, weight), ("first", rule, best)))
            for at, other in enumerate(self.edges):
                if self.done[at] and other[0] == "active":
                    _, rule, seen, from_, meets = other
                    if meets == start and self.rules[rule][1][seen] == symbol:
                        arrivals.append((self.rule_edge(rule, seen + 1, from_, end), join(self.weights[at], weight), ("next", at, best)))
        else:
            _, rule, seen, start, meets = edge
            wanted = self.rules[rule][1][seen]
            for at, other in enumerate(self.edges):
                if self.done[at] and other[0] == "passive" and other[1] == wanted and other[2] == meets:
                    arrivals.append((self.rule_edge(rule, seen + 1, start, other[3]), join(weight, self.weights[at]), ("next", best, at)))
        for arrival in arrivals:
            self.arrive(*arrival)
        return not self.full

    def settle(self):
        while self.step():
            pass
        return self

    def question(self, symbol, start, end):
        if start > end or end > self.last:
            raise Refused(7)
        at = self.place.get(("passive", symbol, start, end))
        if at is not None and self.done[at]:
            return self.weights[at]
        raise Refused(10 if self.full else 9)

    def nodes(self, at):
        """The pre-order below a place; active edges have no root."""
        edge, origin = self.edges[at], self.origins[at]
        if origin[0] == "word":
            return [("word", origin[1], edge[2], edge[3])]
        below = [node for place in origin[1:] for node in self.nodes(place)] if origin[0] == "next" else []
        if origin[0] == "first":
            below = self.nodes(origin[2])
        if edge[0] == "active":
            return below
        rule = self.edges[origin[1]][1] if origin[0] == "next" else origin[1]
        return [("rule", rule, edge[2], edge[3])] + below

    def reading(self, symbol, start, end):
        self.question(symbol, start, end)
        nodes = self.nodes(self.place[("passive", symbol, start, end)])
        if len(nodes) > MOST_NODES:
            raise Refused(12)
        return nodes


def answer(text):
    """What the program should print for a text, and the settled chart if there is one."""
    try:
        words = words_of(text)
        check(words)
    except Refused as refusal:
        return f"refused {refusal.number}\n", None
    chart = Chart(STOCK_COUNTS, words).settle()
    try:
        nodes = chart.reading(LINE, 0, chart.last)
        lines = [f"weight {chart.question(LINE, 0, chart.last)}"] + [" ".join(map(str, node)) for node in nodes]
        return "".join(f"{line}\n" for line in lines), chart
    except Refused as refusal:
        return f"refused {refusal.number}\n", chart


def lightest(rules, words):
    """The least weight of every edge that has a derivation, found by going round until nothing gets lighter.

    It knows no places, no steps and no order of finishing: a second opinion on the chart where the chart is not full.
    """
    last = max([word[1] for word in words], default=0)
    best = {}

    def found(edge, weight):
        if edge not in best or weight < best[edge]:
            best[edge] = weight
            return True
        return False

    for start, end, symbol, mark in words:
        found(("passive", symbol, start, end), mark)
    changed = True
    while changed:
        changed = False
        begins = {}
        for edge, weight in list(best.items()):
            if edge[0] == "passive":
                begins.setdefault((edge[1], edge[2]), []).append((edge[3], weight))
        for rule, (left, right, mark) in enumerate(rules):
            for start in range(last + 1):
                ends = {start: mark}
                for seen, symbol in enumerate(right, 1):
                    later = {}
                    for middle, so_far in ends.items():
                        for end, weight in begins.get((symbol, middle), []):
                            joined = join(so_far, weight)
                            if end not in later or joined < later[end]:
                                later[end] = joined
                    ends = later
                    if seen < len(right):
                        for end, weight in ends.items():
                            changed |= found(("active", rule, seen, start, end), weight)
                for end, weight in ends.items():
                    changed |= found(("passive", left, start, end), weight)
    return best


def weight_of(rules, words, nodes, symbol, start, end):
    """The weight of the derivation that the nodes list, or None if they list none: a second opinion on readings."""

    def tree(at, symbol, start, end):
        if at == len(nodes):
            return None
        kind, number, from_, to = nodes[at]
        if (from_, end if end is not None else to) != (start, to):
            return None
        if kind == "word":
            return (at + 1, to, words[number][3]) if words[number][:3] == (from_, to, symbol) else None
        left, right, weight = rules[number]
        if left != symbol:
            return None
        at, meets = at + 1, start
        for child in right:
            found = tree(at, child, meets, None)
            if found is None:
                return None
            at, meets, below = found
            weight = join(weight, below)
        return (at, to, weight) if meets == to else None

    found = tree(0, symbol, start, end)
    return found[2] if found is not None and found[0] == len(nodes) else None
