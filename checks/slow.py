"""A slow compiler of metagrammars, written apart from the proved one: a yardstick for it.

It takes metagrammars that keep the rules of scope. Expansions are made one by one from their choices,
models by trying each way of adding each node, and agreement by joining classes of terms. Nothing is
shared with the program but the format of its files."""
import re
import sys

WORD = r"[A-Za-z0-9_\x80-\U0010ffff](?:[A-Za-z0-9_\x80-\U0010ffff]|-+(?=[A-Za-z0-9_\x80-\U0010ffff]))*"
SIGNS = ["->*", "->+", "->", ">>*", ">>+", ">>", ">", "<", "...+", "...", ".", ",,,", *",;:=|!()[]{}"]
TOKEN = re.compile(
    rf"""[ \t\r\n]+|%[^\n]*|(?P<word>{WORD})|\?(?P<variable>{WORD})|"(?P<string>[^"\\\x00-\x1f\x7f]*)"|(?P<sign>{"|".join(map(re.escape, SIGNS))})"""
)


def tokens(text):
    found, at = [], 0
    while at < len(text):
        match = TOKEN.match(text, at)
        if not match:
            raise ValueError(f"no token at {at}")
        if match.lastgroup:
            found.append((match.lastgroup, match[match.lastgroup]))
        at = match.end()
    return found + [("end", "")]


class Reader:
    """Reads a metagrammar by recursive descent."""

    def __init__(self, text):
        self.tokens, self.at = tokens(text), 0

    def sees(self, text):
        return self.tokens[self.at] in (("sign", text), ("word", text))

    def kind(self):
        return self.tokens[self.at][0]

    def takes(self, text):
        if self.sees(text):
            self.at += 1
            return True
        return False

    def need(self, text):
        if not self.takes(text):
            raise ValueError(f"{text} is wanted for {self.tokens[self.at]}")

    def any(self, *kinds):
        kind, text = self.tokens[self.at]
        if kind not in kinds:
            raise ValueError(f"{kinds} is wanted for {text}")
        self.at += 1
        return text

    def reference(self):
        first = self.any("variable")
        return ("variable", first, self.any("variable")) if self.takes(".") else ("variable", None, first)

    def term(self):
        return self.reference() if self.kind() == "variable" else ("name", self.any("word", "string"))

    def listed(self, opening, closing, one):
        """What stands in brackets, with commas between."""
        found = []
        if self.takes(opening):
            while not self.takes(closing):
                if found:
                    self.need(",")
                found.append(one())
        return found

    def pair(self):
        attribute = self.any("word")
        self.need("=")
        return attribute, self.term()

    def feature(self):
        attribute = self.any("word")
        self.need("=")
        return attribute, self.term() if attribute == "cat" else self.listed("[", "]", self.pair)

    def literals(self):
        found = []
        while not self.sees("}"):
            if found:
                self.takes(";")
            handle, predicate, arguments = None, self.term(), []
            if self.takes(":"):
                handle, predicate = predicate, self.term()
            self.need("(")
            while not self.takes(")"):
                if arguments:
                    self.takes(",")
                arguments.append(self.term())
            found.append((handle, predicate, arguments))
        return found

    def node(self):
        self.need("node")
        node = {"name": self.reference() if self.kind() == "variable" else None, "colour": None, "kids": []}
        properties = self.listed("(", ")", self.pair)
        features = dict(self.listed("[", "]", self.feature))
        node["colour"] = dict(properties).get("color", (None, None))[1]
        node["own"] = [p for p in properties if p[0] != "color"]
        if "cat" in features:
            node["own"].append(("cat", features["cat"]))
        node["top"], node["bottom"] = features.get("top", []), features.get("bot", [])
        if self.takes("{"):
            while not self.takes("}"):
                loose = bool(node["kids"]) and self.takes(",,,")
                how = "->*" if self.takes("...") else "->+" if self.takes("...+") else "->"
                node["kids"].append((loose, how, self.node()))
        return node

    def syntax(self):
        found = []
        while not self.sees("}"):
            if found:
                self.need(";")
            if self.sees("node"):
                found.append(self.node())
            else:
                left = self.reference()
                found.append((left, self.any("sign"), self.reference()))
        return found

    def statement(self):
        if self.takes("{"):
            body = self.body()
            self.need("}")
            return "group", body
        if self.takes("<"):
            kind = self.any("word")
            self.need(">")
            self.need("{")
            part = {"syn": self.syntax, "sem": self.literals, "iface": lambda: self.listed("[", "]", self.pair)}[kind]()
            self.need("}")
            return kind, part
        if self.kind() == "word":
            return "call", self.call()
        left = self.reference()
        self.need("=")
        if self.kind() == "variable":
            return "one", left, self.reference()
        right = self.any("word", "string")
        if self.takes("["):
            self.need("]")
            return "bind", left[2], right
        return "equal", left, ("name", right)

    def call(self):
        name = self.any("word")
        self.need("[")
        self.need("]")
        return name

    def body(self):
        if self.sees("}"):
            return []
        alternatives = [[self.statement()]]
        while True:
            if self.takes(";"):
                alternatives[-1].append(self.statement())
            elif self.takes("|"):
                alternatives.append([self.statement()])
            else:
                return alternatives

    def class_(self):
        found = {"name": self.any("word"), "imports": [], "exports": [], "declares": []}
        if self.takes("import"):
            while self.kind() == "word" and not self.sees("export") and not self.sees("declare"):
                found["imports"].append(self.call())
        for word in ("export", "declare"):
            if self.takes(word):
                while self.kind() == "variable":
                    found[word + "s"].append(self.any("variable"))
        self.need("{")
        found["body"] = self.body()
        self.need("}")
        return found

    def file(self):
        """The first class of each name, and the valued names, each once."""
        classes, valued = {}, []
        while self.kind() != "end":
            if self.takes("class"):
                found = self.class_()
                classes.setdefault(found["name"], found)
            elif self.takes("value"):
                name = self.any("word")
                if name not in valued:
                    valued.append(name)
            else:
                # A header says nothing: it goes on to the next item.
                self.at += 1
                while self.kind() != "end" and not any(map(self.sees, ("class", "value", "type", "property", "feature", "use"))):
                    self.at += 1
        return classes, valued


class Joined:
    """Classes of things that are one."""

    def __init__(self):
        self.to = {}

    def of(self, thing):
        while thing in self.to:
            thing = self.to[thing]
        return thing

    def join(self, a, b):
        a, b = self.of(a), self.of(b)
        if a != b:
            self.to[a] = b


class Expansion:
    """What one expansion says. Its choices are the given ones, and then always the first."""

    def __init__(self, classes, root, choices):
        self.classes, self.choices, self.met = classes, choices, []
        self.variables, self.facts, self.standing, self.relations, self.colours = Joined(), [], [], [], []
        self.literals, self.values, self.calls, self.own, self.items = [], [], 0, 0, 1
        self.call(root)

    def fresh(self):
        self.own += 1
        return "own", self.own

    def choice(self, count):
        taken = self.choices[len(self.met)] if len(self.met) < len(self.choices) else 0
        self.met.append((taken, count))
        return taken

    def call(self, name):
        self.calls += 1
        here, called, bound, dotted = self.calls, self.classes[name], {}, []
        for imported in called["imports"]:
            self.items += 1
            there = self.call(imported)
            for variable in dict.fromkeys(self.classes[imported]["exports"]):
                self.items += 1
                self.variables.join((here, variable), (there, variable))
        self.body(here, bound, dotted, called["body"])
        for of, variable in dotted:
            if of in bound:
                self.variables.join((here, of, variable), (bound[of], variable))
        return here

    def variable(self, here, dotted, reference):
        _, of, name = reference
        if of is None:
            return here, name
        dotted.append((of, name))
        return here, of, name

    def term(self, here, dotted, term):
        return term if term[0] == "name" else ("variable", self.variable(here, dotted, term))

    def body(self, here, bound, dotted, alternatives):
        if not alternatives:
            self.choice(1)
            return
        for statement in alternatives[self.choice(len(alternatives))]:
            self.statement(here, bound, dotted, *statement)

    def statement(self, here, bound, dotted, kind, *parts):
        if kind == "group":
            self.body(here, bound, dotted, parts[0])
        elif kind == "call":
            self.items += 1
            self.call(parts[0])
        elif kind == "bind":
            self.items += 1
            bound[parts[0]] = self.call(parts[1])
        elif kind == "one":
            self.items += 1
            self.variables.join(self.variable(here, dotted, parts[0]), self.variable(here, dotted, parts[1]))
        elif kind == "equal":
            self.items += 1
            left = self.variable(here, dotted, parts[0])
            self.facts.append(("equal", ("variable", left), parts[1]))
            self.values.append(left)
        elif kind == "iface":
            self.bag(here, dotted, ("interface",), parts[0])
        elif kind == "sem":
            for literal in parts[0]:
                self.literal(here, dotted, *literal)
        else:
            for item in parts[0]:
                self.syntax(here, dotted, item)

    def literal(self, here, dotted, handle, predicate, arguments):
        self.items += 1 + len(arguments)
        first = ("variable", self.fresh()) if handle is None else self.term(here, dotted, handle)
        terms = [first] + [self.term(here, dotted, t) for t in [predicate, *arguments]]
        self.literals.append(terms)
        self.values += [t[1] for t in terms if t[0] == "variable"]

    def bag(self, here, dotted, slot, bag):
        self.items += len(bag)
        for attribute, term in bag:
            value = self.term(here, dotted, term)
            self.facts.append(("entry", slot, attribute, value))
            if value[0] == "variable":
                self.values.append(value[1])

    def syntax(self, here, dotted, item):
        if isinstance(item, dict):
            self.node(here, dotted, item)
            return
        self.items += 1
        left, right = self.variable(here, dotted, item[0]), self.variable(here, dotted, item[2])
        self.standing += [left, right]
        if item[1] == "=":
            self.variables.join(left, right)
        else:
            self.relations.append((left, item[1], right))

    def node(self, here, dotted, node):
        self.items += 1 + (node["colour"] is not None)
        name = self.fresh() if node["name"] is None else self.variable(here, dotted, node["name"])
        self.standing.append(name)
        if node["colour"]:
            self.colours.append((name, node["colour"]))
        for slot in ("own", "top", "bottom"):
            self.bag(here, dotted, (slot, name), node[slot])
        before = None
        for loose, how, kid in node["kids"]:
            self.items += 1 + (before is not None)
            below = self.node(here, dotted, kid)
            self.relations.append((name, how, below))
            if before is not None:
                self.relations.append((before, ">>+" if loose else ">>", below))
            before = below
        return name

    def description(self):
        """What its models have to meet, or None where it clashes."""
        of = self.variables.of

        def term(t):
            return ("variable", of(t[1])) if t[0] == "variable" else t

        def slot(s):
            return s if len(s) == 1 else (s[0], of(s[1]))

        facts = [("equal", term(f[1]), f[2]) if f[0] == "equal" else ("entry", slot(f[1]), f[2], term(f[3])) for f in self.facts]
        colours = {}
        for name, colour in self.colours:
            if colours.setdefault(of(name), colour) != colour:
                return None
        nodes = list(dict.fromkeys(map(of, self.standing)))
        if agreement(facts, []) is None or set(nodes) & set(map(of, self.values)):
            return None
        nodes = [n for colour in ("black", "white", "red") for n in nodes if colours.get(n, "red") == colour]
        return Description(
            nodes,
            [colours.get(n, "red") for n in nodes],
            [(nodes.index(of(a)), how, nodes.index(of(b))) for a, how, b in self.relations],
            facts,
            [[term(t) for t in literal] for literal in self.literals],
        )


def expansions(classes, name):
    """All expansions of a class, in the order of their choices."""
    choices = []
    while True:
        expansion = Expansion(classes, name, choices)
        yield expansion
        met = expansion.met
        while met and met[-1][0] + 1 == met[-1][1]:
            met.pop()
        if not met:
            return
        choices = [taken for taken, _ in met[:-1]] + [met[-1][0] + 1]


def agreement(facts, links):
    """The classes of slots and of terms, and a value for each attribute at each class; None where two names are one."""
    slots, terms, entries = Joined(), Joined(), {}

    def equate(a, b):
        a, b = terms.of(a), terms.of(b)
        if a[0] == "name" and b[0] == "name":
            return a == b
        if a[0] == "name":
            a, b = b, a
        terms.join(a, b)
        return True

    for a, b in links:
        slots.join(a, b)
    for fact in facts:
        if fact[0] == "equal":
            agrees = equate(fact[1], fact[2])
        else:
            agrees = equate(entries.setdefault((slots.of(fact[1]), fact[2]), fact[3]), fact[3])
        if not agrees:
            return None
    return slots, terms, entries


def grown(forest, new):
    """The forests that come of a forest by a new node: in a tree node, or as one of its own. A forest is a tuple of
    trees, and a tree a set of nodes with the forest below it."""
    for i in range(len(forest) + 1):
        for j in range(i, len(forest) + 1):
            yield forest[:i] + ((frozenset([new]), forest[i:j]),) + forest[j:]
    for i, (nodes, kids) in enumerate(forest):
        yield forest[:i] + ((nodes | {new}, kids),) + forest[i + 1 :]
        for more in grown(kids, new):
            yield forest[:i] + ((nodes, more),) + forest[i + 1 :]


def sets(forest):
    for nodes, kids in forest:
        yield nodes
        yield from sets(kids)


def positions(forest, above=()):
    for i, (nodes, kids) in enumerate(forest):
        for node in nodes:
            yield node, above + (i,)
        yield from positions(kids, above + (i,))


def over(a, b):
    return len(a) < len(b) and b[: len(a)] == a


def left(a, b):
    return not over(a, b) and not over(b, a) and a < b


HOLDS = {
    "->": lambda a, b, all: over(a, b) and len(b) == len(a) + 1,
    "->+": lambda a, b, all: over(a, b),
    "->*": lambda a, b, all: over(a, b) or a == b,
    ">>+": lambda a, b, all: left(a, b),
    ">>*": lambda a, b, all: left(a, b) or a == b,
    ">>": lambda a, b, all: left(a, b) and not any(left(a, c) and left(c, b) for c in all),
}


def spelled(name):
    return name if re.fullmatch(WORD, name) else f'"{name}"'


class Description:
    def __init__(self, nodes, colours, relations, facts, literals):
        self.nodes, self.colours, self.relations, self.facts, self.literals = nodes, colours, relations, facts, literals

    def links(self, forest):
        for nodes in sets(forest):
            first, *others = sorted(nodes)
            for other in others:
                for slot in ("own", "top", "bottom"):
                    yield (slot, self.nodes[first]), (slot, self.nodes[other])

    def is_model(self, forest, count):
        """Whether the forest is a model of the first nodes, so many."""
        for nodes in sets(forest):
            colours = sorted(self.colours[n] for n in nodes)
            if colours != ["red"] and (colours.count("black") != 1 or "red" in colours):
                return False
        places = dict(positions(forest))
        every = set(places.values())
        for a, how, b in self.relations:
            if a < count and b < count and not HOLDS[how](places[a], places[b], every):
                return False
        return agreement(self.facts, self.links(forest)) is not None

    def models(self):
        """How many models there are of the first node, the first two and so on; and those of all nodes that are one tree."""
        level, total = [()], 0
        for new in range(len(self.nodes)):
            level = list({g for f in level for g in grown(f, new) if self.is_model(g, new + 1)})
            total += len(level)
        return total, [f for f in level if len(f) == 1]

    def text(self, forest):
        slots, terms, entries = agreement(self.facts, self.links(forest))
        numbers = {}

        def term(t):
            t = terms.of(t)
            return spelled(t[1]) if t[0] == "name" else f"?{numbers.setdefault(t, len(numbers) + 1)}"

        def pairs(slot):
            found = [(a, value) for (at, a), value in entries.items() if at == slots.of(slot)]
            return sorted(found, key=lambda pair: pair[0].encode())

        def listed(pairs):
            return ",".join(f"{a}={term(value)}" for a, value in pairs)

        def node(tree):
            nodes, kids = tree
            name = self.nodes[min(nodes)]
            own = pairs(("own", name))
            category = dict(own).get("cat")
            out = "-" if category is None else term(category)
            properties = [p for p in own if p[0] != "cat"]
            if properties:
                out += "{" + listed(properties) + "}"
            for sign, slot in (("^", "top"), ("/", "bottom")):
                if pairs((slot, name)):
                    out += f"{sign}[{listed(pairs((slot, name)))}]"
            return out + ("(" + " ".join(map(node, kids)) + ")" if kids else "")

        out = node(forest[0])
        if pairs(("interface",)):
            out += f" iface[{listed(pairs(('interface',)))}]"
        for handle, predicate, *arguments in self.literals:
            out += f" {term(handle)}:{term(predicate)}({' '.join(map(term, arguments))})"
        return out


def compiled(text):
    """What is written for a metagrammar whose lists aren't cut, and the steps of each valued class."""
    classes, valued = Reader(text).file()
    lines, steps = ["grammar 1"], {}
    for name in valued:
        trees, steps[name] = set(), 0
        for expansion in expansions(classes, name):
            steps[name] += 1
            if expansion.items > 4096:
                return f"refused 24 {name}\n", {}
            description = expansion.description()
            if description is None:
                continue
            if len(description.nodes) > 24:
                return f"refused 20 {name}\n", {}
            total, models = description.models()
            steps[name] += total
            trees |= {description.text(model) for model in models}
        lines.append(f"class {name}")
        lines += [f"tree {n} {tree}" for n, tree in enumerate(sorted(trees, key=str.encode), 1)]
        lines.append(f"trees {len(trees)}")
    return "\n".join(lines + ["end", ""]), steps


if __name__ == "__main__":
    with open(sys.argv[1], encoding="utf-8") as file:
        written, steps = compiled(file.read())
    sys.stdout.write(written)
    print(f"steps: {steps}", file=sys.stderr)
