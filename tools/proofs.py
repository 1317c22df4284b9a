"""Clauses, refutations and cubes, for tools/solve-with.

A clause is a tuple of literals, numbered from 1 in their order. A cube is a tuple of literals of different variables. A
tree of cubes is a leaf, which is a cube, or `(variable, below, above)`: the trees with that variable false and with it true.
"""
import collections
import heapq
import re


class Bad(Exception):
    """A file that hasn't its form, or a refutation that isn't one."""


class Clauses:
    """What a clause file says: the number of variables, the clauses, and the comment lines of the table."""

    def __init__(self, name):
        self.table, numbers = [], []
        with open(name, encoding="ascii", errors="replace") as lines:
            for line in lines:
                if line.startswith("c"):
                    self.table.append(line.rstrip("\n"))
                elif line.startswith("p"):
                    self.variables = int(line.split()[2])
                else:
                    numbers += [int(it) for it in line.split()]
        self.all, begin = [], 0
        for at, number in enumerate(numbers):
            if number == 0:
                self.all.append(tuple(numbers[begin:at]))
                begin = at + 1

    def write(self, name, cube=()):
        """Writes the clauses without the table, and behind them the literals of a cube, each as a clause."""
        with open(name, "w", encoding="ascii") as file:
            print("p cnf", self.variables, len(self.all) + len(cube), file=file)
            for clause in [*self.all, *[(it,) for it in cube]]:
                print(*clause, 0, file=file)


# -- the table --------------------------------------------------------------------------------------------------------

ROW = re.compile(r'c var (\d+) ("[^"]*"|\S+) state (\d+) (.*)')
LOOP = re.compile(r"c var (\d+) loop (\d+)")


def table_variables(clauses):
    return [int(it[1]) for it in map(re.compile(r"c var (\d+) ").match, clauses.table) if it]


def states_of(clauses):
    """Returns how many states the clauses are about."""
    return max(1, sum(bool(LOOP.fullmatch(it)) for it in clauses.table))


def trace_of(clauses, true):
    """Returns the text of the trace for which the variables of a set are true.

    A relation that has no row in the table has no line in the text, and so replay refuses the text of such a model."""
    states, loop, moving, rows = states_of(clauses), 0, set(), collections.defaultdict(list)
    for line in clauses.table:
        row, of_loop = ROW.fullmatch(line), LOOP.fullmatch(line)
        if of_loop and int(of_loop[1]) in true:
            loop = int(of_loop[2])
        if row and not row[2].startswith('"'):
            found = rows[row[2], int(row[3])]
            found += [row[4]] if int(row[1]) in true else []
            moving |= {row[2]} if row[3] != "0" else set()
    labels = [label for label, state in rows if state == 0]
    lines = [f"trace states {states} loop {loop}"]
    for state in range(states):
        lines.append(f"state {state}")
        for label in labels:
            tuples = rows[label, state if label in moving else 0]
            lines.append(f"{label} =" + "".join(f" {it}," for it in tuples).rstrip(","))
    return "\n".join([*lines, "end", ""])


# -- proofs as solvers write them --------------------------------------------------------------------------------------


def format_of(name):
    """Tells what a proof is: `lrat`, `drat` (of which DRUP is the part without RAT lines), `binary` DRAT, `frat`, or nothing."""
    with open(name, "rb") as file:
        head = file.read(4096)
    if not head:
        return ""
    if b"\0" in head:
        return "binary"
    with open(name, encoding="ascii", errors="replace") as lines:
        for line in lines:
            words = line.split()
            if words[:1] in (["o"], ["a"]):
                return "frat"
            if words and words[0] not in ("c", "d"):
                return "lrat" if words[1:2] == ["d"] or words.count("0") == 2 else "drat"
    return "drat"


def write_drat(name, kind, to):
    """Writes a proof in FRAT or binary DRAT as the text of DRAT."""
    if kind == "binary":
        write_text(name, to)
        return
    with open(name, encoding="ascii", errors="replace") as lines, open(to, "w", encoding="ascii") as out:
        for line in lines:
            words = line.split()
            if words[:1] in (["a"], ["d"]):
                print(*words[:1] * (words[0] == "d"), *words[2 : words.index("0", 2) + 1], file=out)


def write_text(name, to):
    """Writes a binary DRAT proof as text."""
    with open(name, "rb") as file:
        data = file.read()
    at, words = 0, []
    with open(to, "w", encoding="ascii") as out:
        while at < len(data):
            if data[at : at + 1] not in (b"a", b"d"):
                raise Bad(f"the binary proof isn't DRAT: byte {at} begins no line")
            words, at = ["d"] if data[at : at + 1] == b"d" else [], at + 1
            while True:
                number = shift = 0
                while at < len(data):
                    byte = data[at]
                    number, shift, at = number | (byte & 127) << shift, shift + 7, at + 1
                    if byte < 128:
                        break
                words.append(str(-(number >> 1) if number & 1 else number >> 1))
                if not number or at >= len(data):
                    break
            print(*words, file=out)


# -- refutations of cubes joined to one ----------------------------------------------------------------------------------


def read_lemmas(name, count):
    """Returns the lemmas of an LRAT text over `count` clauses, up to the first empty one: number, literals, hints."""
    lemmas = []
    with open(name, encoding="ascii", errors="replace") as lines:
        for at, line in enumerate(lines, 1):
            words = line.split()
            if not words or words[0] == "c" or words[1:2] == ["d"]:
                continue
            if words.count("0") != 2 or words[-1] != "0":
                raise Bad(f"line {at} of the proof isn't LRAT")
            numbers = [int(it) for it in words]
            end = numbers.index(0)
            number, literals, hints = numbers[0], tuple(numbers[1:end]), numbers[end + 1 : -1]
            if number <= count or any(it < 0 for it in hints):
                raise Bad(f"line {at} of the proof is a RAT line" if number > count else f"line {at} of the proof has a clause's number")
            lemmas.append((number, literals, hints))
            if not literals:
                return lemmas
    raise Bad("the proof has no empty lemma")


def needed(lemmas):
    """Returns the lemmas that the last one needs, in their order."""
    kept, wanted = [], {lemmas[-1][0]}
    for lemma in reversed(lemmas):
        if lemma[0] in wanted:
            kept.append(lemma)
            wanted.update(lemma[2])
    return kept[::-1]


class Joined:
    """A refutation of all clauses that is put together of refutations of cubes, and written as it grows."""

    def __init__(self, clauses, out):
        self.clauses, self.out, self.next = clauses, out, len(clauses.all) + 1
        self.count = 0

    def put(self, literals, hints):
        number, self.next, self.count = self.next, self.next + 1, self.count + 1
        print(number, *literals, 0, *hints, 0, file=self.out)
        return number

    def leaf(self, cube, lemmas):
        """Puts the lemmas of a refutation under a cube, each with the cube's negation, and returns the number of that negation.

        A lemma or clause with a literal of the cube is true under the cube, so it is no hint, and neither are the literals
        themselves. A hint may find its clause true by now, where the cube says what it would have told: it is left out."""
        base, own, first = len(self.clauses.all), {}, self.next
        negation = tuple(-it for it in cube)
        for number, literals, hints in needed(lemmas):
            if set(literals) & set(cube):
                continue
            true, used = {*cube, *[-it for it in literals]}, []
            for hint in hints:
                if base < hint <= base + len(cube) or (hint > base and hint not in own):
                    continue
                new, clause = own[hint] if hint > base else (hint, self.clauses.all[hint - 1])
                free = {it for it in clause if -it not in true}
                if len(free) > 1 and not free & true:
                    raise Bad(f"lemma {number} has a hint {hint} that is no unit")
                if free & true:
                    continue
                used.append(new)
                if not free:
                    break
                true |= free
            else:
                raise Bad(f"the hints of lemma {number} lead to no false clause")
            literals = tuple(dict.fromkeys([*literals, *negation]))
            own[number] = self.put(literals, used), literals
        last = self.next - 1
        if last > first:
            print(last, "d", *range(first, last), 0, file=self.out)
        return last

    def tree(self, tree, cube, lemmas_of):
        """Puts a refutation of each leaf, and resolves those of the two trees below. `lemmas_of` gives the lemmas of a cube."""
        if not is_split(tree):
            return self.leaf(tree, lemmas_of(tree))
        variable, below, above = tree
        hints = [self.tree(below, (*cube, -variable), lemmas_of), self.tree(above, (*cube, variable), lemmas_of)]
        number = self.put([-it for it in cube], hints)
        print(number, "d", *hints, 0, file=self.out)
        return number


# -- cubes ----------------------------------------------------------------------------------------------------------


def is_split(tree):
    return len(tree) == 3 and isinstance(tree[1], tuple)


def leaves(tree):
    return [*leaves(tree[1]), *leaves(tree[2])] if is_split(tree) else [tree]


class Splitting:
    """Chooses cubes: the leaf under which the fewest variables are known is split, on the variable of the table that tells most."""

    # how many variables are tried for each split
    TRIED = 12

    def __init__(self, clauses):
        self.clauses, self.where = clauses, collections.defaultdict(list)
        for clause in clauses.all:
            for literal in clause:
                self.where[literal].append(clause)
        self.names = sorted(table_variables(clauses), key=lambda it: -len(self.where[it]) - len(self.where[-it]))

    def known(self, literals, before=frozenset()):
        """Returns the literals that follow by unit propagation, or None where a clause becomes false."""
        true, waiting = set(before), list(literals)
        while waiting:
            literal = waiting.pop()
            if -literal in true:
                return None
            if literal in true:
                continue
            true.add(literal)
            for clause in self.where[-literal]:
                if any(it in true for it in clause):
                    continue
                free = [it for it in clause if -it not in true]
                if not free:
                    return None
                if len(free) == 1:
                    waiting.append(free[0])
        return true

    def choice(self, known):
        """Returns the variable that tells most in both cases, or None where there is none to choose."""
        best, found, tried = -1, None, 0
        for name in self.names:
            if name in known or -name in known:
                continue
            counts = []
            for literal in (-name, name):
                told = self.known([literal], known)
                counts.append(len(self.clauses.all) if told is None else len(told) - len(known))
            if counts[0] * counts[1] > best:
                best, found = counts[0] * counts[1], name
            tried += 1
            if tried == self.TRIED:
                break
        return found

    def tree(self, count):
        """Returns a tree of `count` cubes, or of fewer where propagation decides all."""
        units = [it[0] for it in self.clauses.all if len(it) == 1]
        order, splits, done = [], {}, 0
        known = self.known(units)
        if known is not None:
            heapq.heappush(order, (len(known), (), known))
        while order and done + len(order) < count:
            _, cube, known = heapq.heappop(order)
            name = self.choice(known)
            if name is None:
                done += 1
                continue
            splits[cube] = name
            for literal in (-name, name):
                told = self.known([literal], known)
                if told is None:
                    done += 1
                else:
                    heapq.heappush(order, (len(told), (*cube, literal), told))

        def built(cube):
            if cube not in splits:
                return cube
            name = splits[cube]
            return name, built((*cube, -name)), built((*cube, name))

        return built(())
