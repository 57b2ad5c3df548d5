"""Makes clauses in DIMACS form in the current folder: adders and multipliers against themselves with the operands swapped,
pigeons in holes, random clauses."""

import random


class Gates:
    """Clauses of gates. A gate is a literal of its own."""

    def __init__(self):
        self.count = 0
        self.clauses = []

    def fresh(self):
        self.count += 1
        return self.count

    def both(self, a, b):
        gate = self.fresh()
        self.clauses += [[-gate, a], [-gate, b], [gate, -a, -b]]
        return gate

    def either(self, a, b):
        return -self.both(-a, -b)

    def differ(self, a, b):
        return self.either(self.both(a, -b), self.both(-a, b))

    def full_adder(self, a, b, carry):
        total = self.differ(self.differ(a, b), carry)
        return total, self.either(self.both(a, b), self.both(carry, self.differ(a, b)))

    def add(self, left, right, false):
        carry = false
        total = []
        for a, b in zip(left, right):
            bit, carry = self.full_adder(a, b, carry)
            total.append(bit)
        return total

    def choose(self, condition, left, right):
        return self.either(self.both(condition, left), self.both(-condition, right))

    def shift(self, word, amount, places, false):
        """Shifts a word to the left by a number, whose bits are taken in the order of these places."""
        for place in places:
            moved = ([false] * (1 << place) + word)[: len(word)]
            word = [self.choose(amount[place], a, b) for a, b in zip(moved, word)]
        return word

    def multiply(self, left, right, false):
        total = [false] * len(left)
        for place, b in enumerate(right):
            row = [false] * place + [self.both(a, b) for a in left[: len(left) - place]]
            total = self.add(total, row, false)
        return total


def apart(width, count, one, other):
    """Says that two functions of so many words give something else; unsatisfiable where they are the same function."""
    gates = Gates()
    false = gates.fresh()
    gates.clauses.append([-false])
    words = [[gates.fresh() for _ in range(width)] for _ in range(count)]
    first = one(gates, false, *words)
    second = other(gates, false, *words)
    gates.clauses.append([gates.differ(a, b) for a, b in zip(first, second)])
    return gates.clauses


def swapped(width, operation):
    """Says that an operation gives something else where its operands are swapped: unsatisfiable."""
    return apart(
        width,
        2,
        lambda gates, false, a, b: operation(gates, a, b, false),
        lambda gates, false, a, b: operation(gates, b, a, false),
    )


def regrouped(width):
    """(a + b) + c against a + (b + c)."""
    return apart(
        width,
        3,
        lambda gates, false, a, b, c: gates.add(gates.add(a, b, false), c, false),
        lambda gates, false, a, b, c: gates.add(a, gates.add(b, c, false), false),
    )


def distributed(width):
    """a * (b + c) against a * b + a * c."""
    return apart(
        width,
        3,
        lambda gates, false, a, b, c: gates.multiply(a, gates.add(b, c, false), false),
        lambda gates, false, a, b, c: gates.add(gates.multiply(a, b, false), gates.multiply(a, c, false), false),
    )


def shifted(places):
    """A shift by a number against the same with its bits taken the other way round."""
    return apart(
        1 << places,
        2,
        lambda gates, false, a, b: gates.shift(a, b, range(places), false),
        lambda gates, false, a, b: gates.shift(a, b, reversed(range(places)), false),
    )


def pigeons(holes):
    """One more pigeon than holes, each in a hole of its own: unsatisfiable."""

    def sits(pigeon, hole):
        return pigeon * holes + hole + 1

    clauses = [[sits(pigeon, hole) for hole in range(holes)] for pigeon in range(holes + 1)]
    for hole in range(holes):
        for pigeon in range(holes + 1):
            for earlier in range(pigeon):
                clauses.append([-sits(pigeon, hole), -sits(earlier, hole)])
    return clauses


def random_clauses(variables, ratio, seed):
    """Clauses of three different variables each, that many a variable."""
    source = random.Random(seed)
    return [
        [name * source.choice((1, -1)) for name in source.sample(range(1, variables + 1), 3)]
        for _ in range(int(variables * ratio))
    ]


def write(name, clauses):
    variables = max(abs(literal) for clause in clauses for literal in clause)
    with open(name + ".cnf", "w") as file:
        file.write("p cnf %d %d\n" % (variables, len(clauses)))
        for clause in clauses:
            file.write(" ".join(map(str, clause)) + " 0\n")


for width in (32, 128):
    write("add%d" % width, swapped(width, Gates.add))
for width in (5, 6, 7):
    write("mul%d" % width, swapped(width, Gates.multiply))
for width in (16, 32):
    write("regrouped%d" % width, regrouped(width))
write("distributed5", distributed(5))
write("shifted32", shifted(5))
write("pigeons7", pigeons(7))
for seed in range(3):
    write("random150_%d" % seed, random_clauses(150, 4.26, seed))
