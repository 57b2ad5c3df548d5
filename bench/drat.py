"""Turns a DRAT proof as text into steps with hints, by unit propagation. Lines that delete are passed over: a clause that stays can only
help. It finds no hints for a clause that needs more than propagation, and says so."""


class Clauses:
    """Clauses under two watched literals each, and what their units make true, with the clause that made each literal true."""

    def __init__(self, clauses):
        self.clauses, self.watches, self.trail, self.reasons, self.places = [], {}, [], {}, {}
        self.closed = None
        self.head = 0
        for clause in clauses:
            self.add(clause)

    def add(self, clause):
        """Takes a clause, and what follows from it for good. A closed set has a clause that is false."""
        place, clause = len(self.clauses), list(dict.fromkeys(clause))
        clause.sort(key=lambda literal: -literal in self.reasons)
        self.clauses.append(clause)
        for literal in clause[:2]:
            self.watches.setdefault(literal, []).append(place)
        open_ones = [literal for literal in clause if -literal not in self.reasons]
        if not open_ones:
            self.closed = place if self.closed is None else self.closed
        elif len(open_ones) == 1 and open_ones[0] not in self.reasons:
            self.assume(open_ones[0], place)
            if self.closed is None:
                self.closed = self.propagate()

    def assume(self, literal, reason):
        if literal not in self.reasons:
            self.reasons[literal] = reason
            self.places[literal] = len(self.trail)
            self.trail.append(literal)

    def propagate(self):
        """The place of a clause that is false, or None."""
        while self.head < len(self.trail):
            false = -self.trail[self.head]
            self.head += 1
            watching, kept = self.watches.get(false, []), []
            for at, place in enumerate(watching):
                clause = self.clauses[place]
                if len(clause) == 1:
                    kept.append(place)
                    if -clause[0] in self.reasons:
                        self.watches[false] = kept + watching[at + 1 :]
                        return place
                    continue
                if clause[0] == false:
                    clause[0], clause[1] = clause[1], false
                if clause[0] in self.reasons:
                    kept.append(place)
                    continue
                for other in range(2, len(clause)):
                    if -clause[other] not in self.reasons:
                        clause[1], clause[other] = clause[other], false
                        self.watches.setdefault(clause[1], []).append(place)
                        break
                else:
                    kept.append(place)
                    if -clause[0] in self.reasons:
                        self.watches[false] = kept + watching[at + 1 :]
                        return place
                    self.assume(clause[0], place)
            self.watches[false] = kept
        return None

    def hints(self, clause):
        """The clauses by which a clause follows, in the order of propagation."""
        lasting, assumed = len(self.trail), {-literal for literal in clause}
        true = min((self.places[literal] for literal in clause if literal in self.reasons), default=None)
        clash = self.closed if true is None else self.reasons[self.trail[true]]
        if clash is None:
            for literal in clause:
                self.assume(-literal, None)
        if clash is None:
            clash = self.propagate()
        if clash is None:
            raise ValueError("propagation does not derive %s" % clause)
        needed, taken = {-literal for literal in self.clauses[clash]} - assumed, []
        for literal in reversed(self.trail):
            reason = self.reasons[literal]
            if literal in needed and reason is not None and reason != clash:
                taken.append(reason)
                needed |= {-other for other in self.clauses[reason] if other != literal} - assumed
        for literal in self.trail[lasting:]:
            del self.reasons[literal]
        del self.trail[lasting:]
        self.head = lasting
        return taken[::-1] + [clash]


def steps(clauses, proof):
    """The steps of the proof up to its first empty clause."""
    known, made = Clauses(clauses), []
    for line in proof.splitlines():
        if line.startswith("d"):
            continue
        clause = [int(word) for word in line.split()[:-1]]
        if len(set(clause)) < len(clause) or any(-literal in clause for literal in clause):
            continue
        made.append((clause, known.hints(clause)))
        if not clause:
            break
        known.add(clause)
    return made
