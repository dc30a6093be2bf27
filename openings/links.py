"""How certificates of positions make one of the position before them: which ones do, and the text that they are written
as.

Who wins a position with himself to move has a move that wins: a line `move`. Who wins it with the other player to
move has an answer to each move. What he claims on some cells holds against every move elsewhere, so a few answers are
enough: those of which no cell is in all carriers. That is a line `cases`.

A certificate is written anew without the other player's stones, which no line needs. The winner's stones that the
board of the whole doesn't have become cells of each scope. A line that is there already, in its scope, isn't written
again.
"""

from functools import cache

from jobs import Proof, cell_named, file_of, second_checker, split_of, words_of
from openings import text_of, vertex

HEAD = 5
MOST_LINES = second_checker.MOST_LINES


class Found:
    """What follows from the proofs of some positions, and of which cells others are split by."""

    def __init__(self, folder, position, proofs):
        self.folder, self.named = folder, position.in_order()
        self.own = {proof.position.in_order(): proof for proof in proofs}
        self.looked_up = cache(self.looked_up)

    def cells_of(self, position):
        """The cells by which a position is split; None if it isn't. The one that is named is always split."""
        cells = split_of(self.folder, position)
        return [] if cells is None and position.in_order() == self.named else cells

    def children(self, position):
        """The moves of a position after which it is known who wins, with the proofs of that."""
        if self.cells_of(position) is None:
            return {}
        after = {cell: self.proof_of(position.after(cell)) for cell in position.empty()}
        return {cell: proof for cell, proof in after.items() if proof}

    def proof_of(self, position):
        """Who wins a position; None if it isn't known."""
        return self.looked_up(position.in_order())

    def looked_up(self, position):
        """The same, of a position by which files are named; each is looked up once."""
        if position in self.own:
            return self.own[position]
        children = self.children(position)
        winning = [cell for cell, proof in children.items() if proof.winner == position.to_move()]
        if winning:
            move = min(winning, key=lambda cell: children[cell].lines)
            best = children[move]
            return Proof(position, best.winner, best.carrier | {move}, best.lines + 1, (best,), move)
        if parts := cover(position.empty(), children.values()):
            carrier = frozenset().union(*(proof.carrier for proof in parts))
            return Proof(position, position.waiting(), carrier, sum(proof.lines for proof in parts) + 1, parts)
        return None

    def unanswered(self, position):
        """The moves that no proof here answers, those nearest to the middle first."""
        carriers = [proof.carrier for proof in self.children(position).values()]
        return [cell for cell in position.empty() if all(cell in carrier for carrier in carriers)]

    def left(self, position, seen=None):
        """The positions that are to be solved to know who wins this one, each once."""
        seen = set() if seen is None else seen
        if self.proof_of(position) or position.in_order() in seen:
            return []
        seen.add(position.in_order())
        cells = self.cells_of(position)
        if cells is None:
            return [position]
        moves = self.unanswered(position)
        tried = [cell for cell in cells if cell in moves]
        return [job for cell in tried[:1] or moves for job in self.left(position.after(cell), seen)]


def cover(cells, proofs):
    """Proofs that answer the moves at all cells, few lines for many moves first; None if these proofs don't."""
    left, parts = set(cells), []
    while left:
        best = max(proofs, key=lambda proof: len(left - proof.carrier) / proof.lines, default=None)
        if best is None or left <= best.carrier:
            return None
        left &= best.carrier
        parts.append(best)
    return tuple(parts)


class Lines:
    """The derivation lines of a certificate that is put together, and the least version that has them."""

    def __init__(self, size):
        self.size, self.lines, self.scope, self.numbers, self.version = size, [], frozenset(), {}, "2"

    def add(self, scope, line):
        """The number of this line in this scope."""
        key = scope, line
        if key not in self.numbers:
            if scope != self.scope:
                self.lines.append(words_of(self.size, "put", scope))
                self.scope = scope
            self.numbers[key] = len(self.lines)
            self.lines.append(line)
        return self.numbers[key]

    def add_text(self, text, stones):
        """The number of the line that a certificate claims, all of whose scopes get these stones too."""
        head, *lines = text.decode().splitlines()
        self.version = max(self.version, head.removeprefix("hexcert "))
        numbers, scope = [], stones
        for name, *words in map(str.split, lines[HEAD - 1 : -1]):
            if name == "put":
                scope = stones.union(cell_named(self.size, word) for word in words)
                numbers.append(None)
            else:
                taken = (str(numbers[int(word)]) if word.isdigit() else word for word in words)
                numbers.append(self.add(scope, " ".join([name, *taken])))
        return numbers[int(lines[-1].split()[1])]

    def add_proof(self, folder, proof, stones=frozenset()):
        """The number of the line that claims what is proved, with these stones of the winner in its scope."""
        if not proof.parts:
            return self.add_text(text_of(file_of(folder, proof.position)), stones)
        if proof.move is not None:
            full = self.add_proof(folder, *proof.parts, stones | {proof.move})
            return self.add(stones, f"move {vertex(self.size, proof.move)} {full}")
        claims = [self.add_proof(folder, part, stones) for part in proof.parts]
        return self.add(stones, " ".join(["cases", *map(str, claims)]))


def linked(folder, proof):
    """The certificate of a proof, of those in the folder. Version 4 is for more lines than others may have."""
    position, lines = proof.position, Lines(proof.position.size)
    claimed = lines.add_proof(folder, proof)
    version = lines.version if len(lines.lines) <= MOST_LINES[lines.version] else "4"
    claim = f"{position.claim(proof.winner)} {claimed}"
    text = "\n".join([f"hexcert {version}", *position.head(proof.winner), *lines.lines, claim, ""])
    return text.encode()
