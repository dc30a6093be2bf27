"""Bradley and Terry's model: strengths of players from the games that they won against one another, with intervals.

A player of strength s beats one of strength t with probability 1 / (1 + 10^((t - s) / 400)). The strengths are those under
which what came is most likely; the reference has 0. To each pair that met a game is added that both have won by half, so
that strengths stay finite even if one has won all games. Intervals are of 95 %, from the inverse of Fisher's information:
they hold if games are many, and speak of chance alone.
"""

import math

# The strength at which one player wins ten times as often as the other.
TENFOLD = 400
SCALE = TENFOLD / math.log(10)
# 95 % of a normal distribution lie within so many deviations of its middle.
DEVIATIONS = 1.959964
HALF = 0.5
STEPS = 100
CLOSE = 1e-10


def expected(strength, other):
    """The probability with which a player wins against another, by natural logarithms of odds."""
    return 1 / (1 + math.exp(other - strength))


def solved(matrix, columns):
    """The columns x with matrix * x = columns, by elimination; the matrix is symmetric and positive."""
    size = len(matrix)
    rows = [list(row) + list(column) for row, column in zip(matrix, columns)]
    for at in range(size):
        best = max(range(at, size), key=lambda row: abs(rows[row][at]))
        rows[at], rows[best] = rows[best], rows[at]
        pivot = rows[at][at]
        rows[at] = [value / pivot for value in rows[at]]
        for row in range(size):
            if row != at:
                factor = rows[row][at]
                rows[row] = [value - factor * other for value, other in zip(rows[row], rows[at])]
    return [row[size:] for row in rows]


def connected(names, wins):
    """Whether games lead from the first of the names to each other."""
    seen, todo = set(), list(names[:1])
    while todo:
        name = todo.pop()
        if name not in seen:
            seen.add(name)
            todo += [other for pair in wins for other in pair if name in pair]
    return seen == set(names)


def with_halves(wins):
    """The wins of each pair both ways, with the half that is added to both."""
    pairs = {frozenset(pair) for pair in wins}
    return {(a, b): wins.get((a, b), 0) + HALF for pair in pairs for a in pair for b in pair if a != b}


def slope_and_information(players, strength, wins):
    """By how much each player has won more than his strength says, and Fisher's information; both without the reference."""
    slope = [0.0] * len(players)
    information = [[0.0] * len(players) for _ in players]
    place = {name: at for at, name in enumerate(players)}
    for (a, b), won in wins.items():
        games = won + wins[b, a]
        chance = expected(strength[a], strength[b])
        if a in place:
            slope[place[a]] += won - games * chance
            information[place[a]][place[a]] += games * chance * (1 - chance)
            if b in place:
                information[place[a]][place[b]] -= games * chance * (1 - chance)
    return slope, information


def fit(names, wins):
    """For each name its strength and the half width of its interval, against the first name, the reference.

    `wins[a, b]` is how many games a won against b. ValueError if games don't connect all names.
    """
    if not connected(names, wins):
        raise ValueError("not all settings are connected by matches")
    counted = with_halves(wins)
    strength = dict.fromkeys(names, 0.0)
    players = names[1:]
    for _ in range(STEPS):
        slope, information = slope_and_information(players, strength, counted)
        # Newton's step, no longer than the model bears.
        steps = [max(-1.0, min(1.0, step)) for (step,) in solved(information, [[value] for value in slope])]
        for name, step in zip(players, steps):
            strength[name] += step
        if max(map(abs, steps), default=0) < CLOSE:
            break
    _, information = slope_and_information(players, strength, counted)
    ones = [[float(row == column) for column in range(len(players))] for row in range(len(players))]
    inverse = solved(information, ones)
    widths = {name: DEVIATIONS * math.sqrt(inverse[at][at]) * SCALE for at, name in enumerate(players)}
    return {name: (strength[name] * SCALE, widths.get(name, 0.0)) for name in names}
