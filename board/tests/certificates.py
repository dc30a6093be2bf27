"""Certificates that the tests open."""

# Black wins as he moves, and Black wins with White to move.
SEMI = b"""hexcert 2
size 4
player black
black d1
white b3
adj edge1 c2
adj edge1 d2
adj c2 c3
adj d2 c3
adj edge2 b4
adj c3 b4
adj edge2 c4
adj c3 c4
key 2 0
key 3 1
key 5 4
key 7 6
or 9 8
or 11 10
key 13 12
semi 14
"""
FULL = b"""hexcert 2
size 3
player black
black b2
white
put
adj b1 edge1
adj c1 edge1
adj b1 b2
adj c1 b2
adj a3 edge2
adj b2 a3
adj b3 edge2
adj b2 b3
key 1 3
key 2 4
key 5 6
key 7 8
or 9 10
or 11 12
and 13 14
full 15
"""
# Black wins as he moves: behind a2 by lines that were semi entries before it.
LIFTED = """hexcert 4
size 2
player black
black
white
adj a2 a1
adj a1 edge1
adj a2 b1
adj b1 edge1
key 0 1
key 2 3
put a2
lift 4
lift 5
or 7 8
put
move a2 9
semi 11
"""
