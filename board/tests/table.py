"""Records of other programs, each with what records.py and page/records.js make of it."""

CROSSED = "White begins in the record, and Black swaps: colours, and rows with columns, are exchanged."
FIRST = "The file has 2 games; this is the first."
QUOTE = "x'"
BROKEN = "The file breaks off in the record: what stands before that is opened."
SET = "Stones are set at move {}: they are played, one after another."

# The bytes of a file; its record in hexd's form, behind `(;FF[4]GM[11]`; and the notes.
READ = (
    (b"(;B[b2])", "SZ[11]B[b2])", []),
    (b"(\n;SZ[4:4]AW[A1];B[B2])", "SZ[4]AW[a1];B[b2])", []),
    (b"\xef\xbb\xbf x (;SZ[3]C[\xe9];B[A2];W[swap];B[cc];W[resign])",
     "SZ[3]C[\u00e9];B[a2];W[swap-pieces];B[c3];W[resign])", ["White resigns at move 4."]),
    (b"\xef\xbb\xbfa mail (2): (;SZ[3]PB[\xc3\xa9];B[a2])", "SZ[3]PB[\u00e9];B[a2])", []),
    (b"(;SZ[3]CA[koi8-r]PB[\xc1];B[a2])", "SZ[3]PB[\u0430];B[a2])", []),
    # Little Golem's cells, the first mover's swap, and players, result and mover of the other colour.
    (b"(;FF[4]EV[hex]PB[a]PW[b]SZ[11]RE[B];B[kb];W[swap];B[ce];W[resign])",
     "SZ[11]EV[hex]PB[a]PW[b]RE[B];B[k2];W[swap-pieces];B[c5];W[resign])", ["White resigns at move 4."]),
    (b"(;SZ[9]PB[a]RE[W+R]PL[W];W[fc];B[swap];W[ab])", "SZ[9]PW[a]RE[B+R]PL[B];B[c6];W[swap-pieces];B[b1])", [CROSSED]),
    (b"(;SZ[9]AB[fc];W[ab];B[swap])", "SZ[9]AW[c6];B[b1];W[swap-pieces])", [CROSSED]),
    (b"(;SZ[9];W[fc];B[ab])", "SZ[9];W[f3];B[a2])", []),
    (b"(;SZ[5:5];B[a3];W[swap-sides];W[b2])", "SZ[5];B[a3];;W[b2])",
     ["Move 2 swaps sides: the stones stay, and the players have changed their colours."]),
    (b"(;SZ[3];B[tt];W[PASS];B[C1])", "SZ[3];;;B[c1])",
     [f"Move {number} is a pass of {player}'s, which Hex hasn't: it is left out." for number, player in
      ((1, "Black"), (2, "White"))]),
    # Names of properties in capitals, in both, and in small letters.
    (b"(;GaMe[11]SiZe[3];Black[a1]C[\\]]LB[a1:x])", "SZ[3];B[a1]C[\\]]LB[a1:x])", []),
    (b"(;gm[11]sz[5]pb[x];b[c3];w[b2])", "SZ[5]PB[x];B[c3];W[b2])", []),
    # Stones that are set: at the start, behind it, in the midst of a game and of a side line.
    (b"(;SZ[3]AB[A1][bb];W[c2])(;SZ[9])", "SZ[3]AB[a1][b2];W[c2])", [FIRST]),
    (b"(;SZ[5];AB[C3][a1]C[x];AW[bb]AE[a1];B[d4])", "SZ[5]AB[c3]AW[b2];C[x];;B[d4])", []),
    (b"(;SZ[5]AW[c3];AB[cc]W[a1])", "SZ[5]AB[c3];W[a1])", []),
    (b"(;SZ[5]AB[a1][b2][a1]AW[b2];AE[c3]AB[bb];W[a2])", "SZ[5]AB[a1][a1][b2];;W[a2])", []),
    (b"(;SZ[5];B[a1];AB[b2][c3]AW[d4]C[x];W[e5])", "SZ[5];B[a1];B[b2];B[c3];W[d4];C[x];W[e5])", [SET.format(2)]),
    (b"(;SZ[5];B[a1](;W[b2])(;AB[c3]W[d4]))", "SZ[5];B[a1](;W[b2])(;B[c3];W[d4]))", [SET.format(2)]),
    (b"(;SZ[5];B[a1](;W[b2])(;AE[a1];W[d4]))", "SZ[5];B[a1];W[b2])",
     ["A side line is left out: stones are taken away at move 2, which hexd can't do."]),
    # What stands around a record, and one that breaks off.
    (b"(;SZ[3];B[a1]) :-( [", "SZ[3];B[a1])", [FIRST]),
    (b"(;SZ[3];B[a1];W[b2", "SZ[3];B[a1];)", [BROKEN]),
    (b"(;SZ[3]" + b"[" * 100_000, "SZ[3])", [BROKEN]),
    (b"(;SZ[3](;B[a1])(;B[b2])", "SZ[3](;B[a1])(;B[b2]))", [BROKEN]),
    (b"(;SZ[4];B[b2](;W[a1])(;W[q-q];B[c1]))", "SZ[4];B[b2];W[a1])",
     ["A side line is left out: move 2 is no move: White 'q-q'."]),
)

# The bytes of a file, and why it is refused.
REFUSED = (
    (b"", "it is no record of a game"),
    (b"none", "it is no record of a game"),
    (b"for (;;) { x[0] = 1 }", "it is no record of a game"),
    (b"\x89PNG\0(;B[a1])", "it is no record of a game"),
    (b"(;SZ[14])", "size 14: hexd plays 1 to 11"),
    (b"(;SZ[4:5];B[b2])", "size 4:5: hexd plays 1 to 11"),
    (b"(;GM[1])", "it is a record of another game than Hex: GM[1]"),
    (b"(;B[a1]W[a2])", "node 1 has two moves"),
    (b"(;SZ[3];B[b2];W[x-y])", "move 2 is no move: White 'x-y'"),
    (b"(;;B[a1];AE[a1])", "stones are taken away at move 2, which hexd can't do"),
    (b"(;AB[x];B[a1])", "a stone of the start lies on no cell: 'x'"),
    (b"(;SZ[3];AW[zzz];B[a1])", "a stone of the start lies on no cell: 'zzz'"),
)

# What is quoted of a record is one line of printable characters, and not all of a long one. CA names a character set as browsers
# know them, and none of Python's other codecs.
QUOTED = (
    (b"(;GM[1\n\n=7 forged\n\n= x]SZ[5])", "it is a record of another game than Hex: GM[1??=7 forged??= x]"),
    (b"(;SZ[\x1b]0;x\x07\x1b[2J])", "size ?: hexd plays 1 to 11"),
    (b"(;SZ[3\xe2\x80\xae\xe2\x80\xa85])", "size 3??5: hexd plays 1 to 11"),
    (b"(;SZ[\xd9\xa3])", "size \u0663: hexd plays 1 to 11"),
    (b"(;SZ[" + b"9" * 100 + b"])", f"size {'9' * 60}: hexd plays 1 to 11"),
    (b"(;B[" + b"x'" * 100 + b"])", f"move 1 is no move: Black '{30 * QUOTE}'"),
    (b"(;AB[a\r\nb]B[a1])", "a stone of the start lies on no cell: 'a??b'"),
    (b"\xff(;CA[unicode_escape]GM[\\ud800]SZ[5])", "it is a record of another game than Hex: GM[\\ud800]"),
    (b"\xff(;CA[undefined]GM[1])", "it is a record of another game than Hex: GM[1]"),
    (b"\xff(;CA[rot13]GM[1])", "it is a record of another game than Hex: GM[1]"),
    (b"\xff(;CA[idna]GM[1])", "it is a record of another game than Hex: GM[1]"),
    (b"(;CA[ISO-8859-1]GM[\x80])", "it is a record of another game than Hex: GM[\u20ac]"),
)
