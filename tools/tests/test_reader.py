"""Each form of a line, and each way in which a line can be wrong."""
import io
import unittest

from superc_text import (
    Choice,
    Conflict,
    Document,
    Leaf,
    Node,
    Place,
    Reader,
    TextError,
    Token,
    text_of,
)

from superc_text.space import variables_of

from .helpers import README_TEXT, TREE_TEXT, document


class Forms(unittest.TestCase):
    def test_tokens_and_faults(self) -> None:
        read = document(README_TEXT)
        self.assertEqual(read.tokens, [Token(2, Place("main.c", 2, 1), b"x")])
        self.assertEqual(
            [tuple(fault) for fault in read.faults], [(3, 5, "BadDirective", Place("main.c", 4, 1))]
        )
        self.assertEqual(read.diagrams.variables, {"A": ("undef", "1")})

    def test_options_that_are_texts(self) -> None:
        read = document(b"c 2 T undef:0 t1:1\ns 0 m.c\nt 2 0:1:1 x\nend\n")
        self.assertEqual(read.diagrams.variables, {"T": ("undef", "t1")})
        self.assertEqual(variables_of(b'[variables]\nT = ["undef", "x"]\n'), {"T": ("undef", "t1")})

    def test_tree(self) -> None:
        read = document(TREE_TEXT)
        self.assertEqual(read.root, 7)
        self.assertEqual(read.parts[0], Leaf(0, Place("m.c", 2, 1), b"int"))
        self.assertEqual(read.parts[2], Choice(2, ((2, 0), (3, 1))))
        self.assertEqual(read.parts[6], Node(6, 19, (2, 4, 5)))

    def test_conflicts(self) -> None:
        read = document(b"k 24 ( s r113\nk 180 [ r116 r285\nend\n")
        self.assertEqual(
            read.conflicts, [Conflict(24, "(", "s", "r113"), Conflict(180, "[", "r116", "r285")]
        )

    def test_empty_unit(self) -> None:
        self.assertEqual(document(b"n 0 2\nroot 0\nend\n").parts, [Node(0, 2, ())])

    def test_no_root(self) -> None:
        read = document(b"root -\ns 0 m.c\nf 1 15 IncludeDepth 0:1:1\nend\n")
        self.assertIsNone(read.root)

    def test_last_code(self) -> None:
        for text in (M, b"root -\n" + M):
            read = document(text + b"f 1 23 BadPragma 0:1:1\nend\n")
            self.assertEqual(
                [tuple(fault) for fault in read.faults],
                [(1, 23, "BadPragma", Place("m.c", 1, 1))],
            )

    def test_nothing(self) -> None:
        self.assertEqual(document(b"end\n").tokens, [])

    def test_bytes_of_spelling_and_blanks_of_names(self) -> None:
        read = document(b's 0 a file.c\nt 1 0:1:1 "x  \xff y"\nend\n')
        self.assertEqual(read.tokens, [Token(1, Place("a file.c", 1, 1), b'"x  \xff y"')])

    def test_shared_parts(self) -> None:
        text = b"s 0 m.c\nl 0 0:1:1 a\nn 1 288 0\nn 2 4 1 1\nn 3 1 2\nroot 3\nend\n"
        self.assertEqual(text_of(document(text)), text)

    def test_round_trip(self) -> None:
        for text in (
            README_TEXT,
            TREE_TEXT,
            b"k 24 ( s r113\nend\n",
            b"root -\ns 0 m.c\nf 1 15 IncludeDepth 0:1:1\nend\n",
        ):
            self.assertEqual(text_of(document(text)), text)

    def test_items_come_while_lines_are_read(self) -> None:
        def lines():
            yield b"s 0 m.c\n"
            yield b"t 1 0:1:1 x\n"
            self.fail("the reader is ahead")

        self.assertEqual(next(iter(Reader(lines()))), Token(1, Place("m.c", 1, 1), b"x"))


A = b"c 2 A undef:0 1:1\n"
B = b"c 2 B undef:0 1:1\n"
M = b"s 0 m.c\n"
LEAVES = M + b"l 0 0:1:1 a\nl 1 0:1:2 b\n"

# The text, the number of its wrong line, and some words of the rule.
WRONG = [
    (b"", 1, "stops before"),
    (M + b"t 1 0:1:1 x\n", 3, "stops before"),
    (b"end", 1, "no newline"),
    (b"end\nend\n", 2, "nothing stands after"),
    (b"end \n", 1, "not written so"),
    (b"q\nend\n", 1, "no line begins so"),
    (b"\nend\n", 1, "no line begins so"),
    (b"c 3 A undef:0 1:1\nend\n", 1, "next condition has the number 2"),
    (b"c 02 A undef:0 1:1\nend\n", 1, "not written so"),
    (b"c 2 A\nend\n", 1, "not written so"),
    (b"c 2 A undef:0  1:1\nend\n", 1, "not written so"),
    (b"c 2 9 undef:0 1:1\nend\n", 1, "not written so"),
    (b"c 2 A undef:0 01:1\nend\n", 1, "not written so"),
    (b"c 2 A undef:0 x:1\nend\n", 1, "not written so"),
    (b"c 2 A undef:0 1:3\nend\n", 1, "condition 3 has no line yet"),
    (b"c 2 A undef:0 undef:1\nend\n", 1, "an option stands once"),
    (b"c 2 A undef:0 t2:1\nend\n", 1, "the number of its place"),
    (b"c 2 A undef:0 t01:1\nend\n", 1, "not written so"),
    (b"c 2 A 9223372036854775808:0 1:1\nend\n", 1, "at most 2^63-1"),
    (
        b"c 2 A " + b" ".join(b"%d:%d" % (k, k == 0) for k in range(65)) + b"\nend\n",
        1,
        "at most 64 options",
    ),
    (b"c 2 A undef:1 1:1\nend\n", 1, "equal children"),
    (A + b"c 3 A undef:0 1:1\nend\n", 2, "a condition has one line"),
    (A + b"c 3 A undef:1 2:0\nend\n", 2, "options of A stand as before"),
    (A + b"c 3 A undef:2 1:1\nend\n", 2, "variables rise"),
    (A + b"c 3 B undef:2 1:1\nend\n", 2, "variables rise"),
    (A + b"end\n", 2, "not those that it needs"),
    (A + M + b"t 1 0:1:1 x\nend\n", 3, "not those that it needs"),
    (
        B + b"c 3 C undef:0 1:1\nc 4 A undef:3 1:2\n" + M + b"t 4 0:1:1 x\nend\n",
        5,
        "not those that it needs",
    ),
    (M + A + b"t 2 0:1:1 x\nend\n", 2, "before the line of the file"),
    (b"s 1 m.c\nend\n", 1, "next file has the number 0"),
    (b"s 0 \nend\n", 1, "not written so"),
    (b"s 0 \xff\nend\n", 1, "UTF-8"),
    (M + b"s 1 n.c\nend\n", 2, "needs one file"),
    (M + b"t 1 0:1:1 x\ns 1 m.c\nt 1 1:1:1 x\nend\n", 3, "a file has one line"),
    (M + b"end\n", 2, "doesn't need it"),
    (M + b"t 1 0:1:1 x\ns 1 n.c\nt 1 0:1:1 x\nend\n", 4, "doesn't need it"),
    (b"t 1 0:1:1 x\nend\n", 1, "file 0 has no line yet"),
    (M + b"t 2 0:1:1 x\nend\n", 2, "condition 2 has no line yet"),
    (M + b"t 0 0:1:1 x\nend\n", 2, "holds somewhere"),
    (M + b"t 1 0:0:1 x\nend\n", 2, "not written so"),
    (M + b"t 1 0:1 x\nend\n", 2, "not written so"),
    (M + b"t 1 0:1:1 \nend\n", 2, "not written so"),
    (M + b"t 1 0:1:1  x\nend\n", 2, "not written so"),
    (M + b"f 1 5 BadDirective 0:1:1\nt 1 0:1:1 x\nend\n", 3, "before the faults"),
    (M + b"f 1 5 BadDefine 0:1:1\nend\n", 2, "code 5 is not that of BadDefine"),
    (M + b"f 1 23 Syntax 0:1:1\nend\n", 2, "code 23 is not that of Syntax"),
    (M + b"f 1 22 BadPragma 0:1:1\nend\n", 2, "code 22 is not that of BadPragma"),
    (M + b"f 1 24 BadPragma 0:1:1\nend\n", 2, "code 24 is not that of BadPragma"),
    (M + b"f 1 22 Syntax 0:1:1\nend\n", 2, "code 22 is one of parsing"),
    (M + b"f 0 5 BadDirective 0:1:1\nend\n", 2, "holds somewhere"),
    (
        A + M + b"f 2 5 BadDirective 0:2:1\nc 3 A undef:1 1:0\nf 3 5 BadDirective 0:1:1\nend\n",
        5,
        "faults stand by file",
    ),
    (
        A + M + b"f 2 5 BadDirective 0:1:1\nf 2 5 BadDirective 0:1:1\nend\n",
        4,
        "faults stand by file",
    ),
    (A + M + b"f 2 5 BadDirective 0:1:1\nf 1 5 BadDirective 0:2:1\nend\n", 4, "one fault"),
    (M + b"t 1 0:1:1 x\nl 0 0:1:1 x\nend\n", 3, "not one of a text of tokens"),
    (M + b"l 0 0:1:1 x\nt 1 0:1:1 x\nend\n", 3, "not one of a text of tree"),
    (b"k 1 ( s r2\nroot -\nend\n", 2, "not one of a text of conflicts"),
    (M + b"l 1 0:1:1 x\nend\n", 2, "next part of the tree has the number 0"),
    (M + b"l 0 0:1:1 x\nend\n", 3, "a tree has a root"),
    (M + b"l 0 0:1:1 x\nf 1 5 BadDirective 0:1:1\nend\n", 3, "faults stand after the root"),
    (b"n 0 288 0\nend\n", 1, "part 0 of the tree has no line yet"),
    (b"n 0 289\nend\n", 1, "no production 289"),
    (b"n 0 3\nend\n", 1, "production 3 has no node"),
    (M + b"l 0 0:1:1 a\nn 1 288 0 0\nend\n", 3, "production 288 has 1 children"),
    (M + b"n 0 2\nend\n", 2, "doesn't need it"),
    (A + b"n 0 2\nend\n", 2, "not those that it needs"),
    (LEAVES + b"x 2 1:0\nend\n", 4, "two children or more"),
    (LEAVES + b"x 2 0:0 1:1\nend\n", 4, "no child under 0"),
    (LEAVES + A + b"x 2 2:0 1:1\nend\n", 5, "are apart"),
    (LEAVES + b"x 2 1:0 2:1\nend\n", 4, "condition 2 has no line yet"),
    (b"n 0 2\nroot 0\nroot 0\nend\n", 3, "one root"),
    (b"n 0 2\nroot 0\nn 1 2\nend\n", 3, "root comes after"),
    (b"n 0 2\nroot 1\nend\n", 2, "last part of the tree"),
    (b"n 0 2\nroot -\nend\n", 2, "there is no tree"),
    (b"root 0\nend\n", 1, "last part of the tree"),
    (LEAVES + b"n 2 4 1 0\nroot 2\nend\n", 5, "children first, from left to right"),
    (LEAVES + b"n 2 288 1\nroot 2\nend\n", 5, "children first, from left to right"),
    (b"root -\nend\n", 2, "exactly where every configuration is refused"),
    (
        b"n 0 2\nroot 0\n" + M + b"f 1 5 BadDirective 0:1:1\nend\n",
        5,
        "exactly where every configuration is refused",
    ),
    (b"k 1 ( s r2\nk 0 ( s r2\nend\n", 2, "by state"),
    (b"k 1 ( s r2\nk 1 ( s r2\nend\n", 2, "by state"),
    (b"k 1 ( r3 r2\nend\n", 1, "lower production"),
    (b"k 1 ( r3\nend\n", 1, "not written so"),
]


class Faults(unittest.TestCase):
    def test_each_wrong_line(self) -> None:
        for text, line, rule in WRONG:
            with self.subTest(text=text):
                with self.assertRaises(TextError) as caught:
                    Document.read(io.BytesIO(text))
                self.assertEqual(caught.exception.line, line)
                self.assertIn(rule, caught.exception.rule)

    def test_each_front_of_a_text_is_refused(self) -> None:
        for text in (README_TEXT, TREE_TEXT):
            for length in range(len(text)):
                with self.subTest(length=length), self.assertRaises(TextError):
                    document(text[:length])
