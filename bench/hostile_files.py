"""Files and spaces that are as deep, as long or as broken as a user's worst day, by what they try.
What `bench/hostile` runs."""
import random

NO_VARIABLE = "[variables]\n"
ONE_VARIABLE = '[variables]\nA = ["undef", 1]\n'
DEEP = 100_000
# The greatest size of a file.
LARGEST = 1 << 24


def space_of(count, options='"undef", 1'):
    return "[variables]\n" + "".join(f"V{at} = [{options}]\n" for at in range(count))


def each(count, text):
    """The text for each variable, with its number for `@`."""
    return "".join(text.replace("@", str(at)) for at in range(count))


def in_one(count, number, text):
    """The text under one configuration: its variables are the bits of a number, undefined for 1."""
    return "".join(f"#if{'n' * (number >> bit & 1)}def V{bit}\n" for bit in range(count)) + text + "#endif\n" * count


def sections():
    yield "#if inside #if", NO_VARIABLE, "#if 1\n" * DEEP + "x\n" + "#endif\n" * DEEP
    yield "#ifdef inside #ifdef", ONE_VARIABLE, "#ifdef A\n" * DEEP + "x\n" + "#endif\n" * DEEP
    yield "#elif after #elif", ONE_VARIABLE, "#if 0\n" + "#elif A\n" * DEEP + "#endif\n"
    yield "#ifdef without end", ONE_VARIABLE, "#ifdef A\n" * DEEP
    yield "a file that includes itself", "include_depth = 200\n" + ONE_VARIABLE, '#include "m.c"\n'
    yield "a file that includes itself under A", "include_depth = 200\n" + ONE_VARIABLE, 'x\n#ifdef A\n#include "m.c"\n#endif\n'
    yield "faults of 2,000 configurations", space_of(17), "".join(in_one(17, at, "#error\n") for at in range(2000))
    yield "a file that is entered once, asked for twice under each of 1,000 conditions", space_of(10), "#ifdef X\n#pragma once\nint x;\n#else\n#define X\n" + "".join(
        in_one(10, at % 1000, '#include "m.c"\n') for at in range(2000)) + "#endif\n"


def expressions():
    for name, left, right in (("(", "(", ")"), ("!", "!", ""), ("-", "- ", ""), ("1+", "1+", ""), ("1?1:", "1?1:", ""), ("1?", "1?", ":1"), ("0||", "0||", ""),
                              ("0<<", "0<<", "")):
        yield f"#if with {name}", NO_VARIABLE, "#if " + left * DEEP + "1" + right * DEEP + "\nx;\n#endif\n"
    yield "#if with ( without end", NO_VARIABLE, "#if " + "(" * 10 * DEEP + "\n#endif\n"
    for count in (10, 13, 16):
        yield f"#if with a sum of {count} variables", space_of(count, "0, 1"), "#if " + "+".join(f"V{at}" for at in range(count)) + f" > {count // 2}\nx\n#endif\n"
        yield f"#if with && of {count} variables", space_of(count, "0, 1"), "#if " + "&&".join(f"V{at}" for at in range(count)) + "\nx\n#endif\n"
    names = [f"V{at}" for at in range(1000)]
    for name, tests in (("&& of 1,000 variables", names), ("999 pairs of 1,000 variables", [f"!({a} && {b})" for a, b in zip(names, names[1:])])):
        yield f"#if with {name}", space_of(1000, "0, 1"), f"#if {' && '.join(tests)}\nx\n#endif\n"
    for pairs in (12, 16):
        tests = " || ".join(f"(defined(V{at}) && defined(V{at + pairs}))" for at in range(pairs))
        yield f"#if with {pairs} pairs in the worst order", space_of(2 * pairs), f"#if {tests}\nx\n#endif\n"


def syntax():
    for name, head, left, middle, right, tail in (
        ("(", "int x = ", "(", "1", ")", ";"), ("-", "int x = ", "- ", "1", "", ";"), ("+1", "int x = 1", "+1", "", "", ";"),
        ("1?1:", "int x = ", "1?1:", "1", "", ";"), ("1?", "int x = ", "1?", "1", ":1", ";"), ("a cast", "int x = ", "(int)", "1", "", ";"),
        ("*", "int ", "*", "x", "", ";"), ("( of a declarator", "int ", "(", "x", ")", ";"), ("()", "int x", "", "", "()", ";"),
        ("[1]", "int x", "", "", "[1]", ";"), ("parameters", "int x", "(int ", "", ")", ";"), ("{", "void f(void) {", "{", "", "}", "}"),
        ("{ of an initializer", "int x[] = ", "{", "1", "}", ";"), ("if", "void f(void) {", "if (1) ", ";", "", "}"),
        ("if else", "void f(void) {", "if (1) ; else ", ";", "", "}"), ("while", "void f(void) {", "while (1) ", ";", "", "}"),
        ("struct {", "", "struct {", "int x;", "} y;", ""), ("a string", "char *x = ", '"a" ', "", "", ";"), ("a label", "void f(void) {", "a: ", ";", "", "}"),
        ("f(", "int x = ", "f(", "1", ")", ";"), ("f[", "int x = ", "f[", "1", "]", ";"), ("sizeof", "int x = ", "sizeof ", "1", "", ";"),
        ("a =", "void f(void) { ", "a = ", "1", "", ";}"), ("a,", "void f(void) { ", "a, ", "1", "", ";}"),
        ("_Generic", "int x = ", "_Generic(1, default: ", "1", ")", ";"), ("( without end", "int x = ", "(", "", "", ""),
        ("{ without end", "void f(void) {", "{", "", "", ""),
    ):
        yield f"a file with {name}", NO_VARIABLE, head + left * DEEP + middle + right * DEEP + tail + "\n"


def macros():
    for deep in (1_000, 10_000):
        yield f"{deep} calls inside each other", NO_VARIABLE, "#define f(x) x\n" + "f(" * deep + "1" + ")" * deep + "\n"
    for length in (1_000, 2_000):
        yield f"{length} names that replace each other", NO_VARIABLE, "".join(f"#define M{at} M{at + 1}\n" for at in range(length)) + "M0\n"
    for power in (10, 14, 18):
        yield f"2^{power} tokens out of one name", NO_VARIABLE, "#define B0 x\n" + "".join(f"#define B{at} B{at - 1} B{at - 1}\n" for at in range(1, power + 1)) + f"B{power}\n"
    yield "a name of 2^24 letters", NO_VARIABLE, "#define X0(a) a\n" + "".join(f"#define X{at}(a) X{at - 1}(a##a)\n" for at in range(1, 21)) + "X20(aaaaaaaaaaaaaaaa)\n"
    yield "a text that doubles its quotes", NO_VARIABLE, "#define S(x) #x\n#define T(x) S(x)\n" + "T(" * 20 + '"\\\\"' + ")" * 20 + "\n"


def choices():
    for count in (10, 16):
        yield f"{count} names of two definitions", space_of(count), each(count, "#ifdef V@\n#define N@ @\n#else\n#define N@ -@\n#endif\n") + "int x = " + each(count, "N@ ") + ";\n"
        yield f"a call with {count} optional tokens", space_of(count), "#define f(x) x\nf(\n" + each(count, "#ifdef V@\na@\n#endif\n") + ")\n"
        yield f"{count} optional enumerators", space_of(count), "enum e {\n" + each(count, "#ifdef V@\nE@,\n#endif\n") + "Z };\n"
        yield f"{count} optional types", space_of(count), each(count, "#ifdef V@\ntypedef int T@;\n#else\nint T@;\n#endif\n") + "void f(int p) {\n" + each(count, "T@ * p;\n") + "}\n"
        yield f"{count} optional pointers", space_of(count), "int\n" + each(count, "#ifdef V@\n*\n#endif\n") + "x;\n"
        yield f"{count} optional parentheses", space_of(count), "int x = \n" + each(count, "#ifdef V@\n(\n#endif\n") + "1\n" + "".join(
            f"#ifdef V{at}\n)\n#endif\n" for at in reversed(range(count))) + ";\n"
    yield "20 names that replace each other, of two definitions", space_of(20), each(20, "#ifdef V@\n#define C@ C@x @\n#else\n#define C@ C@x -@\n#endif\n") + "".join(
        f"#define C{at}x C{at + 1}\n" for at in range(20)) + "C0\n"


def large():
    for name, space, text in (
        ("x", NO_VARIABLE, "x " * (LARGEST // 2)), ("one identifier", NO_VARIABLE, "x" * LARGEST), ("one string", NO_VARIABLE, '"' + "x" * (LARGEST - 2) + '"'),
        ("one comment", NO_VARIABLE, "/*" + "x" * (LARGEST - 4) + "*/"), ("newlines", NO_VARIABLE, "\n" * LARGEST), ("#", NO_VARIABLE, "#" * LARGEST),
        ("null directives", NO_VARIABLE, "#\n" * (LARGEST // 2)), ("splices", NO_VARIABLE, "\\\n" * (LARGEST // 2)), ("(", NO_VARIABLE, "(" * LARGEST),
        ("quotes", NO_VARIABLE, "'" * LARGEST), ("#if 1", NO_VARIABLE, "#if 1\n#endif\n" * (LARGEST // 13)),
        ("definitions", NO_VARIABLE, "".join(f"#define A{at:07}\n" for at in range(LARGEST // 17))),
        ("#error under A", ONE_VARIABLE, "#ifdef A\n#error\n#endif\n" * (LARGEST // 23)), ("one #define", NO_VARIABLE, "#define A " + "x " * (LARGEST // 2 - 5)),
        ("one #if", NO_VARIABLE, "#if 0" + "+1" * (LARGEST // 2 - 10) + "\n#endif\n"),
    ):
        yield f"16 MiB of {name}", space, text
    yield "16 MiB and a byte", NO_VARIABLE, "x" * (LARGEST + 1)


def broken():
    dice = random.Random(1)
    for at in range(3):
        yield f"random bytes {at}", ONE_VARIABLE, dice.randbytes(1 << 18)
        yield f"random punctuators {at}", ONE_VARIABLE, bytes(dice.choice(b"#(){}\"'\\/*\n ifdefAx1.") for _ in range(1 << 16))
    yield "UTF-8 that is cut", NO_VARIABLE, b"int \xc3;\n\xe2\x82 x\xf0\x9f"
    yield "an include that is no text", NO_VARIABLE, b'#include "\xff\xfe"\n'
    yield "zero bytes", NO_VARIABLE, b"int\0x;\0\0\n#\0if\n"
    yield "a zero byte in an include", NO_VARIABLE, b'#include "a\0b"\n'
    for text in (b"\\", b'"', b"??/", b"#", b"#if", b"/", b"/*", b"%:", b"#define", b"#include <", b"\xef\xbb\xbf", b"\r", b"\\\r\n"):
        yield f"only {text!r}", NO_VARIABLE, text


def spaces():
    yield "a space of 16 MiB", "#" + "x" * (LARGEST - 20) + "\n" + NO_VARIABLE, "x\n"
    yield "a space of nested arrays", "include = " + "[" * DEEP + "]" * DEEP + "\n" + NO_VARIABLE, "x\n"
    yield "a space of nested tables", "a = " + "{a = " * DEEP + "1" + "}" * DEEP + "\n" + NO_VARIABLE, "x\n"
    yield "a space with a key of 100,000 parts", ".".join("a" * DEEP) + " = 1\n" + NO_VARIABLE, "x\n"
    yield "a space of 10,000 directories", "include = [" + ", ".join(f'"/tmp/none{at}"' for at in range(10_000)) + "]\n" + NO_VARIABLE, "#include <nothing>\n" * 3
    yield "1,024 variables of 64 options", "[variables]\n" + "".join(f"V{at} = [{', '.join(map(str, range(64)))}]\n" for at in range(1024)), each(1024, "#if V@ == 3\nx\n#endif\n")
    yield "a space of random bytes", random.Random(2).randbytes(10_000), "x\n"


def rules():
    two, many = space_of(2), [f"V{at}" for at in range(1000)]
    for text in ("1 /* 1", "defined", "V0 ? 1/0 : 1", "V0 && !V0", "V0 == '", "V0 \\", "1u > -1", ""):
        yield f"the rule {text}", f"valid = '''{text}'''\n" + two, "int x;\n"
    for name, value in (("a number", "1"), ("two lines", '"1\\n"')):
        yield f"a rule of {name}", f"valid = {value}\n" + two, "int x;\n"
    for name, left, right in (("(", "(", ")"), ("!", "!", "")):
        yield f"a rule with {name}", "valid = '" + left * DEEP + "1" + right * DEEP + "'\n" + two, "int x;\n"
    for count in (100, 300):
        yield f"a rule that {count} names hold", f"valid = '{' && '.join(many[:count])}'\n" + space_of(count), "int x;\n"
        pairs = " && ".join(f"!({a} && {b})" for a, b in zip(many[:count], many[1:count]))
        yield f"a rule that no neighbours of {count} names hold", f"valid = '{pairs}'\n" + space_of(count), "int x;\n"


def all_files():
    for kind in (sections, expressions, syntax, macros, choices, large, broken, spaces, rules):
        yield from kind()
