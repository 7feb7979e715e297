"""Texts that were thought out, one for each sentence that could be read in two ways."""

HEAD = "group g\nregs\nmems 0\ncode\n"
LOOPED = "def 0x0\nagain ;\n"
CLOSED = LOOPED + "def 0x1\ncall 0 0 ;\nloop 1\n"
SELF = "group g\nregs\nmems 0\ncode (0x20000 01a0)\ndef 0x20000\nagain ;\n"
SELF_TRIPLE = "facts{} pre (0x20000 ;) code {} post (0x20000 ;)\n"
SELF_AXIOM = "axiom 0x20000 0xa001 next " + SELF_TRIPLE.format("", "all")


def nested(form, depth, leaf):
    """A term of this depth."""
    return f"({form} " * (depth - 1) + leaf + ")" * (depth - 1)


def deep_body(depth, end):
    """A body in which the innermost one is so deep."""
    opened = "if (eq 0x0 0x0)\n" * (depth - 1)
    return opened + end + "else\nagain ;\n" * (depth - 1)


def texts():
    """Pairs of a name and a text."""
    for name, text in (
            ("empty", ""), ("newline", "\n"), ("no-newline", "mcproof 1"), ("one", "mcproof 1\n"),
            ("no-last-newline", "mcproof 1\nend"), ("none", "mcproof 1\nend\n"),
            ("rest", "mcproof 1\nend\nx"), ("empty-line", "mcproof 1\nend\n\n"),
            ("line-behind", "mcproof 1\nend\nend\n"), ("five", "mcproof 5\nend\n"),
            ("space", "mcproof 1 \nend\n"), ("zero", "mcproof 01\nend\n"),
            ("none-2", "mcproof 2\nend\n"), ("none-3", "mcproof 3\nend\n"),
            ("none-4", "mcproof 4\nend\n"), ("line-first", "mcproof 1\nforget 0\nend\n"),
            ("term-first", "mcproof 2\nterm v0\nend\n")):
        yield name, text
    for number, behind in enumerate((
            "", "def", "def 0x0", "d", "end", " def 0x0\n", "def  0x0\n", "def\x010x0\n", "def\n",
            "xyz\n", "\n", "def;\n", "(def\n", "defx\n", "def\t0x0\n", "term v0\n", "group\n",
            "end\n", "def 0x0\nx\n", "def 0x0\nagain ;\nend\n", "\x00\n", "def\x00\n", ";def\n",
            "def(\n", "def 0x0 \n", "def 0x0 ret ret\n", "\xffdef\n")):
        yield f"behind-ill-{number}", "mcproof 1\n" + HEAD + "def 0x0\nagain v0 ;\n" + behind
        if number < 14:
            yield f"behind-well-{number}", "mcproof 1\n" + HEAD + LOOPED + behind
    yield "ill-second", ("mcproof 1\n" + HEAD + CLOSED + HEAD + LOOPED + "def 0x0\nleave 0 ;\n"
                         "loop 0 9\nend\n")
    yield "ill-after-wrong", "mcproof 1\n" + HEAD + LOOPED + "loop 0\n" + HEAD + "def 0x0\nleave 0 ;\n"
    yield "ill-behind-end", "mcproof 1\n" + HEAD + "def 0x0\nleave 0 ;\nend\nx\n"
    yield "closed-without-leaves", "mcproof 1\n" + HEAD + CLOSED + "end\n"
    yield "closed-twice", "mcproof 1\n" + HEAD + CLOSED + "loop 1\nend\n"
    yield "loop-too-many", "mcproof 1\n" + HEAD + LOOPED + "loop 0\nend\n"
    yield "loop-absent", "mcproof 1\n" + HEAD + CLOSED + "loop 2\nend\n"
    yield "use-without-exits", "mcproof 2\n" + HEAD + CLOSED + "use 1 0\nend\n"
    yield "empty-code-spelled", ("mcproof 1\n" + HEAD + LOOPED + "weaken 0 facts pre (0x0 ;) code "
                                 "post (0x0 ;)\nend\n")
    yield "empty-code-all", ("mcproof 1\n" + HEAD + LOOPED + "weaken 0 facts pre (0x0 ;) code all "
                             "post (0x0 ;)\nend\n")
    yield "extend-empty", "mcproof 2\n" + SELF + "axiom 0x20000 0xa001 next\nextend 0 code\nend\n"
    yield "self", "mcproof 1\n" + SELF + SELF_AXIOM + "loop 0 0\nend\n"
    yield "self-forgotten", "mcproof 1\n" + SELF + SELF_AXIOM + "loop 0 0\nforget 0\nend\n"
    yield "self-forgotten-first", "mcproof 1\n" + SELF + SELF_AXIOM + "forget 0\nloop 0 0\nend\n"
    yield "self-forgotten-twice", "mcproof 1\n" + SELF + SELF_AXIOM + "forget 0\nforget 0\nend\n"
    yield "self-composed", "mcproof 2\n" + SELF + "axiom 0x20000 0xa001 next\ncompose 0 0\nend\n"
    for other in ("0x1", "0x13", "0xf", "0xa001"):
        yield "clash-" + other, ("mcproof 2\n" + SELF + "axiom 0x20000 0xa001 next\naxiom 0x20000 "
                                 f"{other} next\ncompose 0 1\nend\n")
    # A jump by two: the instruction behind lies in the first one's last bytes.
    for second, third in (("0x6f", "0x20002"), ("0x20006f", "0x20002"), ("0x2000ef", "0x20002")):
        yield "overlap-" + second, ("mcproof 2\n" + SELF + f"axiom 0x20000 {second} next\naxiom "
                                    f"{third} 0x20 next\naxiom {third} 0x13 next\ncompose 0 2\nend\n")
    for cited in (0, 1 << 32, (1 << 64) - 1, 1 << 64):
        yield f"forget-{cited}", "mcproof 1\n" + HEAD + LOOPED + f"forget {cited}\nend\n"
        yield f"loop-{cited}", "mcproof 1\n" + HEAD + LOOPED + f"loop 0 {cited}\nend\n"
        yield f"loop-def-{cited}", "mcproof 1\n" + HEAD + LOOPED + f"loop {cited} 0\nend\n"
    for version, mems in ((1, "1"), (1, "2"), (3, "2"), (4, "0"), (4, "1"), (4, "2"), (4, "3"),
                          (2, "2"), (1, "00")):
        behind = "again ; m0 m1\nend\n" if mems == "2" else "again ;\nend\n"
        yield f"mems-{version}-{mems}", (f"mcproof {version}\ngroup g\nregs\nmems {mems}\ncode\n"
                                         f"def 0x0\n{behind}")
    for number, code in enumerate((
            "(0x0 00) (0x1 00)", "(0x0 00) (0x2 00)", "(0x0 0000) (0x1 00)", "(0x2 00) (0x0 00)",
            "(0xffffffffffffffff 00)", "(0xffffffffffffffff 0000)", "(0x0 0)", "(0x0 )", "(0x0)",
            "(0x0 0A)", "(0x0 00) (0x0 00)", "()", "(0x0 00)(0x2 00)")):
        yield f"code-{number}", f"mcproof 1\ngroup g\nregs\nmems 0\ncode {code}\n" + CLOSED + "end\n"
    for length in (4096, 4097):
        yield f"name-{length}", "mcproof 1\n" + HEAD.replace("g\n", "n" * length + "\n", 1) + CLOSED + "end\n"
    for name in ("all", "0", "def", ";", "(", "a;b", "a(b", "~", "!"):
        yield f"name-{name}", f"mcproof 1\ngroup {name}\nregs\nmems 0\ncode\n" + CLOSED + "end\n"
    for registers in ("0", "1", "31", "32", "1 2", "2 1", "1 1", "01"):
        words = " ".join("0x0" for _ in registers.split())
        yield f"regs-{registers}", (f"mcproof 1\ngroup g\nregs {registers}\nmems 0\ncode\ndef 0x0\n"
                                    f"again {words} ;\nend\n")
    for depth in (63, 64, 65):
        for name, line in (("let", "let " + nested("sx1", depth, "0x0")),
                           ("need", "need " + nested("not", depth - 1, "(eq 0x0 0x0)")),
                           ("in", "need (in1 m0 " + nested("sx1", depth - 1, "0x0") + ")"),
                           ("if", "if " + nested("not", depth - 1, "(eq 0x0 0x0)")),
                           ("again", "again " + nested("sx1", depth, "0x0") + " ;")):
            more = {"if": "again ;\nelse\nagain ;\n", "again": ""}.get(name, "again ;\n")
            yield f"deep-{name}-{depth}", f"mcproof 1\n{HEAD}def 0x0\n{line}\n{more}end\n"
        yield f"body-{depth}", "mcproof 1\n" + HEAD + "def 0x0\n" + deep_body(depth, "again ;\n") + "end\n"
        yield f"body-call-{depth}", ("mcproof 1\n" + HEAD + LOOPED + "def 0x0\n"
                                     + deep_body(depth, "call 0 0 ;\n") + "end\n")
        yield f"body-call-arm-{depth}", ("mcproof 1\n" + HEAD + LOOPED + "def 0x0\n"
                                         + deep_body(depth, "call 0 1 ;\narm\nagain ;\n") + "end\n")
        table = "term v0\n" + "".join(f"term (sx1 t{index})\n" for index in range(depth - 1))
        yield f"table-{depth}", "mcproof 2\n" + HEAD + LOOPED + table + "end\n"
        yield f"fact-{depth}", ("mcproof 1\n" + HEAD + LOOPED + "weaken 0 facts (is "
                                + nested("sx1", depth, "v0") + " v0) pre (v0 ;) code all post (v0 ;)\nend\n")
        yield f"inst-deep-{depth}", (
            "mcproof 2\n" + SELF + table + "axiom 0x20000 0xa001 next\n"
            "axiom 0x20000 0x50533 next\ninst 1 (v0 t" + str(depth - 2) + ")\nend\n")
    for count in (15, 16, 17):
        exits = " ".join(["0x0"] * count)
        yield f"exits-{count}", f"mcproof 1\n{HEAD}def 0x0 {exits}\nleave 0 ;\nend\n"
        yield f"arms-{count}", (f"mcproof 1\n{HEAD}{LOOPED}def 0x0\ncall 0 {count} ;\n"
                                + "arm\nagain ;\n" * count + "end\n")
    yield "two-rets", f"mcproof 1\n{HEAD}def 0x0 ret ret\nleave 0 ;\nend\n"
    for count in (4096, 4097):
        yield f"definitions-{count}", f"mcproof 1\n{HEAD}" + LOOPED * count + "end\n"
        yield f"definitions-ill-{count}", (f"mcproof 1\n{HEAD}" + LOOPED * (count - 1)
                                           + "def 0x0\nleave 0 ;\nend\n")
        yield f"definitions-bad-{count}", f"mcproof 1\n{HEAD}" + LOOPED * (count - 1) + "def\nend\n"
    for number, line in enumerate((
            "axiom 0x0 0x100000000 next", "axiom 0x0 0xffffffff next", "axiom 0x1 0x1 next",
            "axiom 0xfffffffffffffffe 0x1 next", "axiom 0xfffffffffffffffe 0x13 next",
            "axiom 0xfffffffffffffffc 0x13 next", "axiom 0x0 0x10001 next", "axiom 0x0 0x1 taken",
            "axiom 0x0 0x63 taken", "axiom 0x0 0x6f taken", "axiom 0x0 0x73 next",
            "axiom 0x0 0x100073 next", "axiom 0x0 0x9002 next", "axiom 0x0 0x100f next",
            "axiom 0x0 0xffff8f8f next", "axiom 0x0 0x1 maybe", "axiom 0x0 0x0 next",
            "axiom 0x0 0x8002 next", "axiom 0x0 0x2001 next", "axiom 0x0 0x6101 next",
            "axiom 0x0 0x6001 next", "axiom 0x0 0x6005 next", "axiom 0x0 0x4002 next",
            "axiom 0x0 0x6002 next", "axiom 0x0 0x2 next", "axiom 0x0 0x8001 next",
            "axiom 0x0 0x9c41 next", "axiom 0x0 0x5013 next", "steer 0", "exchange 0",
            "frame 0", "frame 0 ;", "inst 0", "discharge 0", "discharge 0 facts", "extend 0",
            "extend 0 code", "extend 0 code all", "weaken 0 facts post (t0 ;)", "compose 0",
            "loop", "loop 0", "forget", "forget 0 0", "use 0", "use 0 0", "term v0", "end ")):
        yield f"short-{number}", "mcproof 2\n" + SELF + line + "\nend\n"
    for number, table in enumerate((
            "v0 v0", "t0", "v0 (sx1 t0) (sx1 t0)", "(sx1 t0)", "(sx1 t1) v0", "m0 (sx1 t0)",
            "m0 0x0 (ld1 t0 t1) (ld1 t1 t0)", "m0 0x0 (in1 t0 t1) (not t2) (not t3) (not t1)",
            "m0 0x0 (st1 t0 t1 t1) (st1 t0 t1)", "0x0 0x00", "v00", "v4294967296", "v4294967295",
            "(add v0 v1)", "0x0 (eq t0 t0) (eq t0 t1)", "0x0 0x1 0x0", "v0 m0 v0")):
        rows = []
        depth = 0
        for part in table.split(" "):
            rows[-1:] = [rows[-1] + " " + part] if depth else rows[-1:] + [part]
            depth += part.count("(") - part.count(")")
        yield f"rows-{number}", ("mcproof 2\n" + HEAD + CLOSED.replace("loop 1\n", "")
                                 + "".join(f"term {row}\n" for row in rows) + "loop 1\nend\n")
    for number, line in enumerate((
            "frame 1 ; t2", "frame 1 ; t0", "frame 1 (5 t0) ;", "frame 1 (10 t0) ;",
            "frame 1 (5 t0) (4 t0) ;", "frame 1 (5 t0) (5 t0) ;", "frame 1 (0 t0) ;",
            "frame 1 (5 t2) ;", "inst 1 (v0 t1) (v1 t0)", "inst 1 (v1 t0) (v0 t1)",
            "inst 1 (v0 t1) (v0 t1)", "inst 1 (m0 t2) (v0 t1)", "inst 1 (v0 t1) (m0 t2)",
            "inst 1 (v0 t2)", "inst 1 (m0 t1)", "inst 1 (v7 t1)", "inst 1 (v4294967296 t1)",
            "discharge 1 facts (so t3)", "discharge 1 facts (so t0)", "discharge 1 facts (is t0 t2)",
            "discharge 1 facts (mis t2 t2)", "discharge 1 facts (mis t0 t0)",
            "discharge 1 facts (gives 0 0 ; ; ;)", "discharge 1 facts (gives 9 9 t0 ; t2 ; t1 ; t2)",
            "discharge 1 facts (gives 0 0 t2 ; ; ;)", "discharge 1 facts (gives 0 0 ; t0 ; ;)",
            "discharge 1 facts (gives 0 0 ; ;)", "discharge 1 facts (gives 4294967296 0 ; ; ;)",
            "weaken 1 facts post (t4 (10 t5) (11 t1) ;)", "weaken 1 facts post (t4 (11 t1) (10 t5) ;)",
            "weaken 1 facts (is t0 t5) post (t4 (10 t0) (11 t1) ;)",
            "weaken 1 facts (is t5 t0) post (t4 (10 t0) (11 t1) ;)",
            "weaken 1 facts (is t5 t1) (is t1 t0) post (t4 (10 t0) (11 t1) ;)",
            "weaken 1 facts (is t1 t0) post (t4 (10 t6) (11 t0) ;)",
            "weaken 1 facts (is t1 t0) post (t4 (10 t6) (11 t1) ;)",
            "weaken 1 facts post (t4 (10 t5) (11 t1) ; t2)", "weaken 1 facts post (t4 (10 t5) ;)",
            "strengthen 1 facts pre (t4 (10 t5) (11 t1) ;)", "extend 1 code (0x20000 3305b5001300)",
            "extend 1 code (0x20000 3305b500)", "extend 1 code (0x20001 05b500)",
            "extend 1 code (0x1ffff 013305b500)", "extend 1 code (0x20000 3305b501)",
            "extend 1 code (0x20000 3305) (0x20003 00)", "extend 1 code (0x20000 3305) (0x20002 b500)",
            "compose 1 1", "compose 1 2", "steer 1", "exchange 1", "frame 9 ;", "inst 9",
            "discharge 1 facts (so t7) (so t3) (so t3)")):
        group = SELF.replace("01a0", "01a0" if number % 2 else "0100")
        yield f"table-line-{number}", (
            "mcproof 2\n" + group + "term v0\nterm v1\nterm m0\nterm (eq t0 t1)\nterm 0x20004\n"
            "term (add t0 t1)\nterm (add t0 t0)\nterm (not t3)\n"
            f"axiom 0x20000 0xa001 next\naxiom 0x20000 0xb50533 next\n{line}\nend\n")
    for number, line in enumerate((
            "steer 0 " + SELF_TRIPLE.format("", "all"), "exchange 0 " + SELF_TRIPLE.format("", "all"),
            "discharge 0 " + SELF_TRIPLE.format("", "all"), "strengthen 0 " + SELF_TRIPLE.format("", "all"),
            "steer 0 " + SELF_TRIPLE.format(" (so (eq 0x20000 0x20000))", "all"),
            "extend 0 " + SELF_TRIPLE.format("", "(0x20000 01a0)"),
            "extend 0 " + SELF_TRIPLE.format("", "(0x20000 01a000)"),
            "inst 0 (m0 m1) (v0 v1) " + SELF_TRIPLE.format("", "all"),
            "inst 0 (v0 m0) " + SELF_TRIPLE.format("", "all"),
            "inst 0 (v0 v9) (v4294967295 v3) (m7 m8) " + SELF_TRIPLE.format("", "all"),
            "frame 0 (5 v0) ; " + SELF_TRIPLE.format("", "all"),
            "frame 0 facts pre (0x20000 (5 v0) ; m0) code all post (0x20000 (5 v0) ; m0)\n",
            "frame 0 facts pre (0x20000 (5 v0) ; m0) code all post (0x20000 (5 v0) ; m1)\n",
            "frame 0 facts pre (0x20000 (5 v0) ; m0) code all post (0x20000 (5 v0) ;)\n",
            "frame 0 facts pre (0x20000 (5 v0) (4 v0) ; m0) code all post (0x20000 ;)\n",
            "frame 0 facts pre (0x20000 (0 v0) ; m0) code all post (0x20000 ;)\n",
            "discharge 0 facts (gives 0 0 ; ; ;) pre (0x20000 ;) code all post (0x20000 ;)\n",
            "discharge 0 facts (gives 0 0 ; ; ) pre (0x20000 ;) code all post (0x20000 ;)\n",
            "discharge 0 facts pre (0x20000 ;) code all post (0x20000; )\n")):
        for version in (1, 3, 4):
            body = SELF.replace("mems 0", "mems 2").replace(";", "; m0 m1") if version == 4 else SELF
            yield f"whole-{version}-{number}", f"mcproof {version}\n{body}{SELF_AXIOM}{line}end\n"


def chain(form, first, start, count):
    """The rows of terms of which each has the one before twice, the first over this one."""
    rows, last = [], first
    for number in range(start, start + count):
        rows.append(f"term ({form} t{last} t{last})\n")
        last = number
    return "".join(rows), last


def dags():
    """Texts of version 2 with terms that share their parts, as trees of up to 2^63 nodes."""
    group = ("mcproof 2\ngroup g\nregs 5 6\nmems 1\ncode (0x20000 01a0)\ndef 0x20000 0x20000\n"
             "again v0 v1 ; m0\n")
    base = "term v0\nterm v1\nterm m0\nterm 0x20000\nterm 0x1\nterm m1\n"
    for depth in (10, 62, 63, 64):
        left, last = chain("add", 0, 6, depth - 1)
        right, other = chain("add", 1, last + 1, depth - 1)
        closed, sum_of_all = chain("add", 4, other + 1, depth - 2)
        head = group + base + left + right + closed
        lines = "axiom 0x20000 0xa001 next\n"
        framed = lines + f"frame 0 (5 t{last}) ; t2\n"
        for number, facts in enumerate(("(is t0 t1)", "(is t1 t0)", "", "(so t0)",
                                        f"(is t{last - 1} t{other - 1})",
                                        f"(is t{last - 2} t{other - 2}) (is t0 t0)")):
            if facts == "(so t0)":
                facts = "(mis t2 t5)"
            yield f"dag-weaken-{depth}-{number}", (
                f"{head}{framed}weaken 1 facts {facts} post (t3 (5 t{other}) ; t2)\nend\n").replace("facts  ", "facts ")
        yield f"dag-inst-{depth}", f"{head}{framed}inst 1 (v0 t1) (m0 t5)\nend\n"
        yield f"dag-inst-1-{depth}", f"{head}{framed}inst 1 (v0 t6)\nend\n"
        row = sum_of_all + 1
        value = pow(2, depth - 2, 1 << 64)
        for number, right_value in enumerate((value, value + 1)):
            # The constant is written so that it stands in the table once.
            constant = 4 if right_value == 1 else row
            more = "" if constant == 4 else f"term {right_value:#x}\n"
            condition = row + (constant == row)
            yield f"dag-computed-{depth}-{number}", (
                f"{head}{more}term (eq t{sum_of_all} t{constant})\n{framed}"
                f"weaken 1 facts (so t{condition}) post (t3 (5 t{last}) ; t2)\n"
                "discharge 2 facts\nend\n")
        stores = f"term (st8 t2 t{last} t{last})\n"
        count = row + 1
        for _ in range(max(0, 62 - depth)):
            stores += f"term (st8 t{count - 1} t{last} t{last})\n"
            count += 1
        conditions = (f"term (in4 t{count - 1} t{last - 1})\nterm (in4 t5 t{other - 1})\n"
                      f"term (in4 t2 t{other - 1})\n")
        for number, facts in enumerate((
                f"(so t{count + 1}) (mis t2 t5) (is t0 t1)", f"(so t{count + 1}) (mis t5 t2) (is t1 t0)",
                f"(so t{count + 1}) (is t0 t1)", f"(so t{count + 2}) (is t0 t1)",
                f"(so t{count + 2})")):
            yield f"dag-alike-{depth}-{number}", (
                f"{head}{stores}{conditions}{framed}weaken 1 facts (so t{count}) post (t3 (5 t{last}) ; t2)\n"
                f"discharge 2 facts {facts}\nend\n")
