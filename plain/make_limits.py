"""Inputs near the limits, faults of the folder, and words."""

CORE_HEAD = (b"sxcore 1\nsort E typed\nsort T plain\ncon e E E\ncon e0 E\ncon t T\ncon u T T\ncon v T T T\n"
             b"form f sub:E out:T\nform g in:T out:T\n")
LANG = (b'language L\nsort Env plain "(" ")"\nsort Ty plain "(" ")"\nsort Exp typed "(" ")"\nprod none Env 90 :\n'
        b'prod bind Env 10 : Env@10 "," id ":" Ty\nprod int Ty 90 : "Int"\nprod pair Ty 10 : Ty%s "*" Ty%s\n'
        b'prod num Exp 90 : num\nprod s Exp 50 : "s" Exp@50\nprod w Exp 50 : "w" Exp@50\nprod plus Exp 20 : Exp%s "+" Exp%s\n'
        b'prod row Exp 60 : "row" Row\nsort Row typed\nprod last Row 90 : num\nprod seq Row 90 : num Row\n'
        b'var C : Env\nvar T : Ty\nvar e : Exp\nvar n : num\nvar r : Row\n'
        b'form t : in:Env "|-" sub:Exp ":" out:Ty\nform rows : in:Env "|=" sub:Row\nmain t none bind\n'
        b'rule N\n---\n~C |- ~n : Int\nend\nrule S\n~C |- ~e : ~T\n---\n~C |- s ~e : ~T * ~T\nend\n'
        b'rule W\n~C |- ~e : ~T\n---\n~C |- w ~e : ~T * Int\nend\n'
        b'rule P\n~C |- ~e1 : ~T1\n~C |- ~e2 : ~T2\n---\n~C |- ~e1 + ~e2 : ~T1\nend\n'
        b'rule Row\n~C |= ~r\n---\n~C |- row ~r : Int\nend\nrule Last\n---\n~C |= ~n\nend\n'
        b'rule Seq\n~C |= ~r\n---\n~C |= ~n ~r\nend\n')


def nested(front, middle, back, times):
    """The middle with so many fronts before it and backs behind it."""
    return front * times + middle + back * times


def core_rules(*rules):
    """Rules of a core file from their lines."""
    return b"".join(b"rule %s\nend\n" % b"\n".join(lines) for lines in rules)


AXIOM = (b"A", b"then f (1) (2)")
COPY = (b"B E T", b"if f ?0 ?1", b"then f (0 ?0) ?1")
DEEPEN = (b"D E T", b"if f ?0 ?1", b"then f (0 ?0) (3 ?1)")
DOUBLE = (b"D2 E T", b"if f ?0 ?1", b"then f (0 ?0) (4 ?1 ?1)")
ENDLESS = (b"Z T T", b"if g ?0 ?1", b"then g ?0 ?1")
CALL = (b"A T", b"if g (2) ?0", b"then f (1) ?0")


def core_limit(rng):
    """A core file near a limit."""
    what = rng.randrange(8)
    depth = rng.choice((998, 999, 1000, 1001))
    goal = b"goal f " + nested(b"(0 ", b"(1)", b")", depth - 1)
    rules, options = [AXIOM, COPY], []
    if what == 0:
        rules, goal = [AXIOM] + [(b"R%d" % n, AXIOM[1]) for n in range(rng.choice((4094, 4095, 4096)))], b"goal f (1)"
    elif what == 1:
        sorts = b"".join(b" T" for _ in range(rng.choice((63, 64, 65))))
        rules, goal = [(b"A" + sorts, b"then f (1) (2)")], b"goal f (1)"
    elif what == 2:
        rules = [AXIOM, DEEPEN]
    elif what == 3:
        rules, goal = [AXIOM, DOUBLE], b"goal f " + nested(b"(0 ", b"(1)", b")", rng.choice((12, 17, 18, 19, 25, 80)))
    elif what == 4:
        rules, goal = [CALL, ENDLESS], b"goal f (1)"
        options = [b"--tries=%d" % rng.choice((2999, 3000, 5999, 6000, 6001, 7000, 30))] if rng.random() < 0.8 else []
    elif what == 5:
        goal += b"\n//" + b"x" * rng.choice((262144, 255000, 262144 - 400))
    elif what == 6:
        goal = b"goal f (1)"
        term = nested(b"(3 ", b"(2)", b")", rng.choice((998, 999, 1000, 1001)))
        rules = [(b"A", b"then f (1) " + term)]
    return {b"X.core": CORE_HEAD + core_rules(*rules) + goal + b"\n"}, [[b"build", b"--core"] + options + [b"X"]]


def replay_limit(rng):
    """A list near a limit."""
    rules, steps = core_rules(AXIOM, COPY, DEEPEN, DOUBLE, ENDLESS, CALL, (b"G", b"then g (2) (2)")), [b"A"]
    goal = b"(1)"
    if rng.random() < 0.4:
        rules = rules.replace(b"rule A\n", b"rule A0\n")
        steps += [b"Z"] * rng.choice((2996, 2997, 2998, 2999, 3000)) + rng.choice(([b"G"], [], [b"Z"], [b"A0"]))
    else:
        rules = rules.replace(b"rule A T\n", b"rule A1 T\n")
        number = rng.choice((18, 19, 25, 997, 998, 999, 1000))
        goal = nested(b"(0 ", b"(1)", b")", number)
        steps = [rng.choice((b"D", b"D", b"D2"))] * (number - 1) + [rng.choice((b"D", b"D2", b"B"))] + steps
        if rng.random() < 0.3:
            steps[rng.randrange(len(steps))] = b"B"
    text = b"sxder 1\n" + b"".join(step + b"\n" for step in steps)
    return {b"X.core": CORE_HEAD + rules + b"goal f " + goal + b"\n", b"X.base": goal + b"\n", b"X.der": text,
            b"X.int": b"(2)\n"}, [[b"verify", b"--core", b"X"]]


def module_limit(rng):
    """A module near a limit."""
    leasts = [rng.choice((b"", b"@10")), rng.choice((b"@11", b"@11", b""))] + [
        rng.choice((b"@20", b"")), rng.choice((b"@21", b"@21", b""))]
    what = rng.randrange(7)
    if what == 0:
        body = nested(b"( ", b"1", b" )", rng.choice((997, 998, 999, 1000)))
    elif what == 1:
        body = b"row " + b" ".join([b"1"] * rng.choice((996, 997, 998, 999, 1990, 2500)))
    elif what == 2:
        loose = leasts[0] != b"@10" or leasts[1] != b"@11"
        body = b"w " * (rng.choice((20, 60)) if loose else rng.choice((300, 498, 499, 500, 997, 998, 999))) + b"1"
    elif what == 3:
        body = b"s " * rng.choice((8, 12, 13, 17, 18, 19)) + b"1"
    elif what == 4:
        body = b" + ".join([b"1"] * rng.choice((2, 3, 4, 5, 6)))
    elif what == 5:
        body = b"1 " * rng.choice((9999, 10000, 10001)) + rng.choice((b"", b"?", b'"'))
    else:
        body = b"1 //" + b"x" * rng.choice((262144 - 32, 262144 - 27, 262144 - 28, 262144 - 29))
    return {b"L.lang": LANG % tuple(leasts), b"M.mod": b"module M\nlanguage L\n---\n" + body + b"\n"}, [[b"build", b"M"]]


def limit_input(rng):
    """Files and steps near a limit."""
    return rng.choice((core_limit, core_limit, replay_limit, module_limit, module_limit))(rng)


def words_input(rng):
    """Random words over an empty folder."""
    pool = (b"build", b"build", b"verify", b"--core", b"--core", b"--tries=5", b"--tries=0", b"--tries=1000000",
            b"--tries=1000001", b"--tries=", b"--tries=05", b"--tries", b"--nodes=3", b"X", b"M", b"a-b", b"", b"1x",
            b"x" * 64, b"x" * 65, b"check", b"compile", b"\xff", b"--", b"-", b"\xc3\xa9", b"_x", b"X_1", b"--audit=a:b")
    words = [rng.choice(pool) for _ in range(rng.randrange(5))]
    if words and rng.random() < 0.7:
        words[0] = rng.choice((b"build", b"check", b"verify"))
    return {}, [words]


def fault_input(rng, files, steps):
    """Folders under the names of files (told by None), and files that are not there."""
    files = dict(files)
    made = [name.split(b".")[0] + end for name in files for end in (b".base", b".der", b".int")
            if not name.endswith(b".lang")]
    if rng.random() < 0.5:
        files[rng.choice(made)] = None
    elif rng.random() < 0.6:
        files[rng.choice(list(files))] = None
    else:
        files.pop(rng.choice(list(files)))
    return files, steps
