"""Large inputs of soundx, each at two sizes.

A workload has a title, the files of the single and of the doubled size, the words of runs that come first and are not measured, the words of its
runs, and a part of what is printed where it is refused.
"""
import collections
import os

TOP = os.path.dirname(os.path.dirname(os.path.abspath(__file__)))

Workload = collections.namedtuple("Workload", "title single double first words refusals")

# A lambda calculus in core notation: environments are lists, and a variable is looked up from the innermost binder on.
LAMBDA = """sxcore 1
sort Env plain
sort Ty plain
sort Exp typed
con none Env
con bind Env Env id Ty
con int Ty
con arrow Ty Ty Ty
con var Exp id
con lam Exp id Ty Exp
con pair Exp Exp Exp
form lookup in:Env in:id out:Ty
form typing in:Env sub:Exp out:Ty
rule Here Env id Ty
then lookup (1 ?0 ?1 ?2) ?1 ?2
end
rule There Env id id Ty Ty
not ?1 ?2
if lookup ?0 ?1 ?3
then lookup (1 ?0 ?2 ?4) ?1 ?3
end
rule Var Env id Ty
if lookup ?0 ?1 ?2
then typing ?0 (4 ?1) ?2
end
rule Lam Env id Ty Exp Ty
if typing (1 ?0 ?1 ?2) ?3 ?4
then typing ?0 (5 ?1 ?2 ?3) (3 ?2 ?4)
end
rule Pair Env Exp Exp
if typing ?0 ?1 (2)
if typing ?0 ?2 (2)
then typing ?0 (6 ?1 ?2) (2)
end
"""

# A language whose sums have no levels, so that each sum of three or more has several readings.
SUMS = """language Sums
sort Env plain
sort Ty plain
sort Exp typed
prod none Env 90 : "[]"
prod bind Env 10 : Env@10 "," id ":" Ty
prod int Ty 90 : "Int"
prod num Exp 90 : num
prod plus Exp 50 : Exp "+" Exp
var C : Env
var e : Exp
var n : num
form typing : in:Env "|-" sub:Exp ":" out:Ty
main typing none bind
rule T-Num
---
~C |- ~n : Int
end
rule T-Plus
~C |- ~e1 : Int
~C |- ~e2 : Int
---
~C |- ~e1 + ~e2 : Int
end
"""

# A binder of functions in other words, so that each is a node of an extension.
BINDER = """extension Binder
language Lam
prod binder Exp 10 : "let" id ":" Ty "in" Exp
rule T-Binder
~C , ~x : ~T1 |- ~e : ~T2
---
~C |- let ~x : ~T1 in ~e : ~T1 -> ~T2
to \\ ~x : ~T1 . ~e
end
"""

# The name of each of many extensions, before its number, and what such a file holds.
CHAIN = "Chain"
EXTENSION = """extension %s%d
language Lam
%sprod chain%d Exp 50 : "chain%d" Exp@51
rule T-Chain%d
~C |- ~e : ~T
---
~C |- chain%d ~e : ~T
to ~e
end
"""

# The lists of two kinds of steps: each step has two rules, none of which ends, and makes a large term that no other step makes.
GROWING = """sxcore 1
sort Steps typed
sort Exp plain
con end Steps
con step Steps Steps
con left Exp Exp
con right Exp Exp
con big Exp Exp Exp
con nil Exp
form walk sub:Steps in:Exp in:Exp
"""


def lam():
    """The language of lambda terms of the examples."""
    with open(os.path.join(TOP, "examples", "lam", "Lam.lang")) as file:
        return file.read()


def extension(name):
    """An extension of that language among the examples."""
    with open(os.path.join(TOP, "examples", "lam", name + ".ext")) as file:
        return file.read()


def name(number):
    """The core text of the variable with this number."""
    text = "x%d" % number
    return "i%d:%s" % (len(text), text)


def balanced(leaves, join):
    """A tree over the leaves, each pair of which is joined."""
    while len(leaves) > 1:
        paired = [join(a, b) for a, b in zip(leaves[::2], leaves[1::2])]
        leaves = paired + leaves[len(paired) * 2:]
    return leaves[0]


def concat(a, b):
    """Two strings joined, in brackets."""
    return "( %s ++ %s )" % (a, b)


# ---- core files


def lookups(binders, uses):
    """The outermost of many binders, used many times: about two tries for each binder and use."""
    body = balanced(["(4 %s)" % name(0)] * uses, lambda a, b: "(6 %s %s)" % (a, b))
    for number in reversed(range(binders)):
        body = "(5 %s (2) %s)" % (name(number), body)
    return LAMBDA + "goal typing (0) %s\n" % body


def pairs(levels):
    """A tree of pairs with so many levels, each leaf of two types: its first derivation is the first of very many."""
    text = "(0)"
    for _ in range(levels):
        text = "(1 %s %s)" % (text, text)
    return ("sxcore 1\nsort Exp typed\nsort Ty plain\ncon z Exp\ncon p Exp Exp Exp\ncon a Ty\ncon b Ty\n"
            "form f sub:Exp out:Ty\nrule Z1\nthen f (0) (2)\nend\nrule Z2\nthen f (0) (3)\nend\n"
            "rule P Exp Exp Ty Ty\nif f ?0 ?2\nif f ?1 ?3\nthen f (1 ?0 ?1) (2)\nend\ngoal f %s\n" % text)


def deep_blame(entries, levels):
    """Nested pairs, the left of each the innermost name, and in the innermost a name that stands for nothing."""
    environment = "(0)"
    for number in range(entries):
        environment = "(1 %s %s (2))" % (environment, name(number))
    body = "(4 i1:y)"
    for _ in range(levels):
        body = "(6 (4 %s) %s)" % (name(entries - 1), body)
    return LAMBDA + "goal typing %s %s\n" % (environment, body)


def growing(width, steps):
    """Steps that are walked in two ways each, where each makes a term of so many nodes, and no way ends."""
    text = GROWING
    for way in [2, 3]:
        large = "(%d ?1)" % way
        for _ in range(width):
            large = "(4 %s (%d ?1))" % (large, way)
        text += "rule Way%d Steps Exp Exp\nif walk ?0 (%d ?1) %s\nthen walk (1 ?0) ?1 ?2\nend\n" % (way, way, large)
    goal = "(0)"
    for _ in range(steps):
        goal = "(1 %s)" % goal
    return text + "goal walk %s (5) (5)\n" % goal


def made(width, levels):
    """A tree with so many levels, each right part of which is gone through with a term of its own, longer by so many nodes; each has an end."""
    large = "?0"
    for _ in range(width):
        large = "(2 %s (3))" % large
    goal = "(0)"
    for _ in range(levels):
        goal = "(1 %s %s)" % (goal, goal)
    return ("sxcore 1\nsort Tree typed\nsort Exp plain\ncon leaf Tree\ncon fork Tree Tree Tree\ncon both Exp Exp Exp\ncon nil Exp\n"
            "form walk in:Exp sub:Tree out:Exp\nrule Leaf Exp\nthen walk ?0 (0) (3)\nend\n"
            "rule Fork Exp Tree Tree Exp Exp\nif walk (2 (3) ?0) ?1 ?3\nif walk %s ?2 ?4\nthen walk ?0 (1 ?1 ?2) (3)\nend\n"
            "goal walk (3) %s\n" % (large, goal))


# ---- modules


def module(language, body, *uses):
    """A module with this body that uses these extensions."""
    return "module NAME\nlanguage %s\n%s---\n%s\n" % (language, "".join("use %s\n" % it for it in uses), body)


def bound(count, uses, last, binder):
    """Nested binders, and so many references to the outermost of them, each made a string, joined by a balanced tree of bracketed `++`. The last
    reference may be to another one. A binder is written with its number and its type."""
    body = balanced(["itoa x0"] * (uses - 1) + ["itoa " + last], concat)
    for number in reversed(range(count)):
        body = binder % (number, " -> ".join(["Int"] * (1 if number == 0 else 8))) + body
    return body


def binders(count, uses, last="x0"):
    """Such binders in the syntax of the language."""
    return module("Lam", bound(count, uses, last, "\\ x%d : %s . "))


def extended_binders(count, uses):
    """Such binders in the syntax of an extension."""
    return module("Lam", bound(count, uses, "x0", "let x%d : %s in "), "Binder")


def lets(count):
    """So many `let`, one in the other, each of the name before."""
    body = "x%d" % (count - 1)
    for number in reversed(range(count)):
        body = "let x%d = %s in %s" % (number, "1" if number == 0 else "x%d" % (number - 1), body)
    return module("Lam", body, "Let")


def twice(times):
    """`twice`, so often round a string: each doubles what is within."""
    return module("Lam", "twice ( " * times + '"a"' + " )" * times, "Twice")


def applications(count):
    """A function of many arguments that is applied to all of them, in a chain: twice the binders, and a chain as long."""
    return module("Lam", "\\ f : %sInt . f %s" % ("Int -> " * count, " ".join(["1"] * count)))


def arrows(count):
    """A function of a type of so many arrows."""
    return module("Lam", "\\ f : %sInt . 1" % ("Int -> " * count))


def brackets(count, times):
    """A number in nested brackets, so many times."""
    one = "( " * count + "1" + " )" * count
    return module("Lam", balanced(["itoa " + one] * times, concat))


def strings(count):
    """A balanced tree of so many strings, each with a number: five tokens for each."""
    return module("Lam", balanced(["itoa 1"] * count, concat))


def joined(count):
    """A chain of so many `++`."""
    return module("Lam", " ++ ".join(["itoa 1"] * (count + 1)))


def chain(tokens):
    """A chain of applications of so many tokens: its reading is as deep as they are many."""
    return module("Lam", " ".join(["f"] + ["1"] * (tokens - 1)))


def nested(tokens):
    """A number in nested brackets, of so many tokens."""
    count = (tokens - 1) // 2
    return module("Lam", "( " * count + "1" + " )" * count)


def total(terms):
    """A sum of so many terms."""
    return module("Sums", " + ".join(["1"] * terms))


# ---- languages


def many_rules(rules, productions):
    """A language with so many rules and productions."""
    lines = SUMS.split("\nvar ", 1)[0].split("\n")
    lines += ['prod p%d Exp 90 : "w%d"' % (number, number) for number in range(productions)]
    lines += ("var " + SUMS.split("\nvar ", 1)[1]).strip().split("\n")
    for number in range(rules - 2):
        lines += ["rule R%d" % number, "---", "~C |- w%d : Int" % (number % productions), "end"]
    return "\n".join(lines) + "\n"


def unread_rule(count):
    """A language with a rule line of so many arrows, the last of which nothing follows."""
    return lam().replace("\nrule ", "\nrule T-Unread\n---\n~C |- 1 : %s\nend\nrule " % ("Int -> " * count), 1)


# ---- extensions


def chained(count):
    """So many extensions of a rule each, each of which uses the one before, and a module that uses the last."""
    files = {}
    for number in range(count):
        use = "use %s%d\n" % (CHAIN, number - 1) if number else ""
        files["%s%d.ext" % (CHAIN, number)] = EXTENSION % (CHAIN, number, use, number, number, number, number)
    return files


# ---- workloads


def core(title, command, single, double, refusals=(None, None)):
    """A workload of a command on core files."""
    first = [["build", "--core", "one"], ["build", "--core", "two"]] if command == "verify" else []
    return Workload(title, {"one.core": single}, {"two.core": double}, first, [[command, "--core", "one"], [command, "--core", "two"]], refusals)


def source(title, single, double, refusals=(None, None)):
    """A workload of building modules."""
    return Workload(title, {"one.mod": single.replace("NAME", "one")}, {"two.mod": double.replace("NAME", "two")}, [],
                    [["build", "one"], ["build", "two"]], refusals)


def language(title, single, double, refusals=(None, None)):
    """A workload of building a small module of a language."""
    files = []
    for size, text in [("One", single), ("Two", double)]:
        first, rest = text.split("\n", 1)
        files.append({size + ".lang": "language %s\n%s" % (size, rest),
                      size.lower() + ".mod": "module %s\nlanguage %s\n---\n1\n" % (size.lower(), size)})
    return Workload(title, files[0], files[1], [], [["build", "one"], ["build", "two"]], refusals)


def checked(title, single, double):
    """A workload of checking the last of so many extensions, each of which uses the one before."""
    return Workload(title, chained(single), chained(double), [],
                    [["check", "%s%d" % (CHAIN, count - 1)] for count in (single, double)], (None, None))


def common():
    """Files that several workloads read."""
    return {"Lam.lang": lam(), "Sums.lang": SUMS, "Binder.ext": BINDER, "Let.ext": extension("Let"), "Twice.ext": extension("Twice")}


def workloads():
    """All workloads, in the order in which they are told."""
    yield source("a small module", module("Lam", "\\ x : Int . itoa x ++ itoa 1"), module("Lam", "\\ x : Int . itoa x ++ itoa 1 ++ itoa 2"))
    yield source("225 and 450 binders, 128 and 256 far references", binders(225, 128), binders(450, 256))
    yield source("450 binders, 125 and 250 far references", binders(450, 125), binders(450, 250))
    yield source("225 and 450 binders of an extension, 128 and 256 uses", extended_binders(225, 128), extended_binders(450, 256))
    yield source("450 binders of an extension, 125 and 250 uses", extended_binders(450, 125), extended_binders(450, 250))
    yield source("150 and 300 lets", lets(150), lets(300))
    yield source("twice, 10 and 11 deep", twice(10), twice(11))
    yield source("twice, 20 and 40 deep", twice(20), twice(40), ("rewriting needs", "rewriting needs"))
    yield checked("128 and 256 extensions of a rule each", 128, 256)
    yield source("chain of 450 and 900 `++`", joined(450), joined(900))
    yield source("400 and 800 applications under a type of as many arrows", applications(400), applications(800))
    yield source("a type of 450 and 900 arrows", arrows(450), arrows(900))
    yield source("1,000 and 2,000 strings, five tokens for each", strings(1000), strings(2000))
    yield source("brackets 450 deep, 5 and 10 times", brackets(450, 5), brackets(450, 10))
    yield source("4,999 and 9,999 tokens in a chain of applications", chain(4999), chain(9999), ("depth", "depth"))
    yield source("4,999 and 9,999 tokens in nested brackets", nested(4999), nested(9999), ("depth", "depth"))
    yield source("sums of 200 and 400 terms without levels", total(200), total(400), ("two readings", "two readings"))
    yield source("sums of 450 and 900 terms without levels", total(450), total(900), ("two readings", "two readings"))
    yield source("sums of 1,500 and 3,000 terms without levels", total(1500), total(3000), ("parsing needs more", "parsing needs more"))
    yield language("languages of 2,048 and 4,096 rules", many_rules(2048, 100), many_rules(4096, 200))
    yield language("a rule line of 700 and 1,400 arrows without a reading", unread_rule(700), unread_rule(1400), ("no reading", "no reading"))
    yield source("100 and 200 binders, the last of 250 uses untyped", binders(100, 250, "x1"), binders(200, 250, "x1"), ("is not what", "is not what"))
    yield source("100 and 200 binders, the last of 250 uses unbound", binders(100, 250, "y"), binders(200, 250, "y"), ("no rule", "no rule"))
    for command in ["build", "verify"]:
        yield core("%s: 500 binders, 500,000 and 1,000,000 tries" % command, command, lookups(499, 495), lookups(499, 990))
    for command in ["build", "verify"]:
        yield core("%s: 8,191 and 16,383 entries" % command, command, pairs(12), pairs(13))
    for command in ["build", "verify"]:
        yield core("%s: 8,191 and 16,383 entries, terms of 75 nodes" % command, command, made(75, 12), made(75, 13))
    yield core("a stuck goal under 495 and 990 pairs", "build", deep_blame(450, 495), deep_blame(900, 990), ("", ""))
    yield core("a walk of 1,000,000 tries, terms of 75 and 150 nodes", "build", growing(75, 25), growing(150, 25), ("more than", "more than"))
