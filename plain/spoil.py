"""Language files with a line more that is at fault as a rule."""

SPOILING = (b'sort Ty plain', b'sort Ty typed', b'sort Zz plain "(" ")"', b'prod zz Foo 0 : "x"', b'prod zz Ty 0 : Foo',
            b'prod p2 Ty 90 : "q"', b'prod zz Ty 0 : "q" Exp', b'prod zz Ty 0 : "q" Ty@99', b'prod zz Exp 0 : Exp',
            b'prod zz Exp 0 : Exp Exp', b'prod zz Exp 0 :', b'prod zz Ty 3 : Ty', b'prod zz Ty 0 : "a-b"', b'prod zz id 0 : "q"',
            b'prod zz Ty 0 : id@5', b'prod zz Ty 0 : ""', b'prod zz Ty 0 : "1"', b'prod zz Ty 0 : "_"', b'prod zz Ty 0 : "q//"',
            b'var zz : Foo', b'var e : Exp', b'var e : Ty', b'var z1 : Ty', b'form zz : in:Exp', b'form zz : sub:Ty',
            b'form zz : in:Foo "." sub:Exp', b'form zz : in:Ty@99 "." out:Ty', b'form zz : sub:Exp sub:Exp', b'form zz :',
            b'form typing : in:Ty', b'form zz : sub:Foo sub:Foo', b'form zz : in:id@5', b'form zz : sub:id', b'form zz : in:Ty "x-y"',
            b'main typing none bind', b'main typing none none', b'main lookup none bind', b'main zz none bind',
            b'main typing zz bind', b'main typing bind none', b'rule Zz', b'---', b'end', b'~zz |- ~e : ~T', b'~C |- ~e : ~T',
            b'~x != ~x1', b'~x != ~n', b'language L', b'~x : ~', b'use A', b'// note', b'\t// note', b'~C |- ~e : ~T // note', b'~C |- ~',
            b'~C |- "a', b'~C |- ~e : "', b'~C |- ~e :', b'~C |- ~C', b'~C ? ~e', b'~C |- ~e1 : ~T1', b'rule', b'end end', b'--- ---', b'main', b'end x')


def spoiled(rng, text):
    """The language file with a line or two more, or one in place of another; most of these are at fault."""
    lines = text.split(b"\n")[:-1]
    declared = next((n for n, line in enumerate(lines) if line.startswith(b"rule")), len(lines))
    for _ in range(rng.choice((1, 1, 1, 2))):
        line = rng.choice(SPOILING)
        if line.startswith(b"main") and rng.random() < 0.6:
            at = next((n for n, old in enumerate(lines) if old.startswith(b"main")), 1)
            lines[at:at + 1] = [line]
            continue
        low, high = (1, declared) if rng.random() < 0.7 else (declared, len(lines))
        if line.startswith((b"~", b"-", b"end", b"rule")) and rng.random() < 0.8:
            low, high = declared, len(lines)
        lines.insert(rng.randint(low, high), line)
    return b"".join(line + b"\n" for line in lines)
