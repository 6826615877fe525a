"""`sample`: a large valid module, built over files in memory."""

import modules
import outside
from words import Command

LAM_LANG = rb"""language Lam
sort Env plain
sort Ty plain "(" ")"
sort Exp typed "(" ")"
prod nilenv Env 90 : "[]"
prod bind Env 10 : Env@10 "," id ":" Ty
prod int Ty 90 : "Int"
prod strty Ty 90 : "Str"
prod list Ty 50 : "List" Ty@90
prod arrow Ty 10 : Ty@11 "->" Ty@10
prod var Exp 90 : id
prod num Exp 90 : num
prod str Exp 90 : str
prod nil Exp 90 : "nil" Ty@90
prod app Exp 50 : Exp@50 Exp@51
prod cons Exp 50 : "cons" Exp@51 Exp@51
prod map Exp 50 : "map" Exp@51 Exp@51
prod itoa Exp 50 : "itoa" Exp@51
prod cat Exp 40 : Exp@40 "++" Exp@41
prod lam Exp 10 : "\" id ":" Ty "." Exp
var C : Env
var T : Ty
var e : Exp
var x : id
var y : id
var n : num
var s : str
form typing : in:Env "|-" sub:Exp ":" out:Ty
form lookup : in:Env "@" in:id ":" out:Ty
main typing nilenv bind
rule L-Here
---
~C , ~x : ~T @ ~x : ~T
end
rule L-There
~x != ~y
~C @ ~x : ~T1
---
~C , ~y : ~T2 @ ~x : ~T1
end
rule T-Var
~C @ ~x : ~T
---
~C |- ~x : ~T
end
rule T-Num
---
~C |- ~n : Int
end
rule T-Str
---
~C |- ~s : Str
end
rule T-Lam
~C , ~x : ~T1 |- ~e : ~T2
---
~C |- \ ~x : ~T1 . ~e : ~T1 -> ~T2
end
rule T-App
~C |- ~e1 : ~T1 -> ~T2
~C |- ~e2 : ~T1
---
~C |- ~e1 ~e2 : ~T2
end
rule T-Nil
---
~C |- nil ~T : List ~T
end
rule T-Cons
~C |- ~e1 : ~T
~C |- ~e2 : List ~T
---
~C |- cons ~e1 ~e2 : List ~T
end
rule T-Map
~C |- ~e1 : ~T1 -> ~T2
~C |- ~e2 : List ~T1
---
~C |- map ~e1 ~e2 : List ~T2
end
rule T-Cat
~C |- ~e1 : Str
~C |- ~e2 : Str
---
~C |- ~e1 ++ ~e2 : Str
end
rule T-Itoa
~C |- ~e : Int
---
~C |- itoa ~e : Str
end
"""

LET_EXT = rb"""extension Let
language Lam
prod let Exp 10 : "let" id "=" Exp "in" Exp
rule T-Let
~C |- ~e1 : ~T1
~C , ~x : ~T1 |- ~e2 : ~T2
---
~C |- let ~x = ~e1 in ~e2 : ~T2
to ( \ ~x : ~T1 . ~e2 ) ~e1
end
"""


def sample_text(number):
    """A module with so many names, each bound to the one before it."""
    lines = [b"module Sample", b"language Lam", b"use Let", b"---"]
    body = [b"let v1 = 1 in"] + [b"let v%d = v%d in" % (k, k - 1) for k in range(2, number + 1)]
    return b"".join(line + b"\n" for line in lines) + b" ".join(body + [b"v%d" % number]) + b"\n"


def sample(number):
    """Builds the module in memory; the line."""
    outside.hold({b"Lam.lang": LAM_LANG, b"Let.ext": LET_EXT, b"Sample.mod": sample_text(number)})
    command = Command(b"build", ())
    command.name = b"Sample"
    (_, compiled), = modules.build_closure(command, [])
    return [], b"sample %d: source %d tokens, base %d tokens, %d nodes\n" % (
        number, compiled.source_tokens, compiled.base_tokens, compiled.nodes)
