#!/usr/bin/env python3
"""Writes hostile texts, a file NAME.fut for each: small in bytes, and long, deep or doubling in one way.
usage: bench/hostile/texts.py FOLDER"""
import os
import sys

texts = {}


def rows(count, text):
    """So many copies of a text, in which each @ is the number of the copy and each ~ that of the one before it."""
    return "".join(text.replace("@", str(n)).replace("~", str(n - 1)) for n in range(1, count + 1))


def main(body, head="", parameter="x"):
    return f"{head}def main ({parameter}:i64)={body}\n"


# types that grow with each `let` of a row
for name, value in {"pairs": "(x,1)", "records": "{a=x}", "lambdas": "\\y->x", "open_fields": "x.a"}.items():
    texts[f"lets_of_{name}"] = f"def f x ={rows(104600, f' let x={value}')} in x\n"
texts["main_of_pairs"] = main(rows(104600, " let x=(x,1)") + " in 1i64")
texts["main_of_lambdas"] = main("let y=x" + rows(104600, " let y=\\z->y") + " in 1i64")
texts["main_of_900_pairs"] = main("let y=x" + rows(900, " let y=(y,1)") + " in 1i64")

# long rows
texts["row"] = main(rows(300000, " let x=x+1") + " in x")
texts["row_of_functions"] = main("let f y=y" + rows(100000, " let f y=f y") + " in f x")
texts["row_of_loops"] = main(rows(100000, " let y=loop y=x for i<x do y+1") + " in x")
texts["tuple"] = main(f"let t=(x{rows(500000, ',x')}) in x")
texts["record"] = main(f"let t={{a0=x{rows(100000, ',a@=x')}}} in t.a7")
texts["record_pattern"] = f"def f {{a0=x0{rows(100000, ',a@=x@')}}} = x7\n"
texts["tuple_pattern"] = f"def f (x0{rows(100000, ',x@')}) = x7\n"
texts["tuple_type"] = f"def f (x:(i64{rows(100000, ',i64')})) = 1\n"
texts["record_type"] = f"def f (x:{{a0:i64{rows(100000, ',a@:i64')}}}) = 1\n"
texts["arrow"] = f"def f (x:i64{rows(100000, '->i64')}) = 1\n"
texts["parameters"] = f"def f{rows(104500, ' _')} = 1\n"
texts["lambda_parameters"] = f"def f = \\{rows(104500, ' _')} -> 1\n"
texts["type_parameters"] = "def f" + rows(100000, " 'a@") + " = 1\n"
texts["arguments"] = f"def f g = g{rows(100000, ' 1')}\n"
for count in 900, 20000:
    texts[f"applied_{count}"] = main("f" + rows(count, " x"), f"def f{rows(count, ' _')}=1i64\n")
texts["definitions"] = rows(100000, "def f@ (x:i64)=x ") + main("x")

# paths
for count in 16400, 100000:
    texts[f"path_{count}"] = f"def main r = r{rows(count, '.a')}\n"
for count in 900, 2000:
    path = rows(count - 1, " let y={a=y}") + " in y" + rows(count, ".a")
    texts[f"path_of_known_{count}"] = main("let y={a=x}" + path)
texts["path_behind_parentheses"] = f"def f x = (x){rows(100000, '.a')}\n"
texts["path_of_no_module"] = f"def f = i32{rows(100000, '.a')}\n"
texts["path_replaced"] = f"def f r = r with a{rows(100000, '.a')} = 1\n"
texts["path_section"] = f"def f = (.a{rows(100000, '.a')})\n"
texts["fields_asked_once"] = f"def f r = (0{rows(4000, ',r.a@')})\n"

# operators
texts["to_the_left"] = main("x" + rows(100000, "+x"))
texts["to_the_left_150"] = main("x" + rows(150, "+x"))
texts["powers"] = main("x" + rows(100000, "**x"))
texts["to_the_right"] = f"def f g x = g{rows(100000, '<|g')} <| x\n"
texts["compositions"] = f"def f g = g{rows(100000, '>->g')}\n"
texts["pipes"] = f"def f x = x{rows(100000, '|>(' + chr(92) + 'y->y)')}\n"
texts["chain_of_ifs"] = main(rows(100000, "if x==@ then 1 else ") + "0")

# what doubles, or is copied for each use
texts["definitions_in_a_chain"] = "def f0 x=x " + rows(17000, "def f@ x=(f~,x) ") + "\n"
texts["values_in_a_chain"] = "def f0=1 " + rows(17000, "def f@=(f~,1) ") + "\n"
texts["calls_in_a_chain"] = "def f0 x=x " + rows(17000, "def f@ x=f~ x ") + main("f17000 x")
texts["doubled_definitions"] = "def f0 x=x " + rows(25, "def f@ x=(f~ x,f~ x) ") + "\n"
texts["doubled_calls"] = "def f0 x=x " + rows(25, "def f@ x=(f~ x,f~ x) ") + main("let y=f25 x in x")
doubled = "let x@=(x~,x~) "
texts["doubled_19_compared"] = main(rows(19, doubled) + "in if x19==x19 then 1 else x0", parameter="x0")
texts["doubled_60_compared"] = main(rows(60, doubled) + "in if x60==x60 then 1 else x0", parameter="x0")
texts["doubled_60"] = main(rows(60, doubled) + "in x0", parameter="x0")
branch = "let y=if x0==@ then x18 else x18 "
texts["doubled_branches"] = main(rows(18, doubled) + rows(100, branch) + "in x0", parameter="x0")
turns = "let y=loop y=x18 for i<x0 do y "
texts["doubled_loops"] = main(rows(18, doubled) + rows(100, turns) + "in x0", parameter="x0")
wide = f"let r={{a0=x{rows(999, ',a@=x')}}}"
texts["record_in_branches"] = main(wide + rows(1000, " let r=if x==@ then r else r") + " in r.a0")
texts["record_replaced"] = main(wide + rows(2000, " let r=r with a7=r.a8") + " in r.a0")
wider = f"let r={{a0=x{rows(9999, ',a@=x')}}}"
texts["long_record_replaced"] = main(wider + rows(100000, " let r=r with a7=x") + " in r.a0")
texts["tuple_compared"] = main(f"let r=(x{rows(999, ',x')})" + rows(1000, " let y=r==r") + " in x")

# programs nearly as deep as one that unfolds may be
for name, value in {"calls": "1+f~ x", "ifs": "if x==@ then 1 else f~ x", "loops": "loop x for i<1i64 do f~ x"}.items():
    texts[f"{name}_nearly_too_deep"] = "def f0 (x:i64)=x " + rows(490, f"def f@ (x:i64)={value} ") + main("f490 x")

# arrays: long, wide, many, growing past the greatest weight, of rows with many parts, and functions of primitives in one another
texts["array_literal"] = main(f"([x{rows(300000, ',x')}])[0]")
texts["arrays_in_a_chain"] = main("let a=iota 3" + rows(20000, " let a=map (+x) a") + " in a[0]")
texts["array_doubled"] = main("length (loop a=[x] for i<40i64 do concat a a)")
texts["array_of_a_doubled_tuple"] = main(rows(18, doubled) + "in length [x18]", parameter="x0")
texts["branches_of_a_doubled_tuple"] = main(rows(18, doubled) + "in length [if x0==1 then x18 else x18]", parameter="x0")
texts["largest_array"] = main("length (replicate 33554432 x)")
texts["array_too_large"] = main("length (replicate 33554433 x)")
texts["rows_too_large"] = main("length (map (\\i->map (\\j->iota 1000) (iota 1000)) (iota 100))")
texts["maps_in_one_another"] = "def f0 (x:i64)=x " + rows(300, "def f@ (x:i64)=(map f~ [x])[0] ") + main("f300 x")
texts["reductions_in_one_another"] = "def f0 (x:i64)=x " + rows(300, "def f@ (x:i64)=reduce (\\a b->f~ (a+b)) 0 [x] ") + main("f300 x")

# each bracket as deep as it may be, and deeper
for deep in 190, 201, 100000:
    for name, head, before, inside, behind, end in [
        ("parentheses", "def main (x:i64) = ", "(", "x", ")", ""),
        ("records", "def f x = ", "{a=", "x", "}", ""),
        ("tuples", "def f x = ", "(1,", "x", ")", ""),
        ("arrays", "def f x = ", "[", "x", "]", ""),
        ("indices", "def f x = x", "[x", "", "]", ""),
        ("pattern_parentheses", "def f ", "(", "x", ")", " = 1"),
        ("record_patterns", "def f ", "{a=", "x", "}", " = 1"),
        ("type_parentheses", "def f (x:", "(", "i64", ")", ") = 1"),
        ("record_types", "def f (x:", "{a:", "i64", "}", ") = 1"),
        ("array_types", "def f (x:", "[]", "i64", "", ") = 1"),
        ("lambdas", "def f x = ", "\\y->", "x", "", ""),
        ("ifs", "def main (x:i64) = ", "if x==1 then ", "x", " else 1", ""),
        ("loops", "def main (x:i64) = ", "loop x for i<1i64 do ", "x", "", ""),
        ("signs", "def main (x:i64) = ", "-", "x", "", ""),
        ("modules", "", "module m = {", "def x = 1", "}", ""),
    ]:
        texts[f"{name}_{deep}"] = f"{head}{before * deep}{inside}{behind * deep}{end}\n"

os.makedirs(sys.argv[1], exist_ok=True)
for name, text in texts.items():
    with open(f"{sys.argv[1]}/{name}.fut", "w") as file:
        file.write(text)
