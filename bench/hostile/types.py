#!/usr/bin/env python3
"""Writes texts that are hostile to the inference of types, a file NAME.fut for each: types that are deep, wide, shared or doubling.
usage: bench/hostile/types.py FOLDER"""
import os
import sys

texts = {}


def rows(count, text):
    """So many copies of a text, in which each @ is the number of the copy and each ~ that of the one before it."""
    return "".join(text.replace("@", str(n)).replace("~", str(n - 1)) for n in range(1, count + 1))


end = "def main (x:i64)=x\n"

# types as deep as the text is long
for name, value in {"pairs": "(x,1)", "records": "{a=x}", "lambdas": "\\y->x", "open_fields": "x.a"}.items():
    texts[f"deep_{name}"] = f"def f x ={rows(104600, f' let x={value}')} in x\n" + end
texts["deep_arrows"] = f"def f{rows(104500, ' _')} = 1\n" + end

# definitions whose types hold those before: closed ones, ones that a function of any type makes, and open ones
for count in 2000, 17000:
    texts[f"closed_values_{count}"] = "def f0=(1,true)\n" + rows(count, "def f@=(f~,1)\n") + end
    texts[f"closed_functions_{count}"] = "def f0 (x:i64)=(1,true)\n" + rows(count, "def f@ (x:i64)=(f~ x,1)\n") + end
    texts[f"closed_by_a_function_{count}"] = "def pair x=(x,1)\ndef f0=1\n" + rows(count, "def f@=pair f~\n") + end
    texts[f"open_values_{count}"] = "def f0 x=1\n" + rows(count, "def f@ x=f~\n") + end

# types that double, as trees and as graphs
texts["doubled_in_a_row"] = f"def f x ={rows(1000, ' let x=(x,x)')} in x\n" + end
texts["doubled_by_definitions"] = "def f0 x=(x,1)\n" + rows(25, "def f@ x=(f~ x,f~ x)\n") + end
texts["doubled_closed"] = "def f0=(1,true)\n" + rows(1000, "def f@=(f~,f~)\n") + end

# many parts and fields
texts["wide_tuple"] = f"def f (x:i64)= let t=(x{rows(500000, ',x')}) in t\n" + end
for count in 1000, 4000:
    texts[f"open_record_{count}"] = f"def f r = (0{rows(count, ',r.a@')})\n" + end

folder = sys.argv[1]
os.makedirs(folder, exist_ok=True)
for name, text in texts.items():
    with open(os.path.join(folder, f"{name}.fut"), "w", encoding="utf-8") as file:
        file.write(text)
