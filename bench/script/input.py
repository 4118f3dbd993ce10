"""Writes an input of `script`: a policy with so many entries, and so many calls of one principal.

usage: input.py ENTRIES CALLS

The proof has four lines, two of them labels that the caller holds. The entries beside those that the calls need are labels of
other principals.
"""
import sys

entries, calls = int(sys.argv[1]), int(sys.argv[2])
out = sys.stdout
out.write("nexus 2\nprincipal fs pf\nprincipal bob pb\n")
out.write("".join(f"principal p{k} s\n" for k in range(60)))
needed = [
    "1 fs object f\n",
    "1 fs goal read f : fs says may(?subject) and fs says member(?subject)\n",
    "1 fs say fs : member(bob) => may(bob)\n",
    "1 fs say fs : member(bob)\n",
    "1 fs transfer 3 bob\n",
    "1 fs transfer 4 bob\n",
    "1 bob proof read f : proof 2 ; 1 label : fs says (member(bob) => may(bob)) ; 2 label : fs says member(bob) ; "
    "3 deduce 1 2 : fs says may(bob) ; 4 and_i 3 2 : fs says may(bob) and fs says member(bob) ; end\n",
]
out.write("".join(needed))
out.write("".join(f"1 p{k % 60} say p{k % 60} : note({k})\n" for k in range(max(0, entries - len(needed)))))
out.write("end\n1 hello bob pb\n")
out.write("1 call read f 0\n" * calls)
