#!/usr/bin/env python3
"""Brings the repository's own words in contracts, specs/ and proofs/ to one spelling: snake case for what is a value or a
lemma, camel case for what is a fact. Run once at the top of the repository, after the toolchain's own respelling.

No function of src/, string, input or output has one of these names, so none of them is touched; names that the library
or the prover gives are not in the table, and stay as they are.
"""

import pathlib
import re

SNAKE = """
a-above a-even a-larger after-answer answer-text asks-number asks-utf8
b-above b-even base-nonzero binary-laws binary-operations binary-parity binary-reduces binary-residues binary-ring
binary-shrinking bits-half bits-le bits-less bits-suc bits-top by-sum
clmul-add clmul-assoc clmul-comm clmul-double clmul-one clmul-step clmul-twice clmul-xor clmul-zero code-text code-utf8
coprime-unit cut-multiple
difference-bits difference-of difference-sum divides-half divides-part division-above division-zero
ended-before even-half even-multiple
first-same fold-suc
half-bits halve-a halve-b halved-residue halves-cancel
is-modulus
kept-greatest kept-mirrored kept-solves kept-start
lessen-a lessen-b linear-digit linear-zero
m-bits modulus-above modulus-not-one
negative-below no-first no-zero-divisors not-starts not-words-end not-words-more not-words-some number-utf8
odd-difference odd-divisor odd-less odd-modulus odd-product odd-sum odd-xor one-clmul one-odd one-residue
pick-xor plus-modulus product-above product-assoc product-below product-bits product-cancel product-comm product-left
product-left-comm product-one product-right product-sum product-top product-zero
question-text
read-no-number read-wrong refusal-steps refused-text remainder-below remainder-congruent remainder-multiple remainder-only
remainder-step residue-ring residues-ring rest-starts running-less running-start runs-ended runs-more
served-text shr-suc smaller-subtractable solves-once subtracted-is subtracted-residue sum-assoc sum-cancel sum-left-comm
sum-negative sum-product sum-right sum-subtractable sum-zero
top-bits top-product two-clmul
u-is u-residue unit-divisor
v-is v-residue
white-scalars white-utf8 whole-laws whole-operations whole-parity whole-reduces whole-residues whole-ring whole-shrinking
without-same word-starts words-from-drains words-utf8 wrong-asks-none wrong-blank wrong-not-blank
x-bits xor-cancel xor-digit xor-double xor-left xor-off xor-swap xor-undo
zero-product zero-residue zero-sum
""".split()

RESPELLED = {name: name.replace("-", "_") for name in SNAKE} | {"Unit-of": "UnitOf"}
OWN = re.compile(r"(?<![\w'-])(?:" + "|".join(map(re.escape, sorted(RESPELLED, key=len, reverse=True))) + r")(?![\w'-])")


def main():
    for path in sorted(pathlib.Path("crates").rglob("*")):
        if path.suffix in (".rt", ".antt") and "out" not in path.parts:
            before = path.read_text(encoding="utf-8")
            after = OWN.sub(lambda m: RESPELLED[m.group()], before)
            if after != before:
                path.write_text(after, encoding="utf-8")
                print(path)


if __name__ == "__main__":
    main()
