"""What is tried."""
import collections

# A call of the small program: a gadget or a circuit on so many shares. All sets of `order` values are looked at.
Call = collections.namedtuple("Call", "name call shares order circuit")

# A run of `mask` on a circuit, at order 1.
Run = collections.namedtuple("Run", "name circuit")

ONE_PRODUCT = "inputs 2\nand 0 1\nout 2\n"
FRESH_PRODUCT = "inputs 2\nref 1\nand 0 2\nout 3\n"
SUM_AND_PRODUCT = "inputs 2\nxor 0 1\nref 2\nand 0 3\nout 4\n"
TWO_PRODUCTS = "inputs 2\nref 1\nand 0 2\nref 3\nnot 0\nand 5 4\nxor 6 1\nout 7\n"
CONSTANTS = "inputs 2\none\nzero\nxor 0 2\nxor 1 3\nref 5\nand 4 6\nnot 7\nout 8\n"
FULL_ADDER = "inputs 3\nxor 0 1\nref 3\nand 0 1\nref 5\nxor 4 2\nref 4\nref 2\nand 8 9\nref 10\nxor 6 11\nout 7\nout 12\n"

CALLS = [
    Call(f"{call}, order {shares - 1}", call, shares, shares - 1, "")
    for call in ("sum", "complement", "refresh", "product")
    for shares in (2, 3, 4)
] + [
    Call(f"{name}, order {shares - 1}", "evaluation", shares, shares - 1, circuit)
    for name, circuit, most in [
        ("a product by eval", ONE_PRODUCT, 3),
        ("a refresh and a product by eval", FRESH_PRODUCT, 3),
        ("sum, refresh and product by eval", SUM_AND_PRODUCT, 3),
        ("two products by eval", TWO_PRODUCTS, 2),
        ("constants, sums and a product by eval", CONSTANTS, 2),
        ("a full adder by eval", FULL_ADDER, 2),
    ]
    for shares in range(2, most + 1)
]

# As many values as shares: these have to be biased, or the test can't see sets of values.
TOO_MANY = [Call(f"product, {shares} shares, sets of up to {shares}", "product", shares, shares, "") for shares in (2, 3)]

PROGRAM_RUNS = [
    Run("mask: a product", ONE_PRODUCT),
    Run("mask: a refresh and a product", FRESH_PRODUCT),
    Run("mask: sum, refresh and product", SUM_AND_PRODUCT),
    Run("mask: two products", TWO_PRODUCTS),
]
