"""Calls of the small program, with a tape in each lane."""
import itertools, random

import circuits
from stepping import name_of

LANES = 64
ORDER = random.Random(64).sample(range(LANES), LANES)
OPERANDS = {"sum": 2, "complement": 1, "refresh": 1, "product": 2}
PLAIN = {"sum": lambda x, y: [x ^ y], "complement": lambda x: [1 - x], "refresh": lambda x: [x], "product": lambda x, y: [x & y]}


class Shape:
    """How a call uses a tape: first the shares of the operands but the first of each, and then the coins."""

    def __init__(self, call):
        self.call = call
        evaluation = call.call == "evaluation"
        self.operands = circuits.input_count(call.circuit) if evaluation else OPERANDS[call.call]
        pairs = call.shares * (call.shares - 1) // 2
        draws = circuits.draw_count(call.circuit) if evaluation else call.call in ("refresh", "product")
        self.coins = pairs * draws
        self.bits = self.operands * (call.shares - 1) + self.coins
        self.rounds = max(1, 2**self.bits // LANES)

    def plain(self, inputs):
        call = self.call
        return circuits.plain(call.circuit, inputs) if call.call == "evaluation" else PLAIN[call.call](*inputs)

    def shares(self, inputs, tape):
        """The shares of all operands."""
        shares = []
        for plain in inputs:
            rest = [tape >> k & 1 for k in range(self.call.shares - 1)]
            tape >>= self.call.shares - 1
            shares += [(plain + sum(rest)) % 2, *rest]
        return shares

    def given(self, inputs, tapes):
        """The input of the small program, with these tapes in the lanes."""
        words, stretch = [0] * (self.operands * self.call.shares), 0
        for lane, tape in enumerate(tapes):
            for k, share in enumerate(self.shares(inputs, tape)):
                words[k] |= share << lane
            stretch |= (tape >> self.bits - self.coins) << lane * self.coins
        coins = [stretch >> LANES * k & 2**LANES - 1 for k in range(self.coins)]
        lines = [self.call.call, f"{self.call.shares:x}", *(" ".join(f"{w:016x}" for w in some) for some in (words, coins))]
        return "\n".join(lines) + "\n" + (circuits.text(self.call.circuit) if self.call.circuit else "")


def in_order(word):
    """A word whose lanes are in the other order, put back."""
    return sum((word >> place & 1) << lane for place, lane in enumerate(ORDER))


# How many values that aren't the same up to their complement a gadget on n shares handles: the shares of its operands and its wires.
LEAST = {
    "sum": lambda n: 3 * n,
    "complement": lambda n: n,
    "refresh": lambda n: n + 3 * n * (n - 1) // 2,
    "product": lambda n: 2 * n + n * n + 3 * n * (n - 1) // 2 + n * (n - 1),
}


def try_call(stepper, program, call):
    """Makes the call on all inputs and all tapes, and reports: how many sets of values are biased, and how much wasn't seen."""
    shape = Shape(call)
    all_inputs = list(itertools.product((0, 1), repeat=shape.operands))
    jobs = []
    for inputs in all_inputs:
        for round in range(shape.rounds):
            tapes = [(round * LANES + lane) % 2**shape.bits for lane in range(LANES)]
            jobs.append(((), shape.given(inputs, tapes)))
            jobs.append(((), shape.given(inputs, [tapes[lane] for lane in ORDER])))
    printed, seen = stepper.run_all(program, jobs, "begin\n")
    values, mixed = lane_values(seen.lists, len(all_inputs), shape.rounds)
    outputs = output_words(shape, all_inputs, printed)
    unseen = [words for words in outputs if normal(words, shape.rounds) not in values]
    sets, biased = biased_sets(values, call.order, shape.rounds)
    print(
        f"{call.name}: {len(all_inputs)} inputs, {2**shape.bits} tapes, {len(jobs)} runs, {seen.steps} steps, "
        f"{len(values)} values, {sets} sets of up to {call.order}: {len(biased)} biased",
        flush=True,
    )
    for some in biased[:3] if call.order < call.shares else []:
        print("    biased: " + "; ".join(f"{where} at {place:x} in {name_of(program, place)}" for place, where in (values[v] for v in some)))
    missing = LEAST.get(call.call, lambda n: 0)(call.shares) - len(values)
    blind = {
        "values of mixed lanes": len(mixed),
        "values that aren't the same in the same run": seen.unsteady,
        "output shares that were not seen": len(unseen),
        "wires that were not seen": max(0, missing),
    }
    for what, count in blind.items():
        if count:
            print(f"    {count} {what}")
    return len(biased), sum(blind.values())


def normal(words, rounds):
    """A value or its complement, whichever is 0 at the first input and tape: these two say the same."""
    full = 2 ** (LANES * rounds) - 1
    return tuple(word ^ full for word in words) if words[0] & 1 else tuple(words)


def lane_values(lists, input_count, rounds):
    """The values as one number for each input, a bit for each tape, with where they were first made; and those that mix lanes."""
    values, mixed = {}, []
    for made in lists:
        straight, other = made.values[0::2], made.values[1::2]
        if any(in_order(b) != a for a, b in zip(straight, other)):
            mixed.append(made)
            continue
        words = [sum(straight[k * rounds + r] << LANES * r for r in range(rounds)) for k in range(input_count)]
        values.setdefault(normal(words, rounds), (made.place, made.where))
    return values, mixed


def output_words(shape, all_inputs, printed):
    """The shares that were printed, each as a value; they have to stand for the plain outputs."""
    straight = [[int(line, 16) for line in text.split()[2:]] for text in printed[0::2]]
    outputs = []
    for share in range(len(straight[0])):
        outputs.append([sum(straight[k * shape.rounds + r][share] << LANES * r for r in range(shape.rounds)) for k in range(len(all_inputs))])
    full, shares = 2 ** (LANES * shape.rounds) - 1, shape.call.shares
    for k, inputs in enumerate(all_inputs):
        for output, bit in enumerate(shape.plain(inputs)):
            total = 0
            for words in outputs[output * shares : (output + 1) * shares]:
                total ^= words[k]
            if total != bit * full:
                raise SystemExit(f"machine: {shape.call.name}: wrong output {output} on {inputs}")
    return outputs


def biased_sets(values, order, rounds):
    """How many sets of at most so many values there are, and those whose distribution isn't the same for all inputs."""
    names, found, sets = list(values), [], 0
    full = 2 ** (LANES * rounds) - 1

    def grow(chosen, both, first):
        nonlocal sets
        for k in range(first, len(names)):
            together = [a & b for a, b in zip(both, names[k])]
            sets += 1
            counts = [bin(word).count("1") for word in together]
            if any(count != counts[0] for count in counts):
                found.append((*chosen, names[k]))
            elif len(chosen) + 1 < order:
                grow((*chosen, names[k]), together, k + 1)

    grow((), [full] * len(names[0]) if names else [], 0)
    return sets, found
