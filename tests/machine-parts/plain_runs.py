"""Runs of `mask` itself, a tape at a time."""
import collections

import circuits
from stepping import name_of


def try_program(stepper, program, run):
    """Runs `eval 1` on all inputs and all tapes, and reports: how many values are biased, and how many wires weren't seen.

    Records begin with the read of the tape, which is one byte. Sharing the inputs and unmasking the outputs handle plain bits, and
    must show up; the longest stretch without plain bits lies between, and the gates' values have to be made in it.
    """
    inputs = circuits.input_count(run.circuit)
    bits = inputs + circuits.draw_count(run.circuit)
    if bits > 8:
        raise SystemExit(f"machine: {run.name} draws more than a byte")
    for tape in range(2**bits):
        with open(f"{stepper.folder}/tape{tape:03}", "wb") as file:
            file.write(bytes([tape]))
    jobs = [
        (("-", f"{stepper.folder}/tape{tape:03}", "eval", "1", f"{x:02x}"), circuits.text(run.circuit))
        for x in range(2**inputs)
        for tape in range(2**bits)
    ]
    printed, seen = stepper.run_all(program, jobs, 1)
    check_outputs(run, inputs, bits, printed)
    plain, biased = sort_out(seen.lists, 2**inputs, 2**bits)
    between = between_plain(plain, seen)
    wires = circuits.wire_count(run.circuit)
    print(
        f"{run.name}: {2**inputs} inputs, {2**bits} tapes, {len(jobs)} runs, {seen.steps} steps, {len(seen.lists)} values, "
        f"{len(plain)} plain while sharing and unmasking, {between} between these (wires: {wires}): {len(biased)} biased",
        flush=True,
    )
    for made in biased[:3]:
        print(f"    biased: {made.where} at {made.place:x} in {name_of(program, made.place)}")
    if seen.unsteady:
        # The C library's allocator leaves a random number of its own in a register.
        print(f"    {seen.unsteady} values that aren't the same in the same run, left out")
    missing = max(0, wires - between)
    if missing:
        print(f"    {missing} wires that were not seen")
    return len(biased), missing


def check_outputs(run, inputs, bits, printed):
    for x in range(2**inputs):
        want = circuits.plain(run.circuit, [x >> k & 1 for k in range(inputs)])
        number = sum(bit << k for k, bit in enumerate(want))
        for text in printed[x << bits : x + 1 << bits]:
            if text != f"{number:02x}\n":
                raise SystemExit(f"machine: {run.name}: wrong output {text!r} on {x:02x}")


def sort_out(lists, input_count, tape_count):
    """The lists that are plain bits, so the same for all tapes, and those whose distribution isn't the same for all inputs."""
    plain, biased = [], []
    for made in lists:
        counts = [collections.Counter(made.values[x * tape_count : (x + 1) * tape_count]) for x in range(input_count)]
        if all(count == counts[0] for count in counts):
            continue
        (plain if all(len(count) == 1 for count in counts) else biased).append(made)
    return plain, biased


def between_plain(plain, seen):
    """How many lists are made in the longest stretch of steps without plain bits."""
    steps = sorted({step for made in plain for step in made.steps})
    if len(steps) < 2:
        return 0
    first, last = max(zip(steps, steps[1:]), key=lambda pair: pair[1] - pair[0])
    return sum(any(first < step < last for step in made.steps) for made in seen.lists)
