"""Circuits as text: how many inputs and draws they have, and what they give on plain bits."""


def gates(circuit):
    return [tuple(line.split()) for line in circuit.splitlines()]


def input_count(circuit):
    return int(gates(circuit)[0][1])


def draw_count(circuit):
    """How many gates draw coins."""
    return sum(gate[0] in ("and", "ref") for gate in gates(circuit))


def wire_count(circuit):
    """How many values the gates make on two shares, beside the shares of the constants."""
    return sum({"xor": 2, "not": 1, "ref": 3, "and": 9}.get(gate[0], 0) for gate in gates(circuit))


def plain(circuit, bits):
    """The output bits on these input bits."""
    values, outputs = list(bits), []
    for name, *words in gates(circuit)[1:]:
        of = [int(word) for word in words]
        if name == "out":
            outputs.append(values[of[0]])
        elif name in ("zero", "one"):
            values.append(int(name == "one"))
        elif name == "not":
            values.append(1 - values[of[0]])
        elif name == "ref":
            values.append(values[of[0]])
        else:
            values.append(values[of[0]] ^ values[of[1]] if name == "xor" else values[of[0]] & values[of[1]])
    return outputs


def text(circuit):
    return "masked-circuit 1\n" + circuit + "end\n"
