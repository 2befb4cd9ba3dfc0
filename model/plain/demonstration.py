"""The demonstration netlist, by its size and seed."""
from plain import pcg

KINDS = ["AND", "NAND", "OR", "NOR", "XOR", "XNOR", "NOT", "BUFF"]
INPUTS, OUTPUT_DRAWS = 16, 16
BUDGET, VECTORS, MOST_SIZE = 10, 64, 20_000


# ---- the netlist


def netlist_of(size, seed):
    words = pcg.words_of(seed)
    flip_flops = [f"f{j}" for j in range(size // 16 + 1)]
    nets, gates = [f"i{i}" for i in range(INPUTS)] + flip_flops, []
    for k in range(size):
        kind = KINDS[next(words) % 8]
        pins = 1 if kind in ("NOT", "BUFF") else 2
        args = [nets[len(nets) - 1 - next(words) % min(len(nets), 64)] for _ in range(pins)]
        gates.append(f"g{k} = {kind}({', '.join(args)})")
        nets.append(f"g{k}")
    data = [f"{name} = DFF(g{next(words) % size})" for name in flip_flops]
    outputs = dict.fromkeys(f"OUTPUT(g{next(words) % size})" for _ in range(OUTPUT_DRAWS))
    lines = [*(f"INPUT({name})" for name in nets[:INPUTS]), *outputs, *data, *gates]
    return "".join(line + "\n" for line in lines).encode()
