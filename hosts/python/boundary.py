"""Prints what crosses the boundary as Python sees it, in the lines of hosts/c/boundary.c."""

import ctypes
from typing import Type

import rostulanda

#: Each struct of the header.
STRUCTS = {
    "rl_layout": rostulanda.Fields,
    "rl_edge": rostulanda._Edge,
    "rl_vertex": rostulanda._Vertex,
    "rl_tally": rostulanda._Tally,
    "rl_sifted": rostulanda._Sifted,
    "rl_round": rostulanda._Round,
    "rl_convergence": rostulanda._Convergence,
    "rl_counted": rostulanda._Counted,
    "rl_crossing": rostulanda._Crossing,
    "rl_written": rostulanda._Written,
    "rl_edges_counted": rostulanda._EdgesCounted,
    "rl_played": rostulanda._Played,
}


def print_struct(name: str, struct: Type[ctypes.Structure]) -> None:
    print(name, ctypes.sizeof(struct))
    for field, _ in struct._fields_:
        print(f"{name}.{field}", getattr(struct, field).offset)


def main() -> None:
    for name, struct in STRUCTS.items():
        print_struct(name, struct)
    for refusal in rostulanda.Refusal:
        print(refusal.value, refusal.name, rostulanda.QUESTIONS[refusal])


if __name__ == "__main__":
    main()
