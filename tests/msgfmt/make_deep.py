#!/usr/bin/env python3
"""Writes inputs whose reading may go deep, for tests/library/c_trouble.sh: make_deep.py FOLDER.

PO texts with plural rules of 4 shapes, as long as a rule may be and longer, and with thousands of entries."""
import sys
from pathlib import Path


def rules() -> dict[str, str]:
    made = {}
    for depth in (10, 100, 249, 250, 332, 333, 499, 500, 900, 990, 999, 1000, 1001, 2000, 100_000):
        made[f"not_{depth}"] = "!" * depth + "n"
        made[f"brackets_{depth}"] = "(" * depth + "n" + ")" * depth
        made[f"choices_{depth}"] = "n?0:" * depth + "0"
        made[f"choices_inside_{depth}"] = "n?" * depth + "0" + ":0" * depth
        made[f"ors_{depth}"] = "||".join(["n"] * depth)
        made[f"minus_{depth}"] = "-".join(["n"] * depth)
        for name, operator in (("minus", "n-("), ("ands", "n&&("), ("not", "!("), ("choice", "n?("), ("less", "n<(")):
            closed = "):0" if name == "choice" else ")"
            made[f"{name}_inside_{depth}"] = operator * depth + "n" + closed * depth
        made[f"mixed_{depth}"] = "!(n?" * depth + "0" + ":0)" * depth
    return made


def main() -> None:
    folder = Path(sys.argv[1])
    for name, rule in rules().items():
        header = f'msgid ""\nmsgstr "Plural-Forms: nplurals=2; plural={rule};\\n"\n'
        (folder / f"{name}.po").write_text(header + 'msgid "a"\nmsgid_plural "b"\nmsgstr[0] "c"\nmsgstr[1] "d"\n')
    for count in (1, 1000, 20_000):
        entries = [f'msgid "{i}"\nmsgstr "text {i}"\n' for i in range(count)]
        (folder / f"rising_{count}.po").write_text("".join(entries))
        (folder / f"falling_{count}.po").write_text("".join(reversed(entries)))
        (folder / f"lines_{count}.po").write_text('msgid "a"\nmsgstr ""\n' + '"line"\n' * count)
        (folder / f"format_{count}.po").write_text(f'#, c-format\nmsgid "{"%d" * count}"\nmsgstr "{"%d" * count}"\n')


if __name__ == "__main__":
    main()
