"""What the tests of the scripts share: the crates behind a program, and what a script says without its times."""
import pathlib
import re

ROOT = pathlib.Path(__file__).resolve().parents[2]


def crates(*programs):
    """The crates that rt proves for the programs, each behind those that it uses."""
    lines = [line.split("#")[0].split(":") for line in (ROOT / "crates.txt").read_text().splitlines() if ":" in line.split("#")[0]]
    uses, found = {name.split()[0]: rest.split() for name, rest in lines}, []

    def visit(name):
        if name in uses and name not in found:
            for used in uses[name]:
                visit(used)
            found.append(name)

    for program in programs:
        visit(program)
    return found


def untimed(text):
    return re.sub(r"\(\d+ s\)", "(.. s)", text)
