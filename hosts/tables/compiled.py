"""Compares the tables that compiled programs print with their rules: those of the C header, and those that the Rust host works out for
every deviation that it serves.

usage: compiled.py HEADER CDT, the programs of header.c and of hosts/rust/wrapper/examples/cdt.rs
"""
import subprocess
import sys

# Importing it leaves nothing in its folder.
sys.dont_write_bytecode = True
import rules
import shipped

DEVIATIONS = range(107, 272)


def printed(command):
    """The tables that a program prints, by the line `# NAME` above each."""
    output = subprocess.run(command, stdout=subprocess.PIPE, text=True, check=True).stdout
    tables = (part.splitlines() for part in output.split("# ")[1:])
    return {name: [int(word) for word in words] for name, *words in tables}


def compare(program, tables, wanted):
    if tables.keys() != wanted.keys():
        sys.exit(f"{program} prints {', '.join(tables)}; {', '.join(wanted)} are wanted")
    for name, rule in wanted.items():
        if difference := shipped.first_difference(tables[name], rule):
            sys.exit("{}: word {} of {} is {}, and by its rule {}".format(program, difference[0], name, *difference[1:]))
    print(f"{program}: {len(tables)} tables are those of their rules")


def main(header, cdt):
    _, of_header = shipped.FILES["hosts/c/bliss_box.h"]
    compare(header, printed([header]), of_header)
    compare(cdt, printed([cdt, *map(str, DEVIATIONS)]), {f"deviation {deviation}": rules.cdt(deviation) for deviation in DEVIATIONS})


main(*sys.argv[1:])
