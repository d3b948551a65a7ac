"""Tables that the scripts of the examples write into their READMEs."""
import subprocess


def is_over_the_fake(program):
    """Whether a program is linked with the fake of the library, whose names stand in it."""
    ran = subprocess.run(["nm", "-C", program], capture_output=True, text=True, check=True)
    return "fake::" in ran.stdout


def table(head, rows):
    """A table in Markdown: the first column to the left, the others to the right."""
    lines = [head, ["---", *["---:"] * (len(head) - 1)], *rows]
    return "".join(f"| {' | '.join(line)} |\n" for line in lines)


def put_table(document, script, lines):
    """Puts lines between the marks of a script that stand in a document."""
    begin, end = f"<!-- written by {script} --write -->\n", "<!-- so far -->\n"
    with open(document, encoding="utf-8") as file:
        before, rest = file.read().split(begin)
    behind = rest.split(end, 1)[1]
    with open(document, "w", encoding="utf-8") as file:
        file.write(f"{before}{begin}{lines}{end}{behind}")
