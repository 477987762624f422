#!/usr/bin/env python3
"""Runs the examples of the pages, and looks up the names, the code and the contracts that they quote.

    tests/pages.py [PAGE ..]     those of the named pages, or of all of docs/ and the README; the program is built already

An example is a block that begins with ```console. A line '$ COMMAND' is run by bash at the top of the repository, with the lines
'> ..' that go on with it; the lines after it are all that it must write, on standard output and standard error.

The pages of NAMED use names of the code, in `code spans` and in indented lines. Each is a path of the repository or one that ends a path, or each of its
words stands in crates/ or is one of the kernel's. 'CRATE::NAME' is a word of that crate, and 'NAME of CRATE', also with the names
before it, are words of that crate. A command of the toolchain or of the repository is known by its first word.

The lines of a block of Rust below 'From [FILE](FILE):' stand in that file in this order; '..' is for those left out. A block of text
whose first line is a path of crates/ quotes contracts of that file and of those that it names further on, as the kit's pages do: each
function, and each clause, stands there, with `self.old`, `self.now` or `self` for `S` and `self.new` for `S'`.

Each link to a file of the repository must lead to one. Each fault is printed, and the status is then 1.
"""
import fnmatch
import functools
import glob
import os
import re
import subprocess
import sys

TOP = os.path.join(os.path.dirname(os.path.abspath(__file__)), "..")
BLOCK = re.compile(r"^```console\n(.*?)^```$", re.M | re.S)
FENCE = re.compile(r"^```.*?^```$", re.M | re.S)
SPAN = re.compile(r"`([^`\n]+)`")
LINK = re.compile(r"\]\(([^)#\s]+)[^)]*\)")
CODE = re.compile(r"^From \[[^]]*\]\(([^)]+)\):\n\n```rust\n(.*?)^```$", re.M | re.S)
CONTRACTS = re.compile(r"^```text\n(?=crates/)(.*?)^```$", re.M | re.S)
QUOTED = re.compile(r"^(?:\S.*|  \w.*(?:\n   .*)*)$", re.M)
CLAUSE = re.compile(r"(requires|ensures)( \w+)?: (.*)")
NAMED = ("docs/CALLING.md", "docs/kernel.md", "docs/proof.md", "docs/README.md", "CONTRIBUTING.md")
KERNEL = re.compile(r"cyclic_|cyc_\w+_t$|cy_|cyb_|cyh_|cyi_|cyo_|cyp_|cys_|cyt_|cypc_|CY_|UINT32_MAX|cyclic$|sys$|impl$|c$|h$")
WORD = re.compile(r"[A-Za-z_][A-Za-z_0-9]*")
COMMENT = re.compile(r"(?://|-- ).*")
INDENTED = re.compile(r"^    .*$", re.M)
NAME = re.compile(r"\b[A-Za-z]\w*(?:_|::)\w+\b")


def examples(text):
    """The number of the line, the command and the wanted output of each example."""
    found = []
    for block in BLOCK.finditer(text):
        number = text.count("\n", 0, block.start()) + 2
        for row, line in enumerate(block[1].splitlines(), number):
            if line.startswith("$ "):
                found.append([row, line[2:], ""])
            elif line.startswith("> ") and found and not found[-1][2]:
                found[-1][1] += "\n" + line[2:]
            else:
                found[-1][2] += line + "\n"
    return found


@functools.lru_cache(maxsize=None)
def paths():
    """The files of the work tree."""
    return subprocess.run(["git", "ls-files", "-co", "--exclude-standard"], capture_output=True, text=True).stdout.split()


@functools.lru_cache(maxsize=None)
def words_of(crate):
    """All words of a crate's sources, definitions and proofs, or of those of all crates, and of the names of their files."""
    found = set()
    for path in fnmatch.filter(paths(), f"crates/{crate}/*"):
        found.update(WORD.findall(path))
        if path.endswith((".rt", ".antt")) and os.path.isfile(path):
            with open(path, encoding="utf-8") as file:
                found.update(WORD.findall(COMMENT.sub("", file.read())))
    return found


def crate_after(text, at):
    """The crate of a 'NAME of CRATE' whose name ends here, or None."""
    after = re.match(r"(?:(?:, | and | or )`[^`]+`)* of `(\w+)`", text[at:])
    return after[1] if after and os.path.isdir(f"crates/{after[1]}") else None


def is_known(span, crate):
    """Whether a code span names what is there."""
    head = re.split(r"\s|NAME|CRATE", span)[0]
    if all(KERNEL.match(it) for it in WORD.findall(span)) or head == "rt":
        return True
    if "/" in head or any(f"/{it}".endswith(f"/{head}") for it in paths()):
        return any(f"/{head.strip('/')}/" in f"/{it}/" for it in paths())
    first, _, rest = span.partition("::")
    if rest and os.path.isdir(f"crates/{first}"):
        crate, span = first, rest
    return all(it in words_of(crate or "*") for it in WORD.findall(span))


def unknown_names(text):
    """The number of the line and each code span that names nothing."""
    blank = FENCE.sub(lambda it: "\n" * it[0].count("\n"), text)
    for span in SPAN.finditer(blank):
        if not is_known(span[1], crate_after(blank, span.end())):
            yield blank.count("\n", 0, span.start()) + 1, span[1]
    for line in INDENTED.finditer(blank):
        for name in NAME.findall(line[0]):
            if not is_known(name, None):
                yield blank.count("\n", 0, line.start()) + 1, name


def dead_links(page, text):
    """The number of the line and each link to a file that is not there."""
    for link in LINK.finditer(FENCE.sub(lambda it: "\n" * it[0].count("\n"), text)):
        if "://" not in link[1] and not os.path.exists(os.path.join(os.path.dirname(page), link[1])):
            yield text.count("\n", 0, link.start()) + 1, link[1]


def plain(text):
    """The text on one line, as it is where a list of parameters is not broken."""
    return re.sub(r"\( ", "(", re.sub(r",? \)", ")", " ".join(text.split())))


def unlike_code(page, text):
    """The number of the line and each line of quoted code that doesn't stand in its file, or not there."""
    for block in CODE.finditer(text):
        with open(os.path.join(os.path.dirname(page), block[1]), encoding="utf-8") as file:
            lines = iter(file.read().splitlines())
        for row, line in enumerate(block[2].splitlines(), text.count("\n", 0, block.start(2)) + 1):
            if line.strip() not in ("", "..") and line not in lines:
                yield row, f"not in {block[1]} after the line before: {line.strip()}"
                break


def unlike_contracts(text):
    """The number of the line and each function or clause that doesn't stand in the file that it is quoted from."""
    for block in CONTRACTS.finditer(text):
        for part in QUOTED.finditer(text, block.start(1), block.end(1)):
            row, line, clause = text.count("\n", 0, part.start()) + 1, plain(part[0]), CLAUSE.fullmatch(plain(part[0]))
            if line.startswith("crates/"):
                with open(line, encoding="utf-8") as file:
                    source = plain(file.read())
            elif clause:
                wanted = re.escape(f"{clause[1]}{clause[2] or ''} {{ {clause[3]} }}").replace("S'", "self.new")
                if not re.search(re.sub(r"\bS\b", r"self(?:\\.old|\\.now)?", wanted), source):
                    yield row, f"no such clause: {line}"
            elif line not in source:
                yield row, f"no such function: {line}"


def differing(text):
    """The number of the line and what is wrong with each example that writes other than the page has."""
    how = {"stdin": subprocess.DEVNULL, "stdout": subprocess.PIPE, "stderr": subprocess.STDOUT, "text": True}
    for row, command, wanted in examples(text):
        got = subprocess.run(["bash", "-c", command], timeout=60, **how).stdout
        if got != wanted:
            yield row, f"wrote\n{got}and not\n{wanted}"


def main():
    os.chdir(TOP)
    if subprocess.run(["tools/is-built", "cyclic"], check=False).returncode:
        sys.exit("pages: the program isn't built, which the examples run")
    pages = sys.argv[1:] or ["README.md", *sorted(glob.glob("*.md") + glob.glob("docs/*.md"))]
    tried, faults = 0, []
    for page in dict.fromkeys(pages):
        with open(page, encoding="utf-8") as file:
            text = file.read()
        tried += len(examples(text))
        faults += [(page, *it) for it in differing(text)]
        faults += [(page, row, f"no file {link}") for row, link in dead_links(page, text)]
        faults += [(page, *it) for it in (*unlike_code(page, text), *unlike_contracts(text))]
        if page in NAMED:
            faults += [(page, row, f"no name {span}") for row, span in unknown_names(text)]
    for page, row, fault in faults:
        print(f"pages: {page}, line {row}: {fault}")
    print(f"pages: {tried} examples, {len(faults)} faults")
    return 1 if faults else 0


if __name__ == "__main__":
    sys.exit(main())
