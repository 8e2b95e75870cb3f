"""Lists the places of the design pass in the sources of a commit.

    python3 tools/places.py COMMIT            counts, a line for each kind of place
    python3 tools/places.py COMMIT KIND       the places of one kind, as 3a

A place is a line of a file crates/*/src/*.rt; tests count too. docs/DESIGN-PASS.md says what the kinds
are for, and what was found.
"""

import collections
import re
import subprocess
import sys

LINES = {
    "1a": ("own enums", r"^ *(pub(\(crate\))? )?enum "),
    "1b": ("kinds or refusals as numbers", r"\b(class|mark|kind|outcome|question): *u(8|16|32)\b|struct \w+\((pub )?u8\)|fn \w+\(number: u8\)"),
    "1c": ("flags in a struct or beside a value", r"^ +(pub(\(crate\))? )?[a-z_]+: bool,"),
    "1d": ("errors and absences handed on by hand", r"if let Err\(|Err\(\w+\) => (return )?Err\(|Ok\(\w*(\(\))?\) => Ok\(|None => None|Some\(\w+\) => Some\("),
    "1e": ("errors returned where a question is put", r"return Err\("),
    "3a": ("loops with a count or an index by hand", r"\bwhile |\bloop \{|for \w+ in [^{]*\.\.|\+= 1[;,]|([\w.]+) = (\1|number)\.saturating_add\(1\)[;,]"),
    "3b": ("loops in all", r"\bwhile |\bloop \{|^ *for "),
    "4a": ("casts", r" as (u8|u16|u32|u64|usize)\b"),
    "4b": ("conversions as functions", r"fn \w+_(of|as)\(|fn of\("),
    "4c": ("texts handed out by a function", r"-> &'static str"),
    "4d": ("equality of several fields by hand", r"== \w+\.\w+.*&&.* == \w+\.\w+|^ *&& \w+\.\w+ == \w+\.\w+"),
    "6a": ("fixed arrays", r"\[[^\[\]]*; *\d+\]"),
    "6b": ("counts beside a buffer", r"\b(count|arc_count|length): usize,"),
    "7a": ("types without a value, that stand for a function", r"^ *(pub(\(crate\))? )?struct \w+;"),
    "7b": ("function pointers and dyn", r"\bfn\(|\bdyn "),
}


def git(*words):
    return subprocess.run(["git", *words], check=True, capture_output=True, text=True).stdout


def sources(commit):
    names = git("ls-tree", "-r", "--name-only", commit, "--", "crates").split()
    names = [n for n in names if re.fullmatch(r"crates/\w+/src/\w+\.rt", n)]
    return {n: git("show", f"{commit}:{n}").splitlines() for n in names}


def proofs(commit):
    names = git("ls-tree", "-r", "--name-only", commit, "--", "crates").split()
    names = [n for n in names if re.fullmatch(r"crates/\w+/(proofs|specs)/.*\.antt", n) and "/proofs/" in n]
    return {n: git("show", f"{commit}:{n}").splitlines() for n in names}


def by_pattern(files, pattern):
    return [f"{n}:{i}: {line.strip()}" for n, lines in files.items() for i, line in enumerate(lines, 1)
            if re.search(pattern, line) and not line.lstrip().startswith("//")]


def twins(files):
    """Names of functions and types that stand in more than one crate, with the crates."""
    at = collections.defaultdict(set)
    for name, lines in files.items():
        if name.endswith("/tests.rt"):
            continue
        for line in lines:
            found = re.match(r"(pub(\(crate\))? )?(fn|struct|enum|trait) (\w+)", line)
            if found and found.group(4) != "main":
                at[f"{found.group(3)} {found.group(4)}"].add(name.split("/")[1])
    return [f"{what}: {', '.join(sorted(where))}" for what, where in sorted(at.items()) if len(where) > 1]


def clauses(files):
    """Clauses that stand in three functions or more, without their names."""
    seen = collections.Counter()
    for lines in files.values():
        for line in lines:
            found = re.match(r" *(requires|ensures)(\*)?( \w+)? (\{.*\})$", line)
            if found:
                seen[f"{found.group(1)} {found.group(4)}"] += 1
    return [f"{count} times: {clause}" for clause, count in seen.most_common() if count > 2]


def parameters(files):
    """Lists of two parameters or more, without self, that stand in three functions or more."""
    seen = collections.Counter()
    for lines in files.values():
        text = "\n".join(lines)
        for found in re.finditer(r"\bfn \w+(?:<[^(]*>)?\(([^)]*)\)", text):
            words = [w.strip() for w in found.group(1).replace("\n", " ").split(",")]
            words = [re.sub(r"\s+", " ", w) for w in words if w and "self" not in w and "rt:" not in w]
            if len(words) > 1:
                seen[", ".join(words)] += 1
    return [f"{count} times: {words}" for words, count in seen.most_common() if count > 2]


def all_places(commit):
    files = sources(commit)
    places = {kind: (what, by_pattern(files, pattern)) for kind, (what, pattern) in LINES.items()}
    places["2a"] = ("functions and types of one name in several crates", twins(files))
    places["5a"] = ("clauses that stand three times or more", clauses(files))
    places["5b"] = ("parameters that travel together", parameters(files))
    proved = proofs(commit)
    places["8a"] = ("files of proofs", sorted(proved))
    places["8b"] = ("lines of proofs", [""] * sum(len(lines) for lines in proved.values()))
    return places


def main():
    places = all_places(sys.argv[1])
    if len(sys.argv) > 2:
        print("\n".join(places[sys.argv[2]][1]))
        return
    for kind, (what, found) in sorted(places.items()):
        print(f"{kind} {len(found):5} {what}")


main()
