#!/usr/bin/env python3
"""Lists the places of each point of docs/DESIGN-PASS.md in crates/*/src, at a commit or in the working tree.

    python3 tools/places.py [COMMIT]

Each point has patterns over a file's text; a place is a match, named by its file, its line and the function it stands in.
"""
import re
import subprocess
import sys

POINTS = {
    "1": [
        ("let-else that passes a None or an Err on", r"let (?:Some|Ok|Err)\([^=]*\) = [^;]*?else \{\s*return (?:None|Ok\(None\)|Err\([^;]*\));"),
        ("match or test that passes a None or an Err on", r"(?:None => (?:return )?None\b|Err\((\w+)\) => (?:return )?Err\(\w*\)|if let Err\((\w+)\) = [^;]*\{\s*return Err\(\2\);)"),
        ("own enum of the shape of Option or Result", r"pub enum (?:Step|Spelled|Found|Reply|Stage)\b"),
        ("None for success beside a fault", r"-> Option<(?:Step|ScriptFault)>"),
        ("a flag for success of a call that changes its value", r"fn \w+\(&mut self[^)]*\) -> bool"),
        ("a number for what was not found", r"(?s)return i;\s*\}\s*\}\s*\w+\.len\(\)\s*\}"),
        ("a number for a kind or a refusal", r"(?:fn kind\(&self\) -> u8|fn kind_of\(code: u8|No\(u8\)|const (?:MISNAMED|OVERSIZE|UNKNOWN|GARBLED): u8 = \d)"),
        ("a number for nothing", r"fn (?:laws|candidate_law|worked_cases)\(\) -> u8"),
        ("a flag beside a value that it is about", r"(?:over_long|complete|firm): bool,"),
    ],
    "2": [
        ("a buffer type: an array and how many of its places count", r"pub struct \w+(?:<[^>]*>)? \{[^}]*: \[[^\]]*; \w+\],[^}]*\b(?:len|count|depth): \w+,"),
        ("a cause of its own", r"pub enum Cause\b"),
        ("reading a decimal", r"fn (?:number|decimal|is_digit|has_lawful_start|may_be_number|number16|number8)\((?!self)"),
        ("cutting at a byte", r"fn (?:cut|place_of|divide|blank_at|first_word)\("),
        ("one function in place of another with the same contract", r"fn (?:of_line|dispatch|discard)\b|fn empty\(\) -> LineBuffer"),
    ],
    "3": [
        ("a range over indices", r"for \w+ in \(?\d+\.\."),
        ("enumerate", r"\.enumerate\(\)"),
        ("while over an index", r"while \w+ [<>]"),
        ("while let over an iterator", r"while let Some\(\w+\) = \w+\.next\(\)"),
        ("a loop that searches", r"for \w+ in [^{]*\{\s*(?:if|match) [^{]*\{\s*return (?:true|false|Some)"),
    ],
    "4": [
        ("a comparison by hand", r"impl (?:PartialEq|Eq|PartialOrd|Ord) for|fn is\("),
        ("a conversion by hand", r"fn (?:number|code|kind|kind_of|word)\("),
        ("printing by hand", r"fn (?:\w+_text|print_bytes|refuse|print)\("),
    ],
    "5": [
        ("what a call does on a disk, in full", r"(?:D|A)\.Disk\.models (?:disk|first)\.old m →|ensures[^{]*\{ \(m : DiskState\) → (?:models self\.old m|Describes self\.old m|D\.Disk\.models self\.old\.below m)[^}]*\.0\) ×"),
        ("a run that reads lines", r"requires \{ self\.old\.mode ≡ InRunning \}"),
        ("what a word leaves", r"ensures keeps \{ [^}]*self\.new\.rest\.now"),
        ("a fault's place that a page leaves", r"is_ok result ≡ true → fault\.new ≡ fault\.old"),
        ("files, chain, target and fault together", r"(?s)files: &Files,\s*chain: &Chain,"),
    ],
    "6": [
        ("a buffer with a length beside it", r"pub struct \w+(?:<[^>]*>)? \{[^}]*: \[[^\]]*; \w+\],[^}]*\b(?:len|count|depth): \w+,"),
        ("bytes that are text", r"as_bytes\(\)\.ends_with|rest: Option<&'a \[u8\]>|== b\"\w+\"\.as_slice\(\)"),
        ("an index into places that are searched by key", r"fn (?:seek|vacant|slot|find|shown|room|at_hand)\b"),
    ],
    "7": [
        ("a stage that says what comes next", r"if let Stage::"),
        ("a match that makes the same call in each arm", r"Stack::Bare\(d\) =>"),
        ("an enum of calls", r"pub enum Call\b"),
    ],
}


def sources(commit):
    if commit is None:
        names = subprocess.run(["git", "ls-files", "crates/*/src/*.rt"], capture_output=True, text=True, check=True).stdout.split()
        return [(n, open(n, encoding="utf-8").read()) for n in names]
    names = subprocess.run(["git", "ls-tree", "-r", "--name-only", commit, "crates"], capture_output=True, text=True, check=True).stdout.split()
    names = [n for n in names if "/src/" in n and n.endswith(".rt")]
    return [(n, subprocess.run(["git", "show", f"{commit}:{n}"], capture_output=True, text=True, check=True).stdout) for n in names]


def function_at(text, at):
    names = re.findall(r"\b(?:fn|impl|struct|enum) (?:<[^>]*> )?(\w+(?:<'\w+>)?(?: for \w+)?)", text[: at + 40])
    return names[-1].strip() if names else "-"


def main():
    commit = sys.argv[1] if len(sys.argv) > 1 else None
    files = sources(commit)
    for point, patterns in POINTS.items():
        total = 0
        lines = []
        for what, pattern in patterns:
            hits = []
            for name, text in files:
                for m in re.finditer(pattern, text):
                    hits.append(f"{name[7:]}:{text.count(chr(10), 0, m.start()) + 1} {function_at(text, m.start())}")
            total += len(hits)
            lines.append(f"  {what}: {len(hits)}")
            lines.extend(f"    {h}" for h in hits)
        print(f"point {point}: {total}")
        print("\n".join(lines))


main()
