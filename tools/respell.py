#!/usr/bin/env python3
"""Brings the repository's own definitions, lemmas, fields and constructors to today's spelling: words in snake case, types in upper camel
case. Run once, at the top, after port.py. Functions of src/, exported names, strings and the names that the check makes for goals and steps
stay as they are. It prints what falls together, and changes nothing if anything does that FALLS does not settle."""
import collections
import glob
import re
import sys

DEF = re.compile(r"^(\s*)((?:(?:pub|abbrev|unfoldable|opaque)\s+)*)([A-Za-z_][\w'\-]*)\s*:(?!=)")
RECORD = re.compile(r"^\s*(?:pub\s+)?(?:record|data)\s+([A-Za-z_][\w'\-]*)")
TOKEN = re.compile(r"(?<![\w'\-])[A-Za-z_][\w'\-]*")
# the names that the new spelling would give to two things: the lemma or the field about a definition takes _is
FALLS = {
    "closed-within": "closed_within_is", "closed-empty": "closed_empty_is", "open-one": "open_one_is", "none-final": "none_final_is",
    "cut-clock": "cut_clock_is", "setOut": "setting_out", "closed-form": "closed_form_is", "letter-of": "letter_of_is", "all-within": "all_within_is",
    "sign-leb": "sign_leb_is", "sign-plus": "sign_plus_is", "map-ok": "map_ok_is", "signed-code": "signed_code_is", "beneath-all": "beneath_all_is",
    "gap-sign": "gap_sign_is",
}
# the same for names that were in snake case before, in one file each
FALLS_IN = {"crates/images/proofs/Gathered.antt": {"cut_low": "cut_low_is", "cut_high": "cut_high_is"}}


def respelt(name):
    if name in FALLS:
        return FALLS[name]
    if name[0].isupper():
        first, *rest = name.split("-")
        return first + "".join(w[:1].upper() + w[1:] for w in rest)
    return re.sub(r"([a-z0-9])([A-Z])", lambda m: m.group(1) + "_" + m.group(2).lower(), name.replace("-", "_"))


def read(path):
    with open(path, encoding="utf-8") as f:
        return f.read()


def main():
    proofs = sorted(glob.glob("crates/*/specs/**/*.antt", recursive=True) + glob.glob("crates/*/proofs/**/*.antt", recursive=True))
    sources = sorted(glob.glob("crates/*/src/**/*.rt", recursive=True))
    own = collections.defaultdict(set)
    for path in proofs:
        for line in read(path).splitlines():
            m = DEF.match(line)
            if m and not line.rstrip().endswith(": goal." + m.group(3)):
                own[m.group(3)].add(path)
            m = RECORD.match(line)
            if m:
                own[m.group(1)].add(path)
    new = {n: respelt(n) for n in own if respelt(n) != n}
    taken = collections.defaultdict(set)
    for n in own:
        taken[new.get(n, n)].add(n)
    together = {k: sorted(v) for k, v in taken.items() if len(v) > 1}
    settled = {"cut_low", "cut_high", "GapExact", "ResetExact", "DelayExact", "ZeroExact", "WithinExact", "EmptyExact"}
    for k, v in sorted(together.items()):
        print("together:", k, v, "" if k in settled else "NOT SETTLED")
    if any(k not in settled for k in together):
        return 1
    count = 0
    for path in proofs + sources:
        text = read(path)
        goals = set(re.findall(r":\s*goal\.([\w'\-]+)\s*$", text, re.M))
        goals |= {t for g in re.findall(r"\.(?:Goals|Given)\.\{([^}]*)\}", text) for t in TOKEN.findall(g)}
        here = {**new, **FALLS_IN.get(path, {})}

        def turn(m):
            name, before = m.group(0), text[: m.start()]
            if name not in here or name in goals:
                return name
            # a field of what the check names: c.some-call, or a name of a goal
            if "-" in name and re.search(r"(?<![\w'\-])(?:c|l|goal|given|w)\.$", before[-12:]):
                return name
            return here[name]

        if path.endswith(".rt"):
            # strings stay
            parts = re.split(r'("(?:[^"\\\n]|\\.)*")', text)
            out, done = [], 0
            for i, part in enumerate(parts):
                if i % 2:
                    out.append(part)
                else:
                    start = done
                    out.append(TOKEN.sub(lambda m: here[m.group(0)] if m.group(0) in here and m.group(0) not in goals else m.group(0), part))
                done += len(part)
            result = "".join(out)
        else:
            result = TOKEN.sub(turn, text)
        if result != text:
            count += 1
            with open(path, "w", encoding="utf-8") as f:
                f.write(result)
    print(f"respell: {len(new)} names in {count} files")
    return 0


if __name__ == "__main__":
    sys.exit(main())
