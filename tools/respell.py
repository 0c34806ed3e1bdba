#!/usr/bin/env python3
"""Brings the repository's own definitions, lemmas and fields to the spelling of the library: words in snake case.

Run once, at the top, behind the toolchain's own script. Names that would fall together get another one (ASIDE, LOCAL). Functions of
src/, exported names, strings, inputs and outputs keep theirs. It goes by names as they stand between spaces and brackets: in a comment
only those in backquotes."""
import os
import re
import subprocess
import sys

WORD = r"[^\s(){}\[\].,;:=λ→\"|⟨⟩⌜⌝`]+"
DECLARES = re.compile(r"^(\s*)((?:abbrev |unfoldable |pub |data |record |ruleset |mutual |infix\w* \d* )*)((?:" + WORD + r" )+):")

# names that would fall together with another one, and what they are called
ASIDE = {
    "linkRoom": "link_room_of", "paramRoom": "param_room_of", "goOn": "going_on", "at-end": "at_its_end", "oneMore": "one_more_step",
    "is-given": "is_given_lem", "start-of": "start_of_lem", "name-end": "name_end_lem", "joined-links": "joined_links_lem",
    "joined-params": "joined_params_lem", "is-dead": "is_dead_lem", "inOrder": "links_in_order", "left-of": "left_of_end",
    "in-target": "in_target_lem", "is-none": "is_none_lem", "is-reference": "is_reference_lem", "are-references": "are_references_lem",
    "stands-in": "stands_in_lem", "is-long": "is_long_lem", "is-in": "is_in_lem",
    "absolute-uri": "absolute_uri_lem", "cut-marked": "cut_marked_lem", "cut-scheme": "cut_scheme_lem", "same-awaited": "same_awaited_lem",
    "any-folded": "any_folded_lem", "refused-line": "refused_line_lem", "noStart": "no_start_number", "target-on": "target_on_lem",
    "in-host": "in_host_lem", "ended-line": "ended_line_lem", "link-of": "link_of_lem", "more-digits": "more_digits_lem",
    "same-rule": "same_rule_lem", "same-rules": "same_rules_lem", "same-pair": "same_pair_lem", "same-set": "same_set_lem",
    "link-records": "records_of_links", "param-records": "records_of_params",
    # the numbers that refusals answer: refusals have these names too
    "tooLong": "too_long_number", "malformedHeader": "malformed_header_number", "noLinkRoom": "no_link_room_number",
    "noParamRoom": "no_param_room_number", "badTable": "bad_table_number", "noRelation": "no_relation_number",
    "noOutputRoom": "no_output_room_number", "noSuchLink": "no_such_link_number", "notFound": "not_found_number",
    "unknownEdition": "unknown_edition_number", "badExtended": "bad_extended_number", "badBase": "bad_base_number",
    "badReference": "bad_reference_number", "outOfRange": "out_of_range_number", "badCatalogue": "bad_catalogue_number",
}
# names in snake case already that would: in the file that declares one, and in those that import it from there
LOCAL = {
    "crates/stepping/proofs/OnPack.antt": {"read_table": "read_table_lem"},
    "crates/columns/proofs/Decimal.antt": {"is_digit": "is_digit_lem"},
    "crates/utf8/proofs/Encoded.antt": {"numbers_of": "numbers_of_lem"},
    "crates/references/proofs/SetNumbers.antt": {"same_set": "same_set_lem"},
    "crates/tables/proofs/InGood.antt": {"agrees_at": "agrees_at_lem"},
    "crates/tables/proofs/Queries.antt": {"runs_of": "runs_of_lem"},
    "crates/reference_scan/proofs/Hosting.antt": {"in_path": "in_path_lem"},
    "crates/reference_scan/proofs/Triples.antt": {"in_path": "in_path_lem"},
    "crates/sequences/proofs/ByLength.antt": {"of_two": "of_two_lem", "of_three": "of_three_lem"},
    "crates/catalogues/proofs/WalkingOn.antt": {"steps_on": "steps_on_lem"},
    "crates/rules/proofs/Search.antt": {"same_set": "same_set_lem"},
}


def snake(name):
    return re.sub(r"([a-z0-9])([A-Z])", r"\1_\2", name).replace("-", "_").lower()


def is_old(name):
    return bool(re.match(r"[a-z]", name) and re.search(r"[A-Z]|-", name)) or bool(re.match(r"[A-Z]", name) and "-" in name)


def module_of(path):
    """Rattle.CRATE.specs.A.B of crates/CRATE/specs/A/B.antt"""
    parts = path[: -len(".antt")].split("/")
    return "Rattle." + ".".join(parts[1:])


def imports(text):
    """(module, names) of each import of a file"""
    for m in re.finditer(r"^(?:ghost )?use ([^\s{]+)\.\{([^}]*)\}", text, re.M):
        yield m.group(1), [n.strip().split(" as ")[0] for n in m.group(2).split(",")]


def code_parts(text, comment):
    """(is code, piece) by turns: comments and strings aren't code"""
    pattern = re.compile(r'(?m)(^|(?<=\s))' + comment + r'.*$|"(?:[^"\\\n]|\\.)*"')
    at = 0
    for m in pattern.finditer(text):
        yield True, text[at : m.start()]
        yield False, m.group(0)
        at = m.end()
    yield True, text[at:]


def respelled(text, comment, names, unless=()):
    def word(m):
        w = m.group(0)
        return names[w] if w in names and w not in unless else w

    out = []
    for is_code, piece in code_parts(text, comment):
        if is_code:
            out.append(re.sub(WORD, word, piece))
        elif piece.startswith('"'):
            out.append(piece)
        else:
            out.append(re.sub(r"`[^`]*`", lambda m: re.sub(WORD, word, m.group(0)), piece))
    return "".join(out)


def main():
    files = subprocess.check_output(["git", "ls-files"], text=True).split()
    antt = [f for f in files if f.startswith("crates/") and f.endswith(".antt")]
    texts = {f: open(f).read() for f in antt}
    crates = {f.split("/")[1] for f in antt} | {f.split("/")[1] for f in files if f.startswith("crates/")}

    names, declared = {}, set()
    for f in antt:
        if f.endswith("/Proof.antt"):
            continue
        for line in texts[f].splitlines():
            m = DECLARES.match(line.split("-- ")[0] if not line.startswith("--") else "")
            if m:
                for n in m.group(3).split():
                    declared.add(n)
                    if is_old(n):
                        names[n] = ASIDE.get(n, snake(n))

    turned = 0
    for f in antt:
        text = texts[f]
        mine = dict(names)
        outside, here = set(), set(LOCAL.get(f, {}))
        mine.update(LOCAL.get(f, {}))
        for module, ns in imports(text):
            crate = module.split(".")[1] if module.startswith("Rattle.") else ""
            if crate not in crates:
                outside |= set(ns)
            for g, local in LOCAL.items():
                if module == module_of(g):
                    mine.update({a: b for a, b in local.items() if a in ns})
        if f.endswith("/Proof.antt"):
            # the names of goals are turned with the proof
            outside |= set(re.findall(r"(?m)^(" + WORD + r") : tie\.", text))
        new = respelled(text, "--", mine, outside)
        if new != text:
            open(f, "w").write(new)
            turned += 1
    for f in files:
        if not os.path.exists(f):
            continue
        if f.endswith(".rt"):
            text = open(f).read()
            new = respelled(text, "//", names)
        elif f.endswith(".edit"):
            text = open(f).read()
            # an edit's text wasn't turned before: it has names, too, that the toolchain's script turned elsewhere
            also = {w: snake(w) for w in re.findall(WORD, text) if w not in names and is_old(w) and snake(w) in declared}
            both = {**also, **names}
            new = re.sub(r'"[^"\n]*"|' + WORD, lambda m: both.get(m.group(0), m.group(0)), text)
            # the name of a file isn't a word of it
            new = "\n".join(b if not a.startswith("file:") else a for a, b in zip(text.split("\n"), new.split("\n")))
        else:
            continue
        if new != text:
            open(f, "w").write(new)
            turned += 1
    print(f"respell: {len(names)} names, {turned} files turned")
    if "--names" in sys.argv:
        for a in sorted(names):
            print(a, names[a])


if __name__ == "__main__":
    main()
