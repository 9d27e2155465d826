#!/usr/bin/env python3
"""Respells the names of steps and goals in a crate's proof files as the installed Rattle makes them: a name from the source keeps its
underscores, and so do Rattle's own words. usage: python3 tools/goal_names.py crates/NAME .."""
import glob
import os
import re
import sys

OWN = ["overflow_add", "overflow_sub", "overflow_mul", "overflow_cast", "overflow_step", "slice_bounds", "in_err", "in_ok", "in_default", "invariant_of"]
STD = ["copy_from_slice", "is_empty", "is_some", "is_none", "ok_or", "saturating_sub", "get_mut", "as_bytes", "is_ascii", "map_or", "as_mut", "as_ref", "as_slice", "from_utf8", "write_str", "copied_from"]


def main(crates):
    for crate in crates:
        words = set(OWN + STD)
        for f in glob.glob(crate + "/src/**/*.rt", recursive=True):
            with open(f, encoding="utf-8") as t:
                words |= {w for w in re.findall(r"[A-Za-z_][A-Za-z0-9_]*", t.read()) if "_" in w.strip("_")}
        table = sorted(((w.strip("_").replace("_", "-"), w.strip("_")) for w in words), key=lambda p: -len(p[0]))

        def turn(token):
            for old, new in table:
                token = re.sub(r"(?<![A-Za-z0-9_])" + re.escape(old) + r"(?![A-Za-z0-9_])", new, token)
            return token

        for f in sorted(glob.glob(crate + "/proofs/**/*.antt", recursive=True)):
            if os.path.basename(f) not in ("Answers.antt", "Invariants.antt", "Proof.antt", "Choices.antt"):
                continue
            with open(f, encoding="utf-8") as t:
                text = t.read()
            heads = set(re.findall(r"goal\.([\w'-]+)", text))
            lines = []
            for line in text.split("\n"):
                if not line.startswith("use "):
                    line = re.sub(r"(?<=\.)[\w'-]+", lambda m: turn(m[0]), line)
                    line = re.sub(r"^((?:abbrev )?(?:pub )?)([\w'-]+)(?= |$)", lambda m: m[1] + (turn(m[2]) if m[2] in heads else m[2]), line)
                else:
                    line = re.sub(r"(?<=[{ ])(Then|Else|After|In|At|then|else|in|after|at)-[\w'-]+", lambda m: turn(m[0]), line)
                lines.append(line)
            new = "\n".join(lines)
            if new != text:
                with open(f, "w", encoding="utf-8") as t:
                    t.write(new)


if __name__ == "__main__":
    main(sys.argv[1:])
