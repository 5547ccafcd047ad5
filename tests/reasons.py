#!/usr/bin/env python3
"""reasons.py LOG: each must-fail edit was refused for the fact that it names, not for the shape of the code.

An edit has a line '# fact: NAME: WORDS': NAME is the theorem or goal that the prover refuses first, WORDS stand in what rt prints of it. LOG
is what `rt ci` printed; of a refusal it has the first 160 characters. The last line is 'N passed, M failed'."""
import glob
import os
import re
import sys

sys.dont_write_bytecode = True
from tally import finish, tell

# what is said where an edit breaks a proof's words before any fact
SHAPE = ["has no field", "is not in scope", "that can be named from here", "expected type `goal.", "was not admitted", "was not determined"]


def refusal(told):
    """The name of what is refused first, whether the name is cut off, and what is printed of it."""
    if m := re.match(r"\S+: error: `([^`]+)`: (.*)", told):
        return m.group(1), False, m.group(2)
    if m := re.match(r"note: \S+:\d+:\d+: (.*) \(`([^`]+)(`\)(.*))?$", told):
        return m.group(2), m.group(3) is None, m.group(1) + (m.group(4) or "")
    return "", False, told


logged = {}
for line in open(sys.argv[1], encoding="utf8"):
    if m := re.match(r"rt: must-fail (\S+): refused, as it must be: (.*)", line.rstrip("\n")):
        logged[m.group(1)] = m.group(2)

for edit in sorted(glob.glob("crates/*/must-fail/*.edit")):
    crate, label = edit.split("/")[1], os.path.basename(edit)
    facts = re.findall(r"^# fact: ([^:\s]+): (\S.*)$", open(edit, encoding="utf8").read(), re.M)
    if len(facts) != 1:
        tell(False, f"{edit}: {len(facts)} lines '# fact: NAME: WORDS'")
        continue
    told = logged.get(f"{crate}/{label}")
    if told is None:
        tell(False, f"{edit}: {sys.argv[1]} has no refusal of it")
        continue
    name, words = facts[0]
    refused, is_cut, said = refusal(told)
    named = refused == name or is_cut and name.startswith(refused)
    shape = [s for s in SHAPE if s in said]
    tell(named and words in said and not shape, f"{edit}: refused first: {refused}: {said}")
finish()
