#!/usr/bin/env python3
"""Gives the repository's facts of two words their camel case, after tools/respell.py: the first script made Plans_below of Plans-below."""
import os
import re

FACTS = {
    "Plan-below": "PlanBelow",
    "Plans_below": "PlansBelow",
    "To_come": "ToCome",
    "Stays_open": "StaysOpen",
    "Goes_on": "GoesOn",
    "Says_proved": "SaysProved",
}
FOUND = re.compile(r"(?<![\w'-])(?:" + "|".join(FACTS) + r")(?![\w'-])")

for folder, folders, names in os.walk("crates"):
    folders[:] = sorted(f for f in folders if f not in ("out", "data"))
    for name in sorted(names):
        if name.endswith((".antt", ".rt", ".edit")):
            path = os.path.join(folder, name)
            with open(path, encoding="utf-8") as f:
                text = f.read()
            new = FOUND.sub(lambda m: FACTS[m.group(0)], text)
            if new != text:
                with open(path, "w", encoding="utf-8") as f:
                    f.write(new)
