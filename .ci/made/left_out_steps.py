"""A script in which a task waits for a row, without one of its steps: where `replay` then stops, and why, or its lines."""

DOCUMENT = """dbp 1
policy fp
until 6
task a every 2 from 0 prio 2 cost 1
  state n = 0
  next n = n + 1
  out y = 0 then n + 1
task b every 3 from 0 prio 1 cost 2
  read x = a.y
  out z = 0 then x * 10
script
%sdone
"""

RELEASE = "not the next release step"
TASK = "not the next step of the task"

# Each step, what it hears, and the number of the step that isn't allowed without it, and why. Without the look that isn't
# ready yet, or without the last step, all others are allowed.
STEPS = [
    ("aim a 0", "", 1, RELEASE),
    ("aim b 0", "", 2, RELEASE),
    ("claim b a", "", 3, RELEASE),
    ("open a", "", 4, RELEASE),
    ("open b", "", 6, TASK),
    ("start b", " -> started", 6, TASK),
    ("hear b", " -> slot 0 number 1", 8, TASK),
    ("hear b", " -> slot 0 number 1", 8, TASK),
    ("look b x", " -> notyet", None, None),
    ("start a", " -> started", 10, TASK),
    ("hear a", " -> slot 0 number 1", 11, TASK),
    ("shut a", "", 12, TASK),
    ("put a y", "", 13, TASK),
    ("done a", "", 15, TASK),
    ("look b x", " -> ready", 15, TASK),
    ("take b x", " -> 1", None, None),
]


def cases():
    for place, (left_out, _, number, why) in enumerate(STEPS):
        others = STEPS[:place] + STEPS[place + 1 :]
        document = DOCUMENT % "".join(f"{step}\n" for step, _, _, _ in others)
        lines = "".join(f"{step}{heard}\n" for step, heard, _, _ in others)
        if number is not None:
            lines = f"illegal step {number}: {why}\n"
        name = f"without_step_{place + 1}_{left_out.replace(' ', '_')}"
        yield name, ["replay"], document.encode(), 0 if number is None else 1, lines.encode()
