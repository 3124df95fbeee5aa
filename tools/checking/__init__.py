"""The parts of tools/check.

.ci/tried/check.py compares its first fault with the program's on all cases; .ci/tried/check/ has a document for each kind of
message. A new line form goes into language.py and statements.py, a new refusal into CODE_NAMES of messages.py and into the
module of its pass.

A document is read here a second time, to find the place of each fault and to say what stands there. The program
alone decides: its line and code are printed first, and what is found here before its refusal is dropped.

text, tokens, cursor, expressions, statements, reading: from bytes to a document of places, and faults of reading.
names, tasks, ranks, trace, steps: the faults of checking, of the trace and of the script.
releases, illegal: what a script's illegal step is, and which step could stand there.
warned: what is accepted and hardly meant; formulas (over trees), timing and tabled (over bounds and copies) ask the
program for values, for its simulation and for its table.
nearest, foreign: what a wrong name or word may be meant for.
verdicts, printed, command: the program's verdict, the text or JSON, the command line.
"""
