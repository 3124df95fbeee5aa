"""The parts of tools/response.

measure, lateness: the figures of the simulation, and the first missed deadline (for tools/check too).
bounds: the bounds of the program, and those of this tool for assumed distances of events.
chains: age and reaction time from end to end.
verdicts, tables, histogram, numbers, command: what is printed and drawn, the command line.
"""
