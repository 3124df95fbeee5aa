"""The parts of tools/test.

A document is evaluated here a second time, since the program prints neither what its reads get nor what its choices come to.
The program decides: each line that is computed here must be one of `mean`. A new operator goes into evaluation.py.

evaluation, meaning, standing: expressions, instances, and outs as they stand in time.
beside, expectations, properties, checked: what stands beside a document, and its faults.
judging, causes, telling, results: whether properties hold, what led to a failure, and what is told of it.
drawing, traced, shrinking, traces: drawn traces, documents with them, and failing ones made smaller.
coverage, marked: which choices were taken, as a table, for lcov, and as marks.
cases, own, ways, suite: a document and its tests, the commands that run it, and the processes that do so.
written, command: JUnit's XML, TAP, the command line.
"""
