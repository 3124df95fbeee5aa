"""The parts of tools/report.

asked: what the program and the other tools say of a document. columns: that as data, which the page's script draws.
source: a document with its lines and colours. tables, proved: what is said of tasks, links, scenarios, and of proofs.
markup, inline, page: HTML, pictures inside of it, the whole page; colours.css, page.css
and page.js go into it as they are.
command: the command line.
"""
