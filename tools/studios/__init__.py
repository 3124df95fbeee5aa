"""The parts of tools/studio.

command: the command line. server: who may ask for what over HTTP. documents: what may be opened and saved.
jobs: the processes that do what takes long, each of its own, which can be stopped. work: what they do. first: what is shown
of a large document before its whole report. steps: the shared words after each step of a script.
page: what the browser gets: studio.html, studio.css; studio.js (the page), editor.js (the text), grammar.js (its colours, by
the grammar of editors/), steps.js and turns.js (two of the views), frame.js (inside of the report).
"""
