"""The parts of tools/language_server.

One thread reads messages (inbox), one answers them (server). A process beside it judges documents as tools/check does
(judge talks with it, judging is what runs there), so that a long check delays no answer and can be stopped.

framing, texts: messages, and documents whose positions count UTF-16.
reading, names, facts: a version of a document as it is read, where its names stand, and what the program says of it.
hovering, completing, colouring, listing, changing, cures: the answers to requests.
"""
