"""The answers to the requests of an editor, by their methods."""

from serving import params
from serving.changing import NotDone, layout_edits, renamed
from serving.colouring import MODIFIERS, TYPES, colours
from serving.completing import completions
from serving.facts import Facts
from serving.hovering import about_place
from serving.listing import document_symbols, flat, folds, lenses, workspace_symbols
from serving.params import BadParams

INCREMENTAL = 2
KINDS = {"word": 14, "task": 7, "event": 23, "input": 6, "out": 10}  # any other name is a variable
VARIABLE = 6
SECONDS = 0.25  # that a request waits for the program

CAPABILITIES = {
    "positionEncoding": "utf-16",
    "textDocumentSync": {"openClose": True, "change": INCREMENTAL},
    "hoverProvider": True,
    "definitionProvider": True,
    "referencesProvider": True,
    "documentHighlightProvider": True,
    "renameProvider": {"prepareProvider": True},
    "completionProvider": {"triggerCharacters": [" ", "."]},
    "documentSymbolProvider": True,
    "workspaceSymbolProvider": True,
    "foldingRangeProvider": True,
    "semanticTokensProvider": {
        "legend": {"tokenTypes": TYPES, "tokenModifiers": MODIFIERS},
        "full": True,
        "range": True,
    },
    "documentFormattingProvider": True,
    "codeActionProvider": {"codeActionKinds": ["quickfix"]},
    "codeLensProvider": {"resolveProvider": False},
}


def version_of(server, given):
    """Returns the version of the document that a request is about."""
    version = server.versions.get(params.uri(given))
    if version is None:
        raise BadParams("the document isn't open")
    return version


def facts_of(server, version):
    """Returns what the program says of a version."""
    must_be_ready(server)
    facts = server.facts.get(version.uri)
    if facts is None:
        facts = server.facts[version.uri] = Facts(server.judge.program, version.text.content, version.document)
    return facts


def must_be_ready(server):
    """Refuses a request for which the program is needed, if that isn't there soon."""
    if not server.judge.ready.wait(SECONDS):
        raise NotDone("the program isn't there yet")


def named(server, given):
    """Returns the version, and the name at the position of a request, or nothing in its place."""
    version = version_of(server, given)
    return version, version.name_at(*version.text.spot(params.position(given)))


def location(version, span):
    """Returns a range with its document."""
    return {"uri": version.uri, "range": span}


def hover(server, given):
    """Says what stands at a position."""
    version = version_of(server, given)
    number, column = version.text.spot(params.position(given))
    found = about_place(version, facts_of(server, version), server.tick, number, column)
    if not found:
        return None
    (start, width), paragraphs = found
    contents = {"kind": "markdown", "value": "\n\n".join(paragraphs)}
    return {"contents": contents, "range": version.text.range(number, start, width)}


def definition(server, given):
    """Returns where a name is declared."""
    version, name = named(server, given)
    declared = version.names.declared(name) if name is not None else None
    return None if declared is None else location(version, version.range_of_name(declared))


def places(server, given, with_declaration=True):
    """Returns the version and the places of the name at a position, if it is declared."""
    version, name = named(server, given)
    if name is None or version.names.declared(name) is None:
        return version, []
    found = version.names.places_of(name)
    return version, [it for it in found if with_declaration or not it.is_declared]


def references(server, given):
    """Returns where a name stands."""
    with_declaration = params.optional(given, "context", "includeDeclaration") is not False
    version, found = places(server, given, with_declaration)
    return [location(version, version.range_of(it)) for it in found]


def highlights(server, given):
    """Returns where a name stands, to be marked."""
    version, found = places(server, given)
    return [{"range": version.range_of(it), "kind": 3 if it.is_declared else 2} for it in found]


def prepare_rename(server, given):
    """Returns the range of the name at a position, if it can be renamed."""
    version = version_of(server, given)
    place = version.names.place_at(*version.text.spot(params.position(given)))
    if place is None or version.names.declared(place.name) is None:
        return None
    return {"range": version.range_of(place), "placeholder": place.name.text}


def rename(server, given):
    """Returns the edits by which a name is another one."""
    version, new = version_of(server, given), params.part(given, "newName", str)
    place = version.names.place_at(*version.text.spot(params.position(given)))
    if place is None:
        raise NotDone("no name stands here, or its line has a fault")
    return {"changes": {version.uri: renamed(version, place.name, new)}}


def complete(server, given):
    """Returns what may stand at a position."""
    version = version_of(server, given)
    number, column = version.text.spot(params.position(given))
    place, found = completions(version, number, column)
    span = version.text.range(number, place.start, place.width)
    items = []
    for text, kind, declared in found:
        item = {"label": text, "kind": KINDS.get(kind, VARIABLE), "textEdit": {"range": span, "newText": text}}
        if declared is not None:
            item["detail"] = version.source(declared.line)
        items.append(item)
    return {"isIncomplete": False, "items": items}


def symbols(server, given):
    """Returns the symbols of a document."""
    version = version_of(server, given)
    found = document_symbols(version)
    return found if server.has_trees else [*flat(found, version.uri)]


def search(server, given):
    """Returns the inputs, events and tasks of all documents whose names have some letters."""
    return workspace_symbols(server.versions.values(), server.folders, params.part(given, "query", str))


def fold(server, given):
    """Returns the parts to be folded."""
    return folds(version_of(server, given))


def colour(server, given):
    """Returns the colours of tokens, of a range or of the whole document."""
    version = version_of(server, given)
    first, last = 1, len(version.document.lines)
    if "range" in given:
        span = params.span(given)
        first, last = (version.text.spot(span[end])[0] for end in ("start", "end"))
    return {"data": colours(version, first, last)}


def lay_out(server, given):
    """Returns the edits by which a document is laid out."""
    version = version_of(server, given)
    must_be_ready(server)
    return layout_edits(version, server.judge.program)


def is_in(span, other):
    """Whether two ranges meet."""
    first, last, start, end = (
        (it["line"], it["character"]) for it in (span["start"], span["end"], other["start"], other["end"])
    )
    return first <= end and start <= last


def fixes(server, given):
    """Returns the fixes of the diagnostics in a range, of the newest version that is judged, if that is this one."""
    version, wanted = version_of(server, given), params.span(given)
    judged, made = server.fixes.get(version.uri, (None, ()))
    if judged is not version:
        return []
    return [fix(version, about, it) for about, own in made if is_in(about["range"], wanted) for it in own]


def fix(version, about, it):
    """Returns a fix of a diagnostic."""
    edits = [{"range": version.text.range(*place), "newText": text} for *place, text in it["edits"]]
    changes = {"changes": {version.uri: edits}}
    return {"title": it["title"], "kind": "quickfix", "diagnostics": [about], "isPreferred": True, "edit": changes}


def lens(server, given):
    """Returns what the steps of the script hear."""
    version = version_of(server, given)
    return lenses(version, facts_of(server, version))


METHODS = {
    "textDocument/hover": hover,
    "textDocument/definition": definition,
    "textDocument/references": references,
    "textDocument/documentHighlight": highlights,
    "textDocument/prepareRename": prepare_rename,
    "textDocument/rename": rename,
    "textDocument/completion": complete,
    "textDocument/documentSymbol": symbols,
    "workspace/symbol": search,
    "textDocument/foldingRange": fold,
    "textDocument/semanticTokens/full": colour,
    "textDocument/semanticTokens/range": colour,
    "textDocument/formatting": lay_out,
    "textDocument/codeAction": fixes,
    "textDocument/codeLens": lens,
}
