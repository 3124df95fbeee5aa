"use strict";

// A stand-in for the module `vscode`: its classes keep what they are given, and what is registered is kept in `kept`.

const { EventEmitter } = require("events");

const kept = { providers: {}, commands: {}, diagnostics: {}, errors: [], opened: [], documents: [], settings: {}, folders: [] };
const events = new EventEmitter();

class Uri {
  constructor(text) {
    this.text = text;
    this.fsPath = decodeURIComponent(new URL(text).pathname);
  }
  static parse(text) {
    return new Uri(text);
  }
  static file(path) {
    return new Uri(`file://${path.split("/").map(encodeURIComponent).join("/")}`);
  }
  toString() {
    return this.text;
  }
}

class Position {
  constructor(line, character) {
    Object.assign(this, { line, character });
  }
}

class Range {
  constructor(line, character, lastLine, lastCharacter) {
    this.start = new Position(line, character);
    this.end = new Position(lastLine, lastCharacter);
  }
}

/** Makes a class whose fields are what its constructor gets. */
function fields(...names) {
  return class {
    constructor(...given) {
      names.forEach((name, at) => {
        if (given[at] !== undefined) this[name] = given[at];
      });
    }
  };
}

class WorkspaceEdit {
  constructor() {
    this.edits = [];
  }
  set(uri, edits) {
    this.edits.push([uri.toString(), edits]);
  }
}

class Document {
  constructor(uri, text) {
    Object.assign(this, { uri: Uri.parse(uri), languageId: "dbp", version: 1, text });
  }
  getText() {
    return this.text;
  }
}

const registered = (name) => (...given) => {
  kept.providers[name] = given;
  return { dispose() {} };
};
const onEvent = (name) => (call) => {
  events.on(name, call);
  return { dispose() {} };
};
const NAMES = ["Hover", "Definition", "Reference", "DocumentHighlight", "Rename", "CompletionItem", "DocumentSymbol",
  "WorkspaceSymbol", "FoldingRange", "DocumentSemanticTokens", "DocumentFormattingEdit", "CodeLens"];
const languages = Object.fromEntries(NAMES.map((name) => [`register${name}Provider`, registered(name)]));
languages.registerCodeActionsProvider = registered("CodeActions");
languages.createDiagnosticCollection = () => ({
  set: (uri, found) => {
    kept.diagnostics[uri.toString()] = found;
    events.emit("diagnostics");
  },
  clear: () => {
    kept.diagnostics = {};
  },
  dispose() {},
});

module.exports = {
  Uri, Position, Range, WorkspaceEdit, languages,
  Location: fields("uri", "range"),
  TextEdit: fields("range", "newText"),
  Diagnostic: fields("range", "message", "severity"),
  DiagnosticRelatedInformation: fields("location", "message"),
  Hover: fields("contents", "range"),
  MarkdownString: fields("value"),
  DocumentHighlight: fields("range", "kind"),
  CompletionItem: fields("label", "kind"),
  DocumentSymbol: fields("name", "detail", "kind", "range", "selectionRange"),
  SymbolInformation: fields("name", "kind", "containerName", "location"),
  FoldingRange: fields("start", "end", "kind"),
  FoldingRangeKind: { Comment: 1 },
  CodeAction: fields("title", "kind"),
  CodeActionKind: { QuickFix: "quickfix" },
  CodeLens: fields("range", "command"),
  SemanticTokens: fields("data"),
  SemanticTokensLegend: fields("tokenTypes", "tokenModifiers"),
  commands: {
    registerCommand: (name, call) => {
      kept.commands[name] = call;
      return { dispose() {} };
    },
  },
  env: {
    openExternal: async (uri) => {
      kept.opened.push(uri.fsPath);
      return true;
    },
  },
  window: {
    showErrorMessage: (text) => kept.errors.push(text),
    get activeTextEditor() {
      return kept.documents.length ? { document: kept.documents[0] } : undefined;
    },
  },
  workspace: {
    get textDocuments() {
      return kept.documents;
    },
    get workspaceFolders() {
      return kept.folders.map((path) => ({ uri: Uri.file(path), name: "folder" }));
    },
    getConfiguration: () => ({ get: (name) => kept.settings[name] }),
    onDidOpenTextDocument: onEvent("open"),
    onDidChangeTextDocument: onEvent("change"),
    onDidCloseTextDocument: onEvent("close"),
    onDidChangeConfiguration: onEvent("configure"),
  },
  trial: { kept, events, Document },
};
