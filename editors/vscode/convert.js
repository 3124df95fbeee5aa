"use strict";

// What the protocol has, as the editor has it. Its numbers count from 0 where the protocol's count from 1.

const vscode = require("vscode");

const plainPosition = ({ line, character }) => ({ line, character });
const plainRange = ({ start, end }) => ({ start: plainPosition(start), end: plainPosition(end) });
const range = ({ start, end }) => new vscode.Range(start.line, start.character, end.line, end.character);
const location = (it) => new vscode.Location(vscode.Uri.parse(it.uri), range(it.range));
const textEdit = (it) => new vscode.TextEdit(range(it.range), it.newText);

function diagnostic(it) {
  const made = new vscode.Diagnostic(range(it.range), it.message, it.severity - 1);
  made.code = it.code;
  made.source = it.source;
  made.tags = it.tags;
  const related = it.relatedInformation || [];
  made.relatedInformation = related.map((one) => new vscode.DiagnosticRelatedInformation(location(one.location), one.message));
  return made;
}

function hover(it) {
  return new vscode.Hover(new vscode.MarkdownString(it.contents.value), range(it.range));
}

function highlight(it) {
  return new vscode.DocumentHighlight(range(it.range), it.kind - 1);
}

function workspaceEdit(it) {
  const made = new vscode.WorkspaceEdit();
  for (const [uri, edits] of Object.entries(it.changes)) made.set(vscode.Uri.parse(uri), edits.map(textEdit));
  return made;
}

function completion(it) {
  const made = new vscode.CompletionItem(it.label, it.kind - 1);
  made.detail = it.detail;
  made.range = range(it.textEdit.range);
  made.insertText = it.textEdit.newText;
  return made;
}

function symbol(it) {
  const made = new vscode.DocumentSymbol(it.name, it.detail, it.kind - 1, range(it.range), range(it.selectionRange));
  made.children = it.children.map(symbol);
  return made;
}

function flatSymbol(it) {
  return new vscode.SymbolInformation(it.name, it.kind - 1, "", location(it.location));
}

function fold(it) {
  return new vscode.FoldingRange(it.startLine, it.endLine, it.kind === "comment" ? vscode.FoldingRangeKind.Comment : undefined);
}

function action(it) {
  const made = new vscode.CodeAction(it.title, vscode.CodeActionKind.QuickFix);
  made.edit = workspaceEdit(it.edit);
  made.diagnostics = it.diagnostics.map(diagnostic);
  made.isPreferred = it.isPreferred;
  return made;
}

function lens(it) {
  return new vscode.CodeLens(range(it.range), { title: it.command.title, command: "" });
}

module.exports = {
  action, completion, diagnostic, flatSymbol, fold, hover, highlight, lens, location, plainPosition, plainRange, range, symbol,
  textEdit, workspaceEdit,
};
