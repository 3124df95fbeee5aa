"use strict";

// Uses the extension as the editor does, with the stand-in for the module `vscode`, and prints what it gives as JSON. Its words
// are the folder of the extension, that which is open, the server, and the document.

const fs = require("fs");
const Module = require("module");
const path = require("path");

const [extension, folder, server, file] = process.argv.slice(2);
const standIn = require("./stand_in");
const load = Module._load;
Module._load = (name, ...rest) => (name === "vscode" ? standIn : load(name, ...rest));

const { kept, events, Document } = standIn.trial;
const uri = standIn.Uri.file(file).toString();
const found = {};
let cancels = 0;
const token = { onCancellationRequested: () => { cancels += 1; } };

const diagnosed = (isWanted) => new Promise((resolve) => {
  const look = () => {
    if (!kept.diagnostics[uri] || !isWanted(kept.diagnostics[uri])) return;
    events.off("diagnostics", look);
    resolve(kept.diagnostics[uri]);
  };
  events.on("diagnostics", look);
  look();
});

/** Replaces a part of the document's only line that has it, and tells of it as the editor does. */
function change(document, old, text) {
  const lines = document.text.split("\n");
  const line = lines.findIndex((it) => it.includes(old));
  const character = lines[line].indexOf(old);
  lines[line] = lines[line].replace(old, text);
  document.text = lines.join("\n");
  document.version += 1;
  const range = new standIn.Range(line, character, line, character + old.length);
  events.emit("change", { document, contentChanges: [{ range, text }] });
}

async function ask(document) {
  const provider = (name) => kept.providers[name][name === "WorkspaceSymbol" ? 0 : 1];
  const at = new standIn.Position(5, 6); // the name of the first task
  found.hover = await provider("Hover").provideHover(document, at, token);
  found.definition = await provider("Definition").provideDefinition(document, new standIn.Position(10, 16), token);
  found.references = await provider("Reference").provideReferences(document, at, { includeDeclaration: true }, token);
  found.highlights = await provider("DocumentHighlight").provideDocumentHighlights(document, at, token);
  found.prepared = await provider("Rename").prepareRename(document, at, token);
  found.unprepared = await provider("Rename").prepareRename(document, new standIn.Position(0, 0), token).catch((it) => it.message);
  found.renamed = await provider("Rename").provideRenameEdits(document, at, "gauge", token);
  found.refused = await provider("Rename").provideRenameEdits(document, at, "task", token).catch((it) => it.message);
  found.completed = await provider("CompletionItem").provideCompletionItems(document, new standIn.Position(9, 15), token);
  found.symbols = await provider("DocumentSymbol").provideDocumentSymbols(document, token);
  found.all = await provider("WorkspaceSymbol").provideWorkspaceSymbols("control", token);
  found.folds = await provider("FoldingRange").provideFoldingRanges(document, {}, token);
  found.shades = [...(await provider("DocumentSemanticTokens").provideDocumentSemanticTokens(document, token)).data].slice(0, 15);
  found.legend = kept.providers.DocumentSemanticTokens[2];
  found.laid = await provider("DocumentFormattingEdit").provideDocumentFormattingEdits(document, { tabSize: 2 }, token);
  found.lenses = await provider("CodeLens").provideCodeLenses(document, token);
}

async function main() {
  kept.folders = [folder];
  kept.settings = { server, tick: "5ms" };
  const document = new Document(uri, fs.readFileSync(file, "utf8"));
  kept.documents = [document];
  const { activate, deactivate } = require(path.join(extension, "extension.js"));
  const context = { subscriptions: [] };
  await activate(context);
  found.first = await diagnosed(() => true);
  await ask(document);
  change(document, "read level = sensor.level\n".trim(), "read level = senser.level");
  found.second = await diagnosed((it) => it.some(({ code }) => code === "11 Unknown"));
  const [{ range }] = found.second.filter(({ code }) => code === "11 Unknown");
  found.actions = await kept.providers.CodeActions[1].provideCodeActions(document, range, {}, token);
  await kept.commands["dbp.report"]();
  found.page = kept.opened.map((it) => fs.readFileSync(it, "utf8").slice(0, 15));
  kept.opened.forEach((it) => fs.rmSync(path.dirname(it), { recursive: true }));
  events.emit("close", document);
  found.closed = await diagnosed((it) => it.length === 0);
  kept.documents = [];
  await kept.commands["dbp.report"]();
  await deactivate();
  Object.assign(found, { errors: kept.errors, cancels, subscriptions: context.subscriptions.length });
  process.stdout.write(JSON.stringify(found));
}

main().catch((error) => {
  process.stderr.write(`${error.stack}\n`);
  process.exit(1);
});
