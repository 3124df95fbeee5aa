"use strict";

// The client of tools/language_server: it starts the server, tells it what is open, and hands its answers to the editor.

const { execFile } = require("child_process");
const fs = require("fs");
const os = require("os");
const path = require("path");
const vscode = require("vscode");
const { Connection } = require("./connection");
const convert = require("./convert");

const LANGUAGE = "dbp";
const SERVER = "language_server";
const MOST_STARTS = 5; // of a server that ends by itself
const SILENT = [-32800, -32801]; // what is cancelled, or about an old text

let client; // the one that is active

/** Returns a tool: the one that the settings name, one of the folder that is open, or the installed one. */
function toolPath(tool, named) {
  const folders = (vscode.workspace.workspaceFolders || []).map((folder) => folder.uri.fsPath);
  const tried = named ? folders.map((folder) => path.resolve(folder, named)) : folders.map((folder) => path.join(folder, "tools", tool));
  const own = path.join(__dirname, "..", "..", "tools", tool); // where the extension is a folder of the repository
  const found = (named ? tried : [...tried, own]).find((file) => fs.existsSync(file));
  return found || named || `dbp-${tool}`;
}

function settings() {
  return vscode.workspace.getConfiguration(LANGUAGE);
}

class Client {
  constructor() {
    this.diagnostics = vscode.languages.createDiagnosticCollection(LANGUAGE);
    this.opened = new Set(); // what the server knows
    this.starts = 0;
    this.isEnding = false;
  }

  /** Starts the server, and tells it what is open. */
  start() {
    this.starts += 1;
    this.opened.clear();
    this.server = toolPath(SERVER, settings().get("server"));
    const told = { "textDocument/publishDiagnostics": (given) => this.publish(given), "window/showMessage": show };
    this.connection = new Connection(this.server, [], told, (why) => this.restart(why));
    const folders = (vscode.workspace.workspaceFolders || []).map((it) => ({ uri: it.uri.toString(), name: it.name }));
    const capabilities = { textDocument: { documentSymbol: { hierarchicalDocumentSymbolSupport: true } } };
    const given = { processId: process.pid, rootUri: null, workspaceFolders: folders, capabilities };
    given.initializationOptions = { tick: settings().get("tick") };
    this.begun = this.connection.request("initialize", given).then((result) => {
      this.connection.notify("initialized", {});
      vscode.workspace.textDocuments.forEach((document) => this.open(document));
      return result.capabilities;
    });
    return this.begun;
  }

  /** Starts a server anew that has ended by itself, a few times. */
  restart(why) {
    this.diagnostics.clear();
    if (this.isEnding) return;
    if (this.starts < MOST_STARTS && !why) this.start().catch(() => {});
    else vscode.window.showErrorMessage(`dbp: ${this.server} has ended${why ? `: ${why}` : ""}`);
  }

  publish({ uri, version, diagnostics }) {
    const document = vscode.workspace.textDocuments.find((it) => it.uri.toString() === uri);
    if (document && version !== undefined && document.version !== version) return;
    this.diagnostics.set(vscode.Uri.parse(uri), diagnostics.map(convert.diagnostic));
  }

  open(document) {
    const uri = document.uri.toString();
    if (document.languageId !== LANGUAGE || this.opened.has(uri)) return;
    this.opened.add(uri);
    const item = { uri, languageId: LANGUAGE, version: document.version, text: document.getText() };
    this.connection.notify("textDocument/didOpen", { textDocument: item });
  }

  change({ document, contentChanges }) {
    if (!this.opened.has(document.uri.toString()) || contentChanges.length === 0) return;
    const changes = contentChanges.map(({ range, text }) => ({ range: convert.plainRange(range), text }));
    const item = { uri: document.uri.toString(), version: document.version };
    this.connection.notify("textDocument/didChange", { textDocument: item, contentChanges: changes });
  }

  close(document) {
    const uri = document.uri.toString();
    if (this.opened.delete(uri)) this.connection.notify("textDocument/didClose", { textDocument: { uri } });
  }

  /** Asks about a document; what is out of date has no answer, and neither has an error but if it is to be shown. */
  async ask(method, document, given, token, isShown = false) {
    const item = { textDocument: { uri: document.uri.toString() }, ...given };
    try {
      await this.begun;
      return await this.connection.request(`textDocument/${method}`, item, token);
    } catch (error) {
      if (isShown && !SILENT.includes(error.code)) throw error;
      return null;
    }
  }

  /** Ends the server. */
  async end() {
    this.isEnding = true;
    this.diagnostics.dispose();
    await this.connection.end();
  }
}

function show({ message }) {
  vscode.window.showErrorMessage(message);
}

/** Registers what the server can do, and returns what is to be disposed of. */
function providers(capabilities) {
  const at = (position) => ({ position: convert.plainPosition(position) });
  const listed = (made) => (found) => (found || []).map(made);
  const optional = (made) => (found) => (found ? made(found) : undefined);
  const { legend } = capabilities.semanticTokensProvider;
  const shades = new vscode.SemanticTokensLegend(legend.tokenTypes, legend.tokenModifiers);
  const ask = (...given) => client.ask(...given);
  const on = vscode.languages;
  return [
    on.registerHoverProvider(LANGUAGE, {
      provideHover: (it, place, token) => ask("hover", it, at(place), token).then(optional(convert.hover)),
    }),
    on.registerDefinitionProvider(LANGUAGE, {
      provideDefinition: (it, place, token) => ask("definition", it, at(place), token).then(optional(convert.location)),
    }),
    on.registerReferenceProvider(LANGUAGE, {
      provideReferences: (it, place, context, token) =>
        ask("references", it, { ...at(place), context }, token).then(listed(convert.location)),
    }),
    on.registerDocumentHighlightProvider(LANGUAGE, {
      provideDocumentHighlights: (it, place, token) => ask("documentHighlight", it, at(place), token).then(listed(convert.highlight)),
    }),
    on.registerRenameProvider(LANGUAGE, {
      prepareRename: async (it, place, token) => {
        const found = await ask("prepareRename", it, at(place), token);
        if (!found) throw new Error("no name stands here, or its line has a fault");
        return { range: convert.range(found.range), placeholder: found.placeholder };
      },
      provideRenameEdits: (it, place, newName, token) =>
        ask("rename", it, { ...at(place), newName }, token, true).then(optional(convert.workspaceEdit)),
    }),
    on.registerCompletionItemProvider(
      LANGUAGE,
      {
        provideCompletionItems: (it, place, token) =>
          ask("completion", it, at(place), token).then((found) => (found ? found.items.map(convert.completion) : [])),
      },
      ...capabilities.completionProvider.triggerCharacters,
    ),
    on.registerDocumentSymbolProvider(LANGUAGE, {
      provideDocumentSymbols: (it, token) => ask("documentSymbol", it, {}, token).then(listed(convert.symbol)),
    }),
    on.registerWorkspaceSymbolProvider({
      provideWorkspaceSymbols: (query, token) =>
        client.connection.request("workspace/symbol", { query }, token).then(listed(convert.flatSymbol), () => []),
    }),
    on.registerFoldingRangeProvider(LANGUAGE, {
      provideFoldingRanges: (it, _, token) => ask("foldingRange", it, {}, token).then(listed(convert.fold)),
    }),
    on.registerDocumentSemanticTokensProvider(
      LANGUAGE,
      {
        provideDocumentSemanticTokens: (it, token) =>
          ask("semanticTokens/full", it, {}, token).then(optional((found) => new vscode.SemanticTokens(new Uint32Array(found.data)))),
      },
      shades,
    ),
    on.registerDocumentFormattingEditProvider(LANGUAGE, {
      provideDocumentFormattingEdits: (it, options, token) =>
        ask("formatting", it, { options: { ...options } }, token).then(listed(convert.textEdit)),
    }),
    on.registerCodeActionsProvider(
      LANGUAGE,
      {
        provideCodeActions: (it, range, _, token) =>
          ask("codeAction", it, { range: convert.plainRange(range), context: { diagnostics: [] } }, token).then(listed(convert.action)),
      },
      { providedCodeActionKinds: [vscode.CodeActionKind.QuickFix] },
    ),
    on.registerCodeLensProvider(LANGUAGE, {
      provideCodeLenses: (it, token) => ask("codeLens", it, {}, token).then(listed(convert.lens)),
    }),
  ];
}

/** Writes the report of the document that is shown, and opens it. */
async function openReport() {
  const editor = vscode.window.activeTextEditor;
  if (!editor || editor.document.languageId !== LANGUAGE) {
    vscode.window.showErrorMessage("dbp: no document of dbp is shown");
    return undefined;
  }
  const file = path.join(fs.mkdtempSync(path.join(os.tmpdir(), "dbp-report-")), "report.html");
  const named = settings().get("server");
  const beside = named ? path.join(path.dirname(toolPath(SERVER, named)), "report") : toolPath("report");
  const tool = fs.existsSync(beside) ? beside : "dbp-report";
  const said = await written(tool, file, editor.document.getText());
  if (said) {
    vscode.window.showErrorMessage(`dbp: ${said}`);
    return undefined;
  }
  return vscode.env.openExternal(vscode.Uri.file(file));
}

/** Lets a tool write the report of a text, and returns what is wrong, or nothing. A refused document has a report too. */
function written(tool, file, text) {
  return new Promise((resolve) => {
    const started = execFile(tool, ["-o", file, "--", "-"], (error, _, said) => {
      const isThere = fs.existsSync(file);
      resolve(isThere ? "" : said.trim() || (error ? error.message : `${tool} wrote no report`));
    });
    started.stdin.on("error", () => {});
    started.stdin.end(text);
  });
}

async function activate(context) {
  client = new Client();
  const on = vscode.workspace;
  context.subscriptions.push(
    vscode.commands.registerCommand("dbp.report", openReport),
    on.onDidOpenTextDocument((document) => client.begun.then(() => client.open(document), () => {})),
    on.onDidChangeTextDocument((event) => client.change(event)),
    on.onDidCloseTextDocument((document) => client.close(document)),
    on.onDidChangeConfiguration(() => {
      client.connection.notify("workspace/didChangeConfiguration", { settings: { dbp: { tick: settings().get("tick") } } });
    }),
  );
  const capabilities = await client.start();
  context.subscriptions.push(...providers(capabilities));
}

function deactivate() {
  return client ? client.end() : undefined;
}

module.exports = { activate, deactivate };
