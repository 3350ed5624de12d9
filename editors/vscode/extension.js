// A client of lrkit-lsp without other packages: it sends each change of a grammar file, shows the diagnostics that come back, and asks
// for outlines, places of names, renames, hovers and completions.
const vscode = require("vscode");
const { spawn } = require("child_process");

const LANGUAGE = "lrkit-grammar";
const END = Buffer.from("\r\n\r\n");

let server = null;
let waiting = Buffer.alloc(0);
let next = 1;
const asked = new Map();

function send(message) {
  if (!server) return;
  const body = Buffer.from(JSON.stringify({ jsonrpc: "2.0", ...message }), "utf8");
  server.stdin.write(`Content-Length: ${body.length}\r\n\r\n`);
  server.stdin.write(body);
}

// Asks for something, and returns what comes back.
function ask(method, params) {
  return new Promise((resolve, reject) => {
    if (!server) return resolve(null);
    const id = next++;
    asked.set(id, { resolve, reject });
    send({ id, method, params });
  });
}

function take(message) {
  const waits = asked.get(message.id);
  asked.delete(message.id);
  if (waits && message.error) waits.reject(new Error(message.error.message));
  else if (waits) waits.resolve(message.result);
}

function range(it) {
  return new vscode.Range(it.start.line, it.start.character, it.end.line, it.end.character);
}

function diagnostic(it) {
  // The protocol's severities count from 1, those of the editor from 0.
  const made = new vscode.Diagnostic(range(it.range), it.message, it.severity - 1);
  made.source = it.source;
  made.relatedInformation = it.relatedInformation.map(
    (one) => new vscode.DiagnosticRelatedInformation(new vscode.Location(vscode.Uri.parse(one.location.uri), range(one.location.range)), one.message));
  return made;
}

function receive(shown, chunk) {
  waiting = Buffer.concat([waiting, chunk]);
  for (;;) {
    const end = waiting.indexOf(END);
    if (end < 0) return;
    const count = Number(/Content-Length: (\d+)/i.exec(waiting.subarray(0, end).toString())[1]);
    const past = end + END.length + count;
    if (waiting.length < past) return;
    const message = JSON.parse(waiting.subarray(end + END.length, past).toString("utf8"));
    waiting = waiting.subarray(past);
    if (message.id !== undefined) take(message);
    else if (message.method === "textDocument/publishDiagnostics") {
      shown.set(vscode.Uri.parse(message.params.uri), message.params.diagnostics.map(diagnostic));
    }
  }
}

function open(document) {
  if (document.languageId !== LANGUAGE) return;
  const textDocument = { uri: document.uri.toString(), languageId: LANGUAGE, version: document.version, text: document.getText() };
  send({ method: "textDocument/didOpen", params: { textDocument } });
}

function about(document, position) {
  return { textDocument: { uri: document.uri.toString() }, ...(position && { position: { line: position.line, character: position.character } }) };
}

function location(it) {
  return new vscode.Location(vscode.Uri.parse(it.uri), range(it.range));
}

// Numbers of kinds count from 1 in the protocol, from 0 in the editor.
function symbol(it) {
  return new vscode.DocumentSymbol(it.name, "", it.kind - 1, range(it.range), range(it.selectionRange));
}

async function rename(document, position, newName) {
  const edits = new vscode.WorkspaceEdit();
  const found = await ask("textDocument/rename", { ...about(document, position), newName });
  for (const [uri, list] of Object.entries(found ? found.changes : {})) {
    for (const it of list) edits.replace(vscode.Uri.parse(uri), range(it.range), it.newText);
  }
  return edits;
}

async function hover(document, position) {
  const found = await ask("textDocument/hover", about(document, position));
  return found && new vscode.Hover(new vscode.MarkdownString().appendCodeblock(found.contents.value, "text"), range(found.range));
}

function providers() {
  const list = (method, make) => async (document, position) =>
    ((await ask(`textDocument/${method}`, about(document, position instanceof vscode.Position ? position : undefined))) || []).map(make);
  const register = vscode.languages;
  const selector = { language: LANGUAGE };
  return [
    register.registerDocumentSymbolProvider(selector, { provideDocumentSymbols: list("documentSymbol", symbol) }),
    register.registerFoldingRangeProvider(selector, { provideFoldingRanges: list("foldingRange", (it) => new vscode.FoldingRange(it.startLine, it.endLine)) }),
    register.registerDefinitionProvider(selector, { provideDefinition: list("definition", location) }),
    register.registerReferenceProvider(selector, { provideReferences: list("references", location) }),
    register.registerDocumentHighlightProvider(selector, { provideDocumentHighlights: list("documentHighlight", (it) => new vscode.DocumentHighlight(range(it.range))) }),
    register.registerCompletionItemProvider(selector, { provideCompletionItems: list("completion", (it) => new vscode.CompletionItem(it.label, it.kind - 1)) }, "%"),
    register.registerHoverProvider(selector, { provideHover: hover }),
    register.registerRenameProvider(selector, {
      provideRenameEdits: rename,
      prepareRename: async (document, position) => {
        const found = await ask("textDocument/prepareRename", about(document, position));
        if (!found) throw new Error("no name is here");
        return range(found);
      },
    }),
  ];
}

function activate(context) {
  const shown = vscode.languages.createDiagnosticCollection("lrkit");
  const program = vscode.workspace.getConfiguration("lrkit").get("server");
  server = spawn(program, [], { stdio: ["pipe", "pipe", "ignore"] });
  server.on("error", (e) => {
    server = null;
    vscode.window.showErrorMessage(`${program}: ${e.message}`);
  });
  server.on("exit", () => {
    server = null;
    asked.forEach((it) => it.resolve(null));
    asked.clear();
  });
  server.stdout.on("data", (chunk) => receive(shown, chunk));
  const capabilities = { textDocument: { publishDiagnostics: { relatedInformation: true } } };
  send({ id: next++, method: "initialize", params: { processId: process.pid, rootUri: null, capabilities } });
  send({ method: "initialized", params: {} });
  vscode.workspace.textDocuments.forEach(open);
  context.subscriptions.push(
    shown,
    ...providers(),
    vscode.workspace.onDidOpenTextDocument(open),
    vscode.workspace.onDidChangeTextDocument((event) => {
      if (event.document.languageId !== LANGUAGE || event.contentChanges.length === 0) return;
      const textDocument = { uri: event.document.uri.toString(), version: event.document.version };
      send({ method: "textDocument/didChange", params: { textDocument, contentChanges: [{ text: event.document.getText() }] } });
    }),
    vscode.workspace.onDidCloseTextDocument((document) => {
      if (document.languageId === LANGUAGE) send({ method: "textDocument/didClose", params: { textDocument: { uri: document.uri.toString() } } });
    }));
}

function deactivate() {
  send({ id: next++, method: "shutdown" });
  send({ method: "exit" });
}

module.exports = { activate, deactivate };
