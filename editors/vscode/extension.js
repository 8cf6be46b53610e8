// Shows in VS Code what camac-lsp says: a client of the Language Server Protocol that needs no other package.
'use strict';
const vscode = require('vscode');
const { spawn } = require('child_process');

// The kinds of completions in VS Code count from 0, those of the protocol from 1; so do those of symbols.
const SELECTOR = [{ language: 'camac' }, { language: 'toml', scheme: 'file' }];
const WAIT = 10000;

class Connection {
  constructor(command, told) {
    this.waiting = new Map();
    this.number = 0;
    this.told = told;
    this.rest = Buffer.alloc(0);
    this.server = spawn(command[0], command.slice(1), { stdio: ['pipe', 'pipe', 'ignore'] });
    this.server.stdout.on('data', (data) => this.read(data));
    this.server.stdin.on('error', () => {});
    this.ended = new Promise((resolve) => {
      this.server.on('error', (why) => resolve(why.message));
      this.server.on('exit', () => resolve('it has ended'));
    });
    this.ended.then(() => this.waiting.forEach((resolve) => resolve(null)));
  }

  read(data) {
    this.rest = Buffer.concat([this.rest, data]);
    for (;;) {
      const end = this.rest.indexOf('\r\n\r\n');
      if (end < 0) return;
      const size = Number(/content-length: *(\d+)/i.exec(this.rest.toString('ascii', 0, end))[1]);
      if (this.rest.length < end + 4 + size) return;
      const message = JSON.parse(this.rest.toString('utf8', end + 4, end + 4 + size));
      this.rest = this.rest.subarray(end + 4 + size);
      this.take(message);
    }
  }

  take(message) {
    if (message.method) {
      this.told(message);
    } else if (this.waiting.has(message.id)) {
      const resolve = this.waiting.get(message.id);
      this.waiting.delete(message.id);
      resolve(message.error ? { error: message.error } : message.result);
    }
  }

  send(message) {
    const data = Buffer.from(JSON.stringify({ jsonrpc: '2.0', ...message }));
    this.server.stdin.write(`Content-Length: ${data.length}\r\n\r\n`);
    this.server.stdin.write(data);
  }

  tell(method, params) {
    this.send({ method, params });
  }

  // The result of a request; null where there is none.
  async ask(method, params, token) {
    const id = ++this.number;
    const answer = new Promise((resolve) => this.waiting.set(id, resolve));
    this.send({ id, method, params });
    if (token) token.onCancellationRequested(() => this.tell('$/cancelRequest', { id }));
    const result = await answer;
    if (result && result.error) {
      if (method === 'textDocument/rename') throw new Error(result.error.message);
      return null;
    }
    return result;
  }
}

const position = (it) => new vscode.Position(it.line, it.character);
const range = (it) => new vscode.Range(position(it.start), position(it.end));
const told = (it) => ({ line: it.line, character: it.character });
const at = (document, place) => ({ textDocument: { uri: document.uri.toString() }, position: told(place) });
const of = (document) => ({ textDocument: { uri: document.uri.toString() } });
const edits = (its) => (its || []).map((it) => new vscode.TextEdit(range(it.range), it.newText));
const location = (it) => new vscode.Location(vscode.Uri.parse(it.uri), range(it.range));

function workspaceEdit(its) {
  const edit = new vscode.WorkspaceEdit();
  for (const [uri, changes] of Object.entries((its || {}).changes || {})) edit.set(vscode.Uri.parse(uri), edits(changes));
  return edit;
}

function diagnostic(it) {
  const made = new vscode.Diagnostic(range(it.range), it.message, it.severity - 1);
  made.source = it.source;
  if (it.code) made.code = it.codeDescription ? { value: it.code, target: vscode.Uri.parse(it.codeDescription.href) } : it.code;
  made.tags = it.tags || [];
  return made;
}

function symbol(it) {
  const made = new vscode.DocumentSymbol(it.name, it.detail || '', it.kind - 1, range(it.range), range(it.selectionRange));
  made.children = (it.children || []).map(symbol);
  return made;
}

function completion(it) {
  const made = new vscode.CompletionItem(it.label, it.kind - 1);
  made.detail = it.detail;
  made.sortText = it.sortText;
  return made;
}

function action(it) {
  const made = new vscode.CodeAction(it.title, vscode.CodeActionKind.QuickFix);
  if (it.edit) made.edit = workspaceEdit(it.edit);
  if (it.command) made.command = { ...it.command, command: 'camac.execute', arguments: [it.command] };
  return made;
}

// What VS Code asks for, as requests of the protocol.
function providers(client) {
  const languages = vscode.languages;
  const ask = async (method, params, token, make) => make(await client.ask(`textDocument/${method}`, params, token));
  return [
    languages.registerHoverProvider(SELECTOR, {
      provideHover: (document, place, token) => ask('hover', at(document, place), token, (it) => it && new vscode.Hover(new vscode.MarkdownString(it.contents.value), it.range && range(it.range))),
    }),
    languages.registerCompletionItemProvider(SELECTOR, {
      provideCompletionItems: (document, place, token) => ask('completion', at(document, place), token, (its) => (its || []).map(completion)),
    }, ' '),
    languages.registerDefinitionProvider(SELECTOR, {
      provideDefinition: (document, place, token) => ask('definition', at(document, place), token, (its) => (its || []).map(location)),
    }),
    languages.registerReferenceProvider(SELECTOR, {
      provideReferences: (document, place, context, token) => ask('references', { ...at(document, place), context }, token, (its) => (its || []).map(location)),
    }),
    languages.registerRenameProvider(SELECTOR, {
      provideRenameEdits: (document, place, newName, token) => ask('rename', { ...at(document, place), newName }, token, workspaceEdit),
    }),
    languages.registerDocumentSymbolProvider(SELECTOR, {
      provideDocumentSymbols: (document, token) => ask('documentSymbol', of(document), token, (its) => (its || []).map(symbol)),
    }),
    languages.registerFoldingRangeProvider(SELECTOR, {
      provideFoldingRanges: (document, _, token) => ask('foldingRange', of(document), token, (its) => (its || []).map((it) => new vscode.FoldingRange(it.startLine, it.endLine))),
    }),
    languages.registerDocumentFormattingEditProvider(SELECTOR, {
      provideDocumentFormattingEdits: (document, options, token) => ask('formatting', { ...of(document), options }, token, edits),
    }),
    languages.registerCodeActionsProvider(SELECTOR, {
      provideCodeActions: (document, where, _, token) => {
        const params = { ...of(document), range: { start: told(where.start), end: told(where.end) }, context: { diagnostics: [] } };
        return ask('codeAction', params, token, (its) => (its || []).map(action));
      },
    }, { providedCodeActionKinds: [vscode.CodeActionKind.QuickFix] }),
    vscode.commands.registerCommand('camac.execute', (it) => client.ask('workspace/executeCommand', { command: it.command, arguments: it.arguments })),
  ];
}

// Keeps the server's texts as those of the editor.
function documents(client) {
  const fits = (it) => it.languageId === 'camac' || it.languageId === 'toml';
  const open = (it) => fits(it) && client.tell('textDocument/didOpen', { textDocument: { uri: it.uri.toString(), languageId: it.languageId, version: it.version, text: it.getText() } });
  const change = (event) => {
    const document = event.document;
    if (!fits(document) || !event.contentChanges.length) return;
    // VS Code tells them from the end of the text to its begin, so each place is right when its turn comes.
    const contentChanges = event.contentChanges.map((it) => ({ range: { start: told(it.range.start), end: told(it.range.end) }, text: it.text }));
    client.tell('textDocument/didChange', { textDocument: { uri: document.uri.toString(), version: document.version }, contentChanges });
  };
  vscode.workspace.textDocuments.forEach(open);
  return [
    vscode.workspace.onDidOpenTextDocument(open),
    vscode.workspace.onDidChangeTextDocument(change),
    vscode.workspace.onDidSaveTextDocument((it) => fits(it) && client.tell('textDocument/didSave', of(it))),
    vscode.workspace.onDidCloseTextDocument((it) => fits(it) && client.tell('textDocument/didClose', of(it))),
  ];
}

let client = null;

async function activate(context) {
  const shown = vscode.languages.createDiagnosticCollection('camac');
  const log = vscode.window.createOutputChannel('CAMAC');
  const command = vscode.workspace.getConfiguration('camac').get('server') || ['camac-lsp'];
  const take = async (message) => {
    const params = message.params;
    if (message.method === 'textDocument/publishDiagnostics') shown.set(vscode.Uri.parse(params.uri), params.diagnostics.map(diagnostic));
    if (message.method === 'window/logMessage') log.appendLine(params.message);
    if (message.method === 'window/showMessage') vscode.window.showInformationMessage(params.message);
    if (message.method === 'workspace/applyEdit') client.send({ id: message.id, result: { applied: await vscode.workspace.applyEdit(workspaceEdit(params.edit)) } });
  };
  client = new Connection(command, take);
  client.ended.then((why) => {
    shown.clear();
    if (client) vscode.window.showWarningMessage(`${command[0]}: ${why}. docs/EDITORS.md of camac says how it is put in place`);
  });
  context.subscriptions.push(shown, log);
  const answer = await client.ask('initialize', { processId: process.pid, rootUri: null, capabilities: {} });
  if (!answer) return;
  client.tell('initialized', {});
  context.subscriptions.push(...providers(client), ...documents(client));
}

async function deactivate() {
  const last = client;
  client = null;
  if (!last) return;
  await Promise.race([last.ask('shutdown', null), last.ended, new Promise((resolve) => setTimeout(resolve, WAIT).unref())]);
  last.tell('exit');
}

module.exports = { activate, deactivate };
