#!/usr/bin/env python3
"""Tries the language server (camac-lsp) in the editors that are here, as the files for editors set it up: a script is opened and a wrong one judged, whose fault is
gone after its fix, and nothing is shown then; hover texts; and a name gets another one.

usage: tests/editors_test.py [-v] [TEST ..]     from any folder; takes some seconds

Neovim, Emacs with eglot, Vim with ALE, and Node for the extension of VS Code are each left out if they are not here. If the library for C is there
(tests/support/of_c.py), it judges, else the program: crates/camac/out/camac (cd crates/camac && rt run makes it), or what CAMAC_PROGRAM names.
"""
import json
import os
import pathlib
import re
import subprocess
import sys
import unittest
import zipfile
from xml.etree import ElementTree

from support import of_c
from support.live import PROGRAM, TOP, Case
from support.lsp import SCRIPT
from support.needs import needed

ALE = pathlib.Path("/usr/share/vim-scripts/ale"), pathlib.Path("/usr/share/vim/vimfiles/pack/dist-bundle/opt/ale"), pathlib.Path("/usr/share/vim/vimfiles/pack/dist-bundle/start/ale")
WRONG = SCRIPT.replace("within 6", "within 5")
# What each editor has to say, in this order.
STEPS = ["opened E12 8 1", "fixed service adc within 6 cycles event 2 words {", "left 0", "told parameter `s`: 0..11", "renamed   put channel"]
PATIENCE = 120

NVIM = """
local function ask(method, params)
  params.textDocument = vim.lsp.util.make_text_document_params()
  local answer = vim.lsp.buf_request_sync(0, method, params, 30000) or {}
  for _, it in pairs(answer) do return it.result end
end
local function wait(count)
  vim.wait(30000, function() return #vim.diagnostic.get(0) == count end, 20)
end
wait(1)
for _, it in ipairs(vim.diagnostic.get(0)) do print('opened', it.code, it.lnum + 1, it.col + 1) end
local fixes = ask('textDocument/codeAction', { range = { start = { line = 7, character = 0 }, ['end'] = { line = 7, character = 0 } }, context = { diagnostics = {} } })
vim.lsp.util.apply_workspace_edit(fixes[1].edit, 'utf-16')
print('fixed', vim.api.nvim_buf_get_lines(0, 7, 8, false)[1])
wait(0)
print('left', #vim.diagnostic.get(0))
print('told', ask('textDocument/hover', { position = { line = 2, character = 9 } }).contents.value)
vim.lsp.util.apply_workspace_edit(ask('textDocument/rename', { position = { line = 5, character = 6 }, newName = 'channel' }), 'utf-16')
print('renamed', vim.api.nvim_buf_get_lines(0, 5, 6, false)[1])
vim.cmd('qall!')
"""

EMACS = """
(require 'package)
(package-initialize)
(require 'camac-mode)
(require 'eglot)
(require 'flymake)
(setq eglot-sync-connect 30 eglot-connect-timeout 30 eglot-confirm-server-initiated-edits nil)
(defun tell (&rest its) (princ (concat (mapconcat (lambda (it) (format "%s" it)) its " ") "\\n")))
(defun line (number) (save-excursion (goto-char (point-min)) (forward-line (1- number)) (buffer-substring (point) (line-end-position))))
(defun wait-for (count)
  (let ((left 1000))
    (while (and (> left 0) (/= (length (flymake-diagnostics)) count))
      (accept-process-output nil 0.03)
      (when (= 0 (% left 30)) (flymake-start))
      (setq left (1- left)))))
(find-file "a.script")
(call-interactively 'eglot)
(wait-for 1)
(dolist (it (flymake-diagnostics))
  (save-excursion
    (goto-char (flymake-diagnostic-beg it))
    (let* ((text (flymake-diagnostic-text it)) (code (if (string-match "E12" text) "E12" text)))
      (tell "opened" code (line-number-at-pos) (1+ (current-column))))))
(let* ((place (list :line 7 :character 0))
       (fixes (jsonrpc-request (eglot--current-server-or-lose) :textDocument/codeAction
                (list :textDocument (eglot--TextDocumentIdentifier) :range (list :start place :end place) :context (list :diagnostics [])))))
  (eglot--apply-workspace-edit (plist-get (elt fixes 0) :edit)))
(tell "fixed" (line 8))
(eglot--signal-textDocument/didChange)
(wait-for 0)
(tell "left" (length (flymake-diagnostics)))
(tell "told" (plist-get (plist-get (jsonrpc-request (eglot--current-server-or-lose) :textDocument/hover
  (list :textDocument (eglot--TextDocumentIdentifier) :position (list :line 2 :character 9))) :contents) :value))
(goto-char (point-min))
(forward-line 5)
(forward-char 6)
(eglot-rename "channel")
(tell "renamed" (line 6))
(set-buffer-modified-p nil)
(kill-emacs 0)
"""

VIM = """
set nocompatible nomore
let g:ale_linters_explicit = 0
let g:ale_lint_delay = 50
set rtp^={editors}/vim
set rtp+={ale}
set hidden
filetype plugin on
runtime plugin/ale.vim
edit a.script
let left = 300
while left > 0 && empty(ale#engine#GetLoclist(bufnr('')))
  sleep 100m
  let left -= 1
endwhile
redir! > said
for it in ale#engine#GetLoclist(bufnr(''))
  silent echo 'opened' get(it, 'code', '') it.lnum it.col
endfor
redir END
qall!
"""


def succeeds(*words):
    """Whether a command that tries something out succeeds."""
    try:
        return subprocess.run(words, capture_output=True, timeout=PATIENCE, stdin=subprocess.DEVNULL).returncode == 0
    except OSError:
        return False


# Enough of VS Code for its extension: what it gives to it is kept, and a document changes by the edits of a fix.
VSCODE = """
const made = (names) => Object.fromEntries(names.map((it) => [it, class { constructor(...its) { Object.assign(this, { its }); } }]));
class Position { constructor(line, character) { Object.assign(this, { line, character }); } }
class Range { constructor(start, end) { Object.assign(this, { start, end }); } }
class TextEdit { constructor(range, newText) { Object.assign(this, { range, newText }); } }
class Diagnostic { constructor(range, message, severity) { Object.assign(this, { range, message, severity }); } }
class WorkspaceEdit { constructor() { this.changes = new Map(); } set(uri, edits) { this.changes.set(uri.text, edits); } }
const given = {}, fired = {}, shown = new Map();
const register = (name) => (selector, provider) => ((given[name] = provider), { dispose() {} });
const event = (name) => (call) => ((fired[name] = call), { dispose() {} });
const uri = (text) => ({ text, toString: () => text });
const document = {
  uri: uri(process.env.DOCUMENT), languageId: 'camac', version: 1, lines: require('fs').readFileSync('a.script', 'utf8').split('\\n'),
  getText() { return this.lines.join('\\n'); },
};
function apply(edits) {
  document.version += 1;
  const changes = [...edits].reverse().map((it) => ({ range: it.range, text: it.newText }));
  for (const { range, text } of changes) {
    const line = document.lines[range.start.line];
    document.lines[range.start.line] = line.slice(0, range.start.character) + text + line.slice(range.end.character);
  }
  fired.change({ document, contentChanges: changes });
}
module.exports = {
  ...made(['Hover', 'MarkdownString', 'Location', 'DocumentSymbol', 'CompletionItem', 'CodeAction', 'FoldingRange']),
  Position, Range, TextEdit, Diagnostic, WorkspaceEdit, CodeActionKind: { QuickFix: 'quickfix' }, Uri: { parse: uri },
  languages: {
    createDiagnosticCollection: () => ({ set: (it, its) => shown.set(it.text, its), clear() {} }),
    ...Object.fromEntries(['Hover', 'CompletionItem', 'Definition', 'Reference', 'Rename', 'DocumentSymbol', 'FoldingRange', 'DocumentFormattingEdit', 'CodeActions']
      .map((it) => [`register${it}Provider`, register(it)])),
  },
  commands: { registerCommand: () => ({ dispose() {} }) },
  window: { createOutputChannel: () => ({ appendLine() {} }), showWarningMessage: console.log, showInformationMessage: console.log },
  workspace: {
    textDocuments: [document], getConfiguration: () => ({ get: () => undefined }), applyEdit: async () => true,
    onDidOpenTextDocument: event('open'), onDidChangeTextDocument: event('change'), onDidSaveTextDocument: event('save'), onDidCloseTextDocument: event('close'),
  },
  test: { given, shown, document, apply },
};
"""
NODE = """
const { activate, deactivate } = require(process.env.EXTENSION);
const { Position, Range, test } = require('vscode');
const { given, shown, document, apply } = test;
const found = () => shown.get(document.uri.text) || [];
const until = async (count) => { while (!shown.has(document.uri.text) || found().length !== count) await new Promise((resolve) => setTimeout(resolve, 20)); };
(async () => {
  await activate({ subscriptions: [] });
  await until(1);
  for (const it of found()) console.log('opened', it.code.value, it.range.start.line + 1, it.range.start.character + 1);
  const where = new Range(new Position(7, 0), new Position(7, 0));
  const fixes = await given.CodeActions.provideCodeActions(document, where);
  apply(fixes[0].edit.changes.get(document.uri.text));
  console.log('fixed', document.lines[7]);
  await until(0);
  console.log('left', found().length);
  console.log('told', (await given.Hover.provideHover(document, new Position(2, 9))).its[0].its[0]);
  apply((await given.Rename.provideRenameEdits(document, new Position(5, 6), 'channel')).changes.get(document.uri.text));
  console.log('renamed', document.lines[5]);
  await deactivate();
})();
"""


class Editors(Case):
    def setUp(self):
        super().setUp()
        self.write("a.script", WRONG)
        (self.room / "bin").mkdir()
        server = self.write("bin/camac-lsp", f'#!/bin/sh\nexec {sys.executable} -m camac lsp "$@"\n')
        server.chmod(0o755)
        places = {"CAMAC_PROGRAM": PROGRAM} if of_c.lacking() else of_c.environment()
        self.env = {**os.environ, "CAMAC_PROGRAM": "", **places, "PYTHONPATH": str(TOP / "python"), "PATH": f"{self.room / 'bin'}:{os.environ['PATH']}", "HOME": str(self.room), "XDG_CONFIG_HOME": str(self.room)}

    def run_editor(self, *words):
        ran = subprocess.run([str(it) for it in words], cwd=self.room, env=self.env, capture_output=True, text=True, timeout=PATIENCE, stdin=subprocess.DEVNULL)
        return ran.stdout + ran.stderr

    def said(self, text):
        """The lines of what an editor said that are of a step."""
        return [it.rstrip("\r") for it in text.splitlines() if re.match("opened|fixed|left|told|renamed", it)]

    @needed("neovim")
    def test_neovim(self):
        self.write("work.lua", NVIM)
        start = f"set rtp^={TOP}/editors/vim,{TOP}/editors/nvim | filetype plugin on"
        text = self.run_editor("nvim", "--headless", "-i", "NONE", "--clean", "--cmd", start, "a.script", "-c", "luafile work.lua")
        self.assertEqual(self.said(text), STEPS, text)

    @needed("elpa-eglot", is_here=succeeds("emacs", "-q", "--no-site-file", "--batch", "--eval", "(progn (require 'package) (package-initialize) (require 'eglot))"))
    def test_emacs(self):
        self.write("work.el", EMACS)
        text = self.run_editor("emacs", "-q", "--no-site-file", "--batch", "-L", TOP / "editors/emacs", "-l", "work.el")
        self.assertEqual(self.said(text), STEPS, text)

    @needed("vim-ale", is_here=any(it.is_dir() for it in ALE))
    def test_vim(self):
        """ALE shows what is wrong; the rest is its own."""
        ale = next(it for it in ALE if it.is_dir())
        self.write("work.vim", VIM.format(editors=TOP / "editors", ale=ale))
        text = self.run_editor("vim", "-es", "-u", "work.vim", "-i", "NONE")
        self.assertEqual(self.said((self.room / "said").read_text()), STEPS[:1], text)

    @needed("nodejs")
    def test_vscode(self):
        """The extension, as its package has it, over a stand-in of the editor."""
        subprocess.run([TOP / "tools/vsix", self.room / "camac.vsix"], check=True)
        subprocess.run([TOP / "tools/vsix", self.room / "again.vsix"], check=True)
        self.assertEqual(self.file("camac.vsix"), self.file("again.vsix"))
        with zipfile.ZipFile(self.room / "camac.vsix") as package:
            package.extractall(self.room)
        about = json.loads((self.room / "extension/package.json").read_text())
        languages, grammars = about["contributes"]["languages"], about["contributes"]["grammars"]
        places = [about["main"], *(it["configuration"] for it in languages), *(it["path"] for it in grammars)]
        self.assertEqual([it for it in places if not (self.room / "extension" / it).is_file()], [])
        for name in ("extension.vsixmanifest", "[Content_Types].xml"):
            ElementTree.parse(self.room / name)
        (self.room / "modules/vscode").mkdir(parents=True)
        self.write("modules/vscode/index.js", VSCODE)
        self.write("work.js", NODE)
        self.env.update(NODE_PATH=str(self.room / "modules"), EXTENSION=str(self.room / "extension"), DOCUMENT=(self.room / "a.script").as_uri())
        text = self.run_editor("node", "work.js")
        self.assertEqual(self.said(text), STEPS, text)

    def test_kate(self):
        """Each style is one of its own, and the server is bound to the name of the language."""
        syntax = ElementTree.parse(TOP / "editors/kate/camac.xml").getroot()
        styles = {it.get("name") for it in syntax.iter("itemData")}
        self.assertEqual({it.get("attribute") for it in syntax.iter() if it.get("attribute")}, styles)
        server = json.loads((TOP / "editors/kate/settings.json").read_text())["servers"]["camac"]
        self.assertTrue(re.search(server["highlightingModeRegex"], syntax.get("name")))


if __name__ == "__main__":
    unittest.main()
