;;; camac-mode.el --- Major mode for CAMAC readout scripts -*- lexical-binding: t; -*-

;; Version: 0.2.0
;; Keywords: languages

;;; Commentary:

;; Colours and indents the scripts of camac: files whose names end in .script or .camac.  `compile' judges them by camac-check, and
;; `eglot' has camac-lsp show what it finds while one types.

;;; Code:

(defconst camac-declarations '("table" "cdlam" "var" "proc" "service")
  "Words that begin a declaration.")

(defconst camac-heading-words '("within" "cycles" "event" "words" "steps")
  "Words of a heading.")

(defconst camac-actions
  '("cdreg" "cfsa" "cssa" "cfmad" "cfubc" "cfubr" "max" "limit" "tally" "put")
  "Words of addresses, cycles, transfers and event words.")

(defconst camac-calls
  '("cccz" "cccc" "ctci" "ctcd" "ctgl" "ccci" "cccd" "cclm" "cclc" "ctlm")
  "Calls of a crate's controller and at a LAM.")

(defconst camac-controls
  '("if" "else" "for" "to" "while" "turns" "by" "keep" "in" "lock" "call" "and" "not")
  "Words of conditions, loops, locks and calls.")

(defconst camac-constants '("on" "off" "q" "x")
  "Switches and flags.")

(defvar camac-font-lock-keywords
  `((,(regexp-opt camac-declarations 'symbols) . font-lock-keyword-face)
    (,(regexp-opt camac-heading-words 'symbols) . font-lock-keyword-face)
    (,(regexp-opt camac-actions 'symbols) . font-lock-builtin-face)
    (,(regexp-opt camac-calls 'symbols) . font-lock-function-name-face)
    (,(regexp-opt camac-controls 'symbols) . font-lock-keyword-face)
    (,(regexp-opt camac-constants 'symbols) . font-lock-constant-face)
    ("\\_<to[ \t\n]+[0-9]+[ \t\n]+\\(each\\)\\_>" 1 font-lock-keyword-face)
    ("\\_<[0-9]+\\_>" . font-lock-constant-face))
  "What `camac-mode' colours.")

(defvar camac-mode-syntax-table
  (let ((table (make-syntax-table)))
    (modify-syntax-entry ?# "<" table)
    (modify-syntax-entry ?\n ">" table)
    (modify-syntax-entry ?_ "_" table)
    (modify-syntax-entry ?. "." table)
    table)
  "Syntax table of `camac-mode'.")

(defgroup camac nil
  "CAMAC readout scripts."
  :group 'languages)

(defcustom camac-indent-offset 2
  "How many columns a block stands further in."
  :type 'integer
  :safe #'integerp)

(defcustom camac-plan "plan.toml"
  "The plan on which `compile' judges a script."
  :type 'file
  :safe #'stringp)

(defun camac-indentation ()
  "Return the column of the line at point: one step for each brace that is open."
  (save-excursion
    (back-to-indentation)
    (skip-chars-forward "} \t" (line-end-position))
    (* camac-indent-offset (car (syntax-ppss)))))

(defun camac-indent-line ()
  "Indent the line at point."
  (let ((is-before (<= (current-column) (current-indentation))))
    (save-excursion (indent-line-to (camac-indentation)))
    (when is-before (back-to-indentation))))

;;;###autoload
(define-derived-mode camac-mode prog-mode "CAMAC"
  "Major mode for CAMAC readout scripts."
  (setq-local comment-start "# ")
  (setq-local comment-end "")
  (setq-local indent-line-function #'camac-indent-line)
  (setq-local indent-tabs-mode nil)
  (setq-local electric-indent-chars '(?{ ?} ?\n))
  (when buffer-file-name
    (setq-local compile-command
                (format "camac-check %s %s" (shell-quote-argument camac-plan)
                        (shell-quote-argument (file-name-nondirectory buffer-file-name)))))
  (setq-local font-lock-defaults '(camac-font-lock-keywords)))

;;;###autoload
(add-to-list 'auto-mode-alist '("\\.\\(script\\|camac\\)\\'" . camac-mode))

(defcustom camac-lsp-command '("camac-lsp")
  "The language server and its arguments, as `eglot' starts it."
  :type '(repeat string))

(defvar eglot-server-programs)
(with-eval-after-load 'eglot
  (add-to-list 'eglot-server-programs (cons 'camac-mode (lambda (&rest _) camac-lsp-command))))

(provide 'camac-mode)

;;; camac-mode.el ends here
