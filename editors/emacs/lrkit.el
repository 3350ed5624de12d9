;;; lrkit.el --- grammar files of lrkit, with its language server  -*- lexical-binding: t -*-

;;; Code:

(require 'eglot)

(defvar lrkit-keywords
  '(("%%\\|%[A-Za-z_-]+" . font-lock-keyword-face)
    ("'[^\n][^'\n]*'" . font-lock-string-face)
    ("\\([A-Za-z_.][A-Za-z0-9_.]*\\)[ \t]*:" 1 font-lock-function-name-face)))

(define-derived-mode lrkit-mode prog-mode "Grammar"
  "Grammar files of lrkit."
  (setq-local comment-start "// ")
  (modify-syntax-entry ?/ ". 124b")
  (modify-syntax-entry ?* ". 23")
  (modify-syntax-entry ?\n "> b")
  (setq-local font-lock-defaults '(lrkit-keywords)))

(add-to-list 'auto-mode-alist '("\\.y\\'" . lrkit-mode))
(add-to-list 'eglot-server-programs '(lrkit-mode . ("lrkit-lsp")))
(add-hook 'lrkit-mode-hook #'eglot-ensure)

(provide 'lrkit)
;;; lrkit.el ends here
