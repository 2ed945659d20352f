;;; virage-mode.el --- Rule files of virage -*- lexical-binding: t -*-
;;; Commentary:
;; Made by editors/make of the words in help/language.
;;; Code:
(defvar virage-mode-syntax-table
  (let ((table (make-syntax-table)))
    (modify-syntax-entry ?# "<" table)
    (modify-syntax-entry ?\n ">" table)
    (modify-syntax-entry ?- "w" table)
    (modify-syntax-entry ?_ "w" table)
    table))

(defconst virage-font-lock-keywords
  `(("^[ \t]*\\([A-Za-z][A-Za-z0-9_-]*\\)[ \t]*=" 1 font-lock-variable-name-face)
    (,(concat "([ \t\n]*" (regexp-opt '("plurality" "borda" "copeland" "minimax" "condorcet") t) "[ \t\n]*)") 1 font-lock-type-face)
    (,(regexp-opt '("rev" "seq" "par" "loop" "until") 'words) . font-lock-keyword-face)
    (,(regexp-opt '("elect" "defer" "plurality" "pass" "drop" "max" "min" "below" "upto") 'words) . font-lock-function-name-face)))

;;;###autoload
(define-derived-mode virage-mode prog-mode "Virage"
  "Major mode for the rule files of virage."
  (setq-local comment-start "# ")
  (setq-local comment-end "")
  (setq-local font-lock-defaults '(virage-font-lock-keywords)))

;;;###autoload
(add-to-list 'auto-mode-alist '("\\.vir\\'" . virage-mode))

(provide 'virage-mode)
;;; virage-mode.el ends here
