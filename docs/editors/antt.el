;;; antt.el --- types the characters of docs/EDITORS.md, and colours .antt a little  -*- lexical-binding: t; coding: utf-8 -*-
(require 'quail)

(quail-define-package "antt" "UTF-8" "∷" t "Characters of .antt and of clauses, by a backslash and a short sequence." nil t nil nil nil nil nil nil nil nil t)
(quail-define-rules
 ("\\->" ?→)
 ("\\l" ?λ)
 ("\\==" ?≡)
 ("\\/=" ?≢)
 ("\\::" ?∷)
 ("\\*" ?×)
 ("\\u+" ?⊎)
 ("\\_|_" ?⊥)
 ("\\T" ?⊤)
 ("\\not" ?¬)
 ("\\<->" ?↔)
 ("\\<=" ?≤)
 ("\\N" ?ℕ)
 ("\\Z" ?ℤ)
 ("\\." ?∙)
 ("\\o" ?◌)
 ("\\|->" ?↦)
 ("\\<-" ?←)
 ("\\||" ?∥)
 ("\\_1" ?₁)
 ("\\_2" ?₂)
 ("\\[[" ?⟦)
 ("\\]]" ?⟧))

(defun antt-input ()
  "Turn the input method on."
  (set-input-method "antt"))

(define-derived-mode antt-mode prog-mode "antt"
  "A mode for definitions and proofs."
  (setq-local comment-start "-- ")
  (setq-local font-lock-defaults
              '((("--.*$" . font-lock-comment-face)
                 ("\\_<\\(use\\|pub\\|mod\\|module\\|abbrev\\|record\\|data\\|where\\|let\\|in\\|case\\|of\\|by\\|with\\|unfolding\\|unfoldable\\|law\\)\\_>" . font-lock-keyword-face)
                 ("\\_<[A-Z]\\w*" . font-lock-type-face))
                t))
  (antt-input))

(add-to-list 'auto-mode-alist '("\\.antt\\'" . antt-mode))
(add-hook 'find-file-hook (lambda () (when (and buffer-file-name (string-suffix-p ".rt" buffer-file-name)) (antt-input))))
(provide 'antt)
;;; antt.el ends here
