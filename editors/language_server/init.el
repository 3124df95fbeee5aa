(define-derived-mode dbp-mode prog-mode "dbp" (setq-local comment-start "# "))
(add-to-list 'auto-mode-alist '("\\.dbp\\'" . dbp-mode))
(with-eval-after-load 'eglot
  (add-to-list 'eglot-server-programs '(dbp-mode "dbp-language_server")))
