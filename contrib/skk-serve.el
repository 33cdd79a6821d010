;;; skk-serve.el --- DDSKK asks the server that `skk serve` is  -*- lexical-binding: t -*-

(setq skk-server-host "127.0.0.1"
      skk-server-portnum 1178
      skk-server-inhibit-startup-server t)
(require 'skk-server)
(advice-add 'skk-open-server :filter-return
            (lambda (process)
              (when (process-live-p process)
                (set-process-coding-system process 'utf-8 'utf-8))
              process))
(setq skk-search-prog-list
      '((skk-search-jisyo-file skk-jisyo 0 t)
        (skk-search-server skk-aux-large-jisyo 10000)))
(require 'skk-server-completion)
(add-to-list 'skk-completion-prog-list '(skk-comp-by-server-completion) t)
