" Definitions and proofs are a type of their own; sources are near to Rust.
autocmd BufNewFile,BufRead *.antt setfiletype antt
autocmd BufNewFile,BufRead *.rt setfiletype rust | runtime! ftplugin/antt.vim
