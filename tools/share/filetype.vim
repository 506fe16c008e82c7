" Policies of Propane are known by the ending of their names.
autocmd BufRead,BufNewFile *.propane setfiletype propane
