au BufRead,BufNewFile *.lut setfiletype lutin
