" Scripts, journals and transcripts by their endings.
autocmd BufNewFile,BufRead *.aio,*.canonical setfiletype aio
autocmd BufNewFile,BufRead *.journal,*.transcript,*.trace setfiletype aiojournal
