# Completion of pbmtojbg85 for fish.
complete -c pbmtojbg85 -s p -x -a '0 8 32 40 64 72 96 104' -d 'Options: 64 two lines, 32 variable height, 8 typical prediction, summed'
complete -c pbmtojbg85 -s s -x -a 128 -d 'Rows in a stripe'
complete -c pbmtojbg85 -s m -x -a '0 127' -d 'Greatest offset of the adaptive pixel'
complete -c pbmtojbg85 -s Y -x -d 'Announce a height that the image may fall short of'
complete -c pbmtojbg85 -s C -x -d 'A comment in the stream'
complete -c pbmtojbg85 -s r -d 'Begin each stripe anew'
complete -c pbmtojbg85 -s h -l help -d 'Print help'
complete -c pbmtojbg85 -s V -l version -d 'Print version'
