# Completion of jbgtopbm85 for fish.
complete -c jbgtopbm85 -l info -d 'Write a line of numbers about the stream in place of its image'
complete -c jbgtopbm85 -l max-rows -x -d 'Refuse an image of more rows'
complete -c jbgtopbm85 -s h -l help -d 'Print help'
complete -c jbgtopbm85 -s V -l version -d 'Print version'
