# Completions of h2audit-plot for fish.

complete -c h2audit-plot -s o -l output -r -d 'Where the picture goes'
complete -c h2audit-plot -l format -x -a 'svg png' -d 'The format of the picture'
complete -c h2audit-plot -l connection -x -d 'Draw one connection'
complete -c h2audit-plot -l stream -x -d 'Draw one stream; 0 is the connection'
complete -c h2audit-plot -l panels -x -d 'Draw so many windows at most'
complete -c h2audit-plot -l by-frame -d 'Draw over frame numbers'
complete -c h2audit-plot -s t -l title -x -d 'A heading above the picture'
complete -c h2audit-plot -s V -l version -d 'Print the version, and nothing else'
complete -c h2audit-plot -s h -l help -d 'Print the usage, and nothing else'
