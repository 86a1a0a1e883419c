# Completions of h2audit-split for fish.

complete -c h2audit-split -l parts -x -a '2 4 8 16 32 64 128 256 500' -d 'How many parts to make'
complete -c h2audit-split -s o -l output -r -d 'The folder for the parts'
complete -c h2audit-split -s h -l help -d 'Print the usage, and nothing else'
complete -c h2audit-split -s V -l version -d 'Print the version, and nothing else'
