# Completions of h2audit-comment for fish.

complete -c h2audit-comment -s o -l output -r -d 'Where the new capture goes'
complete -c h2audit-comment -s m -l map -r -d 'The map of the import'
complete -c h2audit-comment -l credit -d 'Comment the credit lines too'
complete -c h2audit-comment -l why -d 'Audit here, and say what h2audit-why does'
complete -c h2audit-comment -s k -l key-log -r -d 'With --why, secrets of TLS connections'
complete -c h2audit-comment -l h2audit -r -d 'With --why, the program that audits'
complete -c h2audit-comment -s h -l help -d 'Print the usage, and nothing else'
complete -c h2audit-comment -s V -l version -d 'Print the name and the version, and nothing else'
