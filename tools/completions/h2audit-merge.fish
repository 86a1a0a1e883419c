# Completions of h2audit-merge for fish.

complete -c h2audit-merge -l standing -d 'Merge the parts that stand'
complete -c h2audit-merge -s h -l help -d 'Print the usage, and nothing else'
complete -c h2audit-merge -s V -l version -d 'Print the name and the version, and nothing else'
