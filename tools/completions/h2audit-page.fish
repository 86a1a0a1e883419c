# Completions of h2audit-page for fish.

complete -c h2audit-page -s k -l key-log -r -d 'Secrets of TLS connections'
complete -c h2audit-page -s o -l output -r -d 'Where the page goes'
complete -c h2audit-page -s t -l title -x -d 'The heading of the page'
complete -c h2audit-page -l sort -d 'Read files in the order of their first packets'
complete -c h2audit-page -l reorder -d 'Put packets in order of time'
complete -c h2audit-page -l no-requests -d 'Leave out the names of requests'
complete -c h2audit-page -s V -l version -d 'Print the version, and nothing else'
complete -c h2audit-page -s h -l help -d 'Print the usage, and nothing else'
