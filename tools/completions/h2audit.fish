# Completions of h2audit for fish.

complete -c h2audit -l workers -x -a '(seq 64)' -d 'Threads that audit at once, from 1 to 64'
complete -c h2audit -l groups -x -a '1 4 16 64 256 1024' -d 'Groups of streams, from 1 to 1024'
complete -c h2audit -l block -x -a '1 64 1024 4096 16384 65536 1048576' -d 'Frames in a block, from 1 to 1048576'
complete -c h2audit -l frames -d 'Also show the credit of each window'
complete -c h2audit -s h -l help -d 'Print the usage, and nothing else'
complete -c h2audit -s V -l version -d 'Print the version, and nothing else'
