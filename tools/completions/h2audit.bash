# Completions of h2audit and the programs beside it for bash.

# The words that compgen finds with these arguments, one a line.
_h2audit_offer() {
    mapfile -t COMPREPLY < <(compgen "$@")
}

_h2audit() {
    local word=${COMP_WORDS[COMP_CWORD]} before=${COMP_WORDS[COMP_CWORD - 1]}
    # "--workers=4" is three words, since "=" is among the word breaks.
    [[ $word == = ]] && word=
    [[ $before == = ]] && before=${COMP_WORDS[COMP_CWORD - 2]}
    case $before in
    --workers) _h2audit_offer -W "$(echo {1..64})" -- "$word" ;;
    --groups) _h2audit_offer -W '1 4 16 64 256 1024' -- "$word" ;;
    --block) _h2audit_offer -W '1 64 1024 4096 16384 65536 1048576' -- "$word" ;;
    *)
        case $word in
        -*) _h2audit_offer -W '--workers --groups --block --frames --help -h --version -V' -- "$word" ;;
        *) _h2audit_offer -f -- "$word" ;;
        esac
        ;;
    esac
}

_h2audit_plot() {
    local word=${COMP_WORDS[COMP_CWORD]} before=${COMP_WORDS[COMP_CWORD - 1]}
    local options='--output --format --connection --stream --panels --by-frame --title --help --version -o -t -h -V'
    case $before in
    --format) _h2audit_offer -W 'svg png' -- "$word" ;;
    --connection | --stream | --panels | --title | -t) COMPREPLY=() ;;
    *)
        case $word in
        -*) _h2audit_offer -W "$options" -- "$word" ;;
        *) _h2audit_offer -f -- "$word" ;;
        esac
        ;;
    esac
}

_h2audit_comment() {
    local word=${COMP_WORDS[COMP_CWORD]}
    case $word in
    -*) _h2audit_offer -W '--output --map --credit --why --key-log --h2audit --help --version -o -m -k -h -V' -- "$word" ;;
    *) _h2audit_offer -f -- "$word" ;;
    esac
}

_h2audit_page() {
    local word=${COMP_WORDS[COMP_CWORD]} before=${COMP_WORDS[COMP_CWORD - 1]}
    case $before in
    --title | -t) COMPREPLY=() ;;
    *)
        case $word in
        -*) _h2audit_offer -W '--key-log --output --title --sort --reorder --no-requests --help --version -k -o -t -h -V' -- "$word" ;;
        *) _h2audit_offer -f -- "$word" ;;
        esac
        ;;
    esac
}

_h2audit_import() {
    local word=${COMP_WORDS[COMP_CWORD]} before=${COMP_WORDS[COMP_CWORD - 1]}
    local options='--key-log -k --jobs -j --sort --reorder --joined --join-numbers --join-seconds --output -o --map -m'
    options+=' --help -h --version -V'
    [[ $word == = ]] && word=
    [[ $before == = ]] && before=${COMP_WORDS[COMP_CWORD - 2]}
    case $before in
    --jobs | -j) _h2audit_offer -W "$(echo {1..64})" -- "$word" ;;
    --join-numbers | --join-seconds) COMPREPLY=() ;;
    *)
        case $word in
        -*) _h2audit_offer -W "$options" -- "$word" ;;
        *) _h2audit_offer -f -- "$word" ;;
        esac
        ;;
    esac
}

_h2audit_any() {
    local word=${COMP_WORDS[COMP_CWORD]} before=${COMP_WORDS[COMP_CWORD - 1]}
    local options='--key-log -k --jobs -j --sort --reorder --joined --workers --groups --block --frames --parts --rows'
    options+=' --map --h2audit --help -h --version -V'
    [[ $before == = ]] && before=${COMP_WORDS[COMP_CWORD - 2]}
    case $before in
    --parts) _h2audit_offer -W '2 4 8 16 32 64 128 256 500' -- "$word" ;;
    --jobs | -j) _h2audit_offer -W "$(echo {1..64})" -- "$word" ;;
    --key-log | -k | --rows | --map | --h2audit) _h2audit_offer -f -- "$word" ;;
    *)
        case $word in
        -*) _h2audit_offer -W "$options" -- "$word" ;;
        *) _h2audit ;;
        esac
        ;;
    esac
}

_h2audit_why() {
    local word=${COMP_WORDS[COMP_CWORD]} before=${COMP_WORDS[COMP_CWORD - 1]}
    local options='--key-log -k --sort --reorder --all --query --no-requests --legs --no-legs --json --json-lines --charts --rows --windows'
    options+=' --color --width --h2audit --report --audit --workers --fail-on --fail-stall --fail-life --require-http2'
    options+=' --junit --trace --quiet --no-joined'
    options+=' --compare --ends --help -h --version -V'
    [[ $word == = ]] && word=
    [[ $before == = ]] && before=${COMP_WORDS[COMP_CWORD - 2]}
    case $before in
    --fail-on) _h2audit_offer -W 'fault certain-fault joined-fault stall hung tcp error unanswered status gap cut not-audited behind passed-on' -- "$word" ;;
    --fail-stall) _h2audit_offer -W '10ms 100ms 1s' -- "$word" ;;
    --fail-life) _h2audit_offer -W '1s 2s 10s' -- "$word" ;;
    --color) _h2audit_offer -W 'auto always never' -- "$word" ;;
    --rows | --windows | --report | --audit) _h2audit_offer -f -- "$word" ;;
    --width) _h2audit_offer -W '80 100 120 160' -- "$word" ;;
    --workers) _h2audit_offer -W '1 2 4 8 16 32 64' -- "$word" ;;
    *)
        case $word in
        -*) _h2audit_offer -W "$options" -- "$word" ;;
        *) _h2audit_offer -f -- "$word" ;;
        esac
        ;;
    esac
}

_h2audit_fleet() {
    local word=${COMP_WORDS[COMP_CWORD]} before=${COMP_WORDS[COMP_CWORD - 1]}
    local options='--db --list --resume --require-http2 --reports --collect --watch --stretch --keep'
    options+=' --metrics --keys --requests --unnamed-requests --no-legs --no-joined'
    options+=' --timeout --retries --split-above --scratch --jobs --dashboard --scheduler --tls-ca --tls-cert --tls-key --unencrypted --version --help'
    options+=' -k -j -V -h'
    case $before in
    --split-above) _h2audit_offer -W '0 256 512 1024' -- "$word" ;;
    --stretch) _h2audit_offer -W '64 256 1024' -- "$word" ;;
    --keep) _h2audit_offer -W '100 500 1000' -- "$word" ;;
    --reports | --collect | --watch | --scratch) _h2audit_offer -d -- "$word" ;;
    --timeout | --retries | --jobs | -j | --dashboard | --scheduler) COMPREPLY=() ;;
    *)
        case $word in
        -*) _h2audit_offer -W "$options" -- "$word" ;;
        *) _h2audit_offer -f -- "$word" ;;
        esac
        ;;
    esac
}

_h2audit_split() {
    local word=${COMP_WORDS[COMP_CWORD]} before=${COMP_WORDS[COMP_CWORD - 1]}
    # "--parts=4" is three words, since "=" is among the word breaks.
    [[ $word == = ]] && word=
    [[ $before == = ]] && before=${COMP_WORDS[COMP_CWORD - 2]}
    case $before in
    --parts) _h2audit_offer -W '2 4 8 16 32 64 128 256 500' -- "$word" ;;
    *)
        case $word in
        -*) _h2audit_offer -W '--parts --output --help --version -o -h -V' -- "$word" ;;
        *) _h2audit_offer -f -- "$word" ;;
        esac
        ;;
    esac
}

_h2audit_merge() {
    local word=${COMP_WORDS[COMP_CWORD]}
    case $word in
    -*) _h2audit_offer -W '--standing --help --version -h -V' -- "$word" ;;
    *) _h2audit_offer -d -- "$word" ;;
    esac
}

complete -o filenames -F _h2audit h2audit
complete -o filenames -F _h2audit_any h2audit-any
complete -o filenames -F _h2audit_comment h2audit-comment
complete -o filenames -F _h2audit_fleet h2audit-fleet
complete -o filenames -F _h2audit_import h2audit-import
complete -o filenames -F _h2audit_merge h2audit-merge
complete -o filenames -F _h2audit_page h2audit-page
complete -o filenames -F _h2audit_plot h2audit-plot
complete -o filenames -F _h2audit_split h2audit-split
complete -o filenames -F _h2audit_why h2audit-why
