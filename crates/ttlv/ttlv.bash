# Completion of the command ttlv for bash. Written by codegen/completions.
_ttlv() {
    local word=${COMP_WORDS[COMP_CWORD]} before=${COMP_WORDS[COMP_CWORD - 1]} command= options=
    # bash takes `=` for a word of its own
    [ "$word" != = ] || word= before=$before=
    [ "$before" != = ] || before=${COMP_WORDS[COMP_CWORD - 2]}=
    case $before in
    --redact=) COMPREPLY=($(compgen -W 'all keys' -- "$word")); return ;;
    --width | --width=) COMPREPLY=(); return ;;
    --tag | --tag=) COMPREPLY=(); return ;;
    --get | --get=) COMPREPLY=(); return ;;
    --color | --color=) COMPREPLY=($(compgen -W 'always never auto' -- "$word")); return ;;
    --input | --input=) COMPREPLY=($(compgen -W 'raw hex base64 base64url pem xxd hexdump od tcpdump pcap pcapng' -- "$word")); return ;;
    --port | --port=) COMPREPLY=(); return ;;
    --prefix | --prefix=) COMPREPLY=(); return ;;
    esac
    [ "$COMP_CWORD" -gt 1 ] && command=${COMP_WORDS[1]}
    case $command in
    '') options='show html diag undiag check hex json xml from-xml from-json diff --help --version' ;;
    show) options='--redact --redact=all --redact=keys --secrets --strict --raw --find --offsets --lengths --bytes --width --tag --get --color --names --input --port --help' ;;
    html) options='--redact --redact=all --redact=keys --secrets --strict --width --tag --names --input --port --help' ;;
    diag) options='--prefix --closed --unclosed --strict --input --port --help' ;;
    undiag) options='--prefix --names --help' ;;
    check) options='--kmip --allow-empty --input --port --help' ;;
    hex) options='--strict --input --port --help' ;;
    json) options='--names --redact --redact=all --redact=keys --secrets --strict --input --port --help' ;;
    xml) options='--strict --input --port --help' ;;
    from-xml) options='--raw --help' ;;
    from-json) options='--raw --help' ;;
    diff) options='--names --input --port --help' ;;
    esac
    if [ -z "$command" ] || [[ $word == -* ]]; then
        COMPREPLY=($(compgen -W "$options" -- "$word"))
    fi
}
complete -o default -F _ttlv ttlv
