# Completes the words of spinesd and its kit in bash.
_spinesd_options() {
    case $1 in
        daemon) echo --turns ;;
        generate) echo --seed ;;
        paths) echo --from --to --paths ;;
        ask) echo --port --local --turns --request ;;
    esac
}

_spinesd() {
    local now=${COMP_WORDS[COMP_CWORD]} before=${COMP_WORDS[COMP_CWORD - 1]} word command=
    for word in "${COMP_WORDS[@]:1:COMP_CWORD-1}"; do
        case $word in
            daemon | format | verify | ask | topology | paths | replay | generate) command=$word ;;
        esac
    done
    if [ -z "$command" ]; then
        mapfile -t COMPREPLY < <(compgen -W "daemon format verify ask topology paths replay generate" -- "$now")
    elif [[ $before != --* ]]; then
        mapfile -t COMPREPLY < <(compgen -W "$(_spinesd_options "$command")" -- "$now")
    fi
}

_spinesd_audit() {
    local now=${COMP_WORDS[COMP_CWORD]} before=${COMP_WORDS[COMP_CWORD - 1]}
    if [ "$COMP_CWORD" -eq 1 ]; then
        mapfile -t COMPREPLY < <(compgen -W "run rounds schedule journal" -- "$now")
    elif [[ $before == --* ]]; then
        COMPREPLY=()
    elif [[ ${COMP_WORDS[1]} == rounds && $now == --* ]]; then
        mapfile -t COMPREPLY < <(compgen -W "--path --from" -- "$now")
    else
        mapfile -t COMPREPLY < <(compgen -f -- "$now")
    fi
}

_spinesd_client() {
    local always="--session --wait --help"
    case ${COMP_WORDS[1]} in
        send) echo "$always --priority --expiry --paths --file --hex --once" ;;
        take) echo "$always --paths --priority --messages --hex" ;;
        listen) echo "$always --paths --priority --messages --seconds --hex" ;;
        bench) echo "$always --priority --expiry --paths --messages --size --seconds" ;;
        close) echo "$always --hex" ;;
        *) echo "send take listen bench close --help" ;;
    esac
}

_spinesd_kit() {
    local now=${COMP_WORDS[COMP_CWORD]} options
    case $1 in
        *-keys) options="seed make renew add publish --node --format --height --version --port --buffer --store --seeds --ledger --dry-run --program --help" ;;
        *-status) options="--json --prometheus --whole --every --out --help" ;;
        *-explain) options="--command --help" ;;
        *-view) options="--title --idle --lives --most --program --help" ;;
        *-sessions) options="close --program --help" ;;
        *-client) options="$(_spinesd_client)" ;;
        *-node) options="judge run wait verify prune --help" ;;
    esac
    mapfile -t COMPREPLY < <(compgen -W "$options" -- "$now")
    [ ${#COMPREPLY[@]} -gt 0 ] || mapfile -t COMPREPLY < <(compgen -f -- "$now")
}

complete -F _spinesd spinesd
complete -F _spinesd_audit -o filenames spinesd-audit
complete -F _spinesd_kit -o filenames spinesd-keys spinesd-status spinesd-sessions spinesd-client spinesd-explain spinesd-view spinesd-node
