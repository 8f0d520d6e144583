# made by 'wimmostry page bash' from the table of commands
_wimmostry() {
    local word=${COMP_WORDS[COMP_CWORD]} words=() at=$COMP_CWORD i
    for ((i = 1; i < COMP_CWORD; i++)); do
        case ${COMP_WORDS[i]} in -?*) at=$((at - 1)) ;; *) words+=("${COMP_WORDS[i]}") ;; esac
    done
    local known=''
    if [[ $word == -* ]]; then
        known='--replace --any-mode --quiet -q --json --margins --help -h --version -V'
    elif [ "$at" = 1 ]; then
        known='link draw offer reply finish rows session noise expand grow hash bench trace settings wipe demo help version'
    else
        case ${words[0]}:$at in
        link:2) known='open answer finish key close status' ;;
        rows:2) known='offer reply' ;;
        session:3) known='offer reply finish key close show' ;;
        hash:2) known='sha3-256 shake128' ;;
        settings:2) known='read write' ;;
        draw:2|offer:2|reply:2|finish:2|noise:2|bench:2|demo:2) known='bcns newhope frodo-challenge frodo-classical frodo-recommended frodo-paranoid' ;;
        esac
    fi
    if [ -n "$known" ]; then
        mapfile -t COMPREPLY < <(compgen -W "$known" -- "$word")
    else
        compopt -o filenames 2>/dev/null
        mapfile -t COMPREPLY < <(compgen -f -- "$word")
    fi
}
complete -F _wimmostry wimmostry
