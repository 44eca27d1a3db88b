# Completion of the words and files of netcov, for bash.
_netcov() {
    local word=${COMP_WORDS[COMP_CWORD]} before=${COMP_WORDS[COMP_CWORD-1]} k
    COMPREPLY=()
    for ((k = 1; k < COMP_CWORD; k++)); do
        if [[ ${COMP_WORDS[k]} == -- ]]; then
            mapfile -t COMPREPLY < <(compgen -f -- "$word")
            return
        fi
    done
    # bash makes a word of its own of the = in --rounds=5
    [[ $word == = ]] && word= && before=${COMP_WORDS[COMP_CWORD-1]}
    [[ $before == = ]] && before=${COMP_WORDS[COMP_CWORD-2]}
    case $before in
        --fat-tree) mapfile -t COMPREPLY < <(compgen -W "2 4 6 8" -- "$word") ;;
        --rounds) ;;
        *)
            if [[ $word == -* ]]; then
                mapfile -t COMPREPLY < <(compgen -W "--rounds --fat-tree --" -- "$word")
            else
                mapfile -t COMPREPLY < <(compgen -f -- "$word")
            fi
            ;;
    esac
}
complete -o filenames -F _netcov netcov
