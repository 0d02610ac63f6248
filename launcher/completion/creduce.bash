# Completion of creduce's words for bash.
_creduce() {
    local word=${COMP_WORDS[COMP_CWORD]} before=${COMP_WORDS[COMP_CWORD - 1]}
    case $before in
    --workers | --window | --limit | --steps | --passes) return ;;
    esac
    if [[ $word == -* ]]; then
        mapfile -t COMPREPLY < <(compgen -W '--workers --window --limit --steps --passes --journal --resume --standing --any-order --reached= --replay --report --help --version --explain' -- "$word")
    else
        mapfile -t COMPREPLY < <(compgen -f -- "$word")
    fi
}
complete -o filenames -F _creduce creduce
