# Completion of s66 for bash: subcommands and options as s66 --help and s66 SUBCOMMAND -h list them, and files.
_s66() {
    local word=${COMP_WORDS[COMP_CWORD]} sub=${COMP_WORDS[1]}
    case $COMP_CWORD,$word in
    1,-*) COMPREPLY=($(compgen -W "--help --version" -- "$word")) ;;
    1,*) COMPREPLY=($(compgen -W "$(s66 --help | sed -n 's/^  \([a-z]\{3,\}\)  .*/\1/p')" -- "$word")) ;;
    *,-*) COMPREPLY=($(compgen -W "$(s66 "$sub" -h | sed -n 's/^ *\(-., \)\{0,1\}\(--[a-z-]*\).*/\2/p; s/^  \(-[a-z]\)$/\1/p')" -- "$word")) ;;
    *) COMPREPLY=() ;;
    esac
}
complete -o default -F _s66 s66
