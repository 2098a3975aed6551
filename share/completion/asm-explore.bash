# Completion of the words of asm-explore, for bash: source it, or let ./install put it where bash looks for it.
# Made by share/man/make --write.
_asm_explore_all_options=$'--steps\n--turns\n--always\n--always-file\n--deadlock-unless\n--within\n--states\n--outcomes\n--workers\n--dot\n--dot-only\n--quiet\n--trace\n--table\n--progress\n--help\n--version'
_asm_explore_random_options=$'--steps\n--turns\n--always\n--always-file\n--deadlock-unless\n--outcomes\n--runs\n--seed\n--trace\n--table\n--progress\n--help\n--version'
_asm_explore_choices_options=$'--steps\n--turns\n--script\n--draw\n--always\n--always-file\n--help\n--version'
_asm_explore_clash_options=$'--steps\n--turns\n--script\n--always\n--always-file\n--help\n--version'
_asm_explore_show_options=$'--steps\n--turns\n--script\n--draw\n--always\n--always-file\n--only\n--width\n--html\n--json\n--help\n--version'
_asm_explore_plain=$'--steps\n--turns\n--always\n--deadlock-unless\n--within\n--states\n--outcomes\n--workers\n--dot-only\n--runs\n--seed\n--draw\n--only\n--width'
_asm_explore() {
    local current="${COMP_WORDS[COMP_CWORD]}" before="${COMP_WORDS[COMP_CWORD - 1]}" command="${COMP_WORDS[1]}"
    local commands=$'all\nrandom\nchoices\nclash\nshow\nhelp' options=$'--help\n--version'
    COMPREPLY=()
    # A name with spaces stays one word.
    local IFS=$'\n'
    compopt -o filenames 2>/dev/null
    # Bash breaks --always-file=F into three words.
    if [ "$current" = "=" ]; then
        current=""
    elif [ "$before" = "=" ]; then
        before="${COMP_WORDS[COMP_CWORD - 2]}"
    fi
    if [ "$COMP_CWORD" = 1 ]; then
        COMPREPLY=($(compgen -W "$commands"$'\n--help\n--version' -- "$current"))
        return
    fi
    case "$command" in
        all) options=$_asm_explore_all_options ;;
        random) options=$_asm_explore_random_options ;;
        choices) options=$_asm_explore_choices_options ;;
        clash) options=$_asm_explore_clash_options ;;
        show) options=$_asm_explore_show_options ;;
        help)
            COMPREPLY=($(compgen -W "$commands" -- "$current"))
            return
            ;;
    esac
    case "$before" in
        --always-file | --dot | --quiet)
            COMPREPLY=($(compgen -f -- "$current") $(compgen -d -- "$current"))
            return
            ;;
        --script)
            COMPREPLY=($(compgen -f -X '!*.script' -- "$current") $(compgen -d -- "$current"))
            return
            ;;
    esac
    case $'
'"$_asm_explore_plain"$'
' in
        *$'
'"$before"$'
'*) return ;;
    esac
    case "$current" in
        -*) COMPREPLY=($(compgen -W "$options" -- "$current")) ;;
        *) COMPREPLY=($(compgen -f -X '!*.asm' -- "$current") $(compgen -d -- "$current")) ;;
    esac
}
complete -F _asm_explore asm-explore ./asm-explore
