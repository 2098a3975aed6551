# Completion of the words of asm, for bash: source it, or let ./install put it where bash looks for it.
# Made by share/man/make --write.
_asm_options=$'--steps\n--script\n--turns\n--workers\n--cut\n--rounds\n--help\n--version'
_asm_plain=$'--steps\n--turns\n--workers\n--cut\n--rounds'
_asm() {
    local current="${COMP_WORDS[COMP_CWORD]}" before="${COMP_WORDS[COMP_CWORD - 1]}"
    COMPREPLY=()
    # A name with spaces stays one word.
    local IFS=$'\n'
    compopt -o filenames 2>/dev/null
    # Bash breaks --script=F into three words.
    if [ "$current" = "=" ]; then
        current=""
    elif [ "$before" = "=" ]; then
        before="${COMP_WORDS[COMP_CWORD - 2]}"
    fi
    case "$before" in
        --script)
            COMPREPLY=($(compgen -f -X '!*.script' -- "$current") $(compgen -d -- "$current"))
            return
            ;;
    esac
    case $'\n'"$_asm_plain"$'\n' in
        *$'\n'"$before"$'\n'*) return ;;
    esac
    case "$current" in
        -*)
            COMPREPLY=($(compgen -W "$_asm_options" -- "$current"))
            ;;
        *) COMPREPLY=($(compgen -f -X '!*.asm' -- "$current") $(compgen -d -- "$current")) ;;
    esac
}
complete -F _asm asm ./asm
