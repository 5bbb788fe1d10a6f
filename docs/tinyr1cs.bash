# Completion of tinyr1cs for bash: the commands, `waksman` and `16` where a last word may stand, else names of files.
_tinyr1cs() {
    local word=${COMP_WORDS[COMP_CWORD]} commands='asm disasm run build witness check extract listing trial shrink'
    COMPREPLY=()
    case $COMP_CWORD,${COMP_WORDS[1]} in
        1,*) mapfile -t COMPREPLY < <(compgen -W "$commands" -- "$word") ;;
        6,build | 7,witness | 8,extract) mapfile -t COMPREPLY < <(compgen -W waksman -- "$word") ;;
        4,disasm) mapfile -t COMPREPLY < <(compgen -W 16 -- "$word") ;;
        6,listing) mapfile -t COMPREPLY < <(compgen -W 'time cell' -- "$word") ;;
        *) mapfile -t COMPREPLY < <(compgen -f -- "$word") ;;
    esac
}
complete -o filenames -F _tinyr1cs tinyr1cs
