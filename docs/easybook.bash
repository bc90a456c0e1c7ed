# Completions for bash: source this file, or copy it as `easybook` into the folder of completions
# (~/.local/share/bash-completion/completions).

# The words that may stand next: each option but --script once, --live without --script and --workers, and files; behind
# -- one file alone.
_easybook() {
    local word=${COMP_WORDS[COMP_CWORD]} before=${COMP_WORDS[COMP_CWORD - 1]} each taken options
    COMPREPLY=()
    for each in "${COMP_WORDS[@]:1:COMP_CWORD-1}"; do
        [ "$each" = -- ] || continue
        [ "$before" != -- ] || mapfile -t COMPREPLY < <(compgen -f -- "$word")
        return
    done
    # bash cuts --procs=8 into three words.
    [ "$before" = '=' ] && before=${COMP_WORDS[COMP_CWORD - 2]}
    [ "$word" = '=' ] && word='' before=${COMP_WORDS[COMP_CWORD - 1]}
    case $before in
    --procs | --spacing | --workers) return ;;
    --script)
        mapfile -t COMPREPLY < <(compgen -f -- "$word")
        return
        ;;
    esac
    case $word in
    -*)
        taken=' ' options=''
        for each in "${COMP_WORDS[@]:1:COMP_CWORD-1}" "${COMP_WORDS[@]:COMP_CWORD+1}"; do
            case ${each%%=*} in
            --live) taken+='--live --script --workers ' ;;
            --script) taken+='--live ' ;;
            --workers) taken+='--workers --live ' ;;
            --procs | --spacing) taken+="${each%%=*} " ;;
            esac
        done
        for each in --procs --spacing --workers --live --script; do
            [[ $taken == *" $each "* ]] || options+="$each "
        done
        mapfile -t COMPREPLY < <(compgen -W "$options" -- "$word")
        ;;
    *) mapfile -t COMPREPLY < <(compgen -f -- "$word") ;;
    esac
}
complete -o filenames -F _easybook easybook
