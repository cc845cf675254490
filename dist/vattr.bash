# Completion of vattr for bash. Made by dist/pages from docs/COMMAND_LINE.md: change it there.
_vattr() {
    local word=${COMP_WORDS[COMP_CWORD]} before=${COMP_WORDS[COMP_CWORD-1]} given names=() it
    # (readline parts `--kind=array` at the sign)
    [[ $word != = ]] || word=
    [[ $before != = ]] || before=${COMP_WORDS[COMP_CWORD-2]}
    COMPREPLY=()
    given=" ${COMP_WORDS[*]:1:COMP_CWORD-1} "
    [[ $given != *' -- '* ]] || return
    case $before in
    --kind) mapfile -t COMPREPLY < <(compgen -W 'single array weightedset' -- "$word"); return ;;
    --value) mapfile -t COMPREPLY < <(compgen -W 'long string' -- "$word"); return ;;
    --field|--readers|--batch|--rounds|--buffers|--words|--make|--seed|--also) return ;;
    esac
    # an option is given once
    for it in --kind --value --field --readers --batch --rounds --buffers --words --after --make --seed --wide --dense --also --save --help; do
        [[ $given == *" $it "* ]] || names+=("$it")
    done
    [[ $word && $word != -* ]] || mapfile -t COMPREPLY < <(compgen -W "${names[*]}" -- "$word")
}
complete -F _vattr vattr
