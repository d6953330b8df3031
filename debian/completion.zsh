#compdef leafrunt routerd hooktool
# Completion for zsh: what that for bash finds.
. "${LEAFRUNT_COMPLETION:-/usr/share/bash-completion/completions/leafrunt}"

_leafrunt_in_zsh()
{
    local word command='' found
    for word in "${words[@]:1:$((CURRENT - 2))}"; do
        [[ $word == -* ]] || { command=$word; break; }
    done
    found=(${(f)"$(_leafrunt_words "$words[1]" "$command" "$words[CURRENT - 1]" "$words[CURRENT]")"})
    if (( $#found )); then
        compadd -- $found
    else
        _files
    fi
}

(( ! ${+compstate} )) || _leafrunt_in_zsh
