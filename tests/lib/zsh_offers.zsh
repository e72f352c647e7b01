# zsh_offers.zsh FOLDER LINE: prints what a zsh of its own offers, one a line, when a tab is typed behind a line, by the
# completions of a folder.
zmodload zsh/zpty
zpty shell zsh -f -i
zpty -w shell "PROMPT=; unsetopt zle_bracketed_paste; fpath=(${(q)1} \$fpath); autoload -Uz compinit; compinit -D -u"
# What is added as a match is printed, and what completers add to lists of their own isn't.
zpty -w shell 'compadd() {
    local -a matches
    if [[ ${@[1,(i)(-|--)]} != *-(O|A|D)\ * ]]; then
        builtin compadd -A matches "$@"
        print -rl -- ${matches/#/offered:}
    fi
    builtin compadd "$@"
}'
zpty -w shell 'ends() { print is ended; exit }; tab() { comppostfuncs=(ends); zle complete-word }'
zpty -w shell 'zle -N tab; bindkey "^I" tab; print is" "begun'
while zpty -r shell line && [[ $line != *'is begun'* ]]; do :; done
zpty -w -n shell "$2"$'\t'
while zpty -r shell line && [[ $line != *'is ended'* ]]; do
    line=${line//[$'\r\n']/}
    if [[ $line = *offered:* ]]; then print -r -- ${line#*offered:}; fi
done
zpty -d shell
