# completion.bash: completion of the words of `plan` for bash. `make install` puts it where bash looks; from a
# work tree: `. tools/completion.bash`. It has no list of its own: verbs and options come from `plan --help`.
_plan() {
    local plan=${COMP_WORDS[0]} word=${COMP_WORDS[COMP_CWORD]} before=${COMP_WORDS[COMP_CWORD - 1]} words=''
    command -v -- "$plan" >/dev/null || plan=plan
    if [[ $before == --edition ]]; then
        mapfile -t COMPREPLY < <(compgen -W '1 2' -- "$word")
        return
    elif [[ $before == -o ]]; then
        words=''
    elif [[ $word == -* ]]; then
        words=$("$plan" --help 2>/dev/null |
            awk '/^Options:/ { on = 1; next } /^$/ { on = 0 } on { print $1 }')
    elif ((COMP_CWORD == 1)); then
        words=$("$plan" --help 2>/dev/null |
            awk '/^Verbs:/ { on = 1; next } /^$/ { on = 0 } on && $2 ~ /^[a-z]/ { print $2 }')
    elif [[ ${COMP_WORDS[1]} == explain ]]; then
        COMPREPLY=()
        return
    fi
    mapfile -t COMPREPLY < <(compgen -W "$words" -- "$word" || :; [[ $word == -* ]] || compgen -f -- "$word")
}
complete -o filenames -F _plan plan ./plan
