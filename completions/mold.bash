# Completion for the programs mold and mold-join in bash. Run `. completions/mold.bash`. A shell loads it without that
# if install.sh installed it. tests/manual compares it with the help of the programs.

# The options of a command, with --help, which every command has.
_mold_options() {
    case $1 in
    show) printf '%s ' --request --capture --port --group --session ;;
    pack) printf '%s ' --session --limit --journal --blocks --end-at-empty ;;
    sim) printf '%s ' --session --limit --server-limit --window --receivers --burst ;;
    check) printf '%s ' --capture --port --group --session --journal --each --digest ;;
    extract) printf '%s ' --capture --port --group --session --to --blocks --lines --from --count ;;
    sessions) printf '%s ' --capture --port --group ;;
    publish) printf '%s ' --session --limit --a --b --journal --beats --ends --blocks --end-at-empty ;;
    feed) printf '%s ' --session --limit --a --b --interface-a --interface-b --ttl --journal --append --bind --burst \
        --rate --idle --beats --ends --open --linger --blocks --end-at-empty ;;
    serve) printf '%s ' --journal --follow --limit --burst --bind --turns --live ;;
    listen) printf '%s ' --session --next --window --a --b --server --burst --turns --live --report --blocks \
        --end-at-empty ;;
    receive) printf '%s ' --session --learn --next --from-now --a --b --source-a --source-b --server --any-responder \
        --window --store --patience --timeout --ceiling --requests --in-flight --give-up --audit --quiet --stats \
        --journal --no-sync --blocks --end-at-empty ;;
    loop) printf '%s ' --session --limit --server-limit --window --burst --drop-a --drop-b --turns --report \
        --blocks --end-at-empty ;;
    upgrade) printf '%s ' --journal --to --close ;;
    close) printf '%s ' --journal ;;
    dump) printf '%s ' --journal --follow --from --count --blocks --end-at-empty ;;
    esac
    printf '%s' --help
}

_mold_commands='show pack sim check extract sessions publish feed serve listen receive loop upgrade close dump help'

# Completes a file name with -f, or the name of a folder with -d.
_mold_files() {
    compopt -o filenames 2>/dev/null
    mapfile -t COMPREPLY < <(compgen "$1" -- "$2")
}

_mold_words() {
    mapfile -t COMPREPLY < <(compgen -W "$1" -- "$2")
}

_mold() {
    local word=${COMP_WORDS[COMP_CWORD]} before=${COMP_WORDS[COMP_CWORD - 1]} command=${COMP_WORDS[1]}
    COMPREPLY=()
    if [ "$COMP_CWORD" -eq 1 ]; then
        _mold_words "$_mold_commands --help --version" "$word"
        return
    fi
    # Bash splits `127.0.0.1:9000` at the colon and `--to=FILE` at the =. Each is a separate word.
    if [ "$word" = : ] || [ "$before" = : ]; then
        return
    elif [ "$word" = = ]; then
        word=
    elif [ "$before" = = ] && [ "$COMP_CWORD" -ge 3 ]; then
        before=${COMP_WORDS[COMP_CWORD - 2]}
    fi
    case $command:$before in
    help:*) _mold_words "$_mold_commands" "$word" ;;
    *:--journal | *:--to | *:--capture) _mold_files -f "$word" ;;
    *:--a | *:--b | *:--bind | *:--server)
        compopt -o nospace 2>/dev/null
        _mold_words '127.0.0.1: 0.0.0.0:' "$word"
        ;;
    show:--request | upgrade:--close | *:--live | *:--follow | *:--report | *:--learn | *:--from-now | \
        *:--no-sync | feed:--append | feed:--open | *:--each | *:--digest | extract:--blocks | extract:--lines)
        _mold_words "$(_mold_options "$command")" "$word"
        ;;
    *:--help) ;;
    *:--*) ;;
    check:* | extract:*) case $word in
        -*) _mold_words "$(_mold_options "$command")" "$word" ;;
        *) _mold_files -d "$word" ;;
        esac ;;
    *) _mold_words "$(_mold_options "$command")" "$word" ;;
    esac
}

_mold_join_options='--a --interface-a --source-a --b --interface-b --source-b --help --version'

# Completes the arguments that follow `--` as those of mold.
_mold_join() {
    local word=${COMP_WORDS[COMP_CWORD]} before=${COMP_WORDS[COMP_CWORD - 1]} at
    COMPREPLY=()
    for ((at = 1; at < COMP_CWORD; at++)); do
        if [ "${COMP_WORDS[at]}" = -- ]; then
            local COMP_WORDS=(mold "${COMP_WORDS[@]:at + 1}") COMP_CWORD=$((COMP_CWORD - at))
            _mold
            return
        fi
    done
    # The value of an option is a group and port, or an address, which Bash splits as in _mold.
    case $word:$before in
    [:=]:* | *:[:=] | *:--*) ;;
    *) _mold_words "$_mold_join_options --" "$word" ;;
    esac
}

complete -F _mold mold ./mold
complete -F _mold_join mold-join ./mold-join
