# Runs and counts checks, for the scripts in this folder. They read this file with `.`, after setting `scratch` to a
# folder for temporary files.

passed=0
failed=0

# Runs a check: a function that succeeds, or prints the reason and fails. Its input is empty.
check() {
    name=$1
    shift
    if ("$@") >"$scratch/why" 2>&1 </dev/null; then
        passed=$((passed + 1))
        printf 'passed  %s\n' "$name"
    else
        failed=$((failed + 1))
        printf 'FAILED  %s\n' "$name"
        head -c 2000 "$scratch/why" | sed 's/^/        /'
    fi
}

# Runs the checks of a script in their order. A check is a function whose name begins with `test_`. Its title is a
# common prefix and the rest of its name, with spaces. If names are given, only the checks whose names contain one of
# them run.
check_each() {
    check_script=$1 check_prefix=$2
    shift 2
    sed -n 's/^test_\([a-z0-9_]*\)() {$/\1/p' "$check_script" >"$scratch/checks"
    while IFS= read -r check_name; do
        if [ $# -eq 0 ] || printf '%s\n' "$check_name" | grep -q "$(printf '%s\n' "$@")"; then
            check "$check_prefix: $(printf '%s' "$check_name" | tr _ ' ')" "test_$check_name"
        fi
    done <"$scratch/checks"
}

# Succeeds if the files GOT and WANTED have the same content. WHAT names the file in the message.
is_same() {
    what=$1 got=$2 wanted=$3
    [ "$(sha256sum <"$got")" = "$(sha256sum <"$wanted")" ] && return
    printf '%s is:\n' "$what"
    head -c 600 "$got"
    printf '\nand should be:\n'
    head -c 600 "$wanted"
    printf '\n'
    return 1
}

# Succeeds if a status is the expected one.
is_status() {
    [ "$1" -eq "$2" ] && return
    printf 'the status is %s, and should be %s\n' "$1" "$2"
    return 1
}

# Prints the counts as the last line, and succeeds if nothing failed.
print_counts() {
    printf '%s passed, %s failed\n' "$passed" "$failed"
    [ "$failed" -eq 0 ]
}
