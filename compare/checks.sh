# Counting for comparisons in bash: sourced by their run.

passed=0
failed=0

# settle NAME STATUS: counts a check; names one that failed.
settle() {
    if [[ $2 -eq 0 ]]; then passed=$((passed + 1)); else failed=$((failed + 1)); echo "$1: failed"; fi
}

# holds NAME COMMAND..: a check that a command ends well.
holds() {
    local name=$1 status=0
    shift
    "$@" || status=1
    settle "$name" "$status"
}

# prints NAME FILE COMMAND..: a check that a command ends well and prints what the file holds.
prints() {
    local name=$1 expected=$2 status=0 printed
    shift 2
    printed=$(mktemp)
    "$@" >"$printed" || status=1
    diff "$expected" "$printed" >"$printed.diff" || { status=1; head -n 8 "$printed.diff"; }
    rm -f "$printed" "$printed.diff"
    settle "$name" "$status"
}

# add_up COMMAND..: adds the checks of a command that ends in 'N passed, M failed'.
add_up() {
    local said
    said=$("$@") || true
    if [[ $said =~ ([0-9]+)\ passed,\ ([0-9]+)\ failed$ ]]; then
        passed=$((passed + BASH_REMATCH[1]))
        failed=$((failed + BASH_REMATCH[2]))
        [[ ${BASH_REMATCH[2]} -eq 0 ]] || echo "$said"
    else
        settle "$*, which has no closing line" 1
    fi
}

# there PROGRAM: is it installed? Says so if not.
there() { command -v "$1" >/dev/null || { echo "$1 is not there: left out"; return 1; }; }

# header_compiles COMPILER WORDS..: a check that include/unlock.h alone compiles without a warning.
header_compiles() {
    holds "the header by $*" "$@" -pedantic -Wall -Wextra -Werror -fsyntax-only include/unlock.h
}

# finish: the closing line; the status says whether all passed.
finish() {
    echo "$passed passed, $failed failed"
    [[ $failed -eq 0 ]]
}
