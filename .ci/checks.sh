# What scripts of the gate share that are written for bash: a folder of their own, and their checks and differences, counted and printed.
# It is read by `.`, in the folder of the repository. Each line begins with the name of the script.
SCRIPT=${0##*/}
checks=0
differences=0
# (where the output of a command goes elsewhere, it is another stream)
printed=1
room=$(mktemp -d) || exit 1
trap 'rm -rf "$room"' EXIT

# WORD..: what differs
differs() {
    differences=$((differences + 1))
    printf '%s: %s\n' "$SCRIPT" "$*" >&"$printed"
}

# WORD..: what is left out
left_out() {
    printf 'left out: %s: %s\n' "$SCRIPT" "$*" >&"$printed"
}

# WHAT COMMAND..: the command ends well, or its last lines are printed; so is what it leaves out
passes() {
    local what=$1
    shift
    checks=$((checks + 1))
    if "$@" >"$room/log" 2>&1; then
        grep '^left out: ' "$room/log" >&"$printed"
        return 0
    fi
    differs "$what"
    tail -n 25 "$room/log" >&"$printed"
    return 1
}

# WHAT COMMAND..: the command ends well; what it prints is printed
shows() {
    checks=$((checks + 1))
    "${@:2}" || differs "$1"
}

# WHAT FILE WANTED: the two files are the same
is_same() {
    checks=$((checks + 1))
    cmp -s "$2" "$3" || differs "$1: ${2#"$room/"} is not ${3#"$room/"}: $(head -c 300 "$2" 2>/dev/null | tr -cd '[:print:]\n')"
}

# WORD..: the script ends, and says this too of its checks where all passed; it fails where it made none
finish() {
    if [ "$differences" -gt 0 ] || [ "$checks" -eq 0 ]; then
        printf '%s: %s differences in %s checks\n' "$SCRIPT" "$differences" "$checks"
        exit 1
    fi
    printf '%s: %s checks passed%s\n' "$SCRIPT" "$checks" "${*:+, $*}"
    exit 0
}
