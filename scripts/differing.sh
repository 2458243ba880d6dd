# Sourced by compare and slips: finds and shows the first record on which two files of lines part.

# The number of the first line at which files $1 and $2 differ, or nothing.
first_difference() {
    awk -v other="$2" '
        { more = getline line < other; if (more < 1 || line != $0) { print NR; found = 1; exit } }
        END { if (!found && (getline line < other) > 0) print NR + 1 }
    ' "$1"
}

# Shows record $2 of the files in folder $1, by the oracle in folder $3.
show_record() {
    "$3/lesc" show --calls "$1/calls" --record "$2"
    echo "  expected: $(sed -n "${2}p" "$1/lines")"
    echo "  bench:    $(sed -n "${2}p" "$1/answers")"
    echo "  known difference: $(awk -v n="$2" '$1 == n { print $2; found = 1 } END { if (!found) print "none" }' "$1/marks")"
}
