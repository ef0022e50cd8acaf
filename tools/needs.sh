# Read with `.` from the repository's folder: what this machine has, by the rows of tools/packages.txt, and what the gate has built.
# shellcheck shell=bash

# row NAME: the row's other columns, divided by `|` alone
row() { sed -n -e 's/ *| */|/g' -e "s/^$1|//p" tools/packages.txt; }

# at_least LEAST VERSION
at_least() { [ "$(printf '%s\n' "$1" "$2" | sort -V | head -n 1)" = "$1" ]; }

# has NAME..: whether this machine has all of these; `lack` says what it has not
has() {
    local name shown least users said version
    for name in "$@"; do
        IFS='|' read -r _ shown least users <<< "$(row "$name")"
        [ -n "$users" ] || { echo "tools/packages.txt has no row $name" >&2 && exit 1; }
        lack="no $name"
        said=$(eval "$shown" 2> /dev/null < /dev/null) || return 1
        [ "$least" != - ] || continue
        version=$(head -n 1 <<< "$said" | cut -d ' ' -f 2)
        lack="$name $version, which is older than $least"
        at_least "$least" "$version" || return 1
    done
    lack=''
}

# needs NAME..: ends the script, which has passed, where this machine has not all of these
needs() { has "$@" || { echo "skipped: $lack" && exit 0; }; }

# built FILE..: ends the script, which has failed, where one of these is missing: rt ci or a script before this one builds it
built() {
    local file
    for file in "$@"; do
        [ -e "$file" ] || { echo "$file is missing: the gate builds it before $0" && exit 1; }
    done
}
