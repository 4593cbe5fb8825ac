# Sourced by the scripts that make something of the crates.

# Runs a command in a crate's folder. What it says is shown where it fails.
in_crate() { # NAME WORD..
    local said
    echo "$1: proving what has changed, and building"
    said=$(cd "crates/$1" && "${@:2}" 2>&1 </dev/null) || { printf '%s\n' "$said" >&2; return 1; }
}

# Whether FILE is there and no source of the crates is newer.
is_fresh() { # FILE
    [ -e "$1" ] && [ -z "$(find crates.txt crates -name out -prune -o -type f -newer "$1" -print -quit)" ]
}
