# shellcheck shell=sh
# sources.sh: the crates and the files that a program is made of. tools/unproved, tools/program and tools/release read this file in, with
# the repository's folder in `top` and the name of the program's crate in `name`.

# prints the lines of crates.txt for the crates that the program is made of, lowest first and without comments
chain() {
    awk -v top="$name" '
        { sub(/#.*/, ""); sub(/^[ \t]+/, "") }
        NF { split($0, half, ":"); split(half[1], left, " "); below[left[1]] = half[2] " "; lines[left[1]] = $0 }
        function add(name, parts, i, count) {
            if (!(name in below) || name in done) return
            done[name] = 1
            count = split(below[name], parts, " ")
            for (i = 1; i <= count; i++) add(parts[i])
            print lines[name]
        }
        END { add(top) }
    ' "$top/crates.txt"
}

# prints the names of these crates
crates() { chain | sed 's/[: ].*//'; }

# whether there is such a program
is_program() {
    case "$name" in '' | *[!a-z0-9_]*) return 1 ;; esac
    [ -f "$top/crates/$name/src/main.rt" ] && [ -n "$(chain)" ]
}

# prints which of the folders $1.. these crates have, below the repository's folder
folders() {
    for crate in $(crates); do
        for part; do
            if [ -d "$top/crates/$crate/$part" ]; then echo "crates/$crate/$part"; fi
        done
    done
}

# prints a sum of what comes in, of the lines of crates.txt, and of the sources in the folders $1.. of these crates
sum_with() {
    {
        cat
        chain
        # shellcheck disable=SC2046 # names of folders
        cd "$top" && find $(folders "$@") -type f -name '*.*t' -print0 | LC_ALL=C sort -z | xargs -0 sha256sum
    } | sha256sum | cut -c1-24
}

# prints where the proved program is, or will be
proved_program() { echo "$top/crates/$name/out/$name"; }

# prints a sum of what the program is proved from
proved_from() { cat "$top/HANDLES" 2> /dev/null | sum_with src specs proofs; }

sum_of() { sha256sum < "$1" | cut -d ' ' -f 1; }

# Writes beside the proved program $1 from which sources it was proved, those of the folder $3, with which kit, and what the log $2 of
# `rt ci` says of the proof.
note_proof() {
    {
        echo "sources: $(top=$3 && proved_from)"
        echo "kit: $(rt version)"
        echo "proof: $(verdict "$2")"
        echo "sha256: $(sum_of "$1")"
    } > "$1.proof"
}

# prints what a log of `rt ci` says of the proof of the program's crate: the line that ends the check, or that the proof is kept
verdict() {
    awk -v name="$name" '
        /^== / { inside = $0 == "== " name }
        inside && /^logic=/ { said = $0; inside = 0 }
        index($0, "rt: " name " is kept: ") == 1 && said == "" { said = $0 }
        END { print said }
    ' "$1"
}

# prints what the note beside the proved program $1 says of $2
noted() { sed -n "s/^$2: //p" "$1.proof" 2> /dev/null; }

# whether the proved program $1 is the one that its note was written of, and the sources are those that it was proved from
is_noted() { [ -f "$1.proof" ] && [ "$(noted "$1" sha256)" = "$(sum_of "$1")" ] && [ "$(noted "$1" sources)" = "$(proved_from)" ]; }
