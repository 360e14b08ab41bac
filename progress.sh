# What ./run and ./lib share: a crate is proved and built in its own folder, with one line before it. Sourced by them, with `root` the
# repository's folder.
scratch=$(mktemp -d)
prover=

# Nothing that was started goes on behind an end: the prover is a process group of its own.
end() {
    [ -z "$prover" ] || kill -- "-$prover" 2>/dev/null || true
    rm -rf "$scratch"
}
trap end EXIT
trap 'exit 130' INT
trap 'exit 143' TERM HUP

# needed CRATE..: the crates that these stand on, and themselves.
needed() {
    awk -F: -v wanted="$*" '
        { sub(/#.*/, ""); split($1, head, " ") }
        NF > 1 { on[head[1]] = $2 }
        END {
            n = split(wanted, line, " ")
            for (i = 1; i <= n; i++) {
                if (!(line[i] in on) || seen[line[i]]++) continue
                print line[i]
                m = split(on[line[i]], below, " ")
                for (k = 1; k <= m; k++) line[++n] = below[k]
            }
        }
    ' "$root/crates.txt"
}

# stands CRATE FILE: this file of the crate's out/ was made after every file that it was proved from.
stands() {
    local built=$root/crates/$1/out/$2 crate part from=("$root/crates.txt")
    [ -e "$built" ] || return 1
    for crate in $(needed "$1"); do
        for part in src specs proofs; do
            [ ! -d "$root/crates/$crate/$part" ] || from+=("$root/crates/$crate/$part")
        done
    done
    [ -z "$(find "${from[@]}" -newer "$built" -print -quit)" ]
}

# prove CRATE FILE COMMAND..: proves and builds this file of the crate's out/ by the command, in the crate's folder, unless it stands. What
# the command says is shown only if it fails. A program's command runs it too, on no input.
prove() {
    local crate=$1 file=$2 status=0
    shift 2
    ! stands "$crate" "$file" || return 0
    echo "proving $crate and what it stands on, $(needed "$crate" | wc -l) crates, as far as they don't stand yet: from nothing this takes" \
        'long; if it is stopped, the next run goes on where it was.' >&2
    set -m
    (cd "$root/crates/$crate" && "$@") </dev/null >"$scratch/log" 2>&1 &
    prover=$!
    set +m
    wait "$prover" || status=$?
    prover=
    if [ "$status" -ne 0 ]; then
        cat "$scratch/log"
        exit 1
    fi
}
