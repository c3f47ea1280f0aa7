# What the build of a program reads, for tools/programs.bash: `top` is the top of the checkout.

# The lines of crates.txt for a crate and all that it stands on.
crate_lines() {
    awk -F: -v crate="$1" '
        /^[A-Za-z_]/ { split($1, head, " "); line[head[1]] = $0; below[head[1]] = $2 }
        END {
            if (!(crate in line)) exit 1
            todo[1] = crate
            count = 1
            for (at = 1; at <= count; at++) {
                name = todo[at]
                if (!(name in line) || name in seen) continue
                seen[name] = 1
                print line[name]
                words = split(below[name], next_names, " ")
                for (word = 1; word <= words; word++) todo[++count] = next_names[word]
            }
        }' "$top/crates.txt" | LC_ALL=C sort
}

# Runs find over the files that the build of these crates reads, HANDLES and those in their src, specs, proofs and c, in the top folder.
find_sources() {
    local lines folders=() name part
    mapfile -t lines <<<"$1"
    shift
    cd -- "$top" || return
    for name in "${lines[@]%%[ :]*}"; do
        [ -d "crates/$name/src" ] || return
        for part in src specs proofs c; do
            [ ! -d "crates/$name/$part" ] || folders+=("crates/$name/$part")
        done
    done
    find HANDLES "${folders[@]}" ! -type d "$@"
}

# What tells whether a source was changed, also where its time or its bytes were put back.
sources_stamp() { { printf '%s\n' "$1" && find_sources "$1" -printf '%C@ %s %i %p\n'; } | sha256sum; }

sources_sum() {
    { printf '%s\n' "$1" && find_sources "$1" -print0 | LC_ALL=C sort -z | (cd -- "$top" && xargs -0 sha256sum --); } | sha256sum | cut -d' ' -f1
}
