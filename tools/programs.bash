# What tools/launch, tools/prebuilt and tools/install share: which program is built from the sources as they are now. It is read with
# `top` set to the top of the checkout. A checksum is remembered in out/launch with the times, sizes and inodes of the files that it was made
# of (the time of their last change of any kind, which nobody can put back); in a checkout that is read-only or another user's nothing is remembered.

set -o pipefail
. "$top/tools/sources.bash"
programs=(boundsyn boundsyn-show annotate)
memory=$top/out/launch
if ! { [ -O "$top" ] && mkdir -p -- "$memory" && [ -w "$memory" ]; } 2>/dev/null; then
    memory=
fi

# Where the build of a program puts it.
built_place() { printf '%s' "$top/crates/${1//-/_}/out/${1//-/_}"; }

# Puts what the command prints into `value`; where it is remembered under this name with this stamp, from there.
value_of() {
    local kept=$memory/$1 stamp=$2 known
    shift 2
    if [ -n "$memory" ] && [ -f "$kept" ] && known=$(<"$kept") && [ "${known#*$'\n'}" = "$stamp" ]; then
        value=${known%%$'\n'*}
        return
    fi
    value=$("$@") && [ -n "$value" ] && [ -n "$stamp" ] || return
    [ -z "$memory" ] || { printf '%s\n%s\n' "$value" "$stamp" >"$kept.$$" && mv -f -- "$kept.$$" "$kept"; } 2>/dev/null || true
}

# The checksum of a program's sources, of a file, and the line of `rt version`, each into `value`.
sources_of() { local lines && lines=$(crate_lines "${1//-/_}") && local stamp && stamp=$(sources_stamp "$lines") \
    && value_of "$1.sources" "$stamp" sources_sum "$lines"; }
sum_of_file() { sha256sum <"$1" | cut -d' ' -f1; }
sum_of() { [ -f "$2" ] && value_of "$1" "$(find "$2" -printf '%C@ %s %i')" sum_of_file "$2"; }
kit_place() { readlink -f -- "$(command -v rt)"; }
kit_version() { rt version | head -n 1; }
kit_of() { value_of kit "$(find "$(kit_place)" -printf '%p %s %T@')" kit_version; }

# What tells whether a source or the kit was changed.
build_stamp() { sources_stamp "$(crate_lines "${1//-/_}")" && find "$(kit_place)" -printf "%p %s %T@"; }

# Puts into `program` the one of this name that is built from the sources as they are: what was built here, else what is kept.
find_program() {
    local sources its_name= its_sources= its_sum= its_kit=
    sources_of "$1" 2>/dev/null && sources=$value || return
    program=$(built_place "$1")
    if [ -n "$memory" ] && [ -x "$program" ] && read -r its_sources its_sum its_kit 2>/dev/null <"$memory/$1.built" && [ "$its_sources" = "$sources" ] \
        && sum_of "$1.built-sum" "$program" && [ "$its_sum" = "$value" ] && { ! command -v rt >/dev/null || { kit_of && [ "$its_kit" = "$value" ]; }; }; then
        return
    fi
    program=$top/prebuilt/$1
    while read -r its_name its_sources its_sum its_kit && [ "$its_name" != "$1" ]; do :; done 2>/dev/null <"$top/prebuilt/built-from"
    [ "$HOSTTYPE-$OSTYPE" = x86_64-linux-gnu ] && [ -x "$program" ] && [ "$its_name $its_sources" = "$1 $sources" ] \
        && sum_of "$1.kept-sum" "$program" && [ "$its_sum" = "$value" ]
}
