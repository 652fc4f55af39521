# shellcheck shell=bash
# What tools/run, viewer/build, ./stages and others share; sourced, by bash with `set -euo pipefail`. It tells proofs
# while they are made, and keeps stamps, by which what was built before runs at once and needs neither rt nor a folder
# to write to. rt makes programs in crates/NAME/out/, and all else that is built lies in target/.
# The script that sources it sets `root`, the repository, and `me`, the name that it tells things under.
: "${root:?}" "${me:?}"

# What the viewer, stages, is built from besides the crate `viewer_c`.
# shellcheck disable=SC2034 # used by the scripts that source this
viewer_sources=(viewer/stages viewer/refusals.c viewer/names.def viewer/build include/uzrafmed.h)

# The crates that a crate is built from, itself first, in `crates`: crates_of NAME. Those of the toolchain are left out.
crates_of() {
    local line name i
    local -A needs=() seen=([$1]=yes)
    while IFS= read -r line || [ -n "$line" ]; do
        [[ ${line%%#*} =~ ^[[:blank:]]*([A-Za-z0-9_]+)([[:blank:]][^:]*)?:(.*)$ ]] || continue
        needs[${BASH_REMATCH[1]}]=${BASH_REMATCH[3]}
    done <"$root/crates.txt"
    crates=("$1")
    for ((i = 0; i < ${#crates[@]}; i++)); do
        for name in ${needs[${crates[i]}]:-}; do
            if [ -z "${seen[$name]:-}" ] && [ -d "$root/crates/$name" ]; then
                seen[$name]=yes
                crates+=("$name")
            fi
        done
    done
}

# Prints a checksum of the sources of a crate and of those that it is built from, and of files and folders beside
# them, which are named as from the repository's folder: checksum CRATE PATH.. It fails where one of them is missing.
checksum() {
    local name part crates=() folders=()
    crates_of "$1"
    for name in "${crates[@]}"; do
        for part in src specs proofs; do
            [ ! -d "$root/crates/$name/$part" ] || folders+=("crates/$name/$part")
        done
    done
    (
        cd "$root" || exit
        find crates.txt "${folders[@]}" "${@:2}" -type f -print0 | LC_ALL=C sort -z | xargs -0 sha256sum | sha256sum
    ) 2>/dev/null
}

# A stamp is target/built/NAME: the checksum of what is built and of what it is built from.
#
# Whether it agrees with the tree: is_built NAME CRATE PATH..
is_built() {
    local stamp=$root/target/built/$1 lines=()
    [ -f "$stamp" ] && [ -r "$stamp" ] || return 1
    mapfile -t lines 2>/dev/null <"$stamp"
    [ ${#lines[@]} -eq 1 ] && [ "${lines[0]}" = "$(checksum "${@:2}")" ]
}

# Writes it, if the sources are still those of a checksum that was taken before the build, with the same paths but the
# last, which is what was built: stamp NAME BEFORE CRATE PATH.. Without a stamp the next run asks rt again.
stamp() {
    local name=$1 before=$2 now after
    shift 2
    now=$(checksum "${@:1:$#-1}") || return 0
    after=$(checksum "$@") || return 0
    [ "$now" = "$before" ] || return 0
    {
        mkdir -p "$root/target/built" &&
            printf '%s\n' "$after" >"$root/target/built/$name.$$" &&
            mv -f "$root/target/built/$name.$$" "$root/target/built/$name"
    } 2>/dev/null || rm -f "$root/target/built/$name.$$" 2>/dev/null || true
}

# Whether target/ can be written, and a crate's folder if one is named: writable [CRATE]
writable() {
    mkdir -p "$root/target" 2>/dev/null && [ -w "$root/target" ] && [ -w "$root/crates/${1:-}" ]
}

# Copies files and folders of the repository to a folder, without what rt made in crates/NAME/out: copied TO PATH..
copied() {
    tar -C "$root" -c --no-wildcards-match-slash --exclude='crates/*/out' "${@:2}" | tar -C "$1" -xp
}

# What rt said of a crate is kept in target/log/NAME.say, behind the checksum of what it was said of, for tools/assumed:
# keep_said CRATE CHECKSUM <TEXT
keep_said() {
    {
        mkdir -p "$root/target/log" && { printf '%s\n' "$2" && cat; } >"$root/target/log/$1.say"
    } 2>/dev/null || true
}

# Runs rt in a crate's folder with the words given, and hands its status on: prove WHAT CRATE WORD.. It tells on
# standard error that WHAT is being built, once that takes time, and then each proof that was made; if rt fails, also
# what it said.
prove() {
    local what=$1 crate=$2 told=no said='' line='' piece='' ended status=0 proving='' since=0 before
    shift 2
    before=$(checksum "$crate") || before=none
    # A group of its own, so that the proofs end with this script.
    exec 3< <(cd "$root/crates/$crate" && exec setsid rt "$@" </dev/null 2>&1)
    local prover=$!
    # shellcheck disable=SC2064 # the number as it is now
    trap "kill -- -$prover 2>/dev/null; exit 1" TERM HUP INT
    # rt says little while it proves. So if no line comes for two seconds, something is being proved.
    while true; do
        ended=0
        IFS= read -r -t 2 -u 3 piece || ended=$?
        line+=$piece
        if [ $ended -gt 128 ] || [[ $line == logic=proved\ * ]]; then
            [ $told = yes ] || echo "$me: proving and building $what; the first time this takes some minutes" >&2
            told=yes
        fi
        [ $ended -le 128 ] || continue
        said+=$line
        [ $ended -eq 0 ] || break
        if [[ $line =~ ^rt:\ chose\ --jobs\ [0-9]+\ for\ ([a-z0-9_]+)$ ]]; then
            proving=${BASH_REMATCH[1]} since=$SECONDS
        elif [[ $line == logic=proved\ * && -n $proving ]]; then
            echo "$me: $proving proved ($((SECONDS - since)) s)" >&2
            proving=''
        fi
        said+=$'\n' line=''
    done
    exec 3<&-
    wait "$prover" || status=$?
    trap - TERM HUP INT
    if [ $status -eq 0 ]; then
        keep_said "$crate" "$before" <<<"$said"
    else
        printf '%s' "$said" >&2
    fi
    return $status
}

# Makes the archive of the C face, target/staticlib/libviewer.a: the static library of crates/viewer_c, under the name
# that C programs know. It fails if rt does. `archive` is its place.
archive=$root/target/staticlib/libviewer.a
archive_is_built() { is_built archive viewer_c target/staticlib/libviewer.a; }
make_archive() {
    local before
    ! archive_is_built || return 0
    before=$(checksum viewer_c) || before=none
    prove 'the archive of the reader' viewer_c lib || return
    mkdir -p "${archive%/*}" && cp "$root/crates/viewer_c/out/libviewer_c.a" "$archive.$$" &&
        mv -f "$archive.$$" "$archive" || return
    stamp archive "$before" viewer_c target/staticlib/libviewer.a
}
