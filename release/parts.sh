# What the scripts share: which sources the program is of, the program that was built here, and the release. The caller sets
# `top`, the folder of the repository.
# shellcheck shell=sh disable=SC2154,SC2046,SC2086

crate=fretime
built=$top/crates/$crate/out/$crate
release=$top/release/fretime-x86_64-linux
record=$top/release/record
versions=$top/release/versions
known=$top/out/release.known
listed=$top/out/release.paths
lines=

# The lines of crates.txt of the program and of all that it stands on: name, options and libraries, without comments.
program_lines() {
    awk -v program="$crate" '
        { sub(/#.*/, ""); sub(/[ \t\r]+$/, "") }
        /^[A-Za-z0-9_-]/ {
            name = $1; sub(/:.*/, "", name)
            lines[name] = $0
            uses[name] = index($0, ":") ? substr($0, index($0, ":") + 1) : ""
        }
        function take(name,    words, count, k) {
            if (name in taken || !(name in lines)) return
            taken[name] = 1
            print lines[name]
            count = split(uses[name], words, /[ \t,]+/)
            for (k = 1; k <= count; k++) take(words[k])
        }
        END { take(program) }' "$top/crates.txt" | LC_ALL=C sort
}

# The folders of the program's sources, from the top.
source_folders() {
    echo "$lines" | while read -r name _; do
        for part in src specs proofs; do
            [ ! -d "$top/crates/${name%%:*}/$part" ] || echo "crates/${name%%:*}/$part"
        done
    done
}

# Sets `lines` and `folders`, once.
name_sources() {
    if [ -z "$lines" ]; then
        lines=$(program_lines)
        folders=$(source_folders)
    fi
}

# A line for each source of the program, its SHA-256 and its path, by path.
source_sums() {
    name_sources
    (cd "$top" && find $folders ! -type d \( -name '*.rt' -o -name '*.antt' \) -print0 |
        LC_ALL=C sort -z | xargs -0 sha256sum)
}

# The digest of the sources: the SHA-256 of the program's lines of crates.txt and of the sums of its sources.
sources_digest() {
    name_sources
    sum=$({ echo "$lines"; source_sums; } | sha256sum)
    echo "${sum%% *}"
}

# What the record of the release says of `sources`, `program` or `kit`.
recorded() {
    sed -n "s/^$1 //p" "$record" 2> /dev/null
}

# There is a program that was built here, and none of its sources is newer, nor a folder of them, which changes with the names in
# it.
is_built() {
    [ -x "$built" ] && name_sources && [ -z "$(cd "$top" && find crates.txt $folders -newer "$built" -print -quit 2>&1)" ]
}

# The release is of these sources.
is_of_these_sources() {
    [ -f "$release" ] && [ "$(recorded sources)" = "$(sources_digest)" ]
}

# The bytes of the release are those that were recorded.
is_as_recorded() {
    sum=$(sha256sum < "$release") && [ "$(recorded program)" = "${sum%% *}" ]
}

# The paths of each source, of each folder of them, of the crates' own folders, where others may come, and of each file of the release,
# each ended by a byte 0.
checked_paths() {
    name_sources
    (cd "$top" && find crates.txt release $folders -print0 && find $(echo "$folders" | sed 's|/[^/]*$||' | uniq) -prune -print0)
}

# The place on the disk, size and time of the last change of what has the paths of a list.
states_of() {
    (cd "$top" && xargs -0 stat -c '%i %s %.9Z' < "$1") 2> /dev/null
}

# The release is of these sources, as recorded, and runs here, or why not is in `why`. That it is gets remembered, where the folder
# is the user's own, together with the paths and states of all files, so that the next run neither looks for them nor reads one.
is_release_fit() {
    if [ -s "$known" ] && [ -s "$listed" ] && states_of "$listed" | cmp -s - "$known"; then return 0; fi
    states=$known.$$
    paths=$listed.$$
    # (the owner's folder stays the owner's)
    if [ -O "$top" ] && mkdir -p "$top/out" 2> /dev/null; then
        { checked_paths > "$paths" && states_of "$paths" > "$states"; } 2> /dev/null || true
    fi
    why=
    if ! [ -f "$release" ]; then
        why="there is no ${release#"$top/"}"
    elif ! is_of_these_sources; then
        why="the release is of other sources"
    elif ! is_as_recorded; then
        why="the release isn't the program that was recorded"
    elif ! [ -x "$release" ]; then
        why="${release#"$top/"} may not be run (its mode, or the mount's)"
    elif ! "$release" --version > /dev/null 2>&1; then
        why="the release doesn't run on this system (it needs glibc 2.34 or later)"
    elif [ -s "$states" ]; then
        mv -f "$paths" "$listed" && mv -f "$states" "$known"
    fi
    rm -f "$paths" "$states"
    [ -z "$why" ]
}

# Sets `program` to the one that ./fretime runs as things stand. Where there is none, says why in `why`.
choose_program() {
    program=$built
    if is_built; then return 0; fi
    program=$release
    system=$(uname -sm)
    why="there is no release for $system"
    [ "$system" = "Linux x86_64" ] && is_release_fit
}
