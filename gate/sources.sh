# What the program is, for the scripts that run, install or release it: sourced by bash, with `top` as the repository's folder. Bash and
# coreutils are all that it takes, since it also runs where there is no kit.

program=$top/crates/sr_cli/out/sr_cli
manifest=$top/release/MANIFEST
unpacked=$top/release/out

say() {
    echo "seamless: $*" >&2
}

# What stands behind the colon of each crate in crates.txt.
declare -A below=()
while IFS= read -r line; do
    line=${line%%#*}
    if [[ $line == *:* ]]; then
        name=${line%%:*}
        below[${name%% *}]=${line#*:}
    fi
done <"$top/crates.txt"

# need CRATE: puts it behind the crates of this repository that it stands on, in `needed`, lowest first.
needed=()
need() {
    local name
    [[ " ${needed[*]-} " == *" $1 "* ]] && return
    for name in ${below[$1]}; do
        [ -z "${below[$name]+here}" ] || need "$name"
    done
    needed+=("$1")
}

# What the program and the C library are made of, as paths from the repository's folder, in an order of its own: the crates that they need, with
# crates.txt, and what of the C library is C.
sources() (
    cd "$top" || exit
    LC_ALL=C
    shopt -s globstar nullglob
    needed=()
    need sr_cli
    [ -z "${below[sr_c]+here}" ] || need sr_c
    printf '%s\0' crates.txt clib/{Makefile,processor.c,seamless.map,include/*.h}
    for name in "${needed[@]}"; do
        printf '%s\0' "crates/$name/"{src,specs,proofs}/**/*.{rt,antt}
    done
)

# One sum over all of that, with its paths.
sum_of_sources() {
    local sum
    sum=$(cd "$top" && sources | LC_ALL=C xargs_0 sha256sum 2>/dev/null | sha256sum) && echo "${sum%% *}"
}

# xargs_0 COMMAND..: runs a command with the words of standard input, which end in a zero, as its last arguments. (xargs is none of coreutils.)
xargs_0() {
    local words
    mapfile -d '' words
    "$@" "${words[@]}"
}

# manifest_has KEY: what the release says of that.
manifest_has() {
    local key value
    while read -r key value; do
        [ "$key" = "$1" ] && echo "$value" && return
    done <"$manifest"
    return 1
}

# is_fresh: whether the released program lies unpacked, and nothing that it is made of was changed since.
is_fresh() {
    local file
    [ -x "$unpacked/seamless" ] && ! [ "$manifest" -nt "$unpacked/seamless" ] || return
    # A folder is younger than a file that came into it or went.
    while IFS= read -r -d '' file; do
        [ "$top/$file" -nt "$unpacked/seamless" ] || [ "$top/${file%/*}" -nt "$unpacked/seamless" ] && return 1
    done < <(sources)
    return 0
}

# unpack NAME FILE: puts a file of the release in its place once, if its sum is that of the manifest.
unpack() {
    local made sum
    made=$(mktemp "$unpacked/$2.XXXXXX") || return
    if gzip -dc "$top/release/$1.gz" >"$made" && sum=$(sha256sum <"$made") && [ "${sum%% *}" = "$(manifest_has "$1")" ]; then
        chmod +x "$made" && mv "$made" "$unpacked/$2"
    else
        rm -f "$made"
        say "release/$1.gz is not what release/MANIFEST says"
        return 1
    fi
}

# is_released: whether the release is of this tree and runs here. Its program lies unpacked then.
is_released() {
    [ "${SEAMLESS_BUILD-}" != 1 ] && [ -f "$manifest" ] && [ "$(uname -sm)" = 'Linux x86_64' ] || return
    is_fresh && return
    [ "$(sum_of_sources)" = "$(manifest_has sources)" ] && mkdir -p "$unpacked" && unpack seamless-x86_64-linux seamless
}
