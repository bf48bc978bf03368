# Sourced by the scripts at the root, with $root set.

# tell TEXT: to standard error, under the script's name
tell() {
    printf '%s: %s\n' "${0##*/}" "$1" >&2
}

# cannot TEXT: the same, and the end
cannot() {
    tell "$1"
    exit 2
}

# is_open N: descriptor N is open. The number of a closed one would be given to the next file that is opened
is_open() {
    { : 9>&"$1"; } 2>/dev/null
}

# fresh FILE CRATE: the file is there, and no code of the crate, or of one that it stands on, is newer. Definitions and proofs are no part of what is
# built, so they are not looked at: this runs for every sheet.
fresh() {
    local line crate file
    [ -e "$1" ] || return 1
    while read -r line; do
        case $line in
        "$2:"* | "$2 "*) break ;;
        esac
    done <"$root/crates.txt"
    for file in "$root/crates.txt" "$root/crates/$2"/src/*; do
        [ ! "$file" -nt "$1" ] || return 1
    done
    for crate in ${line#*:}; do
        for file in "$root/crates/$crate"/src/*; do
            [ ! "$file" -nt "$1" ] || return 1
        done
    done
}

# take FILE CRATE MADE: the file is what rt made of the crate. It is put in place whole, also where the old one is running
take() {
    mkdir -p "${1%/*}" && cp "$root/crates/$2/out/$3" "$1.$$" && mv -f "$1.$$" "$1"
}

# prove FILE CRATE WORD MADE: has rt build the crate, by `rt WORD` in its folder, say which crate it is at, and takes what it made
prove() {
    command -v rt >/dev/null || cannot "the Rattle toolchain's command 'rt' is not on this machine, and what it builds is missing or out of date"
    tell "building; every part is proved first, which takes some minutes"
    (cd "$root/crates/$2" && rt "$3" 2>&1 </dev/null | sed -u -n '/^rt: running /d; /^rt: /p' >&2) || cannot "the build failed; 'rt $3' in crates/$2 says why"
    take "$1" "$2" "$4" || cannot "what was built could not be copied"
}
