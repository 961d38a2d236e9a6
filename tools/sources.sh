# What the program is made from, for the scripts beside it. `top` is the repository's folder.

# The program that was built here, and the one in the repository.
built=$top/crates/swimsim/out/swimsim
shipped=$top/dist/swimsim-x86_64-linux-gnu

# The crates of the repository that stand below one, and it itself, a line each, sorted.
crates_below() {
    awk -v wanted="$1" '
        { sub(/#.*/, "") }
        split($0, halves, ":") == 2 {
            split(halves[1], name, " ")
            below[name[1]] = halves[2]
        }
        END {
            stack[1] = wanted
            for (left = 1; left > 0;) {
                crate = stack[left--]
                if (!(crate in below) || crate in found) continue
                found[crate] = 1
                count = split(below[crate], names, " ")
                for (place = 1; place <= count; place++) stack[++left] = names[place]
            }
            for (crate in found) print crate
        }' "$top/crates.txt" | LC_ALL=C sort
}

# The files of the program's sources, sorted, a zero byte after each: those that a build reads. What an editor or a
# system leaves beside them counts for nothing, nor does a folder out/. The program's lines of crates.txt are apart.
source_files() {
    local crate code=() logic=()
    for crate in $(crates_below swimsim); do
        code+=("crates/$crate/src")
        logic+=("crates/$crate/specs" "crates/$crate/proofs")
    done
    {
        find "${code[@]}" -name out -prune -o -type f -name '*.rt' -print0
        find "${logic[@]}" -name out -prune -o -type f -name '*.antt' -print0
    } 2>/dev/null | LC_ALL=C sort -z
}

# The SHA-256 over all that the program is made from: its crates' lines of crates.txt, and its crates' files. The
# lines that tell this very digest and the kit's name count as left out of the file in which they stand.
sources_digest() (
    cd "$top" || exit 1
    {
        for crate in $(crates_below swimsim); do
            grep "^$crate[ :]" crates.txt
        done
        source_files | grep -zv "^$release_file$" | xargs -0 sha256sum
        grep -Ev '^pub const (SOURCES|KIT):' "$release_file"
    } | sha256sum | cut -d ' ' -f 1
)

# Where the program's crate tells its version, its sources' digest and its kit.
release_file=crates/swimsim/src/release.rt

# The value of one of the release's constants, as VERSION.
release_value() {
    sed -nE "s/^pub const $1: &str = *\"(.*)\";/\1/p" "$top/$release_file"
}

# The SHA-256 of a file.
digest_of() {
    sha256sum <"$1" | cut -d ' ' -f 1
}

# The value that a file of lines `NAME VALUE` gives a name, nothing where it has none.
value_in() {
    sed -n "s/^$2 //p" "$1" 2>/dev/null
}

# Whether the program that was built here is made from sources with this digest, by the kit that is there, if one is.
is_built_fit() {
    [[ -x $built && $(value_in "$built.made" sources) == "$1" ]] || return 1
    ! command -v rt >/dev/null || [[ $(value_in "$built.made" kit) == "$(rt version)" ]]
}

# Whether what a build takes is there. Where it isn't, a sentence that begins with what the build is for says what is missing.
has_kit() {
    local tool
    for tool in rt python3; do
        if ! command -v "$tool" >/dev/null; then
            echo "swimsim: $1 needs Rattle's kit (rt) and Python 3.11 (python3), and there is no $tool on the path" >&2
            return 127
        fi
    done
}

# Writes today's digest and kit into the program's crate, where they aren't there yet.
stamp_release() {
    local sources kit stamped
    sources=$(sources_digest) && kit=$(rt version) || return 1
    stamped=$(sed -E -e "s/^(pub const SOURCES: &str =).*/\1 \"$sources\";/" -e "s/^(pub const KIT: &str =).*/\1 \"$kit\";/" \
        "$top/$release_file") || return 1
    [[ $stamped == "$(cat "$top/$release_file")" ]] || printf '%s\n' "$stamped" >"$top/$release_file"
}

# A copy of a program without what only a debugger reads, by the kit's own tool, so that it is the same everywhere.
strip_program() {
    local kit
    kit=$(dirname "$(dirname "$(readlink -f "$(command -v rt)")")") || return 1
    (exec -a llvm-strip "$kit/toolchain/bin/clang" --strip-all -o "$2" "$1")
}
