# What the launchers and ./install share: how a program is proved and built, and whether that is done. They set `root`.

# Sets `crate` and `program` for json5_fmt, json5_tidy, json5_edit, json5_convert or json5_check.
name_program() {
    name=$1
    crate=$name
    [[ $name == json5_fmt ]] || crate=${name}_program
    program=$root/crates/$crate/out/$crate
}

# Whether the program is built, and each source and folder is as it was then. The stamp has them all, each with the time of its last
# change, so they are looked at once, and no folder is read.
is_current() {
    local -a seen
    [[ -x $program && -f $program.stamp ]] || return
    mapfile -t seen < "$program.stamp"
    [[ ${#seen[@]} -gt 0 ]] && look_at "${seen[@]#* }" 2> /dev/null | cmp -s - "$program.stamp"
}

# Writes the time of the last change of each, and its name.
look_at() {
    (cd "$root" && exec stat -c '%.9Z %n' -- "$@")
}

# Sets `own` to the crates of this repository that these depend on, each after those that it depends on, and these.
declare -A named=() added=()
declare -a own=()
gather_crates() {
    local lower crates
    if [[ ${#named[@]} -eq 0 ]]; then
        while IFS=: read -r lower crates; do
            [[ $lower != [a-z]* ]] || named[$lower]=$crates
        done < "$root/crates.txt"
    fi
    own=() added=()
    for lower in "$@"; do
        add_crate "$lower"
    done
}

add_crate() {
    [[ ! -v added[$1] ]] || return 0
    local lower
    added[$1]=1
    for lower in ${named[$1]}; do
        [[ ! -v named[$lower] ]] || add_crate "$lower"
    done
    own+=("$1")
}

# Writes the stamp of the program that is to be built. It is made first, so that the next call sees a change that is made meanwhile.
begin_stamp() {
    local lower part
    local -a sources folders=()
    gather_crates "$crate"
    for lower in "${own[@]}"; do
        for part in src specs proofs; do
            [[ ! -d $root/crates/$lower/$part ]] || folders+=("crates/$lower/$part")
        done
    done
    mkdir -p "${program%/*}"
    mapfile -t sources < <(cd "$root" && find crates.txt "${folders[@]}")
    look_at "${sources[@]}" > "$program.stamp.new"
}

end_stamp() {
    mv "$program.stamp.new" "$program.stamp"
}

# Proves and builds the crates of `own` in turn: rt locks a crate's folder and those below it. The number of jobs is left to rt, since
# with one job a small crate takes less processor time.
build() {
    local part log minutes count=0
    if ! command -v rt > /dev/null; then
        echo "${0##*/}: the Rattle kit's command rt is not on the PATH" >&2
        exit 2
    fi
    log=$(mktemp)
    trap 'rm -f "$log"' EXIT
    SECONDS=0
    for part in "${own[@]}"; do
        count=$((count + 1))
        printf -v minutes '%d:%02d' $((SECONDS / 60)) $((SECONDS % 60))
        echo "${0##*/}: proving and building $part, $count of ${#own[@]}, $minutes elapsed" >&2
        (build_crate "$part") > "$log" 2>&1 || { cat "$log" >&2; exit 2; }
    done
    rm -f "$log"
    trap - EXIT
}

build_crate() {
    cd "$root/crates/$1"
    case $1 in
        # rt builds a program by running it: these need words, and the others read standard input without any.
        json5_edit_program | json5_check_program) exec rt run -- --version ;;
        json5_fmt | json5_tidy_program) exec rt run <<< null ;;
        *) exec rt lib ;;
    esac
}
