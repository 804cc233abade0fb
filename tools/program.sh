# shellcheck shell=bash
# What banthruy and tools/release share: what the program is made of and the checksum of that, the
# program in release/, and how the program is proved and built. Whoever reads this file has set
# `root`, the top of the repository. `sum` is the checksum, and `program` a file that can be run.

root=$(CDPATH='' cd -- "$root" && pwd)

# The crate of the program.
top_crate=dy_main

# The name under which things are said, and the status of what fails.
me=banthruy
status_of_failure=6

say() {
    echo "$me: $1" >&2
}

fail() {
    say "$1"
    exit "$status_of_failure"
}

# ---- What the program is made of

# Sets `rt`, the command, `kit`, its folder, and `kit_id`, the line that names it. Where there is no
# kit, the first two are empty, and the line is that of the kit which made the program in release/.
find_kit() {
    local found
    for found in "$(type -P rt)" /opt/rattle/bin/rt; do
        found=$(readlink -f -- "$found") || continue
        kit=${found%/bin/rt}
        if [[ -x $found && -r $kit/KIT-ID ]]; then
            rt=$found
            read -r kit_id <"$kit/KIT-ID"
            return
        fi
    done
    rt='' kit=''
    kit_id=$(read_release kit)
    [[ -n $kit_id ]]
}

# Ends where there is no kit.
need_kit() {
    [[ -n $rt ]] || fail "the command rt of the Rattle kit is not found, to prove the program"
}

# Prints the lines of crates.txt, in the folder $1, of the crates that the program is made of.
list_crates() {
    awk -v top="$top_crate" '
        { sub(/#.*/, "") }
        /:/ {
            split($0, side, ":"); split(side[1], word, " ")
            line[++count] = $0; name[count] = word[1]; libraries[word[1]] = side[2]
        }
        END {
            wanted[top]
            do {
                grew = 0
                for (i = 1; i <= count; i++) if (name[i] in wanted) {
                    split(libraries[name[i]], library, " ")
                    for (j in library) if (library[j] in libraries && !(library[j] in wanted)) {
                        wanted[library[j]]; grew = 1
                    }
                }
            } while (grew)
            for (i = 1; i <= count; i++) if (name[i] in wanted) print line[i]
        }' "$1/crates.txt"
}

# Sets `crates` to the names of these crates, in the order of crates.txt, and `folders` to the
# folders below $1 that hold their sources.
find_crates() {
    local line name part
    crates=() folders=()
    while read -r line; do
        name=${line%%[: ]*}
        crates+=("$name")
        for part in src specs proofs; do
            [[ ! -d $1/crates/$name/$part ]] || folders+=("crates/$name/$part")
        done
    done < <(list_crates "$1")
    ((${#folders[@]} > 0))
}

# Prints the SHA-256 of each source below the folder that the caller stands in, by their names.
list_sources() {
    find HANDLES "${folders[@]}" -type f -print0 | LC_ALL=C sort -z | xargs -0 sha256sum --
}

# Prints the checksum of all that the program is made of: the kit, and the sources in the folder $1.
take_sum() (
    cd -- "$1" && find_crates . &&
        { printf '%s\n' "$kit_id" && list_crates . && list_sources; } | sha256sum | cut -c 1-32
)

# Writes into the folder $1 the names of all files and folders of the sources, and beside them their
# sizes and times of change.
write_state() (
    cd -- "$root" && find_crates . &&
        find crates.txt HANDLES "${crates[@]/#/crates/}" -maxdepth 0 -print0 >"$1/files" &&
        find "${folders[@]}" -print0 >>"$1/files" &&
        LC_ALL=C xargs -0 -a "$1/files" stat --printf '%s %.9Z\n' -- >"$1/state"
)

# Prints a new folder in the folder $1, which is made where it is not there.
make_room() {
    mkdir -p -- "$1" 2>/dev/null && mktemp -d -- "$1/new.XXXXXX" 2>/dev/null
}

# Sets `sum`, and notes the state of the sources where build/ can be written. The state is read
# first, and a tick of the clock before the sources: a file that is changed after it was read has
# another time of change than the one that is noted.
note_sum() {
    local new
    if ! new=$(make_room "$root/build"); then
        sum=$(take_sum "$root")
        return
    fi
    if write_state "$new" && sleep 0.02 && sum=$(take_sum "$root"); then
        printf '%s\n' "$sum" "$kit" "$kit_id" >"$new/noted" && mkdir -p -- "$root/build/$sum" &&
            mv -f -- "$new/files" "$new/state" "$root/build/$sum" &&
            mv -f -- "$new/noted" "$root/build"
    else
        sum=''
    fi
    rm -rf -- "$new"
    [[ -n $sum ]]
}

# ---- The program in release/

# Prints what release/made-of says of $1: `sources`, their checksum with that of the kit; `kit`, the
# line that names it; `packed`, the SHA-256 of the packed program.
read_release() {
    sed -n "s/^$1: //p" -- "$root/release/made-of" 2>/dev/null || true
}

# Whether the packed program is the one that release/made-of tells of.
is_release_whole() {
    local found
    found=$(sha256sum 2>/dev/null <"$root/release/banthruy.gz") &&
        [[ ${found%% *} == "$(read_release packed)" ]]
}

# Whether the program $1 runs on this machine: with no words it says how it is used, with status 3.
# Else `complaint` is what was said in its place.
runs_here() {
    local status=0
    complaint=$("$1" 2>&1 >/dev/null </dev/null) || status=$?
    complaint=${complaint##*"$1: "}
    ((status == 3))
}

# Sets `program` to the one in release/, where it was made of these sources, is whole and runs here.
# It is unpacked once, into build/. Where build/ cannot be written, it is unpacked into a file that
# has no name any more once it was opened.
take_release() {
    local place=$root/build/$sum room
    [[ -e $root/release/made-of ]] || return
    if [[ $(read_release sources) != "$sum" ]]; then
        say "the program in release/ is of other sources or of another kit"
        return 1
    fi
    if ! is_release_whole; then
        say "release/ is damaged: banthruy.gz is not the file that made-of tells of"
        return 1
    fi
    if ! room=$(make_room "$place") && ! room=$(mktemp -d); then
        say "there is no place to unpack release/"
        return 1
    fi
    program=$room/released
    if ! gzip -dc -- "$root/release/banthruy.gz" >"$program" || ! chmod 755 -- "$program"; then
        say "release/ cannot be unpacked"
    elif ! runs_here "$program"; then
        say "the program in release/ does not run on this machine: $complaint"
    elif [[ $room != "$place"/* ]]; then
        exec 8<"$program"
        program=/proc/self/fd/8
        rm -r -- "$room"
        return
    elif mv -f -- "$program" "$place/released"; then
        program=$place/released
        rm -r -- "$room"
        return
    fi
    rm -rf -- "$room"
    return 1
}

# ---- The proof

# Copies into the empty folder $1 what the program is made of, and what its stored run reads.
copy_sources() (
    cd -- "$root" && find_crates . && list_crates . >"$1/crates.txt" &&
        cp -R --parents -- HANDLES "${folders[@]}" "$1" || exit
    for file in args stdin stdout status data; do
        if [[ -e crates/$top_crate/$file ]]; then
            cp -R -- "crates/$top_crate/$file" "$1/crates/$top_crate" || exit
        fi
    done
    # rt takes a folder that has a .git for the top of a repository.
    mkdir -- "$1/.git"
)

# Prints the crates that are proved, now or by an earlier run of rt, as the log $1 has it.
list_proved() {
    sed -nE 's/^rt: ([a-z0-9_]+) (proved$|is kept:.*)/\1/p' -- "$1"
}

# Tells on standard error which crates are proved, as the log $1 has it, until rt ends: in one line
# that is written anew on a terminal, else in a line for each crate.
tell_progress() {
    local proved=() told=0 begin=$SECONDS is_alive=true all=${#crates[@]} minutes
    while $is_alive; do
        kill -0 "$prover" 2>/dev/null || is_alive=false
        mapfile -t proved < <(list_proved "$1")
        if [[ -t 2 ]]; then
            minutes=$(((SECONDS - begin) / 60))
            printf '\r%s: %d of %d crates are proved, after %d minutes%-30s' "$me" ${#proved[@]} \
                "$all" $minutes "${proved[*]:+, ${proved[*]: -1} last}" >&2
        else
            for (( ; told < ${#proved[@]}; told++)); do
                say "$((told + 1)) of $all crates are proved: ${proved[told]}"
            done
        fi
        ! $is_alive || sleep 1
    done
    [[ ! -t 2 ]] || echo >&2
}

# Proves the program of these sources by `rt ci` over a copy of them, and sets `program` to what it
# built, which goes with `end_proof`. rt takes what it kept on this machine of the same files, and
# proves as many crates side by side as there are processors and memory for. The log is $1.
prove_program() {
    room=$(mktemp -d -- "${TMPDIR:-/var/tmp}/banthruy.XXXXXX") ||
        fail "there is no place for a copy of the sources"
    prover=''
    trap end_proof EXIT
    trap 'exit 130' INT
    trap 'exit 143' HUP TERM
    copy_sources "$room" || fail "the sources in $root cannot be copied"
    [[ $(take_sum "$room") == "$sum" ]] || fail "the sources changed meanwhile: run it again"
    find_crates "$room"
    : >"$1" || fail "$1 cannot be written"
    (cd -- "$room" && exec "$rt" ci) </dev/null >>"$1" 2>&1 9>&- &
    prover=$!
    tell_progress "$1"
    wait "$prover" || true
    prover=''
    program=$room/crates/$top_crate/out/$top_crate
    if ! list_proved "$1" | grep -x -- "$top_crate" >/dev/null || [[ ! -x $program ]]; then
        grep -E '^rt: .*(NOT PROVED|FAILED)' -- "$1" | head -n 3 >&2 || true
        fail "the program was not proved and built; the log is $1"
    fi
}

# Ends rt where it runs, and with it its provers, and removes the copy.
end_proof() {
    trap - EXIT INT HUP TERM
    if [[ -n $prover ]]; then
        kill -- "$prover" 2>/dev/null || true
        wait "$prover" || true
        sleep 0.2
    fi
    rm -rf -- "$room"
}

# Sets `program` to one that was proved and built of these sources on this machine, once. One call
# proves at a time, and one that waited takes what was built.
make_program() {
    local place=$root/build/$sum
    need_kit
    if ! { mkdir -p -- "$place" && exec 9>>"$root/build/lock"; } 2>/dev/null; then
        fail "$root/build cannot be written, where the program is to be proved and built"
    fi
    if ! flock -n 9; then
        say "another call proves the program: this one waits for it"
        flock 9
    fi
    if [[ ! -x $place/proved ]]; then
        say "proves and builds the program: about an hour on 4 processors (docs/GATE.md), and less"
        say "where rt ci kept proofs on this machine; the log is $place/log"
        prove_program "$place/log"
        install -m 755 -- "$program" "$place/new" || fail "$place cannot be written"
        mv -f -- "$place/new" "$place/proved"
        end_proof
        [[ $(take_sum "$root") == "$sum" ]] || fail "the sources changed meanwhile: run it again"
    fi
    program=$place/proved
    exec 9>&-
}
