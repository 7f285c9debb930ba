# Sourced by run, restore, receive, record, bench/run, bench/count and bench/stack, from the project's root: finds the original files
# and the tools (tools/machine.sh), and builds a program over the original in target/oracle. Nothing is fetched.
. tools/machine.sh

oracle_folder=target/oracle

# Says what is wrong and ends with 2.
oracle_stop() {
    echo "oracle: $1" >&2
    exit 2
}

# Reads the arguments [SOURCES] [--library LIB.a] into sources and library.
oracle_arguments() {
    sources=../shared/docs/src
    library=$machine_library
    while [ $# -gt 0 ]; do
        case $1 in
            --library)
                [ $# -gt 1 ] || oracle_stop "$1 wants a value"
                library=$2
                shift
                ;;
            -*) oracle_stop "unknown option $1" ;;
            *) sources=$1 ;;
        esac
        shift
    done
}

# The path of an original file below the folder $1, which has it by its path (with or without src/), or by a flat
# name; a final .txt is allowed.
oracle_find() {
    local flat=${2//\//--} file
    for file in "$1/src/$2" "$1/$2" "$1/src/$2.txt" "$1/$2.txt" \
        "$1/src--src--$flat.txt" "$1/src--$flat.txt" "$1/src--src--$flat" "$1/src--$flat"; do
        if [ -f "$file" ]; then
            printf '%s\n' "$file"
            return 0
        fi
    done
    return 1
}

# Checks the sums of the copies of the originals.
oracle_sums() {
    local sum name
    while read -r sum name; do
        echo "$sum  $oracle_folder/midi2/src/$name" | sha256sum -c --quiet - >/dev/null 2>&1 ||
            oracle_stop "$name is not the file of midi2 0.11.1 that this was written for ($1)"
    done < oracle/originals.sha256
}

# Copies a file if it is another one, so that cargo builds no more than it must.
oracle_copy() {
    mkdir -p "$(dirname "$2")"
    cmp -s "$1" "$2" || cp "$1" "$2"
    chmod u+w "$2"
}

# Copies the files below the folder $1 to the folder $2.
oracle_copy_all() {
    local file
    while read -r file; do
        oracle_copy "$1/$file" "$2/$file"
    done < <(cd "$1" && find . -type f)
}

# Lays out the build folder: stand-ins and programs from here, the originals from the folder $1.
oracle_lay_out() {
    local file sum name
    [ -d "$1" ] || oracle_stop "no folder of original files at $1"
    oracle_copy_all oracle/stand-ins "$oracle_folder"
    oracle_copy_all oracle/compare "$oracle_folder/compare"
    oracle_copy_all bench "$oracle_folder/bench"
    while read -r sum name; do
        file=$(oracle_find "$1" "$name") || oracle_stop "$name is not below $1"
        oracle_copy "$file" "$oracle_folder/midi2/src/$name"
    done < oracle/originals.sha256
    mkdir -p "$oracle_folder/midi2/src/sysex7"
    echo "Stand-in for src/sysex7/README.md, the documentation of the module." > "$oracle_folder/.readme"
    oracle_copy "$oracle_folder/.readme" "$oracle_folder/midi2/src/sysex7/README.md"
    oracle_sums "before the build"
}

# Finds the library $1 and the tools.
oracle_tools() {
    [ -f "$1" ] || oracle_stop "no library at $1 (make it with: $machine_maker)"
    LATCHBEACON_LIBRARY=$(realpath "$1")
    export LATCHBEACON_LIBRARY
    mkdir -p "$oracle_folder"
    machine_tools >"$oracle_folder/.tools" || oracle_stop "$(cat "$oracle_folder/.tools")"
}

# Builds the program $1 against the library $2; further arguments go to cargo. The program's path is left in
# oracle_program.
oracle_build() {
    local program=$1 library=$2 profile=debug
    shift 2
    oracle_tools "$library"
    (cd "$oracle_folder" && cargo build --offline --quiet --target-dir target -p "$program" "$@") || oracle_stop "the build failed"
    oracle_sums "after the build"
    case " $* " in *" --release "*) profile=release ;; esac
    oracle_program=$oracle_folder/target/${CARGO_BUILD_TARGET:+$CARGO_BUILD_TARGET/}$profile/$program
}
