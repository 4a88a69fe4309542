# What the commands have in common; each sets `name`, and `machine` that its programs are for, and reads this in. An
# argument that ends in .a is an archive of the port, the others stay in "$@". It goes to the root of the repository.
# shellcheck shell=sh disable=SC2154,SC2034

# docs/src is of edition 2024 and joins an `if let` by `&&`: older compilers than 1.88 refuse it.
oldest=88

out=target/host/$machine
# The part whose archive may be given: others stand beside it then. The parts are those of host/saxundeer/archives.txt.
main=run
given=
for argument in "$@"; do
    shift
    case $argument in
    /*.a) given=$argument ;;
    *.a) given=$PWD/$argument ;;
    *) set -- "$@" "$argument" ;;
    esac
done
cd "$(dirname "$0")/.." || exit 2
# shellcheck source=tools/sources.sh
. tools/sources.sh

# A program for another machine takes that machine's C compiler, which links too, and an emulator to run it.
cross='' emulator='' compiler=cc
# What a command wants besides release code.
besides=''
if [ "$machine" != "$(uname -m)" ]; then
    compiler=$machine-linux-gnu-gcc
    cross="--target $machine-unknown-linux-gnu -C linker=$compiler"
    emulator=qemu-$machine
fi

stop() {
    echo "host/$name: $2" >&2
    exit "$1"
}

# find_rustc MACHINE: sets `rustc` to a compiler that is new enough and has that machine's standard library. Debian's
# may stand behind another one on the PATH.
find_rustc() {
    for rustc in rustc /usr/bin/rustc; do
        minor=$("$rustc" --version 2>/dev/null | sed -n 's/^rustc 1\.\([0-9]*\)\..*/\1/p')
        [ "${minor:-0}" -ge "$oldest" ] || continue
        libraries=$("$rustc" --print target-libdir --target "$1-unknown-linux-gnu")
        [ -z "$(find "$libraries/" -name 'libstd-*.rlib' 2>/dev/null)" ] || return 0
    done
    return 1
}

# compile OPTION...: release code, as cargo builds it.
compile() {
    # The options are split into their words on purpose.
    # shellcheck disable=SC2086
    "$rustc" $cross -C opt-level=3 $besides -L dependency="$out" "$@"
}

# rust CRATE FILE ROOT OPTION...: one of the workspace's crates.
rust() {
    crate=$1 file=$2 root=$3
    shift 3
    compile --edition 2024 --crate-name "$crate" -o "$out/$file" "$@" "$root" || stop 1 "$root does not build"
}

# The Rust of docs/src, and the libraries that the programs take. Not by cargo, which a bare machine does not have and which
# would link every archive to each program: here saxundeer is whole, and a program is linked with the archives of what it calls.
# The linker drops the rest.
build_libraries() {
    host/build-oracle "$machine" >&2 || exit $?
    find_rustc "$machine"
    rust oracle liboracle.rlib host/oracle/src/lib.rs --crate-type rlib --extern mos6502="$out/libmos6502.rlib"
    rust saxundeer libsaxundeer.rlib host/saxundeer/src/lib.rs --crate-type rlib --cfg 'feature="devices"' \
        --cfg 'feature="listing"' --cfg 'feature="tapes"' --cfg 'feature="traces"'
    rust tools libtools.rlib host/tools/src/lib.rs --crate-type rlib --extern oracle="$out/liboracle.rlib" \
        --extern saxundeer="$out/libsaxundeer.rlib"
}

# The package that has the names of the Rust over the port, and the oracle, which is written for the Rust, with it in its place.
build_package() {
    mkdir -p "$out/over"
    rust mos6502 over/libmos6502.rlib host/mos6502/src/lib.rs --crate-type rlib -C metadata=over \
        --extern saxundeer="$out/libsaxundeer.rlib"
    rust oracle over/liboracle.rlib host/oracle/src/lib.rs --crate-type rlib -A unused_must_use \
        --extern mos6502="$out/over/libmos6502.rlib"
}

# twice PROGRAM: one of host/mos6502/programs against the Rust, as PROGRAM-rust, and against the package, as PROGRAM-over. Its file
# is the same; the second has an answer to drop where the first has none.
twice() {
    root=host/mos6502/programs/$1.rs
    rust "$1" "$1-rust" "$root" --extern mos6502="$out/libmos6502.rlib" --extern oracle="$out/liboracle.rlib"
    over "$1" "$1-over" "$root" -A unused_must_use
}

# over CRATE FILE ROOT OPTION...: a program against the package.
over() {
    for part in run step guard footprints; do
        find_archive "$part"
        set -- "$@" -C link-arg="$found"
    done
    rust "$@" -L dependency="$out/over" --extern mos6502="$out/over/libmos6502.rlib" --extern oracle="$out/over/liboracle.rlib"
}

# linked CRATE FILE ROOT PART...: a program of these libraries and of the archives of these parts.
linked() {
    crate=$1 file=$2 root=$3
    shift 3
    for part in "$@"; do
        shift
        find_archive "$part"
        set -- "$@" -C link-arg="$found"
    done
    rust "$crate" "$file" "$root" "$@" --extern oracle="$out/liboracle.rlib" --extern saxundeer="$out/libsaxundeer.rlib" \
        --extern tools="$out/libtools.rlib"
}

# tool NAME PART...: the program of a command.
tool() {
    tool=$1 root=host/tools/src/bin/$1.rs
    shift
    [ -f "$root" ] || root=host/tools/src/bin/$tool/main.rs
    linked "$tool" "$tool" "$root" "$@"
}

need_rt() {
    command -v rt >/dev/null || stop 2 "the Rattle toolchain is missing: there is no command 'rt' on the PATH"
}

# renew ARCHIVE COMMAND: has it proved and built anew where it is missing or older than a source.
renew() {
    if [ -n "$(newer_than "$1")" ]; then
        need_rt
        echo "host/$name: $2" >&2
        # run takes the same lock, so that no two prove in one target/ at once. The command is split into its words.
        # shellcheck disable=SC2086
        flock crates.txt $2 >&2 || stop 1 "$2 did not build $1"
    fi
}

# archived PART: the crate whose archive has it.
archived() {
    sed -n "s/^$1  *\([a-z0-9_]*\) .*/\1/p" host/saxundeer/archives.txt
}

# every_archived: the crates of which there are archives.
every_archived() {
    sed -n 's/^[a-z]*  *\([a-z0-9_]*\) .*/\1/p' host/saxundeer/archives.txt
}

# archive_of CRATE: where its archive for the machine stands. tools/build writes the ones for x86-64 and Arm.
archive_of() {
    case $machine in
    x86_64) echo "target/staticlib/lib$1.a" ;;
    *) echo "target/staticlib/$machine/lib$1.a" ;;
    esac
}

# find_archive PART: sets `found` to its archive, and `archive` too where that may be given. Where none is given it is proved
# and built.
find_archive() {
    member=$(archived "$1")
    if [ -n "$given" ] && [ "$1" = "$main" ]; then
        found=$given
    elif [ -n "$given" ]; then
        found=$(dirname "$given")/lib$member.a
    else
        found=$(archive_of "$member")
        command="tools/build $member"
        [ "$machine" = x86_64 ] || command="host/native-archive $member $machine"
        renew "$found" "$command"
    fi
    [ -f "$found" ] || stop 2 "there is no archive $found"
    [ "$1" != "$main" ] || archive=$found
}

# What the archive is: it names the logic that proved it, and only rt writes that mark.
archive_mark() {
    mark=$(LC_ALL=C grep -a -o 'rattle logic=[0-9a-f]*' "$archive" | head -n 1)
    echo "${mark:-an archive that rt did not write}"
}
