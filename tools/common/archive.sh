# What the scripts around the archive share: tools/native-archive, bindings/c/run-test. To be read by `.` with the repository as the current folder.
# shellcheck shell=sh

# hex FILE PLACE COUNT: that many bytes of a file from a place on, in hexadecimal
hex() { od -An -v -tx1 -j "$2" -N "$3" "$1" 2>/dev/null | tr -d ' \n'; }

# machine_of ARCHIVE: the kind of machine that the first object of an archive is for, x86_64 or aarch64. Where there is none, why not, and status 1.
# An archive is a mark, and then its members, each with a head of 60 bytes that has its length at 48; the first member may be a table of names.
machine_of() {
    [ "$(hex "$1" 0 8)" = 213c617263683e0a ] || { echo "$1 is no archive" >&2; return 1; }
    member=8
    end=$(wc -c <"$1")
    while [ $((member + 80)) -le "$end" ]; do
        length=$(tail -c +$((member + 49)) "$1" | head -c 10 | tr -cd '0-9')
        [ -n "$length" ] || break
        if [ "$(hex "$1" $((member + 60)) 4)" = 7f454c46 ]; then
            case $(hex "$1" $((member + 78)) 2) in
            3e00) echo x86_64 && return ;;
            b700) echo aarch64 && return ;;
            esac
            break
        fi
        member=$((member + 60 + length + length % 2))
    done
    echo "$1 has no object for x86-64 or Arm" >&2
    return 1
}

# exports_of CRATE: the names that a crate exports, a line each
exports_of() { sed -n 's/^pub extern "C" fn \([A-Za-z0-9_]*\).*/\1/p' "crates/$1/src/lib.rt"; }

# find_arm: sets `compiler` to a C compiler for Arm, and `runner` to what runs its programs here, nothing where this machine is Arm itself.
# Where one is missing, which one, and status 1.
find_arm() {
    compiler=cc runner=
    if [ "$(uname -m)" != aarch64 ]; then
        compiler=aarch64-linux-gnu-gcc runner='qemu-aarch64 -L /usr/aarch64-linux-gnu'
    elif ! command -v cc >/dev/null; then
        compiler=gcc
    fi
    for needed in "$compiler" ${runner:+"${runner%% *}"}; do
        command -v "$needed" >/dev/null && continue
        case $needed in
        gcc) echo "no C compiler is here (cc or gcc), and an archive for Arm is not handed out untested. Debian: apt-get install gcc libc6-dev" ;;
        *) echo "$needed is not here: an archive for Arm is tested with it. Debian: apt-get install gcc-aarch64-linux-gnu libc6-dev-arm64-cross qemu-user" ;;
        esac >&2
        return 1
    done
}
