# Sourced by the scripts that use a command which a fresh machine may not have (./test, ./seg2, host/java/test, tools/*). The functions run in shells of
# their own, so that they change no name of the script's.

# The least Rust that builds host/; host/Cargo.toml has it too.
least_rust=1.85

# apt_install PACKAGE..: by apt, whose words are shown only where it fails.
apt_install() (
    if ! command -v apt-get >/dev/null; then
        echo "there is no apt-get here to install $* with" >&2
        return 1
    fi
    if [ "$(id -u)" != 0 ]; then
        echo "installing needs root: run 'apt-get install $*' as root, then this again" >&2
        return 1
    fi
    echo "== installing $*" >&2
    said=$(mktemp)
    # a fresh machine's lists may be old or missing, so they are fetched where the first try fails
    if DEBIAN_FRONTEND=noninteractive apt-get install -y -q "$@" >"$said" 2>&1 ||
        { apt-get update -q >>"$said" 2>&1 && DEBIAN_FRONTEND=noninteractive apt-get install -y -q "$@" >>"$said" 2>&1; }; then
        rm -f "$said"
        return 0
    fi
    echo "apt-get could not install $*; it said:" >&2
    tail -n 20 "$said" >&2
    rm -f "$said"
    return 1
)

# scratch: where the prover is to put the some thousand small files that it makes and removes for each crate. In memory a check takes a sixth to a
# third less time than on a disk (docs/CHECKTIME.md), so it is /dev/shm where that has 2 GB free and programs may be run from it. A TMPDIR that is set
# stays.
scratch() (
    [ -z "${TMPDIR:-}" ] || { echo "$TMPDIR"; return; }
    free=$(df -Pk /dev/shm 2>/dev/null | awk 'NR == 2 { print $4 }')
    if [ "${free:-0}" -ge 2097152 ] && try=$(mktemp /dev/shm/scratch.XXXXXX 2>/dev/null); then
        printf '#!/bin/sh\n' >"$try" && chmod +x "$try" && "$try" 2>/dev/null && runs=yes
        rm -f "$try"
        [ "${runs:-}" != yes ] || { echo /dev/shm; return; }
    fi
    echo /tmp
)

# newer FILE ROOT [PATH..]: a source of the crates below ROOT, or one of the paths there, that is newer than the file; nothing where none is. What rt makes
# stands in a crate's out/, beside its sources, so neither that folder nor the crate's own tells anything.
newer() (
    cd "$2" || return 0
    file=$1
    shift 2
    {
        find crates -mindepth 2 -name out -prune -o -newer "$file" -print -quit
        find crates.txt "$@" -newer "$file" -print -quit
    } | head -n 1
)

# need COMMAND PACKAGE..: installs the Debian packages where the command is missing. Fails, and says so, where the command is missing still.
need() (
    command -v "$1" >/dev/null && return 0
    needed=$1
    shift
    apt_install "$@" || :
    command -v "$needed" >/dev/null && return 0
    echo "$needed is missing (Debian: $*)" >&2
    return 1
)

# least VERSION: whether it is least_rust or later. A version may have more behind its second number.
least() {
    awk -v is="$1" -v least="$least_rust" 'BEGIN { split(is, a, "."); split(least, b, "."); exit !(a[1] + 0 > b[1] + 0 || a[1] + 0 == b[1] + 0 && a[2] + 0 >= b[2] + 0) }'
}

# The package that brings a cargo that is new enough, or nothing: `cargo` in Debian 13, `cargo-web` in Debian 12, whose `cargo` is too old.
rust_package() (
    for package in cargo cargo-web; do
        offered=$(LC_ALL=C apt-cache policy "$package" 2>/dev/null | sed -n 's/^ *Candidate: //p')
        if least "${offered#*:}"; then
            echo "$package"
            return
        fi
    done
)

# need_rust: cargo and rustc, new enough. Installs them where there is none; one that is too old stays as it is, because others may need it.
need_rust() (
    if ! command -v cargo >/dev/null || ! command -v rustc >/dev/null; then
        package=$(rust_package)
        if [ -z "$package" ] && [ "$(id -u)" = 0 ]; then
            apt-get update -q >/dev/null 2>&1 || :
            package=$(rust_package)
        fi
        if [ -z "$package" ]; then
            echo "Rust is missing, and no Debian package at hand has $least_rust or later: Debian 12 has cargo-web, Debian 13 cargo" >&2
            return 1
        fi
        need cargo "$package" && need rustc "$package" || return 1
    fi
    for tool in cargo rustc; do
        # its second word, as in 'cargo 1.85.0 (...)'
        found=$("$tool" --version 2>&1) || {
            echo "'$tool --version' fails: $found" >&2
            return 1
        }
        version=$(printf '%s\n' "$found" | awk 'NR == 1 { print $2 }')
        least "$version" || {
            package=$(rust_package)
            echo "$tool at $(command -v "$tool") is $version, and $least_rust is the least that builds host/${package:+: the Debian package $package has it, and takes the place of an older one}" >&2
            return 1
        }
    done
)

# need_kit ROOT: the command rt. No package brings it. Another kit than the one in the file KIT is told and not refused: it proves or it does not.
need_kit() (
    proved_with=$(cat "$1/KIT")
    command -v rt >/dev/null || {
        echo "rt is missing: it is the command of the Rattle kit, which proves the library, and no Debian package brings it. Unpack the kit ($proved_with) and put its folder bin on PATH" >&2
        return 1
    }
    have=$(rt version) || {
        echo "'rt version' fails: the Rattle kit at $(command -v rt) does not work on this machine" >&2
        return 1
    }
    [ "$have" = "$proved_with" ] || echo "note: the kit at hand is $have; this project was last proved with $proved_with" >&2
)

# repo_git WORD..: git in the repository, also where it belongs to another user than the one who runs the script, as a build machine's may.
repo_git() { git -c safe.directory='*' "$@"; }
