# Sourced by tools/native-archive and tools/platform-archives: how a proved crate becomes an archive for another machine or system than Linux on x86-64.
#
# The LLVM module that the kit made of the proved crate is kept while `rt lib` runs, and the kit's own clang compiles the same module for another
# triple. Only the triple, the data layout and the processor's name are changed. Why the module means the same everywhere, and so what the tests
# below end the script for: docs/DECISIONS.md, "The archive for the machine at hand".
#
# The script that sources this has set `me`, its own name for messages, and `root`, the repository's root, stands there and has sourced lib-install.sh.

die() {
    printf '%s: %s\n' "$me" "$*" >&2
    exit 1
}

# The kit, found as rt finds itself. Sets kit, tools and clang.
find_kit() {
    kit=$(cd "$(dirname "$(readlink -f "$(command -v rt)")")/.." && pwd -P)
    tools=$kit/toolchain
    clang=$tools/bin/clang
    for tool in clang llvm-ar ld.lld; do
        [ -x "$tools/bin/$tool" ] || die "the kit at $kit has no $tool"
    done
}

# below NAME: the crates of the repository that NAME stands on, one a line.
below() {
    awk -v name="$1" '
        function reach(n,    a, k, m) {
            m = split(deps[n], a, " ")
            for (k = 1; k <= m; k++) if (a[k] in deps && !(a[k] in seen)) { seen[a[k]] = 1; print a[k]; reach(a[k]) }
        }
        { sub(/#.*/, "") }
        /:/ { n = $0; sub(/[ \t:].*/, "", n); sub(/^[^:]*:/, ""); deps[n] = $0 }
        END { reach(name) }' crates.txt
}

# built NAME WORK RT: has rt prove the crate and what it stands on, the lowest first, and tells how far it is. What was proved before and has not changed
# is passed over. The archive stands in crates/NAME/out/libNAME.a then. It is for every x86-64: rt's default is a later one, and an archive cannot say at
# its start that the processor lacks something.
built() {
    # behind rt ci, what the crate stands on is proved and built already
    if [ -n "${SEG2_PROVED:-}" ]; then
        ended=0
        tools/over-proved "$1" "$kit" "$shadow" >"$2/rt.out" 2>&1 || ended=$?
        case $ended in
        0) return ;;
        3) ;;
        *)
            tail -n 40 "$2/rt.out" >&2
            die "$1 is not proved, so nothing is built"
            ;;
        esac
    fi
    all=$(($(below "$1" | wc -l) + 1))
    # rt's own end comes through a file: a pipe has the end of its last command only
    {
        ended=0
        (cd "crates/$1" && TMPDIR=$(scratch) "$3" lib --cpu x86-64 2>&1) || ended=$?
        echo "$ended" >"$2/ended"
    } | tee "$2/rt.out" | {
        # no awk: Debian's waits for more lines than one
        n=0
        while IFS= read -r line; do
            case $line in
            "crate "*": modules loaded="*)
                n=$((n + 1))
                crate=${line#crate }
                printf '%s: crate %d of %d: %s\n' "$me" "$n" "$all" "${crate%%:*}"
                ;;
            esac
        done
    }
    [ "$(cat "$2/ended")" = 0 ] || {
        tail -n 40 "$2/rt.out" >&2
        die "$1 is not proved, or something that it stands on, so nothing is built"
    }
}

links() { # FROM TO EXCEPT..: in TO a link to each entry of FROM but those
    from=$1
    to=$2
    shift 2
    mkdir -p "$to"
    for entry in "$from"/*; do
        case " $* " in
        *" $(basename "$entry") "*) ;;
        *) ln -s "$entry" "$to/" ;;
        esac
    done
}

# sources_sum: what the crates, the kit and this file are.
sources_sum() {
    { rt version && find crates crates.txt tools/lib-archive.sh -name out -prune -o -type f -print | LC_ALL=C sort | tr '\n' '\0' | xargs -0 sha256sum; } | sha256sum | cut -d ' ' -f 1
}

# prove_module NAME: proves the crate and leaves the kit's archive of it in target/module/NAME/libNAME.a, and the module without what is x86-64's as text
# in plain.ll. What stands there is taken where it was made of the same sources by the same kit.
prove_module() {
    find_kit
    sum=$(sources_sum)
    module=$root/target/module/$1
    if [ "$(cat "$module/sum" 2>/dev/null)" = "$sum" ]; then
        return
    fi
    rm -rf "$module"
    mkdir -p "$module"
    module_of "$1" "$module"
    cp "crates/$1/out/lib$1.a" "$module/lib$1.a"
    echo "$sum" >"$module/sum"
}

# module_of NAME WORK: proves the crate and leaves its module, for x86-64, as text in WORK/x86.ll. WORK is an absolute path to an empty folder.
module_of() {
    # A folder of links that is the kit but for its clang: a script that keeps the module that it is given, and then compiles it as asked. So
    # `rt lib` itself proves, and no word of its command is repeated here. rt finds its kit by where its own file is, so that file is a copy.
    shadow=$2/kit
    links "$kit" "$shadow" bin toolchain
    links "$kit/bin" "$shadow/bin" rt rtlib.py
    cp "$kit/bin/rt" "$kit/bin/rtlib.py" "$shadow/bin/"
    links "$tools" "$shadow/toolchain" bin
    links "$tools/bin" "$shadow/toolchain/bin" clang
    # beside a kit stands what rt's checks in other copies of the repository kept, which it begins with; no verdict rests on it
    ln -s "$(dirname "$kit")/rattle-kept" "$2/rattle-kept"
    cat >"$shadow/toolchain/bin/clang" <<WRAPPER
#!/bin/sh
# Keeps the LLVM module among the arguments, and these, then compiles it as asked.
set -eu
printf '%s\\n' "\$@" >>'$2/words'
for word in "\$@"; do
    case \$word in
    *.bc)
        [ ! -e '$2/module.bc' ] || { echo '$me: a second module' >&2; exit 1; }
        cp "\$word" '$2/module.bc'
        ;;
    esac
done
exec '$clang' "\$@"
WRAPPER
    chmod +x "$shadow/toolchain/bin/clang"
    # an archive that is there already would be taken as it is, and no module made
    rm -f "crates/$1/out/lib$1.a"
    built "$1" "$2" "$shadow/bin/rt"
    # the last line is of the crate itself, those before it of what it stands on
    tail -n 1 "$2/rt.out" | grep -q '^logic=proved ' || die "rt lib did not say that $1 is proved"
    [ -s "$2/module.bc" ] || die "the kit's compiler was given no module"

    # what is compiled for other triples is compiled with the same switches
    given=$(awk 'last == "-mllvm" { printf " %s", $0 } { last = $0 }' "$2/words")
    [ "$given" = " $switches" ] || die "the kit gives its compiler other switches than are known:$given"

    x86_triple=x86_64-unknown-linux-gnu
    x86_layout=e-m:e-p270:32:32-p271:32:32-p272:64:64-i64:64-i128:128-f80:128-n8:16:32:64-S128
    "$clang" --target=$x86_triple -x ir -S -emit-llvm -Xclang -disable-llvm-passes -o "$2/x86.ll" "$2/module.bc"
    for line in "target datalayout = \"$x86_layout\"" "target triple = \"$x86_triple\""; do
        [ "$(grep -cFx -- "$line" "$2/x86.ll")" = 1 ] || die "the module has not the one line: $line"
    done
    same_everywhere "$1" "$2"
}

# same_everywhere NAME WORK: ends the script if the module could mean something else on AArch64, or on one of Apple's systems.
same_everywhere() {
    sed -e '/^;/d' -e '/^target /d' -e '/^attributes #/s/ "target-cpu"="x86-64"//' "$2/x86.ll" >"$2/plain.ll"
    # x86 by name, its own number type, and machine code in the text
    if grep -nE 'x86|"target-(cpu|features)"|"tune-cpu"|(call|invoke)[^@]* asm |^module asm' "$2/plain.ll" >"$2/left"; then
        head -n 5 "$2/left" >&2
        die "the module still has what is x86-64's alone"
    fi
    # a place that is not counted in bytes, or something in memory that is no plain number, pointer, row of bytes or result of two of these, with its
    # alignment beside it. The second of two stands at the next place that is aligned to its own size, in every layout.
    held='(i8|i16|i32|i64|float|double|ptr)'
    two='\{ (i8|i16|i32|i64|ptr), (i8|i16|i32|i64|ptr) \}'
    if grep -E '(^|[ (])getelementptr ' "$2/plain.ll" | grep -vE ' getelementptr (inbounds |nuw |nusw )*i8, ptr ' >"$2/left" ||
        grep -E '(^|[ (])alloca ' "$2/plain.ll" | grep -vE " = alloca ($held|\[[0-9]+ x i8\]), align [0-9]+\$" >"$2/left" ||
        grep -E '(^|[ (])load ' "$2/plain.ll" | grep -vE " = load ($held|$two), ptr [^,]+, align [0-9]+(, ![^ ]+ ![0-9]+)*\$" >"$2/left" ||
        grep -E '(^|[ (])store ' "$2/plain.ll" | grep -vE " store $held [^,]+, ptr [^,]+, align [0-9]+\$" >"$2/left"; then
        head -n 5 "$2/left" >&2
        die "the module leaves a size or an alignment to the data layout"
    fi
    # an argument that is no number, bool or pointer; a result that is none of these, nor two words of 64 bits; a call of other code
    plain='(i1|i8|i16|i32|i64|float|double|ptr)'
    grep '^define ' "$2/plain.ll" | grep -v '^define internal ' >"$2/exported" || die "the module exports nothing"
    if grep -vE "^define (noundef )?((zeroext|signext) )?(void|\{ i64, i64 \}|$plain) @[A-Za-z0-9_]+\\(($plain noundef %a[0-9]+(, )?)*\\) #[0-9]+ \\{\$" "$2/exported" >"$2/left"; then
        cat "$2/left" >&2
        die "an exported function takes or returns what goes another way on AArch64"
    fi
    # Apple on AArch64: who calls extends a number of under 32 bits, and elsewhere who is called; and what goes by the stack, from the ninth on, stands
    # beside the one before, and elsewhere on 8 bytes of its own. So there is no such number, and only 64 bits go by the stack.
    if grep -E '(^define [^@]*|[(, ])(i1|i8|i16) ' "$2/exported" >"$2/left" ||
        sed 's/^[^(]*(//; s/).*//' "$2/exported" | awk -F', ' '{ for (i = 9; i <= NF; i++) if ($i !~ /^(i64|double|ptr) /) print }' | grep . >"$2/left"; then
        cat "$2/left" >&2
        die "an exported function takes or returns what goes another way on Apple's AArch64"
    fi
    if grep -E '^declare ' "$2/plain.ll" | grep -v ' @llvm\.' >"$2/left"; then
        cat "$2/left" >&2
        die "the module calls code of C"
    fi
}

# The triples that stand in a platform's archive, in this order; those of Apple with the least system that is named in them. Apple's own processor has
# simulators from iOS 14 on only.
triples_of() {
    case $1 in
    linux-x86_64) echo x86_64-unknown-linux-gnu ;;
    linux-aarch64) echo aarch64-unknown-linux-gnu ;;
    android-arm64-v8a) echo aarch64-unknown-linux-android ;;
    android-x86_64) echo x86_64-unknown-linux-android ;;
    ios-arm64) echo arm64-apple-ios13.0 ;;
    ios-simulator) echo arm64-apple-ios14.0-simulator x86_64-apple-ios13.0-simulator ;;
    macos) echo arm64-apple-macosx11.0 x86_64-apple-macosx11.0 ;;
    *) die "there is no platform $1: $platforms" ;;
    esac
}
platforms='linux-x86_64 linux-aarch64 android-arm64-v8a android-x86_64 ios-arm64 ios-simulator macos'

# layout_of TRIPLE: the data layout that is known for it. All have the byte order, the sizes and the alignments that the module counts on alike; they
# differ in how symbols are named, in f80, which the module has not, and in what is preferred.
layout_of() {
    case $1 in
    x86_64-*-linux-*) echo e-m:e-p270:32:32-p271:32:32-p272:64:64-i64:64-i128:128-f80:128-n8:16:32:64-S128 ;;
    aarch64-*-linux-*) echo e-m:e-p270:32:32-p271:32:32-p272:64:64-i8:8:32-i16:16:32-i64:64-i128:128-n32:64-S128-Fn32 ;;
    arm64-apple-*) echo e-m:o-p270:32:32-p271:32:32-p272:64:64-i64:64-i128:128-n32:64-S128-Fn32 ;;
    x86_64-apple-*) echo e-m:o-p270:32:32-p271:32:32-p272:64:64-i64:64-i128:128-f80:128-n8:16:32:64-S128 ;;
    esac
}

# The kit's own switches for its clang, which leave out what its makers do not trust, in the kit's order; and what it has for AArch64 beside them.
switches='-no-trap-after-noreturn -trap-unreachable -no-x86-call-frame-opt -disable-machine-licm -disable-postra-machine-licm -sink-common-insts=false'
switches_aarch64='-aarch64-load-store-renaming=false'

# compiled TRIPLE OUT WORD..: the module of WORD.. by the kit's clang, as the kit compiles. No product and sum of floats become one operation; a clang that
# takes the module for another triple's says so, which is an error here.
compiled() {
    triple_=$1
    out_=$2
    shift 2
    for switch_ in $switches $switches_aarch64; do
        set -- -mllvm "$switch_" "$@"
    done
    "$clang" "--target=$triple_" -O3 -ffp-contract=off -fPIC -ffunction-sections -fdata-sections -Werror -o "$out_" "$@"
}

# archived TRIPLE ARCHIVE OBJECT: one object as an archive of the kind that the system's linker reads, without times and owners.
archived() {
    case $1 in
    *-apple-*) format=darwin ;;
    *) format=gnu ;;
    esac
    rm -f "$2"
    "$tools/bin/llvm-ar" --format=$format rcsD "$2" "$3"
}

# compile_module NAME WORK TRIPLE ARCHIVE: compiles the module that prove_module left for TRIPLE into ARCHIVE, by way of WORK. Where the system keeps
# register 18 for itself, the script ends if the code uses it.
compile_module() {
    # layout and full triple are asked of the clang that compiles, and the layout has to be the one that is known
    printf 'int x;\n' | "$clang" "--target=$3" -x c -S -emit-llvm -o - - | grep '^target ' >"$2/$3.head"
    grep -qFx "target datalayout = \"$(layout_of "$3")\"" "$2/$3.head" || die "the layout of $3 is another: $(cat "$2/$3.head")"
    cat "$2/$3.head" "$module/plain.ll" >"$2/$3.ll"
    mkdir -p "$2/$3"
    # Android's object files are of the same kind as Linux's: in an archive the name tells them apart
    case $3 in
    *-android) object=$2/$3/$1-android.o ;;
    *) object=$2/$3/$1.o ;;
    esac
    if keeps_18 "$3"; then
        # what is looked at as text is what is then assembled
        compiled "$3" "$2/$3.s" -S -x ir "$2/$3.ll"
        ! uses_18 "$2/$3.s" || die "the code for $3 uses register 18, which the system keeps for itself"
        # (this clang's assembler takes a simulator for another system than its phone and warns; the look at the archive tells)
        case $3 in
        *-simulator) quiet=-Wa,--no-warn ;;
        *) quiet= ;;
        esac
        "$clang" "--target=$3" -Werror $quiet -c "$2/$3.s" -o "$object"
    else
        compiled "$3" "$object" -c -x ir "$2/$3.ll"
    fi
    archived "$3" "$2/$3.a" "$object"
    mv "$2/$3.a" "$4"
}

# Android keeps register 18 of AArch64 for its shadow call stack, and Apple's systems keep it too; Linux does not.
keeps_18() {
    case $1 in
    aarch64-*-linux-android | arm64-apple-*) ;;
    *) return 1 ;;
    esac
}
uses_18() { grep -nwE '[wx]18' "$1" >&2; }

# stale_archive PLATFORM: its archive is missing, or older than what it is made of.
stale_archive() {
    made_of='include/seg2.h tools/lib-archive.sh tools/platform-archives tools/platform/objects.py'
    # shellcheck disable=SC2086
    [ ! -f "archives/$1/libseg2.a" ] || [ -n "$(newer "$root/archives/$1/libseg2.a" "$root" $made_of)" ]
}

# The functions that the header declares: each stands at the start of a line, behind what it returns.
declared() {
    sed -n '/^static/d; s/^\(void\|seg2_[a-z]*\|struct seg2_[a-z]*\) \(seg2_[a-z0-9_]*\)(.*/\2/p' include/seg2.h | sort
}

# dylib WORK TRIPLE ARCHIVE OUT: an Apple library of the whole archive, by the kit's linker, with small functions in the place of C's.
dylib() {
    case $2 in
    *-simulator) system=ios-simulator ;;
    *-ios*) system=ios ;;
    *) system=macos ;;
    esac
    least=$(printf '%s\n' "$2" | sed 's/^[a-z0-9_]*-apple-[a-z]*\([0-9.]*\).*/\1/')
    "$clang" "--target=$2" -O1 -fPIC -fno-builtin -Werror -c tools/platform/fill.c -o "$1/fill-$2.o"
    "$tools/bin/ld.lld" -flavor darwin -dylib -arch "${2%%-*}" -platform_version "$system" "$least" "$least" -install_name libseg2.dylib \
        -fatal_warnings -all_load "$3" "$1/fill-$2.o" -o "$4"
}

# look WORK ARCHIVE TRIPLE..: ends the script if the archive is not what an app for these triples can link.
look() {
    work_=$1
    archive_=$2
    shift 2
    declared >"$work_/declared"
    [ -s "$work_/declared" ] || die "include/seg2.h declares no function"
    tools/platform/objects.py look "$archive_" "$work_/declared" "$@" || die "$archive_ is not what an app can link"
    # May it stand at any address? With -z text a place in the code that would have to be changed when the library is loaded is an error; of an Apple
    # library nothing is changed but what stands in a segment of its own, and there is none.
    for triple_ in "$@"; do
        case $triple_ in
        *-apple-*)
            dylib "$work_" "$triple_" "$archive_" "$work_/looked.dylib" &&
                tools/platform/objects.py image "$work_/looked.dylib" looked "$work_/looked.bin" "$work_/looked.s"
            ;;
        *) "$tools/bin/ld.lld" -shared -z text --fatal-warnings --whole-archive "$archive_" -o "$work_/looked.so" ;;
        esac || die "$archive_ cannot be part of a shared library"
    done
}
