# What the checks, ./l1 and bench/run need of the Rattle kit, on x86-64: its clang compiles the C programs, and its linker joins them with
# the static library that `rt lib` wrote. Programs are ordinary ones, which the machine's own loader starts. Read with `.` at the top of the
# repository, or with the top in root; every file that is made goes under target.
root=${root:-.}
kit=$(cd "$(dirname "$(rt doc)")" && pwd -P)
toolchain=$kit/toolchain
made=$root/target/tests

# take_program: the program that the last `rt ci` or `rt run` built of what it had proved, as target/bin/l1.
take_program() {
    mkdir -p "$root/target/bin" && cp "$root/crates/l1/out/l1" "$root/target/bin/l1"
}

# build_library: the static library of the crate panel_c, which the face is, as target/staticlib/libpanel.a. rt proves it, with all that it
# stands on, where that has not been kept.
build_library() {
    (cd "$root/crates/panel_c" && rm -f out/libpanel_c.a && rt lib) &&
        mkdir -p "$root/target/staticlib" && cp "$root/crates/panel_c/out/libpanel_c.a" "$root/target/staticlib/libpanel.a"
}

# build_c NAME LIBRARY [FILE..]: tests/panel/NAME.c, or these files, with a static library, as $made/NAME.
build_c() {
    built=$1 library=$2 objects=''
    shift 2
    [ $# -gt 0 ] || set -- "$root/tests/panel/$built.c"
    mkdir -p "$made" || return 1
    for file; do
        object=$made/$built-$(basename "$file" .c).o
        objects="$objects $object"
        "$toolchain/bin/clang" --target=x86_64-unknown-linux-gnu -ffreestanding -nostdinc -fPIE -O2 -Wall -Wextra -Werror \
            -I "$root/include" -I "$root/tests/panel/headers" -I "$root/bench" -c "$file" -o "$object" || return 1
    done
    # shellcheck disable=SC2086
    "$kit/bin/rattle-link" --target x86_64-unknown-linux-gnu --toolchain "$toolchain" -o "$made/$built" $objects \
        "$root/target/staticlib/lib$library.a"
}

# build_before LIBRARY FILE: a C file as a library that the loader can read before the others.
build_before() {
    "$toolchain/bin/clang" --target=x86_64-unknown-linux-gnu -ffreestanding -nostdinc -fPIC -O2 -Wall -Wextra -Werror \
        -c "$2" -o "$1.o" &&
        "$toolchain/bin/ld.lld" -shared -o "$1" "$1.o"
}

# exec_program PROGRAM [WORDS..]: becomes a program; where drop is set, under that command, and where before is set, with that library read
# before the others.
exec_program() {
    [ -z "${before:-}" ] || set -- env LD_PRELOAD="$before" "$@"
    # shellcheck disable=SC2086
    exec ${drop:-} "$@"
}

# run_c NAME [WORDS..]: runs what build_c made.
run_c() (
    program=$made/$1
    shift
    exec_program "$program" "$@"
)
