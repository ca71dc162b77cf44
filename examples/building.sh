# For scripts in sh that set `root` to the repository's folder: the archive, C programs linked with it, and their run.
# The archive is code for x86-64.

out=$root/target/c
library=$root/crates/kaldvimur_c/out/libkaldvimur_c.a
mkdir -p "$out"

archive() {
    (cd "$root/crates/kaldvimur_c" && rt lib) >"$out/archive.log" 2>&1 || { cat "$out/archive.log" >&2; exit 1; }
}

compile() { # PROGRAM FILE.c...
    to=$1
    shift
    "${CC:-gcc}" -std=c11 -O2 -pthread -Wall -Wextra -I "$root/include" -o "$out/$to" "$@" "$library"
}

run() { # PROGRAM WORDS...
    program=$1
    shift
    "$out/$program" "$@"
}
