# Building C programs over the proved library with the kit alone: its clang, linker and C library. Sourced with $top, the repository.
kit=$(rt doc) && kit=${kit%/START-HERE.md}
tools=$kit/toolchain
out=$top/target/host
library=$top/target/staticlib/libhive_c.a
tool_parts=$(cd "$top/host" && for part in *.c; do echo "${part%.c}.o"; done)

# compile SOURCE OBJECT [FLAG]
compile() {
    "$tools/bin/clang" --target=x86_64-unknown-linux-gnu -isystem "$top/host/kit" -I "$top/include" -I "$out" -std=c11 -O2 -Wall -Wextra -Werror -fPIE ${3:+"$3"} -c "$1" -o "$2"
}

# link PROGRAM OBJECT.., all of them in $out
link() {
    program=$1
    shift
    (cd "$out" && "$kit/bin/rattle-link" --target x86_64-unknown-linux-gnu --toolchain "$tools" -o "$program" "$@" "$library") >>"$out/log" 2>&1 ||
        { cat "$out/log" >&2; return 1; }
}

# become PROGRAM WORD..: this process is the program from here on, so that a signal reaches it
become() {
    exec "$tools/lib/ld-linux-x86-64.so.2" --library-path "$tools/lib" "$@"
}

# run PROGRAM WORD..
run() {
    (become "$@")
}

# The crates that a crate is built of, itself too.
crates_of() {
    awk -v top="$1" '/^[a-z_]+( staticlib)?:/ { name = $1; sub(/:/, "", name); uses[name] = $0 }
        function visit(c,   n, w, k) { if (seen[c]++ || !(c in uses)) return; print c; n = split(uses[c], w, " "); for (k = 2; k <= n; k++) visit(w[k]) }
        END { visit(top) }' "$top/crates.txt"
}

# What the prover says goes to a file. Each crate that it proves is told, with how many there are; what it has kept is not.
prove() {
    of=$(crates_of hive_c | wc -l) n=0 proved=
    echo "hive: proving and building the library, $of crates; the first time this takes some minutes" >&2
    { (cd "$top/crates/hive_c" && rt check && rt lib) 2>&1 && echo 'rt: done'; } | tee "$out/proof" | while read -r word crate rest; do
        case $word in
        crate) proved=${crate%:} ;;
        logic=proved)
            n=$((n + 1))
            echo "hive: $proved is proved ($n of $of)" >&2
            ;;
        esac
    done
    [ "$(tail -n 1 "$out/proof")" = 'rt: done' ] || { cat "$out/proof" >&2; return 1; }
}

# The archive is proved and made where a source is newer, and then the tool.
build_library() {
    mkdir -p "$out" "${library%/*}"
    if [ ! -f "$library" ] || [ -n "$(find "$top/crates" "$top/crates.txt" -name out -prune -o -newer "$library" -type f -print | head -n 1)" ]; then
        prove || return 1
        cp "$top/crates/hive_c/out/libhive_c.a" "$library" && touch "$library"
    fi
}

build_tool() {
    if [ ! -x "$out/hive" ] || [ "$library" -nt "$out/hive" ] || [ -n "$(find "$top/host" "$top/include" -newer "$out/hive" -type f | head -n 1)" ]; then
        : >"$out/log"
        sed 's/[\\"]/\\&/g; s/.*/"&\\n"/' "$top/host/help.txt" >"$out/help.h"
        for part in $tool_parts; do
            compile "$top/host/${part%.o}.c" "$out/$part" || return 1
        done
        link hive.new $tool_parts && mv "$out/hive.new" "$out/hive"
    fi
}
