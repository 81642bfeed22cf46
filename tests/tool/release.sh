# The release: made twice and compared, its tool without the kit, C programs against it, its manual pages, its Python binding.

# Outside the gate no proof of these sources is at hand: one is made up, and so is the release.
proof=${HIVE_PROOF:-$PWD/proof}
[ -n "${HIVE_PROOF:-}" ] || {
    sh "$top/tools/sources"
    printf '%s\n' 'logic=proved functions=1 sum=0' 'rt: hive_c proved (1 s)' 'axioms libc: libc::read (1 of the 50 declared)' 'rt: other proved (1 s)' '1 passed, 0 failed'
} >proof
version=$(cat "$top/VERSION")
made=kiweamotu-$version-x86_64-linux
release() { sh "$top/release" "$@"; }
again() { (umask 077 && cd / && TZ=Asia/Tokyo LC_ALL=C.UTF-8 sh "$top/release" "$@"); }
try 'release' 0 "$PWD/made1/$made.tar.gz" '' release made1 "$proof"
try 'release: again' 0 "$PWD/made2/$made.tar.gz" '' again "$PWD/made2" "$proof"
same 'release: the same bytes' "made1/$made.tar.gz" "made2/$made.tar.gz"
right 'release: nothing beside it' [ "$(ls -A made1 | tr '\n' ' ')" = "$made $made.tar.gz " ]
try 'release: never over another' 2 '' 'is there already and is not overwritten' release made1 "$proof"

# It proves all of it first where no proof is given: here by a prover that says again what the given proof says.
mkdir repeats
{
    printf '#!/bin/sh\n[ "$1" = ci ] || exec "%s" "$@"\ncat <<"END"\n' "$(command -v rt)"
    sed 1d "$proof"
    echo END
} >repeats/rt
chmod +x repeats/rt
proving() { PATH=$PWD/repeats:$PATH sh "$top/release" "$@"; }
try 'release: by its own proof' 0 "$PWD/made4/$made.tar.gz" 'proving all of it' proving made4
same 'release: by its own proof, the same bytes' "made1/$made.tar.gz" "made4/$made.tar.gz"

# Of crates that an earlier run proved the log says only that: a check of them says what they stand on.
{
    sed '$d; /^logic=/d; /^axioms /d; /^rt: hive_c /d; /^rt: hive_frames /d' "$proof"
    printf '%s\n' 'rt: hive_c is kept: an earlier run proved the same files' 'rt: hive_frames is kept: an earlier run proved the same files' '2 passed, 0 failed'
} >proof-kept
try 'release: a proof that is kept' 0 "$PWD/made5/$made.tar.gz" '' release made5 proof-kept
right 'release: a proof that is kept: what the library stands on' grep -q '^library (lib/): logic=proved ' "made5/$made/PROVENANCE"
right 'release: a proof that is kept: the axioms' grep -q '^programs of the proof: axioms libc: libc::' "made5/$made/PROVENANCE"

# What is not proved is not made.
mkdir made3
made_nothing() { right "release: $1, nothing was made" [ -z "$(ls -A made3)" ]; }
mkdir unable
printf '%s\n' '#!/bin/sh' 'echo error: it is not proved' 'exit 1' >unable/rt
chmod +x unable/rt
unproven() { PATH=$PWD/unable:$PATH sh "$top/release" "$@"; }
try 'release: a proof that fails' 2 '' 'it is not proved, and nothing was made' unproven made3
made_nothing 'a proof that fails'
sed '1s/.$/x/' "$proof" >proof-of-other
try 'release: the proof of something else' 2 '' 'the proof of other sources' release made3 proof-of-other
sed '$s/0 failed$/1 failed/' "$proof" >proof-failed
try 'release: a proof that failed' 2 '' '1 failed' release made3 proof-failed
sed '$d' "$proof" >proof-cut
try 'release: a proof that did not end' 2 '' 'nothing was made' release made3 proof-cut
grep -v '^rt: hive_c ' "$proof" >proof-without
try 'release: a proof without the library' 2 '' 'does not say that hive_c is proved' release made3 proof-without
made_nothing 'no proof of these sources'

# What is in it.
mkdir plain
tar -xzf "made1/$made.tar.gz" -C plain
box=$PWD/plain/$made
sums() { (cd "$box" && sed '1,/^$/d' PROVENANCE | sha256sum -c --quiet); }
right 'release: PROVENANCE has the sum of each file' sums
right 'release: PROVENANCE has every file' [ "$(cd "$box" && find . -type f ! -name PROVENANCE | wc -l)" = "$(sed '1,/^$/d' "$box/PROVENANCE" | wc -l)" ]
right 'release: PROVENANCE quotes the proof' grep -qxF "proof (rt ci): $(tail -n 1 "$proof")" "$box/PROVENANCE"
axiom=$(grep '^axioms ' "$proof" | grep -m 1 -v ': none reached') || axiom='axioms libc: libc::' # where the programs are kept, the log has none
right 'release: PROVENANCE quotes an axiom' sh -c '[ -n "$1" ] && grep -qF "$1" "$2"' - "$axiom" "$box/PROVENANCE"
right 'release: PROVENANCE names the kit' grep -qxF "kit: $(rt version)" "$box/PROVENANCE"
if commit=$(git -C "$top" rev-parse HEAD 2>/dev/null); then
    right 'release: PROVENANCE names the commit' grep -qE "^commit: $commit(, with changes that are not committed)?\$" "$box/PROVENANCE"
fi
same 'release: the archive is the proved one' "$box/lib/libkiweamotu.a" "$library"
same 'release: the header' "$box/include/kiweamotu.h" "$top/include/kiweamotu.h"
interface=$(sed -n '1s/.*, interface //p' "$box/PROVENANCE")
shared=libkiweamotu.so.$interface

# One version.
right 'version: README' grep -qF "Version $version (" "$top/README.md"
right 'version: the name that README gives' grep -qF "$made.tar.gz" "$top/README.md"
right 'version: the change log starts with it' [ "$(grep -m 1 '^## ' "$top/docs/CHANGES.md")" = "## $version" ]
right 'version: the change log names its interface' grep -qF "Interface $interface." "$top/docs/CHANGES.md"
right 'version: the header' grep -qxF "#define KIWEAMOTU_VERSION \"$version\"" "$box/include/kiweamotu.h"
right 'version: pkg-config' grep -qxF "Version: $version" "$box/lib/pkgconfig/kiweamotu.pc"
right 'version: PROVENANCE' grep -qx "Kiweamotu $version for x86-64 Linux, interface [0-9]*" "$box/PROVENANCE"
right "version: README's number of the interface" grep -qF "$shared" "$top/README.md"

# The shared library, and what the tool asks for.
compile "$top/tools/facts.c" "$out/facts.o"
link facts facts.o
run "$out/facts" "$box/lib/$shared" >facts.shared
run "$out/facts" "$box/bin/hive" >facts.tool
sed -n 's/^[A-Za-z0-9_]* \(hive_[a-z_]*\)(.*/\1/p' "$top/include/kiweamotu.h" | LC_ALL=C sort >calls.header
sed -n 's/^offers //p' facts.shared | LC_ALL=C sort >calls.shared
right 'shared library: there are calls' [ -s calls.header ]
same 'shared library: the calls and no other symbol' calls.shared calls.header
right 'shared library: its name' grep -qxF "soname $shared" facts.shared
right 'shared library: number by hive_abi' [ "$(run "$out/facts")" = "$interface" ]
for fact in 'relro' 'bound at start' 'stack rw' 'needs libc.so.6'; do
    right "shared library: $fact" grep -qx "$fact" facts.shared
    right "tool: $fact" grep -qx "$fact" facts.tool
done
right 'shared library: no text relocations' [ "$(grep -cx 'text relocations' facts.shared)" = 0 ]
right 'tool: README says which glibc it needs' grep -qF "glibc $(sed -n 's/^needs GLIBC_//p' facts.tool | sort -V | tail -n 1) or later" "$top/README.md"
if command -v nm >/dev/null; then
    nm -D --defined-only "$box/lib/$shared" | sed 's/.* //' | LC_ALL=C sort >calls.nm
    same 'shared library: nm shows only the calls' calls.nm calls.header
else
    echo 'left out: nm -D of the shared library, for there is no nm; tools/facts.c has looked'
fi

# The tool from an empty folder, with nothing in PATH, by the system's own loader where there is one.
mkdir nothing
bare_tool() {
    (
        cd nothing
        if [ -e /lib64/ld-linux-x86-64.so.2 ]; then
            exec env -i PATH=/nowhere "$box/bin/hive" "$@"
        fi
        become "$box/bin/hive" "$@"
    )
}
try 'tool: check' 0 "$(hive check sample)" '' bare_tool check ../sample
try 'tool: value' 0 "$(hive value sample "$print" EventMessageFile)" '' bare_tool value ../sample "$print" EventMessageFile
try 'tool: --version' 0 "hive $version" '' bare_tool --version
cp spoilt repaired
try 'tool: repair' 0 "$(printf 'repaired 8\n%s' "$(hive check sample)")" 'next: put it where it belongs' bare_tool repair --no-backup ../repaired ../log
same 'tool: the finished file' repaired sample
right 'tool: it left nothing' [ -z "$(ls -A nothing)" ]

# C programs, compiled and linked by the kit's clang in one step, with the flags of kiweamotu.pc.
pc() { PKG_CONFIG_PATH=$box/lib/pkgconfig pkg-config "$@" kiweamotu; }
if ! command -v pkg-config >/dev/null; then
    echo 'left out: pkg-config, for it is not there; its flags are written out'
    pc() {
        case $1 in
        --cflags) echo "-I$box/include" ;;
        --libs) echo "-L$box/lib -lkiweamotu" ;;
        *) echo "-L$box/lib -l:$shared" ;;
        esac
    }
fi
build() {
    program=$1
    shift
    "$tools/bin/clang" --target=x86_64-unknown-linux-gnu -fuse-ld=lld -isystem "$top/host/kit" -std=c11 -O2 -Wall -Wextra -Werror -fPIE -pie -nostdlib \
        -Wl,--dynamic-linker,/lib64/ld-linux-x86-64.so.2 -o "$program" "$tools/lib/Scrt1.o" "$tools/lib/crti.o" "$box/examples/event_source.c" "$@" \
        "$tools/lib/libc.so.6" "$tools/lib/libc_nonshared.a" "$tools/lib/crtn.o"
}
shown=$(run "$out/event_source" sample Print)
right 'C: it builds with the archive' build with-archive $(pc --cflags) $(pc --libs)
try 'C: with the archive' 0 "$shown" '' run "$PWD/with-archive" sample Print
right 'C: it asks for no library of ours' [ "$(run "$out/facts" with-archive | grep -c '^needs libkiweamotu')" = 0 ]
right 'C: it builds with the shared library' build with-shared $(pc --cflags) $(pc --variable=shared)
with_shared() { (exec "$tools/lib/ld-linux-x86-64.so.2" --library-path "$tools/lib:$box/lib" "$PWD/with-shared" "$@"); }
try 'C: with the shared library' 0 "$shown" '' with_shared sample Print
right 'C: it asks for the shared library by its number' grep -qxF "needs $shared" <<END
$(run "$out/facts" with-shared)
END

# The manual pages, as they are written and as man shows them.
verbs=$(sed -n 's/^    {"\([a-z]*\)", .*_verb},$/\1/p' "$top/host/order.c")
options=$(sed -n '/ OPTIONS\[\] = {/,/^};/p' "$top/host/order.c" | grep -o '{"-[-a-z0-9]*"' | tr -d '{"')
right 'man: there are verbs and options' [ "$(echo $verbs $options | wc -w)" -ge 13 ]
# told PAGE NAME..: each verb, option or call stands in it
told() {
    page=$1
    shift
    for word in "$@"; do
        tr -d '\\' <"$page" | grep -qE -- "(^|[^a-z_-])$word([^a-z_-]|\$)" || { echo "$page: no $word"; return 1; }
    done
}
right 'man: hive(1) names every option' told "$box/share/man/man1/hive.1" $options
for verb in $verbs; do
    right "man: hive(1) names $verb" told "$box/share/man/man1/hive.1" "hive $verb"
done
right 'man: kiweamotu(3) names every call and constant' told "$box/share/man/man3/kiweamotu.3" $(cat calls.header) $(grep -oE 'HIVE_[A-Z_]+ = |Hive[A-Z][a-z]+;|HIVE_NO_KEY' "$top/include/kiweamotu.h" | sed 's/ = //; s/;//')
if command -v man >/dev/null && command -v groff >/dev/null; then
    shown_by_man() { MANWIDTH=200 LC_ALL=C.UTF-8 man --warnings -P cat "$1" 2>warnings; }
    shown_by_man "$box/share/man/man1/hive.1" >hive.shown
    right 'man: hive(1) without a warning' [ ! -s warnings ]
    right 'man: hive(1) as it is shown' told hive.shown $(echo "$verbs" | sed 's/^/hive./') $options
    shown_by_man "$box/share/man/man3/kiweamotu.3" >kiweamotu.shown
    right 'man: kiweamotu(3) without a warning' [ ! -s warnings ]
    right 'man: kiweamotu(3) as it is shown' told kiweamotu.shown $(cat calls.header)
else
    echo 'left out: the manual pages as man shows them, for there is no man'
fi

# Python, which loads the shared library into its own process.
if ! command -v python3 >/dev/null || ! python3 -c 'import sys; sys.exit(sys.version_info < (3, 8))'; then
    echo 'left out: the Python binding, for there is no python3 of 3.8 or later'
else
    python3 "$top/tests/python/run.py" "$box" "$tools/lib/ld-linux-x86-64.so.2" --library-path "$tools/lib" "$out/hive" >python.log 2>&1 || true
    cat python.log
    counts=$(tail -n 1 python.log)
    case $counts in
    *' passed, '*' failed') passed=$((passed + ${counts%% passed*})) failed=$((failed + $(echo "$counts" | sed 's/.*passed, //; s/ failed//'))) ;;
    *) bad 'python' 'its tests did not end' ;;
    esac
    # Each command that docs/COMING-FROM.md gives for this tool.
    python3 -B "$top/tools/samples.py" .
    P='ControlSet001\Services\EventLog\Application\Print'
    try 'coming from: check' 0 'accepted bins 1 keys 7 values 5 used 1152 free 2912' '' hive check SYSTEM
    try 'coming from: value' 0 '%SystemRoot%\System32\localspl.dll' '' hive value SYSTEM "$P" EventMessageFile
    try 'coming from: raw bytes' 0 '' '' hive value SYSTEM "$P" Blob OUT
    right 'coming from: all of them' [ "$(wc -c <OUT)" -eq 40 ]
    try 'coming from: ls' 0 "$(printf 'value %s\n' 'REG_EXPAND_SZ 70 EventMessageFile' 'REG_DWORD 4 TypesSupported' 'REG_MULTI_SZ 18 Sources' 'REG_BINARY 40 Blob')" '' hive ls SYSTEM "$P"
    try 'coming from: key' 0 'key at 488 subkeys 0 values 4 written 2024-02-29T16:47:36.8485888Z security O:SYG:SY' '' hive key -l SYSTEM "$P"
    try 'coming from: all keys' 0 7 '' lines keys SYSTEM
    try 'coming from: frames' 0 'exported frames 19 bytes 552' '' hive export SYSTEM SYSTEM.frames
    try 'coming from: a hive from frames' 0 "$(printf '%s\n' 'built 8192' 'accepted bins 1 keys 7 values 5 used 1232 free 2832')" '' hive build SYSTEM.frames NEWHIVE
    try 'coming from: text' 0 7 '' eval 'hive reg --utf8 SYSTEM | grep -c "^\["'
    sed '1,/^\$ hive reg /d; /^```/,$d' "$top/README.md" >wanted
    hive reg --utf8 SYSTEM "$P" | tail -n +3 | sed '$d' >found
    same "coming from: text, README's example" found wanted
    sed '1,/^\$ hive dump /d; /^```/,$d' "$top/README.md" >wanted
    hive dump SYSTEM "$P" >found
    same "coming from: every value, README's example" found wanted
    try 'coming from: with its log' 0 'accepted bins 1 keys 7 values 5 used 1152 free 2912' '' hive check --log TORN.LOG TORN
    try 'coming from: damaged' 1 "$(printf '%s\n' 'TORN: refused 7 at 0' 'BAD: refused 10 at 32' 'CUT: refused 6 at 0')" 'differ' hive check TORN BAD CUT
    try 'coming from: damaged, as it is' 1 'refused 10 at 576' 'what its log held is missing' hive check --as-is TORN
    try 'coming from: deleted records' 0 "$(printf '%s\n' 'key at 208 length 4 gone' 'value at 312 length 6 secret')" '' hive deleted DELETED
    try 'coming from: deleted records are not judged' 0 'accepted bins 1 keys 2 values 0 used 296 free 3768' '' hive check DELETED
    try 'coming from: with two logs' 0 "$(printf 'repaired 3\n%s' 'accepted bins 1 keys 7 values 5 used 1152 free 2912')" 'next: put it where it belongs' hive repair --no-backup NEW NEW.LOG1 NEW.LOG2
    try 'coming from: repair' 0 "$(printf 'repaired 3\n%s' 'accepted bins 1 keys 7 values 5 used 1152 free 2912')" 'next: put it where it belongs' hive repair --no-backup TORN TORN.LOG
fi
