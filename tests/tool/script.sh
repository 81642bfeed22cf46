# The script: what it answers before anything is proved, and that it becomes the tool.

# A copy that is not built, a prover that only notes that it was called, and a folder with no prover.
mkdir tree prover bare
cp -r "$top/hive" "$top/host" "$top/crates.txt" "$top/VERSION" tree
mkdir -p tree/crates/hive_c
cat >prover/rt <<'END'
#!/bin/sh
echo "$*" >>"${0%/*}/called"
[ "$1" = doc ] && { echo /none/START-HERE.md; exit; }
echo 'fn fields::same: proved'
echo 'crate fields: modules loaded=0 checked=580'
echo 'logic=proved functions=19'
echo 'crate base: modules loaded=128 checked=314'
echo 'logic=proved functions=16'
echo 'error: something else'
exit 1
END
chmod +x prover/rt
for command in sh cat dirname readlink tr; do ln -s "$(command -v $command)" bare; done
unproved() { PATH=$PWD/prover:$PATH sh tree/hive "$@"; }
bare() { PATH=$PWD/bare sh tree/hive "$@"; }

try 'script: --help' 0 "$(cat "$top/host/help.txt")" '' unproved --help
try 'script: no file' 2 '' 'hive: nothing: No such file' unproved check nothing
try 'script: no file of one' 2 '' 'hive: nothing: No such file' unproved info nothing
try 'script: no file behind options' 2 '' 'hive: nothing: No such file' unproved value --log log nothing a b
try 'script: no file behind a prefix' 2 '' 'hive: nothing: No such file' unproved reg --prefix log nothing
try 'script: no frames behind a descriptor' 2 '' 'hive: nothing: No such file' unproved build --descriptor log nothing out
try 'script: no verb' 2 '' '"chekc" is none of check' unproved chekc minimal
try 'script: --version' 0 "hive $(cat "$top/VERSION")" '' unproved --version
shut_script() { (exec >stdout 2>stderr; case $1 in *1*) exec >&- ;; esac; case $1 in *2*) exec 2>&- ;; esac; shift; PATH=$PWD/prover:$PATH exec sh tree/hive "$@"); }
for which in 1 2 12; do
    case $which in *1*) want=2 ;; *) want=0 ;; esac
    for words in --help --version 'check nothing' chekc ''; do
        case $words in -*) ;; *) want=2 ;; esac
        status=0
        shut_script $which $words || status=$?
        right "script: ${words:-nothing}, $which closed" [ "$status" = "$want" ]
    done
done
right 'script: nothing was proved for that' [ ! -e prover/called ]
try 'script: no verb, json: the tool tells' 2 '' 'error: something else' unproved chekc --json minimal
try 'script: --help without the kit' 0 "$(cat "$top/host/help.txt")" '' bare --help
try 'script: without the kit' 2 '' 'a release of hive needs none of it' bare check minimal
right 'script: without the kit, one line' [ "$(wc -l <stderr)" -eq 1 ]
try 'script: a proof that fails' 2 '' 'error: something else' unproved check minimal
right 'script: which crate of how many' grep -qx "hive: base is proved (2 of $(crates_of hive_c | wc -l))" stderr
ln -s "$top/hive" link
try 'script: by a link' 0 "$(hive check minimal)" '' sh link check minimal

# The process that was started is the tool itself: a signal reaches it.
mkfifo pipe
sh "$top/hive" check pipe 2>/dev/null &
started=$!
for try in 1 2 3 4 5 6 7 8 9 10 11 12 13 14 15 16 17 18 19 20; do
    tr '\0' ' ' <"/proc/$started/cmdline" | grep -qF "$out/hive check pipe" && break
    sleep 0.2
done
right 'script: it becomes the tool' grep -qF "$out/hive" "/proc/$started/cmdline"
kill "$started"
status=0
wait "$started" 2>/dev/null || status=$?
right 'script: a signal ends it' [ "$status" -eq 143 ]
