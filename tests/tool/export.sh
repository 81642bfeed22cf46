# The tree as frames. The stream of a hive is read back here, by its lengths and kinds.

# frames FILE: for each frame its kind and the length of its payload
frames() {
    od -An -v -tu1 -w1 "$1" | awk '{ b[n++] = $1 } END { for (i = 0; i < n; i += 6 + l) { l = b[i] + 256 * b[i + 1] + 65536 * b[i + 2]; print b[i + 4] + 256 * b[i + 5], l } }'
}

to_output() { hive export "$@" >stream; }
try 'export: the minimal hive' 0 'exported frames 2 bytes 22' '' hive export minimal minimal.frames
printf '\12\0\0\0\20\0\0\0\0\0\0\0\0\0R\0\0\0\0\0\22\0' >wanted
same 'export: its bytes' minimal.frames wanted
try 'export: to standard output' 0 '' '' to_output minimal
same 'export: frames alone' stream wanted
try 'export: the sample' 0 "exported frames $(($(hive check sample | sed 's/.*keys \([0-9]*\) values \([0-9]*\) .*/2 * \1 + \2/')))" '' eval 'hive export sample sample.frames | sed "s/ bytes.*//"'
frames sample.frames >found
right 'export: as many keys open as close' [ "$(grep -c '^16 ' found)" = "$(grep -c '^18 0$' found)" ]
right 'export: each key, each value' [ "$(grep -c '^16 ' found) $(grep -c '^17 ' found)" = "$(hive check sample | sed 's/.*keys \([0-9]*\) values \([0-9]*\) .*/\1 \2/')" ]
try 'export: to standard output, the sample' 0 '' '' to_output sample
same 'export: the same stream' stream sample.frames
try 'export: json' 0 '{"file":"minimal","answer":"exported","frames":2,"bytes":22}' '' hive export --json minimal json.frames
try 'export: never over a file' 2 '' 'is there already' hive export minimal minimal.frames
try 'export: refused' 1 'refused 12 at 120' 'bad-key: a record in a cell is wrong' hive export bad-key bad.frames
right 'export: nothing is left of it' [ ! -e bad.frames ]
try 'export: refused, and standard output has no frame' 1 '' 'refused 12 at 120' to_output bad-key
right 'export: it is empty' [ ! -s stream ]
try 'export: not finished' 1 'refused 7 at 0' 'give its log with --log' hive export spoilt spoilt.frames
try 'export: as its log would repair it' 0 '' '' to_output --log log spoilt
same 'export: the repaired tree' stream sample.frames
try 'export: to -' 0 '' 'exported frames 2 bytes 22' to_output minimal -
same 'export: to -, frames alone' stream wanted
try 'export: to -, json' 0 '' '{"file":"minimal","answer":"exported","frames":2,"bytes":22}' to_output --json minimal -
same 'export: to -, json, frames alone' stream wanted
try 'export: to -, refused' 1 '' 'refused 12 at 120' to_output bad-key -
right 'export: to -, refused, and it is empty' [ ! -s stream ]
try 'export: to a terminal' 2 '' 'standard output: frames are no text for a terminal; give OUT' on_terminal export minimal
try 'export: to -, a terminal' 2 '' 'standard output: frames are no text for a terminal; give OUT' on_terminal export minimal -
right 'export: no file is called so' [ ! -e ./- ]
full_frames() { hive export "$@" >/dev/full; }
try 'export: no room' 2 '' 'standard output: it cannot be written' full_frames sample
try 'export: to -, no room' 2 '' 'standard output: it cannot be written' full_frames sample -
right 'export: to -, no room, and nothing more is said' [ "$(wc -l <stderr)" -eq 1 ]
try 'export: a word too many' 2 '' 'export wants FILE [OUT], and "x" is a word too many; see: hive --help' hive export minimal a x
try 'export: no file' 2 '' 'hive: nothing: No such file' hive export nothing out.frames
