#!/bin/sh
# README's first command, and the program through it: on inputs at its limits and on damaged ones; where it has to be built first;
# and where the processor asks for an emulator. Needs the program as rt ci leaves it. The last line is `program: N passed, M failed`.
#
# shellcheck disable=SC2059,SC2317 # the expected texts are formats, and the conditions are called through `check`
set -u
root=$(cd "$(dirname "$0")/.." && pwd)
program=$root/crates/erode/out/erode
work=$(mktemp -d)
trap 'rm -rf "$work"' EXIT
. "$root/tests/counted.sh"

# erode ARGUMENT..: the command on $work/in; its status, $work/out and $work/err are looked at afterwards. The programs in the
# directory `instead`, where that is set, stand in for others.
instead=
erode() {
    PATH=${instead:+$instead:}$PATH "$root/erode" "$@" <"$work/in" >"$work/out" 2>"$work/err"
    status=$?
}

# prints NAME EXPECTED: the program on $work/in prints exactly the bytes of EXPECTED
prints() {
    erode
    printf "$2" >"$work/expected"
    check "$1" cmp -s "$work/out" "$work/expected"
}

# begins NAME HEADER: what it prints begins with the lines of HEADER
begins() {
    erode
    printf "$2" >"$work/expected"
    head -c "$(wc -c <"$work/expected")" "$work/out" >"$work/front"
    check "$1" cmp -s "$work/front" "$work/expected"
}

zeros() { head -c "$1" /dev/zero; }

printf 'P4\n3 3\n\340\340\340' >"$work/in"
prints "a full sheet of 3 by 3" 'P2\n# rows 6 of 6\n3 3\n3\n1 1 1\n1 2 1\n1 1 1\n'
: >"$work/in"
prints "an empty input" 'refused 21\n'
printf 'P4\n3 x' >"$work/in"
prints "a broken header" 'refused 22\n'
printf 'P4\n3 3\n\340\340' >"$work/in"
prints "a short raster" 'refused 23\n'
printf 'P4\n3 3\n\340\340\340\340' >"$work/in"
prints "a byte after the raster" 'refused 24\n'
printf 'P4\n4097 1\n' >"$work/in"
prints "a side of 4,097" 'refused 2\n'
{ printf 'P4\n128 128\n' && zeros 2048; } >"$work/in"
begins "128 by 128 pixels" 'P2\n# rows 256 of 256\n128 128\n128\n0 0 0'
{ printf 'P4\n129 128\n' && zeros 2176; } >"$work/in"
prints "129 by 128 pixels" 'refused 10\n'
{ printf 'P4\n128 129\n' && zeros 2064; } >"$work/in"
prints "128 by 129 pixels" 'refused 10\n'
zeros 65535 >"$work/in"
prints "65,535 bytes that are no PBM" 'refused 21\n'
zeros 65536 >"$work/in"
prints "65,536 bytes" 'refused 10\n'
{ printf 'P4\n3 3\n\340\340\340' && zeros 70000; } >"$work/in"
prints "more than 65,536 bytes" 'refused 10\n'

# What the program gives of the sheet in README, by itself.
sheet=$root/sheets/form.pbm
"$root/x86-64" "$program" <"$sheet" >"$work/levels"

# gives_levels: the last erode ended well, and gave these bytes.
gives_levels() {
    [ "$status" -eq 0 ] && cmp -s "$work/out" "$work/levels"
}

# fails STATUS WORDS: the last erode gave this status and a line with these words, and no byte of a picture.
fails() {
    [ "$status" -eq "$1" ] && [ ! -s "$work/out" ] && [ "$(wc -l <"$work/err")" -ge 1 ] && grep -q "$2" "$work/err"
}

# README's first command as it stands there, in a directory with what a clone has: nothing is written into this one.
as_in_readme() {
    command=$(grep -m 1 '^    \./erode ' "$root/README.md") || return 1
    mkdir "$work/clone"
    for name in erode x86-64 crates crates.txt sheets; do
        ln -s "$root/$name" "$work/clone/$name"
    done
    (cd "$work/clone" && sh -c "$command") && cmp -s "$work/clone/levels.pgm" "$work/levels"
}
check "README's first command" as_in_readme
check "its levels are those of all rows" grep -q '^# rows 180 of 180$' "$work/levels"

erode "$sheet"
check "a sheet named" gives_levels
check "nothing is said where the program is built" [ ! -s "$work/err" ]
cp "$sheet" "$work/in"
erode
check "a sheet on standard input" gives_levels
erode -
check "a sheet on standard input, by its sign" gives_levels
erode "$work/missing.pbm"
check "a file that is not there" fails 66 'missing.pbm: there is no such file'
erode "$work"
check "a directory" fails 66 'directory'
erode "$sheet" "$sheet"
check "two files" fails 64 'usage'
erode --size
check "an option that there is not" fails 64 'usage'
erode --help
check "help" grep -q '^Usage: ./erode' "$work/out"

# A program that has to be built: one older than its sources, first where that fails, and one that is gone.
mkdir "$work/failing" "$work/emulating"
printf '#!/bin/sh\necho not proved\nexit 1\n' >"$work/failing/rt"
chmod +x "$work/failing/rt"
touch -d '2000-01-01' "$program"
instead=$work/failing
erode "$sheet"
check "sources that are not proved" fails 69 'not proved'
instead=
erode "$sheet"
check "a program older than its sources" gives_levels
check "it is said that it was built" grep -q '^erode: proved and built in [0-9]* seconds$' "$work/err"
rm "$program"
erode "$sheet"
check "a program that is gone" gives_levels
erode "$sheet"
check "it is built once" [ ! -s "$work/err" ]

# Another processor: the emulator gets the program, and its bytes and status are passed on.
printf '#!/bin/sh\necho aarch64\n' >"$work/emulating/uname"
cat >"$work/emulating/qemu-x86_64" <<END
#!/bin/sh
echo "\$1" >"$work/emulated"
PATH='$PATH' "$root/x86-64" "\$@"
exit 7
END
chmod +x "$work/emulating/uname" "$work/emulating/qemu-x86_64"
instead=$work/emulating
erode "$sheet"
check "under an emulator: the bytes" cmp -s "$work/out" "$work/levels"
check "under an emulator: the status" [ "$status" -eq 7 ]
check "under an emulator: the program" grep -q 'crates/erode/out/erode$' "$work/emulated"

finish program
