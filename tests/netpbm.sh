#!/bin/sh
# Judges the library's files by Netpbm's own tools, and reads Netpbm's files through the library.
#
# Usage: tests/netpbm.sh
#
# WALUGTIRIM_LIB_DIR names the directory of libharness.a (default: crates/harness/out of the repository). Installs
# Debian's netpbm if it is missing. Prints a line for each check and ends with `netpbm: N passed, M failed`.
#
# shellcheck disable=SC2317 # the conditions are called through `check`
set -u

root=$(cd "$(dirname "$0")/.." && pwd)
library=${WALUGTIRIM_LIB_DIR:-$root/crates/harness/out}
[ -d "$library" ] && library=$(cd "$library" && pwd)
work=$root/target/netpbm
. "$root/tests/counted.sh"

# The library's side, tests/netpbm.c.
driver() {
    "$root/x86-64" ./driver "$@"
}

# The pixels of a PBM as Netpbm reads them: all digits on one line.
netpbm_pixels() {
    pnmtoplainpnm "$1" | tail -n +3 | tr -d ' \n'
}

# The levels of a PGM as Netpbm reads them: one number a line. (pgmtopgm keeps a PGM one, also where the maximum is 1;
# pnmtoplainpnm would make a PBM of that.)
netpbm_levels() {
    pgmtopgm -plain <"$1" | tail -n +4 | tr -s ' \n' '\n'
}

# same TEXT TEXT: both are the same and not empty.
same() {
    [ -n "$1" ] && [ "$1" = "$2" ]
}

# Whether Netpbm takes a file for one of this kind and size.
is_kind() {
    pnmfile "$1" | grep -q "$2"
}

# Whether Netpbm's own writer gives the very bytes of a raw PBM.
same_bytes() {
    pamtopnm "$1" | cmp -s - "$1"
}

lines_are_short() {
    ! grep -q '.\{71\}' "$1" && ! grep -q ' $' "$1"
}

# Whether the levels take more lines than there are rows.
lines_are_broken() {
    [ "$(tail -n +5 "$1" | wc -l)" -gt "$2" ]
}

if ! command -v pnmtoplainpnm >/dev/null 2>&1; then
    (apt-get update -qq && apt-get install -y -qq --no-install-recommends netpbm) >/dev/null 2>&1
fi
if ! command -v pnmtoplainpnm >/dev/null 2>&1; then
    check "netpbm is installed" false
    finish netpbm
fi

mkdir -p "$work"
rm -f "$work"/*
if ! "$root/x86-64" "${CC:-cc}" -O2 -std=c99 -Wall -Wextra -I "$root/include" "$root/tests/netpbm.c" "$library/libharness.a" \
    -o "$work/driver"; then
    check "the driver is built" false
    finish netpbm
fi
cd "$work" || exit 1

# 1. Sheets and levels that the library writes, read by Netpbm. Widths on both sides of whole bytes; one pixel; one
# column; rows whose levels take several lines.
for frame in "1 1" "7 3" "8 3" "9 5" "1 20" "31 17" "35 2" "36 2" "100 4" "333 3" "3 333" "1030 2"; do
    width=${frame% *}
    height=${frame#* }
    name=sheet-$width-$height
    pixels=$(driver sheet "$width" "$height" "$width$height" "$name.pbm" | tr -d '\n')
    check "PBM $width by $height: kind and frame" is_kind "$name.pbm" "PBM raw, $width by $height"
    check "PBM $width by $height: pixels" same "$pixels" "$(netpbm_pixels "$name.pbm")"
    check "PBM $width by $height: the bytes of Netpbm's writer" same_bytes "$name.pbm"
    check "PBM $width by $height: read back" same "$pixels" "$(driver pixels "$name.pbm" | tr -d '\n')"

    larger=$((width > height ? width : height))
    levels=$(driver erosion "$name.pbm" "$name-erosion.pgm" | tr -s ' \n' '\n')
    check "PGM of an erosion, $width by $height: kind, frame, maximum" \
        is_kind "$name-erosion.pgm" "PGM plain, $width by $height *maxval $larger\$"
    check "PGM of an erosion, $width by $height: levels" same "$levels" "$(netpbm_levels "$name-erosion.pgm")"
    check "PGM of an erosion, $width by $height: lines" lines_are_short "$name-erosion.pgm"

    levels=$(driver dilation "$name.pbm" 12 "$name-dilation.pgm" | tr -s ' \n' '\n')
    check "PGM of a dilation, $width by $height: kind, frame, maximum" \
        is_kind "$name-dilation.pgm" "PGM plain, $width by $height *maxval 13\$"
    check "PGM of a dilation, $width by $height: levels" same "$levels" "$(netpbm_levels "$name-dilation.pgm")"
    check "PGM of a dilation, $width by $height: lines" lines_are_short "$name-dilation.pgm"

    levels=$(driver cropped "$name.pbm" 2 "$name-cropped.pgm" | tr -s ' \n' '\n')
    check "PGM of a crop, $width by $height: kind, frame, maximum" \
        is_kind "$name-cropped.pgm" "PGM plain, $width by $height *maxval 65535\$"
    check "PGM of a crop, $width by $height: levels" same "$levels" "$(netpbm_levels "$name-cropped.pgm")"
    check "PGM of a crop, $width by $height: lines" lines_are_short "$name-cropped.pgm"
done
for frame in "36 2" "100 4" "333 3"; do
    width=${frame% *}
    height=${frame#* }
    check "PGM $width by $height: rows take several lines" lines_are_broken "sheet-$width-$height-erosion.pgm" "$height"
done

# Levels of two and three digits: a black square, 300 by 300.
pbmmake -black 300 300 >square.pbm
levels=$(driver erosion square.pbm square.pgm | tr -s ' \n' '\n')
check "PGM of a black square: levels" same "$levels" "$(netpbm_levels square.pgm)"
check "PGM of a black square: lines" lines_are_short square.pgm
check "PGM of a black square: largest level by pamsumm" same 150 "$(pamsumm -max -brief square.pgm | tr -d ' ')"

# 2. Sheets that Netpbm writes, read by the library.
pbmmake -white 17 4 >white.pbm
pbmmake -black 16 5 >black.pbm
pbmmake -gray 23 11 >gray.pbm
pbmtext "A sheet of text, to be read" >text.pbm
pgmramp -lr 75 40 | pamditherbw -floyd | pamtopnm >dither.pbm
pgmramp -ellipse 61 61 | pamditherbw -threshold | pamtopnm >ellipse.pbm
pnmpad -white -left=3 -top=2 -right=5 -bottom=1 text.pbm | pnmtopnm >padded.pbm
pbmmake -black 4096 2 >widest.pbm
pbmmake -white 2 4096 >tallest.pbm
for name in white black gray text dither ellipse padded widest tallest; do
    check "Netpbm's PBM \"$name\": pixels" same "$(driver pixels "$name.pbm" | tr -d '\n')" "$(netpbm_pixels "$name.pbm")"
done
pbmmake -black 4097 1 >too-wide.pbm
pnmtoplainpnm gray.pbm >plain.pbm
pgmramp -lr 9 9 >ramp.pgm
check "Netpbm's PBM of 4,097 columns is refused with 2" same "refused 2" "$(driver pixels too-wide.pbm)"
check "Netpbm's plain PBM is refused with 21" same "refused 21" "$(driver pixels plain.pbm)"
check "Netpbm's PGM is refused with 21" same "refused 21" "$(driver pixels ramp.pgm)"

# 3. Erosion and dilation by Netpbm's own pgmmorphconv, with the cross, step by step. Its template is the white part
# of a picture and its foreground the bright part, so ours are inverted; a border stands for the infinite grid, wide
# enough for the steps taken: white is background, and black the foreground beyond a crop.
printf 'P1\n3 3\n101\n000\n101\n' >cross.pbm

# steps KIND COUNT IN.pbm BORDER: the pixels after so many steps.
steps() {
    border=$(($2 + 2))
    width=$(pamfile -size "$3" | cut -d ' ' -f 1)
    height=$(pamfile -size "$3" | cut -d ' ' -f 2)
    pnmpad "-$4" -left=$border -right=$border -top=$border -bottom=$border "$3" | pnminvert | pgmtopgm >step.pgm
    step=0
    while [ $step -lt "$2" ]; do
        pgmmorphconv "-$1" cross.pbm step.pgm >next.pgm && mv next.pgm step.pgm
        step=$((step + 1))
    done
    pamcut -left $border -top $border -width "$width" -height "$height" step.pgm |
        pamthreshold -simple -threshold=0.5 | pamtopnm | pnminvert >stepped.pbm
    netpbm_pixels stepped.pbm
}

for name in text ellipse dither sheet-31-17; do
    for size in 0 1 2 3; do
        check "\"$name\" eroded by $size, as pgmmorphconv does" \
            same "$(driver eroded "$name.pbm" $size eroded.pbm | tr -d '\n')" "$(steps erode $size "$name.pbm" white)"
        check "\"$name\" dilated by $size, as pgmmorphconv does" \
            same "$(driver dilated "$name.pbm" $size dilated.pbm | tr -d '\n')" "$(steps dilate $size "$name.pbm" white)"
        check "\"$name\" as a crop, eroded by $size, as pgmmorphconv does" \
            same "$(driver crop-eroded "$name.pbm" $size eroded.pbm | tr -d '\n')" "$(steps erode $size "$name.pbm" black)"
    done
done

finish netpbm
