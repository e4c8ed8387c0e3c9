#!/usr/bin/env bash
# Tries the comparison itself, which would also pass if it found nothing: the built programs and the model's own must pass as they are, and each
# fault that is planted in what they print must be found. A fault that changes nothing, such as an edit that fits no line any more, has failed.
# The panel's program, target/c/panel, which tests/panel/run makes, is tried where it is there.
set -uo pipefail
cd "$(dirname "$0")/../.." || exit 1
tests/built desk probe || exit 1
cargo build --release --offline --quiet --manifest-path tests/model/Cargo.toml || exit 1
model=tests/model/target/release/model
panel=target/c/panel
work=$(mktemp -d) || exit 1
trap 'rm -rf "$work"' EXIT
tries=0

# Tries one thing beside others, as many at a time as there are processors: it has a folder of its own, where it writes what it has to say.
aside() { # COMMAND..
    while [ "$(jobs -rp | wc -l)" -ge "$(nproc)" ]; do wait -n; done
    tries=$((tries + 1))
    mkdir "$work/$tries"
    (here=$work/$tries && export PLANTED=$here/changed && "$@") >"$work/$tries/said" 2>&1 &
}

# Compares the programs of OF with the model while a fault is planted; leaves the report and whether the fault changed anything. For a fault of
# another program the panel's is left out, which would only take time.
compared() { # OF WHICH END FILTER
    local plant=(tests/model/planted "$2" "$3" "$4") programs
    case $1 in
        ours)
            programs=(--desk crates/desk/out/desk --probe crates/probe/out/probe)
            [[ $2 != panel && $2 != '*' || ! -e $panel ]] || programs+=(--panel "$panel")
            "$model" compare "${programs[@]}" --streams 0 --failures 1 -- "${plant[@]}"
            ;;
        model)
            programs=(--desk desk --probe probe)
            [[ $2 != panel && $2 != '*' ]] || programs+=(--panel panel)
            "$model" compare "${programs[@]}" --streams 0 --failures 1 -- "${plant[@]}" "$model"
            ;;
    esac >"$here/report" 2>&1
}

fails() { # WHAT
    echo "FAILED: $1; the report ends with"
    tail -n 12 "$here/report"
}

# What the programs print goes through a filter that leaves it as it is, so that what plants is tried too.
unfaulted() { # OF
    if ! compared "$1" '*' - cat; then
        fails "$1, as they are: do not pass"
    elif [ -e "$PLANTED" ]; then
        fails "$1, as they are: changed"
    else
        echo "passed: $1, as they are"
    fi
}

# The comparison must fail at the program that has the fault, and show it.
faulted() { # OF WHAT SHOWN WHICH END FILTER
    local kind status
    case $4 in
        desk) kind='desk stream' ;;
        probe) kind='probe script' ;;
        panel) kind='panel' ;;
    esac
    compared "$1" "$4" "$5" "$6"
    status=$?
    if [ ! -e "$PLANTED" ]; then
        fails "$1, $2: changed nothing"
    elif [ "$status" -eq 0 ]; then
        fails "$1, $2: not found"
    elif ! grep -q "^FAILED $kind" "$here/report" || ! grep -qE "$3" "$here/report"; then
        fails "$1, $2: the run failed for another reason"
    else
        echo "passed: $1, $2: found"
    fi
}

# In the panel's program once, in ours if it is there: the model's own prints by what prints the probe's lines.
planted() { # WHAT SHOWN WHICH END FILTER
    [[ $3 == panel && ! -e $panel ]] || aside faulted ours "$@"
    [[ $3 == panel && -e $panel ]] || aside faulted model "$@"
}

aside unfaulted ours
aside unfaulted model
planted 'a wrong digit' '^  got      7<0A>' desk - "sed '3s/6/7/'"
planted 'a line left out' '^  line     200$' desk - "sed 200d"
planted 'a line too many' '^  expected no line$' desk - "sed '\$a 3'"
planted 'line ends left out' '^  got      0 :013200CD0 :01330FBD6' desk - "tr -d '\n'"
planted 'small letters in a reply' '^  got      0 :013200cd' desk - "tr A-F a-f"
planted 'small letters refused' '^  at       piece :0132cD' desk - "sed '4s/^0 .*/5/'"
planted 'a bad end' 'ended with exit status: 3$' desk 3 cat
planted 'a wrong digest' '^  got      S [0-9 ]+<0A>' probe - "sed '5{s/9\$/8/;t;s/[0-8]\$/9/}'"
planted 'a wrong number' '^  got      H 0 0 0<0A>' probe - "sed 's/^H 10 /H 0 /'"
# Line 213 is P4 in the first output that is long enough, of 132 bytes.
planted 'small letters not taken apart' '^  at       record T :0132cD' probe - "sed '213s/^T 0 2 /T 5 0 /'"
planted 'a wrong checksum served' '^  at       piece :0132CE' desk - "sed '3s/^6\$/0 :01320FBE/'"
planted 'a right checksum refused' '^  at       piece :0132CD' desk - "sed '1s/^0 .*/6/'"
# Line 212 is P3 in that output.
planted 'a wrong checksum taken apart' '^  at       record T :0132CE' probe - "sed '212s/^T 6 0 /T 0 2 /'"
# Of P1's contents with each of the 256 checksums, the 206th is P1, and before them the fresh image has a line.
planted 'one checksum of 256 not taken apart' '^FAILED probe script [0-9]+ \(every checksum, taken apart\)' probe - "sed '206{/^T 6 /{n;s/^T 0 2 /T 6 0 /}}'"
# The desk's temperatures begin with the limits, each alone and then before each of them, and a signature of error table 1 behind each: the 15th
# of 110 is 7Fh before 80h, and the 27th 80h before 81h.
planted '80h refused behind 7Fh' '^  at       piece :013E01027F000580FFFFBC' desk - "sed '29s/^0 :013E01C0\$/11/'"
planted '80h served before 81h' '^  at       piece :013E010280000581FFFFBA' desk - "sed '52{/^0 :014001/{n;s/^11\$/0 :013E01C0/}}'"
# There follow 20 full tables for error table 8, which stays empty: each stops at another row and is read behind that.
planted 'the last of 21 rows not judged' '^  line     259$' desk - "sed '258{/^0 :013F0800B8\$/{n;s/^11\$/0 :013E08B9/}}'"
# In the probe's a line of the fresh image comes first, then eight older tables, four lines for each: read, signed, refused when written, read.
planted 'an older table refused but written' '^FAILED probe script [0-9]+ \(error table temperatures\)' probe - "sed '4s/^S 11 0 ./&9/'"
planted 'an older table not read' '^  at       record S :013F01BF' probe - "sed '4{/^S 11 0 /{n;s/^S 0 [0-9]* /S 11 0 /}}'"
# The first script that is sealed has a line of the fresh image and 17 of command 50. Then a mask is written sealed, and unsealed.
planted 'a sealed mask refused but written' '^  line     19$' probe - "sed '19s/^K 16 0 ./&9/'"
# Of the paper's rows when sealed, P8 is on line 9, refused 10, and behind it comes P9, with a reply of 15 bytes.
planted 'a sealed signature refused' '^  at       record K :013D01C1' probe - "sed '9{/^K 10 0 /{n;s/^K 0 15 /K 16 0 /}}'"
# A fresh image of address 1 has the first digest with its 64 bytes of signatures and the second without them.
planted 'signatures left out of the digest' '^  got      F 0 653123886<0A>' probe - "sed 's/^F 0 2232525539\$/F 0 653123886/'"
# The first fixed write of a signed item is on line 3; the second digest is that of the image with the part written and the signature left.
planted 'a signature not amended' '^FAILED probe script [0-9]+ \(signatures, each item\)' probe - "sed '3s/^S 0 13 2512263563 /S 0 13 2719707349 /'"
# All signatures are false on empty items, and table 1's is asked first. The last digest is that of the reply with 0, the full sum, in it.
planted 'a false signature summed anew' '^FAILED probe script [0-9]+ \(signatures, as they stand\)' probe - "sed '2s/^\(S 0 15 4156032078\) .*/\1 2031877812/'"
# Part 3 of table 12 is written, and behind it table 2 is asked.
planted "table 12's signature at table 2's place" '^  at       piece :013D02C0' desk - "sed '1{/^0 :013B0C03B5\$/{n;s/^0 :013D020000C0\$/0 :013D0212347A/}}'"
# In the first script with moves an image is written by 52 frames behind its own line. Then it is moved down, asked a mask, which is refused, and
# moved up twice, first into the buffer that it came from; then all its words become others, and it is moved down and up.
planted 'a wrong number of a move up' '^  got      U 1 [0-9]+ [0-9]+<0A>' probe - "sed '57s/^U 0 /U 1 /'"
planted 'a move up left out' '^  at       record U \(image 23753, second 23817\)' probe - "sed '57{/^U 0 /d}'"
planted 'a source changed by a move up' '^FAILED probe script [0-9]+ \(moves\)' probe - "sed '57s/^U 0 ./&9/'"
planted 'a wrong second digest of a move down' '^FAILED probe script [0-9]+ \(moves\)' probe - "sed '54{/^D 0 /{s/9\$/8/;t;s/[0-8]\$/9/}}'"
planted 'false words refused by a move down' '^  got      D 1 [0-9]+ [0-9]+<0A>' probe - "sed '58s/^D 0 /D 1 /'"
# The first script of refusals begins with an image of the other version.
planted 'a target changed by a refused move' '^FAILED probe script [0-9]+ \(moves refused\)' probe - "sed '1{/^U 1 /{s/9\$/8/;t;s/[0-8]\$/9/}}'"
# In the first script of repeats a list of 30 frames follows the line of its fresh image. A part of a table is sent to another address and then to
# this one, with other bytes, with these again and with a wrong checksum, with the first bytes again and to another address; each time it is read
# behind that, and its table asked. Then a part is sent like that once more. The same list follows in another order up to line 62.
planted 'a part sent again not stored' '^FAILED probe script [0-9]+ \(repeats in two orders\)' probe - "sed '5{/^S 0 15 /{N;s/^\(S 0 15 \([0-9]*\) [0-9]*\nS 0 13 \)[0-9]*/\1\2/}}'"
planted 'a part read between two writes answered otherwise' '^FAILED probe script [0-9]+ \(repeats in two orders\)' probe - "sed '6{/^S 0 13 /{n;/^S 0 269 /{s/9\$/8/;t;s/[0-8]\$/9/}}}'"
planted 'a part sent again with a wrong checksum but written' '^FAILED probe script [0-9]+ \(repeats in two orders\)' probe - "sed '9{/^S 0 13 /{n;s/^S 6 0 ./&9/}}'"
planted 'another end in another order' '^  line     62$' probe - "sed '62{/^S 0 /{N;/\nF 0 /s/^S 0 [0-9]* ./&9/}}'"
# A mask is sent and asked. Then, from a fresh image, it is asked and sent; here the image is that of the write before this is served.
planted 'a write before the read that stands before it' '^FAILED probe script [0-9]+ \(lists out of order\)' probe - "sed '4{/^F 0 /{n;N;s/^\(S 0 11 \)[0-9]*\( [0-9]*\nS 0 11 \([0-9]*\) .*\)\$/\1\3\2/}}'"
# The first sealed list sends a mask to another address, then to this one, asks it and sends another.
planted 'a mask sent again sealed, refused but written' '^FAILED probe script [0-9]+ \(sealed lists in three orders\)' probe - "sed '5s/^K 16 0 ./&9/'"
# The first lines of a listener are P1, a 3Ah inside a frame before it, a run of 270 bytes, P1 again, a run of 269 bytes and 3Ah 0Dh 0Ah. Each prints
# a line for the frame, but for the run that is too long, and a line for the record. The digests are those of P1 without its 0Ah, of all twelve bytes,
# of the 270, and of the room in which the first byte behind P1 is no longer that of the run.
planted 'a frame handed out one byte late' '^  got      G 10 9 198261346<0A>' probe - "sed '1s/^G 9 9 /G 10 9 /'"
planted 'a frame without its last byte' '^  got      G 9 8 2022915578<0A>' probe - "sed '1s/^G 9 9 198261346\$/G 9 8 2022915578/'"
planted 'a 3Ah inside a frame gathered' '^  at       record N :01:0132CD<0D><0A> ' probe - "sed '3s/^G 12 9 198261346\$/G 12 12 2680934599/'"
planted 'a drop that keeps the count' '^  got      N 269 0 [0-9]+<0A>' probe - "sed '5s/^N 0 0 /N 269 0 /'"
planted 'an end of 270 bytes handed out' '^  got      G 270 270 2336524904<0A>' probe - "sed '5s/^N 0 0 /G 270 270 2336524904\n&/'"
planted 'a byte past the count changed' '^  got      N 9 0 2276518832<0A>' probe - "sed '7s/^N 9 0 2043997060\$/N 9 0 2276518832/'"
planted 'the longest frame not handed out' '^  expected G 269 269 [0-9]+<0A>' probe - "sed '8{/^G 269 269 /d}'"
# Then a record whose count is 270 is given an end, and a line is served that writes a mask and asks it; last, a record that has gathered nothing is
# given 0Ah, with 0Dh all over its room.
planted 'an over-full record that is dropped' '^  got      N 0 0 [0-9]+<0A>' probe - "sed '12s/^N 270 1 /N 0 0 /'"
planted 'a frame off the line not served' '^  at       record V <00><0D><0A>:01330FBD<0D><0A> ' probe - "sed '15{/^S 0 11 /d}'"
planted 'a frame off the line answered but not stored' '^FAILED probe script [0-9]+ \(listener, first lines\)' probe - "sed '15s/^S 0 11 [0-9]* /S 0 11 2232525539 /'"
planted 'a first byte that ends a frame' '^  got      N 1 0 [0-9]+<0A>' probe - "sed '19s/^N 1 1 /N 1 0 /'"
# The first questions for a volume are, on a fresh image, of table 1, which holds no part, and of table 9. Then table 1 is written by eleven frames, its
# rows at levels 100, 200 and so on with volumes 150, 300 and so on. Asked are the levels 99, 100, 101, 199, 200, 35,200, 35,201 and 65,636, and 100 of
# tables 257 and 11.
planted 'a volume rounded up' '^  got      A 0 299<0A>' probe - "sed '18s/^A 0 298\$/A 0 299/'"
planted 'table 11 as table 1' '^  at       record A 11 100 ' probe - "sed '24s/^A 12 0\$/A 0 150/'"
# Row 3 gets the level of row 2, and 200 and 250 are asked. Row 352 gets a lower volume, and 100 and 99 are asked; part 11 is gone, and 100 is asked. Then
# the mask is read, the image gets address 0, and table 1 and table 9 are asked.
planted 'the first row of several' '^  got      A 0 300<0A>' probe - "sed '25s/^A 0 450\$/A 0 300/'"
planted '14 before 13' '^  at       record A 1 99 ' probe - "sed '28s/^A 13 0\$/A 14 0/'"
planted 'an image changed by a question' '^FAILED probe script [0-9]+ \(quantity, first questions\)' probe - "sed '29{/^A 12 0\$/{n;s/^S 0 11 ./&9/}}'"
# The first table files are an even table from its last part to its first, the same without the last 0Ah, and with another command in the first frame and
# another checksum in the last one; then it is sent. Behind line 31, on which it is checked once more, the mask is read.
planted 'rows judged in the order of the file' '^  got      C 20<0A>' probe - "sed '1s/^C 0\$/C 20/'"
planted 'a last frame without 0Ah accepted' '^  got      C 0<0A>' probe - "sed '2s/^C 17\$/C 0/'"
planted 'the first frame that fails decides' '^  got      C 18<0A>' probe - "sed '3s/^C 17\$/C 18/'"
planted 'an image changed by a check' '^FAILED probe script [0-9]+ \(table file, first files\)' probe - "sed '31{/^C 0\$/{n;s/^S 0 11 ./&9/}}'"
planted 'a bad end of the probe' 'ended with exit status: 3$' probe 3 cat
# The panel's first script is a line of the fresh image and the paper's rows by the switch's number 0: P1, P2, a line of another fresh image, P3 to P12.
# Before a call each lent number is all ones. The digests are those of the fresh image, and of an output whose first byte is 3Ah.
planted 'a length of a refused call' '^  got      Z 6 9 2232525539 [0-9]+<0A>' panel - "sed '5s/^Z 6 0 /Z 6 9 /'"
planted 'a length left as it was' '^  got      Z 6 18446744073709551615 2232525539 [0-9]+<0A>' panel - "sed '5s/^Z 6 0 /Z 6 18446744073709551615 /'"
planted 'an output changed by a refused call' '^  at       record Z 0 :0232CC<0D><0A> ' panel - "sed '7s/^\(Z 7 0 2232525539\) 830530580\$/\1 2051180117/'"
planted 'rows answered but not stored' '^  at       record Z 0 :013E0101140005A6<0D><0A> ' panel - "sed '12s/^Z 0 11 3957842088 /Z 0 11 2232525539 /'"
# The second has a fresh image, and then the six writes, a mask first, and the eight reads, a mask first too, by each of ten numbers that seal: 1, 2,
# 255, 256, 65,536, 2^32, 2^63, 2^64-1, 128 and 257. Then they come by 0. What is put in is the line of the mask that is written by 0, or the image then.
unsealed='s/^Z 16 0 2232525539 830530580$/Z 0 11 296847682 1888129408/'
planted 'a switch of 2 read as unsealed' '^  at       record Z 2 :01330FBD<0D><0A> ' panel - "sed '16$unsealed'"
planted 'a switch of 256 cut to 8 bits' '^  at       record Z 256 :01330FBD<0D><0A> ' panel - "sed '44$unsealed'"
planted 'a switch of 2^32 read as 0' '^  at       record Z 4294967296 :01330FBD<0D><0A> ' panel - "sed '72$unsealed'"
planted 'a switch of 0 read as sealed' '^  got      Z 16 0 2232525539 830530580<0A>' panel - "sed '142s/^Z 0 11 296847682 1888129408\$/Z 16 0 2232525539 830530580/'"
planted 'a read refused by a number that seals' '^  at       record Z 1 :0132CD<0D><0A> ' panel - "sed '8s/^Z 0 11 2232525539 3473951281\$/Z 16 0 2232525539 830530580/'"
planted 'a byte of the image changed by a sealed call' '^  got      Z 16 0 296847682 830530580<0A>' panel - "sed '2s/^Z 16 0 2232525539 /Z 16 0 296847682 /'"
# In the third, parts of some tables are held, of table 2 the second. Asked are 0 to 20 and 255, and the same behind 256, 512, 65,536, 2^24, 2^31, 2^32
# and more.
planted 'table 258 as table 2' '^  at       record J 258 ' panel - "sed '26s/^J 10 0 0\$/J 0 1 1/'"
planted 'table 2^32 and 2 as table 2' '^  at       record J 4294967298 ' panel - "sed '136s/^J 10 0 0\$/J 0 1 1/'"
planted 'parts held left as they were' '^  got      J 10 255 0<0A>' panel - "sed '2s/^J 10 0 0\$/J 10 255 0/'"
planted 'the eleventh part not counted' '^  at       record J 13 ' panel - "sed '15s/^J 0 11 0\$/J 0 10 11/'"
# In the fourth the image has address 0. Asked are 1, which is a table's number, and others, the sixth of which is 258.
planted '10 before 1' '^  at       record J 258 ' panel - "sed '8s/^J 1 0 0\$/J 10 0 0/'"
# The first of the probe's scripts that it is given come before any of its own with these letters; one begins with a frame.
planted "the probe's script otherwise through the panel" '^FAILED panel, probe script [0-9]+ ' panel - "sed '2{/^S /{s/9\$/8/;t;s/[0-8]\$/9/}}'"
planted 'a bad end of the panel' 'ended with exit status: 3$' panel 3 cat
wait
passed=0
for ((try = 1; try <= tries; try++)); do
    cat "$work/$try/said"
    ! grep -q '^passed: ' "$work/$try/said" || passed=$((passed + 1))
done
[ -e "$panel" ] || echo "self: there is no $panel; faults of the panel's program were tried on the model's own alone"
echo "self: $passed passed, $((tries - passed)) failed"
[ "$passed" -eq "$tries" ]
