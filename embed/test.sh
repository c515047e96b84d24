#!/bin/sh
# Builds the static library, links C and Rust programs against it, and compares what they print and save with the stored days, lists,
# images and texts, the second program (oracle/rights.py) and the pages. Needs rt, a C compiler (CC, default cc), a C++ compiler (CXX,
# default c++), rustc and python3.
# The last line is 'embed: N passed, 0 failed'.
set -u
cd "$(dirname "$0")/.." || exit 2
work=target/embed
days=crates/test_days/data/days.bin
images=crates/test_images/data/cases.bin
texts=crates/test_texts/data/cases.bin
lists=crates/test_lists/data/lists.bin
afternoon=examples/afternoon
passed=0 failed=0

# judged NAME STATUS: a test that passed if the status is 0
judged() {
    if [ "$2" -eq 0 ]; then
        passed=$((passed + 1))
    else
        echo "embed: $1 FAILED"
        failed=$((failed + 1))
    fi
}

# holds NAME FILE COMMAND..: the command succeeds and prints what is in the file
holds() {
    name=$1 expected=$2
    shift 2
    "$@" >"$work/printed" && cmp "$work/printed" "$expected"
    judged "$name" $?
}

# fails NAME STATUS WORDS COMMAND..: the command exits with that status, prints nothing and reports those words
fails() {
    name=$1 expected=$2 words=$3
    shift 3
    "$@" >"$work/printed" 2>"$work/said"
    [ $? -eq "$expected" ] && [ ! -s "$work/printed" ] && grep -q -e "$words" "$work/said"
    judged "$name" $?
}

mkdir -p "$work" || exit 2
tools/build embed_c >"$work/staticlib.log" 2>&1 || { tail -5 "$work/staticlib.log"; exit 1; }
lib=target/staticlib/libembed.a
flags='-std=c11 -O2 -Wall -Wextra -Werror'
# shellcheck disable=SC2086
{
    ${CC:-cc} $flags embed/tests/calls.c $lib -o $work/calls_c || exit 1
    ${CC:-cc} $flags -pthread embed/tests/cost.c $lib -o $work/cost || exit 1
    ${CC:-cc} $flags embed/example.c $lib -o $work/example || exit 1
}
rustc --edition 2021 -O -D warnings -L target/staticlib -o $work/calls_rs embed/tests/calls.rs || exit 1
rustc --edition 2024 -O -D warnings -L target/staticlib -o $work/calls_rs_2024 embed/tests/calls.rs
judged "rights.rs and calls.rs in edition 2024, without a warning" $?

# The header alone, in C99 and in C++11, without a warning; then what it says of players and times. Older C is told what it needs.
strict='-O2 -Wall -Wextra -Wpedantic -Wconversion -Wsign-conversion -Werror'
# shellcheck disable=SC2086
{
    ${CC:-cc} -std=c99 $strict embed/tests/header.c $lib -o $work/header_c && $work/header_c
    judged "rights.h in C99" $?
    ${CXX:-c++} -std=c++11 $strict -Wold-style-cast -x c++ embed/tests/header.c -x none $lib -o $work/header_cpp && $work/header_cpp
    judged "rights.h in C++11" $?
    fails "rights.h in C90" 1 "rights.h needs C99 or later" ${CC:-cc} -std=c90 -fsyntax-only embed/tests/header.c
}

# The stored days and images, with a stack of RIGHTS_STACK bytes, and the texts, with one of RIGHTS_XML_STACK.
stack_of() {
    bytes=$(sed -n "s/.* $1 = \([0-9]*\).*/\1/p" embed/rights.h)
    echo $((bytes / 1024))
}
stack_kb=$(stack_of RIGHTS_STACK)
xml_stack_kb=$(stack_of RIGHTS_XML_STACK)
with_stack() {
    kb=$1
    shift
    sh -c "ulimit -s $kb"' && exec "$@"' sh "$@"
}
small() {
    with_stack "$stack_kb" "$@"
}
for language in c rs; do
    calls=$work/calls_$language
    for each in 0 1 7; do
        holds "$language, days, $each records a call" crates/test_days/stdout small $calls days $each $days
    done
    holds "$language, days, an event a call, in numbers" crates/test_days/stdout small $calls ones $days
    holds "$language, images" crates/test_images/stdout small $calls images $images
    holds "$language, texts" crates/test_texts/stdout with_stack $xml_stack_kb $calls texts $texts
done

# The stored lists, and what is in an image, according to the second program.
python3 embed/tests/seen.py lists $lists >$work/seen_lists || exit 1
holds "c, lists" $work/seen_lists small $work/calls_c lists $lists
holds "rs, lists" $work/seen_lists small $work/calls_rs lists $lists
python3 embed/tests/seen.py seen $days >$work/seen_days || exit 1
python3 embed/tests/seen.py seen-images $images >$work/seen_images || exit 1
holds "c, what is in the books of the days" $work/seen_days small $work/calls_c seen $days
holds "rs, what is in the books of the days" $work/seen_days small $work/calls_rs seen $days
holds "c, what is in the stored images" $work/seen_images small $work/calls_c seen-images $images

# A call uses at most half of the stack that the header asks for.
$work/cost $afternoon/rights.rbk 0 1 1 1 1 1000 $texts >$work/costs &&
    awk -v most=$((stack_kb * 512)) -v xml=$((xml_stack_kb * 512)) \
        '/bytes of stack/ { n++; if ($(NF - 3) > (/from_xml/ ? xml : most)) bad = 1 } END { exit bad || n != 12 }' $work/costs
judged "the stack" $?

# The pages: the tables of docs/FORMAT.md and the header's numbers, and the programs and command lines of docs/EMBEDDING.md
# as they are printed, in a folder with the two or three files that the page names.
holds "docs/FORMAT.md and rights.h" /dev/null python3 embed/tests/pages.py
page=$work/page
rm -rf $page && mkdir -p $page/empty && cp embed/rights.h embed/rust/rights.rs $lib $afternoon/rights.rbk $page || exit 2
cp examples/rights/season.xml $page/rights.xml || exit 2
printf '0 0 1060\n1 more\n' >$work/page_server
printf '60 elements, a book of 768 bytes\n' >$work/page_from_xml
# built PROGRAM FENCE FILE WHICH [EDITION]: the page's program of that name, the WHICH-th of its language; in that edition of Rust
built() {
    awk -v from="\`\`\`$2" -v which="$4" '$0 == from { on = ++n == which; next } /^```/ { on = 0 } on' docs/EMBEDDING.md >$page/$3
    command=$(sed -n "s/^    \(\(cc\|rustc\) .*$3.*\)/\1/p" docs/EMBEDDING.md | sed "s/--edition 2021/--edition ${5-}/")
    (cd $page && rm -f "$1" && eval "$command") >$page/said 2>&1 && [ ! -s $page/said ]
    judged "the page's command line for $3 ${5-}, without a word" $?
    holds "the page's program $3 ${5-}" $work/page_$1 sh -c "cd $page && ./$1"
    fails "the page's program $3 ${5-}, no file" 1 "refused" sh -c "cd $page/empty && ../$1"
}
built server c server.c 1
built from_xml c from_xml.c 2
for edition in 2021 2024; do
    rm -rf $page/rights.rbs $page/on && mkdir $page/on
    built server rust server.rs 1 $edition
    mv $page/rights.rbs $page/on
    holds "the page's program server.rs $edition goes on" $work/page_server sh -c "cd $page/on && ../server"
    built from_xml rust from_xml.rs 2 $edition
done
sed -n 's/^    \(cc .*example.c.*\)/\1/p' docs/EMBEDDING.md | sed "s,-o example,-o $work/example_as_printed," >$work/command
holds "the page's command line for the example" /dev/null sh $work/command

# The example; then a run without records on what it saved, which stays.
saved=$work/saved
rm -rf $saved && mkdir -p $saved || exit 2
holds "example" $afternoon/expected.txt $work/example_as_printed $afternoon/rights.rbk $afternoon/events.bin $saved/day.rbs
holds "example with no records" /dev/null $work/example $saved/day.rbs /dev/null $saved/same.rbs
holds "a saved file that stays" $saved/day.rbs cat $saved/same.rbs

# Two days saved by C, by Rust and by the second program: in one run, and in two, the second of which goes on from the saved file and
# saves over it.
c_after() {
    timeout 60 $work/example "$@"
}
rs_after() {
    timeout 60 $work/calls_rs_2024 after "$@"
}
halves() {
    "$1" "$2" $work/first.bin $saved/half.rbs && "$1" $saved/half.rbs $work/second.bin $saved/half.rbs
}
for day in afternoon metered; do
    book=examples/$day/rights.rbk events=examples/$day/events.bin second=$work/$day.rbs
    head -c 153 $events >$work/first.bin
    tail -c +154 $events >$work/second.bin
    python3 embed/tests/saved.py after $book $events >"$second" || exit 1
    rm -f $saved/all.rbs
    c_after $book $events $saved/all.rbs >$work/answers || exit 1
    for language in c rs; do
        rm -f $saved/all.rbs $saved/half.rbs
        holds "$language, $day in one run" $work/answers ${language}_after $book $events $saved/all.rbs
        holds "$language, what $day saves" "$second" cat $saved/all.rbs
        holds "$language, $day in two runs" $work/answers halves ${language}_after $book
        holds "$language, what $day saves in two runs" "$second" cat $saved/half.rbs
    done
done
holds "the bill of the saved day" examples/metered/bill.csv python3 embed/tests/saved.py bill $saved/all.rbs

# Saved files that are damaged, cut, or wrong in another way.
python3 embed/tests/saved.py cases $work/metered.rbs $work/cases.bin >$work/cases || exit 1
holds "rs, damaged saved files" $work/cases $work/calls_rs_2024 restored $work/cases.bin $saved/case.rbs
mkdir $saved/tried
holds "c, damaged saved files" /dev/null python3 embed/tests/saved.py tried $work/example $work/metered.rbs $saved/tried

# What a run must not replace: anything that is no saved file. What it may: an empty file, and what a killed run left beside.
others=$work/others
for language in c rs; do
    rm -rf $others && mkdir -p $others/folder || exit 2
    cp $afternoon/rights.rbk $others/rights.rbk
    cp $afternoon/events.txt $others/events.txt
    head -c 7000 /dev/zero >$others/long
    : >$others/aim
    ln -s aim $others/link
    mkfifo $others/pipe
    # shellcheck disable=SC2012
    ls -l $others | sed 's/ .* / /' >$work/others_were
    for other in rights.rbk events.txt long link pipe folder; do
        fails "$language, $other is not replaced" 1 "not replaced" \
            ${language}_after $others/rights.rbk $afternoon/events.bin $others/$other
    done
    # shellcheck disable=SC2012
    ls -l $others | sed 's/ .* / /' | cmp - $work/others_were && [ ! -s $others/aim ] && cmp $others/rights.rbk $afternoon/rights.rbk &&
        cmp $others/events.txt $afternoon/events.txt
    judged "$language, what must not be replaced stays" $?
    rm -rf $others && mkdir -p $others || exit 2
    : >$others/day.rbs
    chmod 600 $others/day.rbs
    printf 'cut off' >$others/.day.rbs.saving
    printf 'somebody else' >$others/day.rbs.new
    cp $others/day.rbs.new $work/was
    holds "$language, over an empty file" $afternoon/expected.txt \
        ${language}_after $afternoon/rights.rbk $afternoon/events.bin $others/day.rbs
    cmp $others/day.rbs $work/afternoon.rbs && [ "$(find $others/day.rbs -perm 600)" ]
    judged "$language, what is saved over an empty file" $?
    cmp $others/day.rbs.new $work/was && [ "$(ls -A $others)" = "$(printf 'day.rbs\nday.rbs.new')" ]
    judged "$language, what a killed run left is gone, and nothing else" $?
done

# When the example fails: it says why, prints no answer, and leaves what was there.
ran() {
    "$work/example" "$@"
}
keep=$work/keep
rm -rf $keep && mkdir -p $keep && cp $work/metered.rbs $keep/kept.rbs || exit 2
kept=$keep/kept.rbs
printf 'RBK' >$work/short.rbk
rm -rf $work/folder && mkdir -p $work/folder/inside
fails "usage" 2 "^usage: " ran $afternoon/rights.rbk
fails "no book" 1 "nothing.rbk: No such file" ran $work/nothing.rbk $afternoon/events.bin $kept
fails "a folder for a book" 1 "folder: is a folder" ran $work/folder $afternoon/events.bin $kept
fails "a folder for events" 1 "folder: is a folder" ran $afternoon/rights.rbk $work/folder $kept
fails "a refused image" 1 "short.rbk: the image is refused: 20" ran $work/short.rbk $afternoon/events.bin $kept
fails "no folder to save in" 1 "nowhere/.next.rbs.saving: No such file" \
    ran $afternoon/rights.rbk $afternoon/events.bin $work/nowhere/next.rbs
full() {
    sh -c 'trap "" XFSZ; ulimit -f 1; exec "$@"' sh "$@"
}
fails "a first start where a saved file is" 1 "not replaced: this saved file is not the one" \
    ran $afternoon/rights.rbk $afternoon/events.bin $kept
cp $work/afternoon.rbs $saved/other.rbs
fails "another saved file" 1 "not replaced: this saved file is not the one" ran $saved/other.rbs $afternoon/events.bin $kept
fails "a disk that is full at 512 bytes" 1 "kept.rbs: File too large" full $work/example $kept $afternoon/events.bin $kept
head -c 60000000 /dev/zero >$work/many.bin
fails "a lack of memory" 1 "memory: there is not enough" \
    sh -c 'ulimit -v 65536; exec "$@"' sh $work/example $afternoon/rights.rbk $work/many.bin $kept
rm -f $work/many.bin
holds "what was there stays" $work/metered.rbs cat $kept
[ "$(ls -A $keep)" = kept.rbs ] && [ "$(ls -A $work/folder)" = inside ]
judged "no file is left beside" $?
fails "rs, a disk that is full at 512 bytes" 1 "kept.rbs: File too large" \
    full $work/calls_rs_2024 after $afternoon/rights.rbk $afternoon/events.bin $kept
cmp $kept $work/metered.rbs && [ "$(ls -A $keep)" = kept.rbs ]
judged "rs, what was there stays, and no file is left beside" $?

# An answer that cannot be printed: the status says so, and the book that holds the answer is saved.
"$work/example" $afternoon/rights.rbk $afternoon/events.bin $keep/unprinted.rbs >/dev/full 2>"$work/said"
[ $? -eq 1 ] && grep -q "standard output: No space left" $work/said && cmp $keep/unprinted.rbs $work/afternoon.rbs
judged "answers that cannot be printed" $?

echo "embed: $passed passed, $failed failed"
[ "$failed" -eq 0 ]
