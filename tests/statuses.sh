#!/bin/sh
# What the built program prints to standard error and with what status it ends, for each answer that a command can show;
# the report of each script in examples/, and the answer on each text of journals in examples/journals/;
# the examples of the manual page; and both ways of the wrapper `wakerun`, by the proved program and by `rt try`.
# Run it after `rt ci`, which leaves the program in crates/wakerun/out.
top=$(CDPATH='' cd -- "$(dirname -- "$0")/.." && pwd) || exit 1
program=$top/crates/wakerun/out/wakerun
work=$(mktemp -d) || exit 1
trap 'rm -rf "$work"' EXIT
passed=0
failed=0

# expect NAME STATUS LINE: the last run ended so, and printed just this line, or nothing, to standard error.
expect() {
    printf '%s' "${3:+$3
}" >"$work/wanted"
    if [ "$status" = "$2" ] && cmp -s "$work/wanted" "$work/err"; then
        passed=$((passed + 1))
    else
        failed=$((failed + 1))
        echo "$1: ended with $status, and printed: $(cat "$work/err")"
    fi
}

# run INPUT OUTPUT WORD..
run() {
    input=$1
    output=$2
    shift 2
    "$program" "$@" <"$input" >"$output" 2>"$work/err"
    status=$?
}

printf 'cpus 1\ntask a lines\n| hi\nend\n' >"$work/hi"
printf 'cpus 1\ntask a nosuch\nend\n' >"$work/bad"

run "$work/hi" "$work/out" run
expect 'a script' 0 ''
printf 'a: hi\n' | cmp -s - "$work/out" || { failed=$((failed + 1)); echo 'a script: wrong report'; }

for workers in 1 4; do
    for script in "$top"/examples/*.wake; do
        run "$script" "$work/out" run --workers "$workers"
        expect "$script on $workers" 0 ''
        cmp -s "${script%.wake}.report" "$work/out" ||
            { failed=$((failed + 1)); echo "$script on $workers: wrong report"; }
    done
done

# The journals behind each report are legal, on few workers and on many.
for workers in 1 3 8; do
    for script in "$top"/examples/*.wake; do
        run "$script" "$work/traced" run --trace --workers "$workers"
        expect "$script traced on $workers" 0 ''
        sed '/^journal 1$/,$d' "$work/traced" | cmp -s "${script%.wake}.report" - ||
            { failed=$((failed + 1)); echo "$script traced on $workers: wrong report"; }
        sed -n '/^journal 1$/,$p' "$work/traced" >"$work/journals"
        # Each line behind the first four that is none of a seat and not the last is an entry.
        entries=$(sed '1,4d;$d;/^seat /d' "$work/journals" | wc -l)
        run "$work/journals" "$work/out" check
        expect "the journals of $script on $workers" 0 ''
        printf 'legal %d\n' "$entries" | cmp -s - "$work/out" ||
            { failed=$((failed + 1)); echo "the journals of $script on $workers: $(cat "$work/out")"; }
    done
done

# A plan reads as its script does, and is its own plan.
for script in "$top"/examples/*.wake; do
    run "$script" "$work/plan" plan
    expect "the plan of $script" 0 ''
    run "$work/plan" "$work/out" plan
    expect "the plan of the plan of $script" 0 ''
    cmp -s "$work/plan" "$work/out" || { failed=$((failed + 1)); echo "$script: its plan has another plan"; }
    run "$work/plan" "$work/out" run
    expect "the plan of $script, run" 0 ''
    cmp -s "${script%.wake}.report" "$work/out" || { failed=$((failed + 1)); echo "$script: its plan has another report"; }
done
run "$work/hi" "$work/out" run --plain
expect 'a plain report' 0 ''
printf 'hi\n' | cmp -s - "$work/out" || { failed=$((failed + 1)); echo 'a plain report: wrong report'; }

# The examples of the manual page, out of the page itself.
if sh "$top/tests/manual.sh" "$program" >"$work/manual" 2>&1; then
    passed=$((passed + 1))
else
    failed=$((failed + 1))
    cat "$work/manual"
fi

# 100,000 lines through a ring of one, at each number of workers.
printf 'cpus 4\nroom 1\ntask a count 100000\ntask t tally from a\nend\n' >"$work/ring"
for workers in 1 2 3 4 8 16; do
    run "$work/ring" "$work/out" run --workers "$workers"
    expect "a ring of one on $workers" 0 ''
    printf 't: 100000\n' | cmp -s - "$work/out" || { failed=$((failed + 1)); echo "a ring of one on $workers: wrong report"; }
done

# The answer on legal journals is printed to standard output; on others nothing is, and the status is 6.
for journal in "$top"/examples/journals/*.journal; do
    answer=$(cat "${journal%.journal}.answer")
    run "$journal" "$work/out" check
    case $answer in
        legal*)
            expect "$journal" 0 ''
            cmp -s "${journal%.journal}.answer" "$work/out" || { failed=$((failed + 1)); echo "$journal: wrong line"; }
            ;;
        *)
            expect "$journal" 6 "$answer"
            [ ! -s "$work/out" ] || { failed=$((failed + 1)); echo "$journal: something was written"; }
            ;;
    esac
done

run "$work/bad" "$work/out" run
expect 'no script' 1 'wakerun: line 2: 2 UnknownWord'
[ ! -s "$work/out" ] || { failed=$((failed + 1)); echo 'no script: something was written'; }

# The number of a work that there isn't, and one that an earlier task has.
printf 'cpus 1\ntask a lines\n| Hi\ntask e custom 2 from a\nend\n' >"$work/custom"
run "$work/custom" "$work/out" run
expect 'a work that there is not' 1 'wakerun: line 4: 13 BadCustom'
[ ! -s "$work/out" ] || { failed=$((failed + 1)); echo 'a work that there is not: something was written'; }
printf 'cpus 1\ntask a count 1\ntask s custom 0 from a\ntask e custom 0 from s\nend\n' >"$work/custom"
run "$work/custom" "$work/out" plan
expect 'a work of two tasks' 1 'wakerun: line 4: 13 BadCustom'

usage='wakerun: usage: run, plan, check or gen N SEED'
run "$work/hi" "$work/out"
expect 'no words' 2 "$usage"
run "$work/hi" "$work/out" run run
expect 'two words' 2 "$usage"
run "$work/hi" "$work/out" check run
expect 'two commands' 2 "$usage"
for workers in 0 17 x '' +4; do
    run "$work/hi" "$work/out" run --workers "$workers"
    expect "$workers workers" 2 "$usage"
done
run "$work/hi" "$work/out" run --workers
expect 'no number of workers' 2 "$usage"
for words in '--trace --trace' '--plain --plain' '--workers=2 --workers 2' -x -- plan; do
    run "$work/hi" "$work/out" run $words
    expect "run $words" 2 "$usage"
done
run "$work/hi" "$work/out" plan --plain
expect 'a plan with an option' 2 "$usage"
run "$work/hi" "$work/out" gen 1000 7
expect 'words that have no reading yet' 2 "$usage"
run "$work/hi" "$work/out" check --workers 4
expect 'a check with workers' 2 "$usage"
run "$work/hi" "$work/out" "$(printf 'run\377')"
expect 'a word that is no text' 2 "$usage"

run "$work" "$work/out" run
expect 'a folder as standard input' 3 'wakerun: read fault'
run "$work/hi" /dev/full run
expect 'a full device' 4 'wakerun: write fault'
run "$work/bad" /dev/full run
expect 'no script, and a full device' 1 'wakerun: line 2: 2 UnknownWord'

run "$work/bad" "$work/out" plan
expect 'no script to plan' 1 'wakerun: line 2: 2 UnknownWord'
[ ! -s "$work/out" ] || { failed=$((failed + 1)); echo 'no script to plan: something was written'; }
run "$work" "$work/out" plan
expect 'a folder in the place of a script' 3 'wakerun: read fault'
run "$work/hi" /dev/full plan
expect 'a plan, and a full device' 4 'wakerun: write fault'
run "$work" "$work/out" check
expect 'a folder in the place of journals' 3 'wakerun: read fault'
run "$top/examples/journals/one_task.journal" /dev/full check
expect 'legal journals, and a full device' 4 'wakerun: write fault'
run "$top/examples/journals/no_wake.journal" /dev/full check
expect 'illegal journals, and a full device' 6 'wakerun: illegal seat 0 entry 4 rule 4'
run "$work/hi" "$work/out" check
expect 'a script in the place of journals' 6 'wakerun: journal line 1'

# The wrapper, from another folder and through two symbolic links: it becomes the proved program.
ln -s "$top/wakerun" "$work/first"
ln -s first "$work/second"
own=$program
program=$work/second
cd "$work" || exit 1
run "$work/hi" "$work/out" run
expect 'the wrapper' 0 ''
printf 'a: hi\n' | cmp -s - "$work/out" || { failed=$((failed + 1)); echo 'the wrapper: wrong report'; }
run "$work/bad" "$work/out" run
expect 'the wrapper, no script' 1 'wakerun: line 2: 2 UnknownWord'

# A checkout in which nothing was proved: the wrapper has the sources run.
mkdir "$work/new"
(cd "$top" && tar cf - --exclude=out crates crates.txt HANDLES wakerun) | (cd "$work/new" && tar xf -)
program=$work/new/wakerun
unproved="wakerun: running the sources with checks and without proof, in about a minute: 'rt ci' proves and builds them"
run "$work/hi" "$work/out" run
expect 'nothing proved' 0 "$unproved"
printf 'a: hi\n' | cmp -s - "$work/out" || { failed=$((failed + 1)); echo 'nothing proved: wrong report'; }
run "$work/hi" "$work/out" run --workers 4
expect 'nothing proved, workers' 0 "$unproved"
printf 'a: hi\n' | cmp -s - "$work/out" || { failed=$((failed + 1)); echo 'nothing proved, workers: wrong report'; }
run "$work/bad" "$work/out" run
expect 'nothing proved, no script' 1 "$unproved
wakerun: line 2: 2 UnknownWord"
[ ! -s "$work/out" ] || { failed=$((failed + 1)); echo 'nothing proved, no script: something was written'; }
printf 'cpus 1\ntask a count 200000\nend\n' >"$work/long"
run "$work/long" "$work/out" run
expect 'nothing proved, a long report' 125 "$unproved
wakerun: no answer from 'rt try', which gives none past 60 seconds or 1 MiB of output: this wants the proved program, \
which 'rt ci' builds"
[ ! -s "$work/out" ] || { failed=$((failed + 1)); echo 'nothing proved, a long report: something was written'; }

# The program there, an older one and a newer one than an edit: of a crate that it isn't made of, and of one that it is.
# What stands in for `rt` here shows that it was asked.
mkdir "$work/bin" "$work/new/crates/wakerun/out"
printf '#!/bin/sh\necho "wakerun: $*" >&2\necho "checked: ended status=9" >&2\necho "run=ended status=9 " >&2\n' >"$work/bin/rt"
cp "$own" "$work/new/crates/wakerun/out/wakerun"
chmod +x "$work/bin/rt"
PATH=$work/bin:$PATH
touch -d '1 minute ago' "$work/new/crates/wakerun/out/wakerun"
find "$work/new/crates" -name '*.rt' -o -name '*.antt' | xargs touch -d '2 minutes ago'
touch "$work/new/crates/bench_pipes/src/main.rt"
run "$work/hi" "$work/out" run
expect 'an edit of another crate' 0 ''
touch "$work/new/crates/handoff_data/specs/Rules.antt"
run "$work/hi" "$work/out" run two 'and three'
expect 'an edit below the program' 9 "$unproved
wakerun: try -- run two and three"

echo "statuses: $passed passed, $failed failed"
[ "$failed" = 0 ]
