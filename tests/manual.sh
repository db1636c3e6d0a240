#!/bin/sh
# Runs the examples of the manual page docs/wakerun.1 out of the page itself: what follows `$ ` is a command, with its
# text up to the line that ends it, and the lines behind it are what it prints.
# Run it after `rt ci`, which leaves the program in crates/wakerun/out. Another program may be given as the first word.
top=$(CDPATH='' cd -- "$(dirname -- "$0")/.." && pwd) || exit 1
program=${1:-$top/crates/wakerun/out/wakerun}
work=$(mktemp -d) || exit 1
trap 'rm -rf "$work"' EXIT
mkdir "$work/bin"
ln -s "$(readlink -f -- "$program")" "$work/bin/wakerun" || exit 1
PATH=$work/bin:$PATH

# Each display of the section EXAMPLES becomes two files: N.sh, its commands, and N.out, what they print.
sed -n '/^\.Sh EXAMPLES/,/^\.Sh SEE ALSO/p' "$top/docs/wakerun.1" |
    awk -v work="$work" '
        /^\.Bd/ { count++; inside = 1; text = ""; next }
        /^\.Ed/ { inside = 0; next }
        !inside { next }
        {
            sub(/^\\&/, "")
            gsub(/\\e/, "\\")
        }
        text != "" { print > (work "/" count ".sh"); if ($0 == text) text = ""; next }
        /^\$ / {
            print substr($0, 3) > (work "/" count ".sh")
            if (match($0, /<<[^ ]+$/)) text = substr($0, RSTART + 2)
            next
        }
        { print > (work "/" count ".out") }
    '

passed=0
failed=0
count=1
while [ -f "$work/$count.sh" ]; do
    sh "$work/$count.sh" >"$work/printed" 2>&1
    if cmp -s "$work/$count.out" "$work/printed"; then
        passed=$((passed + 1))
    else
        failed=$((failed + 1))
        echo "example $count of docs/wakerun.1 printed:"
        cat "$work/printed"
    fi
    count=$((count + 1))
done

# The page has no fault that a formatter would tell of, where there is one.
if command -v mandoc >/dev/null; then
    mandoc -T lint -W error "$top/docs/wakerun.1" >"$work/lint" 2>&1
elif command -v man >/dev/null; then
    man --warnings -l "$top/docs/wakerun.1" 2>"$work/lint" >/dev/null
fi
if [ -s "$work/lint" ]; then
    failed=$((failed + 1))
    cat "$work/lint"
fi

echo "manual: $passed passed, $failed failed"
[ "$failed" = 0 ] && [ "$passed" = 5 ]
