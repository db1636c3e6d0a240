#!/bin/sh
# The rules of the house that no compiler knows. It prints file:line of each fault, and ends with 1 where there is one.
top=$(CDPATH='' cd -- "$(dirname -- "$0")/.." && pwd) || exit 1
cd "$top" || exit 1
LC_ALL=C.UTF-8
export LC_ALL
faults=$(mktemp) || exit 1
trap 'rm -f "$faults"' EXIT

# say TEXT: each line that comes in, file:line and the rest of no interest, is a fault of this name.
say() {
    sed -E "s|^([^:]+:[0-9]+).*|\1: $1|" >>"$faults"
}

# files FOLDER ENDING: the files of each crate's folder, but not what rt makes.
files() { find crates -path "crates/*/$1/*.$2" -not -path '*/out/*' | sort; }
sources() { files src rt; }
specs() { files specs antt; }
proofs() { files proofs antt; }

# Widths. A text in quotes, and an attribute, may be longer: the one can't be broken, the other `rt fmt` keeps on a line.
{ sources; specs; } | xargs grep -nHE '^.{121,}' | grep -vE '"|:#\[tactic\(' | say 'over 120 columns'
proofs | xargs grep -nHE '^.{201,}' | say 'over 200 columns'

# A file's length.
{ sources; specs; proofs; } | xargs wc -l | awk '$2 != "total" && $1 > 800 { print $2 ":801" }' | say 'over 800 lines'

# Each crate is in the map and in the list of what is proved.
for page in docs/ARCHITECTURE.md docs/PROVED.md; do
    sed -nE 's/^([a-z_]+).*:.*/\1/p' crates.txt | while read -r crate; do
        grep -qs "\`$crate\`" "$page" || echo "$page:1: no crate $crate"
    done
done >>"$faults"

# A state and a column of words have names. These files define them, or stand below the definition; bits of masks are
# no states.
{ sources; specs; } | grep -vE 'handoff_data/src/state.rt|core_kinds/specs/Steps.antt|core_data/specs/Opening.antt' |
    xargs grep -nHE '\b0x(80|200|800)\b' | say 'a state as a number'
{ sources; specs; } | grep -v 'word_steps/specs/Words.antt' |
    xargs grep -nHE "\b(words|words'|put_at words) \(?[a-z][a-z_.]*\)? [0-9]{2}\b|\bcol(umn)? *(=|≡|:) *\{? *[0-9]+" |
    say 'a column as a number'
sources | grep -E 'crates/word_' | xargs grep -nHE '^ *(1[0-4]|2[4-9]|30|4[01]|5[678])$' | say 'a column as a number'

# A public function that answers NoMemory says so, and what is after Linux names the file.
sources | xargs awk '
    FNR == 1 { doc = ""; fn = 0 }
    /^ *\/\/[\/!]/ { if (doc == "") from = FNR; doc = doc " " $0; next }
    doc != "" && doc ~ /Linux.*`/ && doc !~ /\.[ch]`/ { print FILENAME ":" from ":linux" }
    /^ *#\[/ { next }
    /^ *pub fn / { fn = FNR; told = doc ~ /[Mm]emory/; head = "" }
    { doc = "" }
    fn { head = head " " $0 }
    fn && /^ *(requires|ensures|where|\{)|\{ *$/ { if (head ~ /NoMemory/ && !told) print FILENAME ":" fn ":memory"; fn = 0 }
' >"$faults.found"
grep ':memory$' "$faults.found" | say 'answers NoMemory, and its doc names no memory'
grep ':linux$' "$faults.found" | say 'after Linux, and names no file'
rm -f "$faults.found"

# What is computed for the prover alone has its reason before it.
sources | xargs awk '
    /^ *let _[a-z0-9_]+ =/ && before !~ /^ *\/\/ / { print FILENAME ":" FNR }
    { before = $0 }' | say 'let _ without a reason before it'

sort -u "$faults"
if [ -s "$faults" ]; then
    exit 1
fi
echo 'house: in order'
