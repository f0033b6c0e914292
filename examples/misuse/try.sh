#!/usr/bin/env bash
# Misuses of slips, which the compiler must refuse by name before any proof. Each NAME.edit is applied to a copy of crates/guessing:
# its line `old` in `file` becomes `new`, and the first error must then be `error`, in that file. The copy as it is must compile.
set -euo pipefail
here=$(cd "$(dirname "$0")" && pwd)
top=$here/../..
made=$(mktemp -d)
trap 'rm -rf "$made"' EXIT

# The text of a line of an edit.
line() {
    sed -n "s/^$2: \{0,1\}//p" "$1"
}

# Copies the crates, without what was built, to the folder. A copy of guessing has one test, so that it is compiled to be run.
copy() {
    mkdir "$1"
    cp "$top/crates.txt" "$1"
    tar -C "$top" -c --exclude=out --exclude=must-fail crates | tar -C "$1" -x
    printf '\n#[cfg(test)]\nmod tests {\n    #[test]\n    fn compiles() {}\n}\n' >> "$1/crates/guessing/src/lib.rt"
}

# Compiles the copy, and proves nothing.
compile() {
    (cd "$made/$1/crates/guessing" && rt try --test) > "$made/$1.log" 2>&1
}

# Whether the misuse is refused by the name that its edit gives.
refused() {
    edit=$here/$1.edit
    file=$(line "$edit" file)
    error=$(line "$edit" error)
    copy "$made/$1"
    source=$made/$1/crates/guessing/$file
    OLD=$(line "$edit" old) NEW=$(line "$edit" new) awk '
        $0 == ENVIRON["OLD"] { print ENVIRON["NEW"]; found++; next }
        { print }
        END { exit found != 1 }' "$source" > "$made/$1.rt" || { echo "$1: its old line is not there once"; return 1; }
    cp "$made/$1.rt" "$source"
    if compile "$1"; then
        echo "$1: NOT REFUSED"
        return 1
    fi
    first=$(grep -m 1 'error\[' "$made/$1.log" || true)
    if [[ $first != "$file:"*"error[$error]"* ]]; then
        echo "$1: refused, but not by $error: $first"
        return 1
    fi
    echo "$1: refused by $error"
}

# Whether the client as it is compiles.
accepted() {
    copy "$made/as_it_is"
    compile as_it_is || { echo "the client as it is does not compile"; cat "$made/as_it_is.log"; return 1; }
    echo "the client as it is compiles"
}

running=()
accepted &
running+=($!)
for misuse in slip_let_go slip_kept_and_gone_back_with slip_forged slip_taken_apart slip_cloned slip_copied; do
    refused "$misuse" &
    running+=($!)
done
status=0
for job in "${running[@]}"; do
    wait "$job" || status=1
done
exit $status
