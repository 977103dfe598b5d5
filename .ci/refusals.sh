#!/bin/sh
# refusals.sh FOLDER: tries the refusals that only the compiler can give, over a copy of the repository in FOLDER.
# Each .ci/refusals/*.refusal has the lines 'crate: NAME', 'file: PATH below crates/NAME', 'old: TEXT' (standing once in
# that file), 'new: TEXT' and 'error: NAME'. A text of several lines has a line 'old:' or 'new:' for each. The unedited copy
# must pass rt check and, with its tests, rt test; the edited one must fail, and the errors in its log must be that one and no
# other.
set -u
cd "$(dirname "$0")/.." || exit 1
copy=$1/copy
mkdir "$copy" && tar --exclude=./.git --exclude='./crates/*/out' -cf - . | tar -xf - -C "$copy" || exit 1

field() { sed -n "s/^$1: //p" "$2"; }

checked() { (cd "$1" && rt check && rt test); }

# edit FILE OLD NEW: puts NEW in the place of OLD, which stands exactly once.
edit() {
    OLD=$2 NEW=$3 awk '
        { text = text $0 "\n" }
        END {
            old = ENVIRON["OLD"]; at = index(text, old)
            if (!at || index(substr(text, at + length(old)), old)) exit 1
            printf "%s%s%s", substr(text, 1, at - 1), ENVIRON["NEW"], substr(text, at + length(old))
        }' "$1" >"$1.edited" && cat "$1.edited" >"$1" && rm "$1.edited"
}

for refusal in .ci/refusals/*.refusal; do
    [ -f "$refusal" ] || continue
    label=$(basename "$refusal" .refusal)
    crate=$(field crate "$refusal")
    file=$copy/crates/$crate/$(field file "$refusal")
    error="error[$(field error "$refusal")]"
    log=$1/$label.log
    if ! checked "$copy/crates/$crate" >"$log" 2>&1; then
        cat "$log"
        echo "refusal $label: the unedited copy does not pass"
        exit 1
    fi
    cp "$file" "$1/kept"
    if ! edit "$file" "$(field old "$refusal")" "$(field new "$refusal")"; then
        echo "refusal $label: its old text does not stand once in $file"
        exit 1
    fi
    if checked "$copy/crates/$crate" >"$log" 2>&1; then
        echo "refusal $label: the edited copy passes"
        exit 1
    fi
    seen=$(grep -oE 'error\[[a-z0-9-]+\]' "$log" | sort -u)
    if [ "$seen" != "$error" ]; then
        cat "$log"
        echo "refusal $label: the log has '$seen', and not just $error"
        exit 1
    fi
    cp "$1/kept" "$file"
    echo "refusal $label: refused, $error"
done
