# For tools/try-edit and tests/wide-edits, which read it at the top of the repository: edits made on a copy, and what the checker says of them.

# sources_to COPY: the crates as they stand, without what rt keeps in out/; what rt kept in COPY stays
sources_to() {
    mkdir -p "$1/crates"
    find "$1/crates" -mindepth 2 -maxdepth 2 ! -name out -exec rm -rf {} +
    tar -cf - --exclude='crates/*/out' crates crates.txt | tar -xf - -C "$1"
}

# replace FILE: the one place of $old in it by $new
replace() {
    OLD=$old NEW=$new awk '
        { text = text $0 "\n" }
        END {
            at = index(text, ENVIRON["OLD"]); rest = substr(text, at + length(ENVIRON["OLD"]))
            if (!at || index(rest, ENVIRON["OLD"])) exit 1
            printf "%s%s%s", substr(text, 1, at - 1), ENVIRON["NEW"], rest
        }' "$1" >"$1.new" && mv "$1.new" "$1" || { echo "'$old' does not stand once in $1" >&2; return 1; }
}

# apply EDITS FOLDER: makes the edits of the file EDITS in FOLDER, which its lines `file:` begin at
apply() {
    local line file old new
    while IFS= read -r line; do
        case $line in
        'file: '*) file=$2/${line#file: } ;;
        'old: '*) old=${line#old: } ;;
        'new:'*) new=${line#new:} new=${new# } && replace "$file" || return 1 ;;
        esac
    done <"$1"
}

# refusal_in SAID COPY: what was refused, four lines at most: an error, or what is not proved of a function
refusal_in() {
    grep -E '^[^ ]*: error|^note: .*it is not proved|^fn .*: (not proved|no proof)' <<<"$1" | head -n 4 | cut -c 1-200 | sed "s#$2/##"
}
