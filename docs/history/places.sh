#!/bin/sh
# Counts the places in src/ that docs/history/DESIGN-PASS.md speaks of: one line for each search, with the lines it finds.
# Usage: docs/history/places.sh [-v NAME]; with -v NAME it shows the lines of one search.
cd "$(dirname "$0")/../.." || exit 1
src=$(git ls-files 'crates/*/src/*.rt')
find_places() {
    case $1 in
        enums) grep -nE '^\s*(pub(\([a-z]+\))? )?enum ' $src ;;
        numbers-for-refusals) grep -nE 'Stop::refusal\(|Want::(Number|Kept)\(|\b(number|fault): u64|number [!=]= [0-9]|-> u64 \{' $src ;;
        flags) grep -nE '^\s*(pub )?[a-z_]+: bool,' $src ;;
        bytes-of-theorems) grep -nE -- '^pub fn .*\(\) -> u8$' $src ;;
        while-loops) grep -nE '^\s*(while|loop)\b' $src ;;
        counted-loops) grep -nE 'for [a-z_]+ in [a-z0-9_]+\.\.' $src ;;
        equality) grep -nE 'fn (is_)?same[a-z_]*\b|is_same\(|\.low == |same(_[a-z]+)?\(' $src ;;
        printing) grep -nE 'print(ln)?!\(' $src ;;
        conversions) grep -nE 'impl.* (From|TryFrom|Display|PartialEq)\b' $src ;;
        derives) grep -nE '#\[derive' $src ;;
        plain-field-parameters) grep -nE 'heap: Global,|at: Standing,|field: Arithmetic,' $src ;;
        table-parameters) grep -nE 'table: &mut Table|sealed: &(mut )?SealedPair' $src ;;
        field-size-parameters) grep -nE 'p: u32, e: u32|^\s*[pe]: u32,' $src ;;
        paper-and-place) grep -nE 'paper: &mut \[u8\], at: usize' $src ;;
        fitting-clauses) grep -nE '≡ Fit.Fits \}' $src ;;
        lender-clauses) grep -nE 'ghost_name ≡' $src ;;
        wide-clauses) grep -nE 'length columns.now ≡ grid.columns' $src ;;
        vectors) grep -nE 'Vec<' $src ;;
        lengths-and-places) grep -nE '\[[a-z]+\] = |\.get\(0\.\.|, n: usize' $src ;;
        switches) grep -nE 'match (self\.)?(table\.)?dice|dyn |\bfn\(|impl Fn|: Fn' $src ;;
        proof-lines) cat $(git ls-files 'crates/*/proofs/**.antt') ;;
        answers) grep -hE '^pub ' $(git ls-files 'crates/*/proofs/**Answers.antt') ;;
    esac
}
if [ "$1" = -v ]; then
    find_places "$2"
    exit
fi
for name in enums numbers-for-refusals flags bytes-of-theorems while-loops counted-loops equality printing conversions derives \
    plain-field-parameters table-parameters field-size-parameters paper-and-place fitting-clauses lender-clauses wide-clauses \
    vectors lengths-and-places switches proof-lines answers; do
    printf '%s\t%s\n' "$name" "$(find_places $name | wc -l)"
done
