#!/bin/sh
# Counts, crate by crate, the lines of src/ in which the places of docs/DESIGN-PASS.md are to be looked for. With a word
# (1 to 7), prints the lines of that point.
cd "$(dirname "$0")/.." || exit 1
found() {
    pattern=$1
    grep -rnE --include=*.rt "$pattern" crates/*/src | grep -v '^[^:]*:[0-9]*: *//'
}
point() {
    case $1 in
    1) found '^ *(pub )?enum |const [A-Z]+: u8|: bool, |let (Ok|Some)\(.*else|Ok\(_\) => (false|return|Err)|Err\(_\) => |None => Err|!= 0|== 0' ;;
    2) found '^ *(pub(\([a-z]+\))? )?(const )?(fn|struct|enum|const) ' ;;
    3) found 'for .* in .*\.\.|while ' ;;
    4) found 'impl.* (PartialEq|Eq|Ord|PartialOrd|From|TryFrom|Display|Clone|Copy).* for | as (u8|u16|u32|u64|usize)|format!|print(ln)?!|push_str' ;;
    5) found 'requires' ;;
    6) found '\[[A-Za-z_0-9<>]+; [A-Z0-9_]+\]|count: usize|len: usize' ;;
    7) found 'match |impl Fn|Fn\(|dyn ' ;;
    esac
}
if [ $# -gt 0 ]; then
    point "$1"
else
    for n in 1 2 3 4 5 6 7; do
        echo "$n $(point $n | wc -l)"
    done
fi
