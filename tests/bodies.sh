#!/bin/sh
# Tries scripts/bodies.py, the judge of wrong bodies, on made-up crates and by a prover that only
# repeats what the real one said of one of them, and says of the other what its edits tell: no body
# passes that is proved, that can't be read, or whose function isn't proved for another reason than
# the body's own. It tries scripts/named_mistakes.sh on a made-up list too, and scripts/test.sh
# over a part that fails.
# Usage: tests/bodies.sh (at the top of the repository; it needs no toolchain).
# shellcheck disable=SC2016 # backquotes are what the prover and the list have
set -eu
. tests/lib/harness.sh
top=$PWD
# What no check can see that rests on it: where something doesn't hold, that ends a check.
for judge in 'holds false' 'check none false' 'check none holds false'; do
    if ($judge) > /dev/null; then echo "FAILED: $judge" && exit 1; fi
done

# The toolchain's command, how it reads crates, and its prover. It reports on each function that it
# is asked for by what stands in the copy that it is run in. Of the crate `more` an edit's text says
# what fails.
put_all << 'END'
==== crates.txt
tiny:
more: tiny
==== crates/tiny/src/lib.rt
//! Numbers.

pub mod laws;
pub mod least;

pub const fn most() -> u32 {
    9
}
==== crates/tiny/src/laws.rt
//! Laws.

use crate::least::least;

pub fn one() -> u32
    ensures { result ≤ 1 }
{
    least(1, 7)
}
==== crates/tiny/src/least.rt
//! The least of numbers.

/// Answers a number that is at most each of both.
pub fn least(a: u32, b: u32) -> u32
    ensures left { result ≤ a }
    ensures right { result ≤ b }
{
    if a <= b { a } else { b }
}

/// Answers a number that is at most the third one.
pub fn least_of_three(a: u32, b: u32, c: u32) -> u32
    ensures { result ≤ c }
{
    least(least(a, b), c)
}
==== crates/tiny/specs/Numbers.antt
IsLeast : ℕ → ℕ → Type 0
==== crates/more/src/laws.rt
ghost use Rattle.more.specs.Words.{IsLow, IsOdd, IsWord};

pub fn low()
    ensures { IsLow 1 }
{
}

pub fn odd()
    ensures { IsOdd 1 }
{
}

pub fn word()
    ensures { IsWord 1 }
{
}
==== crates/more/src/more.rt
use tiny::least::{least, least_of_three};

pub fn first(a: u32) -> u32
{
    least(a, 1)
}

pub fn second(a: u32) -> u32
{
    least_of_three(a, 1, 2)
}
==== crates/more/src/finder.rt
pub struct Finder;
==== crates/more/src/finding.rt
impl Find for Finder {
    fn find(&self) -> u32 {
        1
    }
}
==== crates/more/proofs/finding/FinderFind/find/Answers.antt
pub returns : goal.returns
returns c = c.one
==== crates/more/proofs/more/first/Answers.antt
pub returns : goal.returns
returns c = c.least.ensures.left
==== crates/more/proofs/more/+second/Answers.antt
pub returns : goal.returns
==== crates/more/specs/Words.antt
pub IsLow : ℕ → Type 0
IsLow n = n ≤ 1

pub IsOdd : ℕ → Type 0
IsOdd n = n % 2 ≡ 1

pub IsWord : ℕ → Type 0
IsWord n = IsLow n × (n ≤ 2)
==== path/rt
#!/bin/sh
kit=${0%/path/rt}/kit
case $1 in
    version) echo "rattle-kit logic $(wc -l < "$0")" ;;
    doc) echo "$kit/START-HERE.md" ;;
esac
==== kit/bin/rtlib.py
class Crate:
    def __init__(self, top, name, *deps):
        self.folder, self.name, self.deps = f"{top}/crates/{name}", name, deps
        self.said = {"name": name}

    def below(self):
        return self.deps

    def words(self, flags):
        return ["--crate-name", self.name, *flags]

    def stamp(self):
        return self.name

    def makes_rlib(self):
        return True

    is_built = makes_rlib


def crates_below(top):
    tiny = Crate(top, "tiny")
    return [tiny, Crate(top, "more", tiny)]
==== kit/bin/rattle
#!/bin/sh
has() { grep -qF "$1" src/least.rt; }

# not_proved FUNCTION GOAL LINE: what is said where a search finds no proof of this goal
not_proved() {
    echo "note: src/least.rt:$3:1: it is not proved that what the function ensures holds when it" \
        "returns (\`$2\`); the facts known there allow values at which this goal is false"
    echo "fn tiny::least::$1: no proof: expected answers in ./proofs/least/$1/Answers.antt;" \
        "\`search\` did not prove \`$2\`$waits"
}

# answer_fails WHY: what is said where a written answer of the second function proves nothing, in
# the folder that it has if it calls itself
answer_fails() {
    echo "./proofs/least/+least_of_three/Answers.antt:5:14: error: \`returns\`: $1"
    echo "fn tiny::least::least_of_three: not proved$waits"
}

report_first() {
    if has 'else { a }'; then
        not_proved least returns-else-a-b-clause-right 4
    elif ! has 'else { later }'; then
        echo 'fn tiny::least::least: proved'
    fi
}

report_second() {
    has 'else { b }' || waits='; it calls `tiny::least::least`, which is not proved'
    if has '    least(a, b)'; then
        not_proved least_of_three returns 12
    elif has '    least(c, b)'; then
        answer_fails 'record `Rattle.tiny.proofs.least.least_of_three.After-least` (nearest: .least)
  has no field `least-2`'
    elif has '    least(b, a)'; then
        answer_fails '`c.least.ensures.right` proves another statement'
    elif [ -n "$waits" ]; then
        echo "note: \`search\` has not tried the goals of \`tiny::least::least_of_three\`, which" \
            "wait for a callee's proof: some may be open after it"
        echo "fn tiny::least::least_of_three: not proved$waits"
    else
        echo 'fn tiny::least::least_of_three: proved'
    fi
}

# report_more FUNCTION: what is said of one of the crate `more`
report_more() {
    goals=$(sed -n "s/.* fails $1 \([a-z0-9-]*\).*/\`\1\`/p" src/*.rt specs/*.antt)
    if grep -q "breaks $1\$" specs/*.antt; then
        echo "./proofs/laws/${1#laws::}/Answers.antt:1:1: error: 1 declaration that depends on" \
            '`sums`, which was rejected, was not checked: returns'
        echo "fn more::$1: not proved"
    elif [ -n "$goals" ]; then
        echo "fn more::$1: no proof: expected answers; \`search\` did not prove $goals"
    else
        echo "fn more::$1: proved"
    fi
}

# all_goals FOLDER: writes there which goals the right body of `more::first` has
all_goals() {
    mkdir -p "$1/Rattle-more-proofs/more/first"
    printf 'abbrev pub %s : Type 0\n' returns returns-then-b > \
        "$1/Rattle-more-proofs/more/first/Goals.antt"
}

echo run >> "$RUNS"
waits= before=
if has none_such; then
    echo 'src/least.rt:15:5: error[unknown-name]: cannot find value `none_such` in this scope'
    exit 1
fi
for word; do
    [ "$before" != --generated ] || all_goals "$word"
    before=$word
    case $word in
        laws::low | laws::odd | laws::word | more::* | finding::*) report_more "$word" ;;
        least::least) report_first ;;
        least::least_of_three) report_second ;;
        laws::one) echo 'fn tiny::laws::one: proved' ;;
    esac
done
echo 'only=2 proved=0'
END
mkdir -p "$work/scripts/lib"
cp scripts/bodies.py "$work/scripts"
cp scripts/lib/libraries.py scripts/lib/specs.py "$work/scripts/lib"
chmod 755 "$work/path/rt" "$work/kit/bin/rattle"

cp "$work/crates/tiny/src/least.rt" "$work/least.rt"
both='if a <= b { a } else { b }'
wrong='if a <= b { a } else { a }'
three='    least(least(a, b), c)'
# What is said of the first wrong body.
at='refused at `returns-else-a-b-clause-right` of tiny::least::least'
first="least-first: $at, by values"

# body NAME OLD NEW: gives the crate this wrong body
body() {
    printf 'file: src/least.rt\nold: %s\nnew: %s\n' "$2" "$3" > "$work/crates/tiny/bodies/$1.edit"
}

# more NAME LINE..: gives the crate `more` this edit
more() {
    name=$1
    shift
    printf '%s\n' "$@" > "$work/crates/more/bodies/$name.edit"
}

# anew: leaves the crates without wrong bodies, and nothing kept
anew() {
    rm -rf "$work"/crates/*/bodies "$work/cache"
    mkdir -p "$work/crates/tiny/bodies" "$work/crates/more/bodies"
}

# judges STATUS LAST: whether the script, with $option where there is one, ends with this status and
# this last line. What it says is in $work/said, and $runs is how often it had the prover run.
judges() {
    due=$1 status=0
    : > "$work/runs"
    (
        cd "$work"
        env PATH="$work/path:$PATH" XDG_CACHE_HOME="$work/cache" RUNS="$work/runs" RT_JOBS=1 \
            python3 -B scripts/bodies.py ${option:+"$option"}
    ) > "$work/said" 2>&1 || status=$?
    runs=$(wc -l < "$work/runs")
    is_status "$due" || return 1
    if [ "$(tail -n 1 "$work/said")" = "$2" ]; then return; fi
    cat "$work/said"
    return 1
}

# is_status DUE: whether the script has ended with this status, which is in $status
is_status() {
    if [ "$status" -eq "$1" ]; then return; fi
    echo "    the status is $status, and this is said:"
    cat "$work/said"
    return 1
}

# says LINE: whether this line was said of a body
says() { grep -qxF -e "tiny/$1" -e "more/$1" "$work/said"; }

# passes PASSED BODY [WHY]: so many bodies are refused, and this one isn't
passes() {
    holds judges 1 "$1 passed, 1 failed"
    holds says "$2: FAILED: NOT REFUSED: ${3:-what judges it is proved}"
}

# takes RUNS: the one body is refused, for which the prover is run so often
takes() {
    holds judges 0 '1 passed, 0 failed'
    holds test "$runs" -eq "$1"
}

refused() {
    anew
    body least-first "$both" "$wrong"
    body three-last "$three" '    least(a, b)'
    body three-turned "$three" '    least(b, a)'
    holds judges 0 '3 passed, 0 failed'
    holds says "$first"
    at='refused at `returns` of tiny::least::least_of_three, by'
    holds says "three-last: $at values"
    holds says "three-turned: $at a difference"
}

# A body that is proved fails, beside one that is refused too: then a function that calls the wrong
# one isn't proved either, and the goal that is told is none of its own.
proved() {
    for passed in 0 1; do
        anew
        [ "$passed" -eq 0 ] || body least-first "$both" "$wrong"
        body three-same "$three" '    least(c, least(a, b))'
        passes "$passed" three-same
    done
    anew
    body least-same "$both" 'if a < b { a } else { b }'
    body three-last "$three" '    least(a, b)'
    passes 1 least-same
}

# That an answer names what the edit took away says nothing of the body.
gone() {
    anew
    body three-other "$three" '    least(c, b)'
    passes 0 three-other 'an answer names what it took away'
}

# What can't be read isn't refused, nor what stands nowhere or twice, nor what no report tells of.
unread() {
    anew
    body least-first "$both" "$wrong"
    body three-unknown "$three" '    none_such'
    body three-nowhere '    least(c)' '    least(b)'
    body three-thrice 'result ≤ ' 'result < '
    holds judges 1 '1 passed, 3 failed'
    holds says "$first"
    twice='FAILED: a text stands %s times in src/least.rt, and not once: %s'
    # shellcheck disable=SC2059 # the format is this text
    holds says "three-nowhere: $(printf "$twice" 0 '    least(c)')"
    # shellcheck disable=SC2059
    holds says "three-thrice: $(printf "$twice" 3 'result ≤ ')"
    holds grep -q "^tiny/three-unknown: FAILED: the prover can't read it: src/least.rt:15:5: " \
        "$work/said"
    anew
    body least-unsaid "$both" 'if a <= b { a } else { later }'
    holds judges 1 '0 passed, 1 failed'
    holds says 'least-unsaid: FAILED: no report of tiny::least::least'
    anew
    holds judges 1 '0 passed, 0 failed'
}

# What has passed is kept until a body, the crate, the script or the toolchain changes. What has
# failed isn't. Nothing kept is looked at with --anew.
kept() {
    anew
    body least-first "$both" "$wrong"
    takes 1
    takes 0
    body least-first "$both" 'if a < b { a } else { b }'
    for _ in 1 2; do
        holds judges 1 '0 passed, 1 failed'
        holds test "$runs" -eq 1
    done
    body least-first "$both" "$wrong"
    takes 0
    for changed in crates/tiny/src/laws.rt scripts/bodies.py path/rt; do
        echo >> "$work/$changed"
        takes 1
    done
    option=--anew
    takes 1
}

# What has passed over another crate stays so when a body changes there, or how it is proved: no
# proof above sees these.
kept_above() {
    anew
    more first-one 'file: src/more.rt' 'old:     least(a, 1)' \
        'new:     least(1, 1) // fails more::first returns'
    takes 1
    takes 0
    sed -i "s/$both/if a < b { a } else { b }/" "$work/crates/tiny/src/least.rt"
    takes 0
    mkdir -p "$work/crates/tiny/proofs/least/least"
    echo 'returns c = c' > "$work/crates/tiny/proofs/least/least/Answers.antt"
    takes 0
    sed -i 's/ensures left { result ≤ a }/ensures left { result < a }/' \
        "$work/crates/tiny/src/least.rt"
    takes 1
    echo 'IsLeast n m = n ≤ m' >> "$work/crates/tiny/specs/Numbers.antt"
    takes 1
    # What such a function gives may be the value of a constant.
    sed -i 's/^    9$/    8/' "$work/crates/tiny/src/lib.rt"
    takes 1
    echo 'lemma : ℕ' > "$work/crates/tiny/proofs/Lemmas.antt"
    takes 1
    takes 0
    echo '// more' >> "$work/crates/more/src/more.rt"
    takes 1
    cp "$work/least.rt" "$work/crates/tiny/src/least.rt"
}

# An import that renames a name turns each function of its file, and so is tried alone. One that
# adds a name turns none.
imported() {
    same='new:     least_of_three(1, a, 2)'
    anew
    more second-same 'file: src/more.rt' 'old:     least_of_three(a, 1, 2)' "$same"
    more first-renamed 'file: src/more.rt' 'old: {least, least_of_three};' \
        'new: {least as least_of_three, least}; // fails more::second returns' \
        'old:     least(a, 1)' 'new:     least(1, 1) // fails more::first returns'
    passes 1 second-same
    more first-renamed 'file: src/more.rt' 'old: {least, least_of_three};' \
        'new: {least_of_three}; // fails more::second returns' \
        'old:     least(a, 1)' 'new:     least_of_three(1) // fails more::first returns'
    holds judges 1 '1 passed, 1 failed'
    more first-renamed 'file: src/more.rt' 'old: {least, least_of_three};' \
        'new: {all, least, least_of_three};' \
        'old:     least(a, 1)' 'new:     all(1) // fails more::first returns'
    more second-same 'file: src/more.rt' 'old:     least_of_three(a, 1, 2)' \
        'new:     least(a, 2) // fails more::second returns'
    holds judges 0 '2 passed, 0 failed'
    holds test "$runs" -eq 1
    # Nor is what a function says tried beside others.
    more second-same 'file: src/more.rt' 'old:     least_of_three(a, 1, 2)' "$same"
    more first-renamed 'file: src/more.rt' 'old: pub fn first(a: u32)' \
        'new: pub fn first(b: u32) /* fails more::first returns fails more::second returns */'
    passes 1 second-same
}

# The methods of a trait have the module of their file in their names, wherever their type stands.
elsewhere() {
    anew
    more find-two 'file: src/finding.rt' 'old:         1' \
        "new:         2 // fails finding::FinderFind::find returns"
    holds judges 0 '1 passed, 0 failed'
    holds says 'find-two: refused at `returns` of more::finding::FinderFind::find, by a search'
}

# A goal that only the wrong body has says nothing of the contract. Where a written answer shows
# that the right body has it, or the prover does, it refuses the body.
own_goals() {
    for goal in returns returns-then-b; do
        anew
        more first-one 'file: src/more.rt' 'old:     least(a, 1)' \
            "new:     least(1, 1) // fails more::first $goal"
        holds judges 0 '1 passed, 0 failed'
        holds says "first-one: refused at \`$goal\` of more::more::first, by a search"
    done
    anew
    more first-same 'file: src/more.rt' 'old:     least(a, 1)' \
        'new:     if a > 1 { 1 } else { a } // fails more::first returns-then'
    passes 0 first-same 'the right body has no goal `returns-then`, so this shows nothing'
    # The folder of a function that calls itself has a plus in front of its name.
    anew
    more second-same 'file: src/more.rt' 'old:     least_of_three(a, 1, 2)' \
        'new:     least_of_three(1, a, 2) // fails more::second returns-then'
    passes 0 second-same 'the right body has no goal `returns-then`, so this shows nothing'
}

# turn NAME JUDGE FROM TO: gives the crate `more` a wrong definition, which this judges
turn() {
    more "$1" "judged by: $2" 'file: specs/Words.antt' "old: $3" "new: $4"
}

# Definitions go in one run where each names a law of its own, and no law rests on what another one
# turns: there it would tell of that.
judged() {
    anew
    turn Words-low laws::low 'n ≤ 1' 'n ≤ 0 -- fails laws::low returns'
    turn Words-odd laws::odd '≡ 1' '≡ 0 -- fails laws::odd returns'
    holds judges 0 '2 passed, 0 failed'
    holds test "$runs" -eq 1
    holds says 'Words-odd: refused at `returns` of more::laws::odd, by a search'
    # the same law
    turn Words-low laws::low '(n ≤ 2)' '(n ≤ 9) -- fails laws::low returns'
    turn Words-odd laws::low '≡ 1' '≡ 1 + 0'
    passes 1 Words-odd
    # a law that rests on the other definition
    turn Words-low laws::low 'n ≤ 1' 'n ≤ 0 -- fails laws::low returns fails laws::word returns'
    turn Words-odd laws::word '(n ≤ 2)' '(n < 3)'
    passes 1 Words-odd
    # a function that is no law, and may call others
    turn Words-low laws::low 'n ≤ 1' 'n ≤ 0 -- fails laws::low returns fails more::first returns'
    turn Words-odd more::first '≡ 1' '≡ 1 + 0'
    holds judges 1 '1 passed, 1 failed'
    # a lemma that the other definition breaks
    turn Words-low laws::low 'n ≤ 1' 'n ≤ 0 -- fails laws::low returns breaks laws::odd'
    turn Words-odd laws::odd '≡ 1' '≡ 1 + 0'
    holds judges 1 '1 passed, 1 failed'
    turn Words-odd laws::odd '≡ 1' '≡ 0 -- breaks laws::odd'
    holds judges 0 '2 passed, 0 failed'
    holds test "$runs" -eq 2
    # no law, and no definition
    turn Words-odd laws::none '≡ 1' '≡ 0'
    more first-one 'judged by: laws::low' 'file: src/more.rt' 'old:     least(a, 1)' 'new:     1'
    holds judges 1 '1 passed, 2 failed'
    holds says 'Words-odd: FAILED: no function has the path laws::none'
    holds says 'first-one: FAILED: what turns functions alone is judged by these'
}

# named STATUS COUNT LINE..: whether scripts/named_mistakes.sh ends so over a list of these lines that
# says that it has so many
named() {
    due=$1 status=0 count=$2
    shift 2
    {
        printf '## What nobody may do\n\nThe gate tries each of these %s for ever.\n\n' "$count"
        [ $# -eq 0 ] || printf -- '- %s\n' "$@"
        printf '\n## Something else\n\n- none: `crates/tiny/bodies/nowhere.edit`\n'
    } > "$work/docs/WRONG_BODIES.md"
    (cd "$work" && sh "$top/scripts/named_mistakes.sh") > "$work/said" 2>&1 || status=$?
    is_status "$due"
}

# Each mistake of the list has an edit of its own, and none is lost.
list() {
    anew
    mkdir -p "$work/docs"
    for name in one two; do : > "$work/crates/tiny/bodies/$name.edit"; done
    one='first: `crates/tiny/bodies/one.edit`'
    two='second: `crates/tiny/bodies/two.edit`'
    holds named 0 2 "$one" "$two"
    holds named 1 2 "$one"
    holds named 1 3 "$two" "$one" "$two"
    holds named 1 3 "$one" "$two" 'third: none'
    holds named 1 3 "$one" "$two" 'third: `crates/tiny/bodies/three.edit`'
    holds named 1 0
}

# The gate ends where a part fails, or tries nothing, and counts what has.
gate() {
    mkdir -p "$work/gate/scripts/lib"
    cp scripts/test.sh "$work/gate/scripts"
    cp scripts/lib/total.sh "$work/gate/scripts/lib"
    cd "$work/gate"
    for part in 'echo "3 passed, 2 failed" && exit 1' : 'echo "0 passed, 0 failed"'; do
        echo "$part" > scripts/named_mistakes.sh
        holds ends 1 sh scripts/test.sh > "$work/said" 2>&1
        tail -n 2 "$work/said" >> "$work/gate.said"
    done
    holds test "$(paste -sd ' ' "$work/gate.said")" = \
        'FAILED: named 3 passed, 2 failed FAILED: named 0 passed, 1 failed FAILED: named 0 passed, 0 failed'
}

try_all refused proved gone unread kept kept_above imported elsewhere own_goals judged list gate
