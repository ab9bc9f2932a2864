#!/bin/sh
# Tries scripts/theorem.py on made-up crates: in what order it prints definitions and what it
# counts. The numbers due were counted by hand.
# Usage: tests/theorem.sh (at the top of the repository).
set -eu
. tests/lib/harness.sh
top=$PWD

# theorem OPTION..: what the script prints of these crates, where the toolchain isn't on PATH
theorem() {
    (cd "$work" && PATH=/usr/bin:/bin python3 -B "$top/scripts/theorem.py" "$@")
}

put_all << 'END'
==== crates.txt
# Each crate, and what it stands on.
lower: thiserror
upper: lower
aside: pb_commands
pb_commands:
==== crates/lower/specs/Parts.antt tokens/lines: 10/3, 14/2, 25/4, 31/4, 9/2, 5/2, 5/2 and 7/2
-- Pairs of numbers.
-- Everything stands on them.
use Rattle.std.specs.Prelude.{◌≡◌, ℕ, ◌+◌, ◌*◌}

-- two numbers
pub record Pair : Type 0 where
  -- the first
  pub left : ℕ
  pub right : ℕ -- and the second

-- ---- what is made of them

-- their sum, (of both)
abbrev pub sum : Pair → ℕ
sum p = p.left + p.right

unfoldable pub swapped : Pair → Pair
swapped p = (λ q _. q) (record {
  left = p.right;
  right = p.left;
}) unused

-- kept, or swapped
pub data Kept (p : Pair) : Type 0 where
  same : sum p ≡ 0 → Kept p
  turned : (q : Pair) → p ≡ swapped q
      → Kept p

-- ---- what else there is

-- no case of a data has the name of its part
record Alone : Type 0 where
  n : ℕ

inline pub twice : ℕ → ℕ
twice n = n + n

plain : ℕ
plain = 3

abbrev pub hidden : ℕ
hidden = 4

abbrev pub unused : ℕ
unused = 5 * 1
==== crates/lower/specs/Lib.antt
pub mod Parts
==== crates/upper/specs/Lib.antt
pub mod Passed
pub mod Top
pub use Rattle.aside.specs.Extra
==== crates/upper/specs/Passed.antt
pub use Rattle.lower.specs.Parts.{Kept, swapped as turned_round}
==== crates/upper/specs/Top.antt 29 tokens on 3 lines
-- What is promised.
use Rattle.std.specs.Prelude.{◌≡◌, ◌+◌}
use Rattle.lower.specs.Parts.{Pair, same}
use Rattle.upper.specs.declared.colour.Colour.{Colour}
use Rattle.upper.specs.declared.colour.Colour.TheVariants as side
use Rattle.upper.specs.declared.shade.Shade.TheVariants as shade
use Rattle.upper.specs.Passed.{turned_round}
use Rattle.upper.specs.Extra.{nothing}

-- the promise of a colour
abbrev pub Promise : Colour → Type 0
Promise side.Red = (p : Pair) × (turned_round p ≡ p)
Promise side.Blue = same nothing shade.Dark
==== crates/aside/specs/Extra.antt 10 tokens on 2 lines
use Rattle.std.specs.Prelude.{ℕ}
use Rattle.std.specs.List as list
use Rattle.pb_commands.specs.Headline as theorem

abbrev pub nothing : ℕ
nothing = list.sum theorem.headline
==== crates/pb_commands/specs/Headline.antt 7 tokens on 2 lines, 5 on 2; the order names it
use Rattle.std.specs.Prelude.{ℕ, List, [], ◌∷◌}

abbrev pub headline : List ℕ
headline = 0 ∷ []

abbrev pub HasHeadline : ℕ
HasHeadline = headline
==== crates/pb_commands/specs/Sentence.antt what the law says: 5 tokens on 2 lines, and 7 on 2
use Rattle.std.specs.Prelude.{ℕ}
use Rattle.pb_commands.specs.Headline.{headline}

abbrev pub least : ℕ
least = 0

abbrev pub Sentence : ℕ
Sentence = headline + least
==== crates/pb_commands/src/laws.rt
ghost use Rattle.pb_commands.specs.Sentence.{Sentence};

/// Sums up.
pub fn sentence()
    ensures { Sentence ≡ Sentence }
{}
==== crates/pb_program/src/ordered.rt the call that the program makes
ghost use Rattle.upper.specs.Top.{Promise};

fn other()
    ensures { 1 ≡ 1 }
{}

/// Collects.
pub(crate) fn collect() -> Colour
    requires { 0 < 1 }
    ensures { Promise result }
{
    Colour::Red
}
END
mkdir "$work/docs"

# counts: what a definition rests on is counted, by its own name, by a case and by what is passed on
counts() {
    holds test "$(theorem --count --of upper.Top.Promise)" = \
        '7 definitions, 20 lines, 126 tokens, 4 files'
    holds test "$(theorem --count --of lower.Parts.same)" = \
        '4 definitions, 13 lines, 80 tokens, 1 files'
    holds test "$(theorem --count --of upper.Passed.turned_round)" = \
        '2 definitions, 7 lines, 35 tokens, 1 files'
    holds test "$(theorem --count --of lower.Parts.unused)" = \
        '1 definitions, 2 lines, 7 tokens, 1 files'
    holds test "$(theorem --count --of lower.Parts.twice)" = \
        '1 definitions, 2 lines, 9 tokens, 1 files'
}

# laws: the theorem comes with its call and its laws, and what these rest on besides stands
# behind them
laws() {
    theorem > "$work/theorem"
    tail -n 3 "$work/theorem" > "$work/printed"
    cat > "$work/due" << 'END'
2 definitions, 4 lines, 12 tokens, 1 files
with its laws: 4 definitions, 8 lines, 24 tokens, 2 files
the program's call, however it ends: 7 definitions, 20 lines, 126 tokens, 4 files
END
    holds diff "$work/due" "$work/printed"
    grep '^====\|^abbrev\|^///\|^    ensures' "$work/theorem" | head -n 16 > "$work/printed"
    cat > "$work/due" << 'END'
==== The program's call: crates/pb_program/src/ordered.rt
/// Collects.
    ensures { Promise result }
==== The words of its contract; the first case is the theorem
==== crates/upper/specs/Top.antt
abbrev pub Promise : Colour → Type 0
==== crates/pb_commands/specs/Headline.antt
abbrev pub headline : List ℕ
abbrev pub HasHeadline : ℕ
==== Its law, and what else that rests on: crates/pb_commands/src/laws.rt
/// Sums up.
    ensures { Sentence ≡ Sentence }
==== crates/pb_commands/specs/Sentence.antt
abbrev pub least : ℕ
abbrev pub Sentence : ℕ
==== What else the call's contract says
END
    holds diff "$work/due" "$work/printed"
}

# printed: the definitions of a file come as they stand, with the comments over them and over their
# part
printed() {
    theorem --of upper.Passed.turned_round | sed '/^==== What/,$d' > "$work/printed"
    {
        printf '==== crates/lower/specs/Parts.antt\n\n'
        sed -n '1,2p; /^-- two/,/^-- kept/p' "$work/crates/lower/specs/Parts.antt" |
            sed '2s/$/\n/; /^-- their sum/,/^$/d; /^-- kept/d'
    } > "$work/due"
    holds same_lines "$work/due" "$work/printed"
}

# listed: a public call comes with its sentence, its clauses and what they cite
listed() {
    theorem --index pb_commands > "$work/printed"
    cat > "$work/due" << 'END'
==== pb_commands

laws::sentence: Sums up.
    ensures { Sentence ≡ Sentence }
    by Sentence (pb_commands.Sentence)

END
    holds diff "$work/due" "$work/printed"
}

# refuses MESSAGE OPTION..: whether the script ends with status 1, and says this alone
refuses() {
    message=$1
    shift
    ends 1 theorem "$@" > "$work/printed" 2>&1
    [ "$(cat "$work/printed")" = "$message" ]
}

# told: a document that tells another count is refused, and so is an order of other files
told() {
    echo 'It has the definitions: 7, on 19 lines.' > "$work/docs/THEOREM.md"
    holds refuses "docs/THEOREM.md: it has to say 'the definitions: 7, on 20 lines'" \
        --check --of upper.Top.Promise
    echo 'It has the definitions: 7, on 20 lines.' > "$work/docs/THEOREM.md"
    holds ends 1 theorem --check --of upper.Top.Promise 2> "$work/errors"
    holds grep -q '^scripts/theorem.py: the order names .* for nothing$' "$work/errors"
    it='It has the definitions: 2, on 4 lines; with its laws: 4'
    echo "$it, on 7 lines." > "$work/docs/THEOREM.md"
    holds refuses "docs/THEOREM.md: it has to say 'with its laws: 4, on 8 lines'" --check
    echo "$it, on 8 lines." > "$work/docs/THEOREM.md"
    holds refuses "docs/THEOREM.md: it has to say 'however it ends: 7, on 20 lines'" --check
}

try_all counts laws printed listed told
