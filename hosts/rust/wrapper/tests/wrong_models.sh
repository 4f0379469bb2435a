#!/bin/sh
# Shows that the comparison of calls with the model is no empty one: the model is made wrong in one place at a time, in a scratch
# copy of the Rust hosts, and the comparison must fail. Each line says in what the wrong model was noticed to differ from the
# archive. It takes ten to fourteen minutes.
#
# usage: hosts/rust/wrapper/tests/wrong_models.sh
set -eu
cd "$(dirname "$0")/../../../.."

scripts/need --rust python3 python3
model=hosts/rust/wrapper/tests/model
scratch=$(mktemp -d)
trap 'rm -rf "$scratch"' EXIT
mkdir -p "$scratch/hosts/rust"
cp -R hosts/rust/Cargo.toml hosts/rust/wrapper hosts/rust/command "$scratch/hosts/rust"

# Many builds that differ little, and short runs.
export BLISS_RUST="$scratch/hosts/rust" BLISS_CALLS=2000 BLISS_SEED=1
export CARGO_PROFILE_TEST_OPT_LEVEL=0 CARGO_PROFILE_TEST_DEBUG=0 CARGO_INCREMENTAL=1 RUST_BACKTRACE=0
count=0
unnoticed=0

fail() {
    echo "$1" >&2
    cat "$scratch/log" >&2
    exit 1
}

# Compares with the model as it now stands, in the parts of the comparison that $words name. A run of an older build would show
# nothing.
compare() {
    status=0
    # shellcheck disable=SC2086 # words
    scripts/cargo test -p bliss-box --test against_model -- $words >"$scratch/log" 2>&1 || status=$?
    grep -q 'Compiling bliss-box' "$scratch/log" || fail "the model was not compiled anew"
    return "$status"
}

# In what the archive and the model differed.
differences() {
    sed -n 's/^.*, \([^,]*\): differs from the model.*/\1/p' "$scratch/log" | sort -u
}

# wrong NAME RIGHT WRONG: the text RIGHT, which the file $part of the model has exactly once, becomes WRONG. The
# model must not panic by it, with an index out of range for instance: a panic hides in what the model would differ.
wrong() {
    python3 - "$model/$part" "$scratch/$model/$part" "$2" "$3" <<'END'
import sys

source, target, right, wrong = sys.argv[1:]
text = open(source, encoding="utf-8").read()
if text.count(right) != 1:
    sys.exit(f"the model has this {text.count(right)} times, and not once: {right}")
open(target, "w", encoding="utf-8").write(text.replace(right, wrong))
END
    count=$((count + 1))
    if compare; then
        unnoticed=$((unnoticed + 1))
        echo "NOT NOTICED: $1"
    else
        ! grep -q 'panicked at wrapper/tests/model/' "$scratch/log" || fail "$1: the wrong model panics"
        differing=$(differences | paste -sd , - | sed 's/,/, /g')
        [ -n "$differing" ] || fail "$1: it failed, but not in a comparison"
        echo "$1: noticed in $differing"
    fi
    cp "$model/$part" "$scratch/$model/$part"
}

# wrong_by_values NAME RIGHT WRONG: one that must be noticed in more than the read list.
wrong_by_values() {
    wrong "$@"
    differences | grep -qvxE 'the entries|the list' || fail "$1: nothing but the read list shows it"
}

# wrong_e NAME RIGHT WRONG: one that must be noticed in e(N) by N alone, in draws and in responses.
wrong_e() {
    wrong "$@"
    for noticing in exponentials draws responses; do
        grep -q "^thread '$noticing' .*panicked" "$scratch/log" || fail "$1: the $noticing do not show it"
    done
}

# wrong_turns NAME ROUNDED: one whose squarings are cut but for those that are rounded, by their turn from 0.
wrong_turns() {
    wrong_e "$1" 'for _ in 0..6 {
        a = (a * a + (1 << 61)) / ONE;' "for turn in 0..6 {
        a = (a * a + if $2 { 1 << 61 } else { 0 }) / ONE;"
}

# wrong_by_padding REFUSAL CALL: two that serve a draw, or a respond call, whose words or list are one short. REFUSAL and CALL are
# the model's functions for it, up to the call that they take.
wrong_by_padding() {
    wrong 'one word too few is served' "let refusal = $1call);" \
        "let mut padded = call.clone();
         padded.words.push(0);
         let call = &padded;
         let refusal = $1call);"
    wrong_by_padded_list 'one entry too few is served' "$1" "$2" true
}

# wrong_by_padded_list NAME REFUSAL CALL WHERE: one that serves a call whose list is one entry short.
wrong_by_padded_list() {
    wrong "$1" "let refusal = $2call);" \
        "let refusal = $2call);
         let mut padded = call.clone();
         padded.list.push(0);
         if $4 && refusal == 8 && $2&padded) != 8 {
             let mut after = $3&padded);
             after.list.pop();
             return after;
         }"
}

# wrong_check NAME CHANGE: one that changes the words of the table, `cdt`, before it looks whether thresholds fall.
wrong_check() {
    wrong_by_values "$1" 'let thresholds = order(cdt);' "let mut cdt = cdt.to_vec();
     $2
     let thresholds = order(&cdt);"
}

# wrong_scan NAME CHANGE: one that changes the words of the table, `cdt`, before it counts thresholds.
wrong_scan() {
    wrong_by_values "$1" 'let thresholds = order(&call.cdt);' "let mut cdt = call.cdt.clone();
     $2
     let thresholds = order(&cdt);"
}

# wrong_z1 NAME VALUE: one that tests other values, at place i, for those of z1.
wrong_z1() {
    wrong "$1" 'let bit = response.bit();' \
        "let bit = response.tests()[..4] == [true; 4] && (0..n).all(|i| $2.abs() <= COEFFICIENT_LIMIT);"
}

# e(N) with document 01's squarings, which no model takes.
cut_e=crate::cut_exponential::cut_exponential

# Whether a respond call is one for a blank response.
blank='call.challenge.is_empty()'

# wrong_blank NAME CHANGE: one that changes `response` or `bit` where the response is blank.
wrong_blank() {
    wrong "$1" 'let bit = response.bit();' "let (mut response, mut bit) = (response.clone(), response.bit());
     if $blank { $2 }"
}

# wrong_blank_list NAME CHANGE: one that changes `entries` where the response is blank.
wrong_blank_list() {
    wrong "$1" 'let entries = entries_of(n, &call.challenge, bit);' "let mut entries = entries_of(n, &call.challenge, bit);
     if $blank { $2 }"
}

# wrong_blank_call NAME CHANGE: one that changes what a blank response is lent for reading.
wrong_blank_call() {
    wrong "$1" 'let refusal = refusal_of_respond(call);' "let mut changed = call.clone();
     if $blank { $2 }
     let call = &changed;
     let refusal = refusal_of_respond(call);"
}

# wrong_session NAME REFUSAL: one that tests the deviation of a session last. REFUSAL is the model's function, up to the call that it
# takes.
wrong_session() {
    wrong "$1" "let refusal = $2call);" "let mut at_215 = call.clone();
     at_215.session.deviation = 215;
     let refusal = match $2&at_215) {
         0 => $2call),
         refusal => refusal,
     };"
}

# wrong_refusal NAME CHANGE: one that changes `refusal`, that of the fields of a record to be written.
wrong_refusal() {
    wrong "$1" 'let refusal = refusal_of_fields(&fields);' "let mut refusal = refusal_of_fields(&fields);
     $2"
}

# wrong_told NAME TOLD: one that tests fields as if others were told.
wrong_told() {
    wrong_refusal "$1" "if refusal == 0 { refusal = refusal_of_fields(&Write { told: $2, ..call.clone() }.field_set()); }"
}

# Document 01's calls, and what document 02 changed of them.
words='openings forged filled exponentials draws responses lists demand'
compare || fail "the right model is not the archive's"

# The traps of document 01. Two of them change no value: the read list alone can show them.
part=draw.rs
wrong 'the scan is left at the first threshold above d' 'list_attempt(&mut entries, t, samples.len());' \
    'list_attempt(&mut entries, t, samples.len());
     let end = entries.len() - 22;
     entries.drain(end - (9 - attempt.x.min(9) as usize)..end);'
wrong 'no exponential at size 0' 'list_attempt(&mut entries, t, samples.len());' \
    'list_attempt(&mut entries, t, samples.len());
     let end = entries.len() - 1;
     entries.drain(end - if attempt.size() == 0 { 21 } else { 0 }..end);'
wrong_by_values 'zero is kept with both signs' ' && !(self.size() == 0 && self.negative)' ''
wrong_by_values 'high words alone are compared' 'threshold <= d' 'threshold / ONE <= d / ONE'
part=respond.rs
wrong_by_values 'no minus sign where a position wraps' '(i + n - c, true)' '(i + n - c, false)'
wrong_by_values 'z is kept on bit 0' 'z: if bit {' 'z: if bit || !bit {'

part=draw.rs

# Base sample
wrong 'a threshold counts only below d' 'threshold <= d' 'threshold < d'
wrong 'the low word is left out at equal high words' 'threshold <= d' 'threshold / ONE < d / ONE'
wrong 'high and low words are compared each for itself' 'threshold <= d' \
    'threshold / ONE <= d / ONE && threshold % ONE <= d % ONE'
wrong 'nine thresholds' 'for &threshold in thresholds {' 'for &threshold in &thresholds[..9] {'

# Document 02's order of the CDT. The last two of these take tables of the old order otherwise, and no others.
threshold='u128::from(cdt[i]) * ONE + u128::from(cdt[10 + i])'
reordered='(0..20).map(|place| cdt[place % 10 * 2 + place / 10]).collect()'
wrong_by_values 'the old order' "$threshold" 'u128::from(cdt[2 * i]) * ONE + u128::from(cdt[2 * i + 1])'
wrong_by_values 'low words before high words' "$threshold" 'u128::from(cdt[10 + i]) * ONE + u128::from(cdt[i])'
wrong_by_values 'low words from the last to the first' 'cdt[10 + i]' 'cdt[19 - i]'
wrong_by_values 'the low word of the next threshold' 'cdt[10 + i]' 'cdt[10 + (i + 1) % 10]'
wrong_by_values 'the low word of the threshold before' 'cdt[10 + i]' 'cdt[9 + i.max(1)]'
wrong_check 'the old order where the table is checked' "cdt = $reordered;"
wrong_scan 'the old order where thresholds are counted' "cdt = $reordered;"
wrong_check 'low words before high words where the table is checked' 'cdt.rotate_left(10);'
wrong_scan 'low words before high words where thresholds are counted' 'cdt.rotate_left(10);'
wrong_check 'low words of the next thresholds where the table is checked' 'cdt[10..].rotate_left(1);'
wrong_scan 'low words of the next thresholds where thresholds are counted' 'cdt[10..].rotate_left(1);'
wrong_check 'low words of the thresholds before where the table is checked' 'cdt[10..].rotate_right(1);'
wrong_scan 'low words of the thresholds before where thresholds are counted' 'cdt[10..].rotate_right(1);'
wrong_by_values 'a table of the old order is served' 'if !cdt_is_right(order, &call.cdt) {' \
    "let cdt = &call.cdt;
     let reordered: Vec<u64> = $reordered;
     if !cdt_is_right(order, cdt) && !cdt_is_right(order, &reordered) {"
wrong_scan 'a table that is right in both orders is taken in the old one' \
    "let reordered: Vec<u64> = $reordered;
     if cdt_is_right(order, &reordered) { cdt = reordered; }"

# Attempt
wrong 'b of nine bits' 'let b = words[2] % 256;' 'let b = words[2] % 512;'
wrong 'the sign is bit 9' 'words[2] / 256 % 2' 'words[2] / 512 % 2'
wrong 'N with 256x' 'b * (b + 512 * x)' 'b * (b + 256 * x)'
wrong 'zero is rejected with both signs' '!(self.size() == 0 && self.negative)' 'self.size() != 0'
wrong 'x = 0 with sign 1 is rejected' '!(self.size() == 0 && self.negative)' '!(self.x == 0 && self.negative)'
wrong 'accepted at e(N) too' 'self.tested < self.e' 'self.tested <= self.e'
wrong_by_values 'accepted by the cut e(N)' 'exponential_at(deviation, n)' "${cut_e}_at(deviation, n)"
wrong 'samples without a sign' '-(self.size() as i32)' 'self.size() as i32'

# Draw
wrong 'spent one attempt early' 'attempts.len() < call.limit' 'attempts.len() + 1 < call.limit'
wrong 'full one sample early' 'while samples.len() < 2 * n' 'while samples.len() < 2 * n - 1'
wrong 'never full on the last attempt' 'let full = samples.len() == 2 * n;' \
    'let full = samples.len() == 2 * n && attempts.len() < call.limit;'
wrong 'words of the first attempt again' 'Attempt::of(call.session.deviation, words, &thresholds)' \
    'Attempt::of(call.session.deviation, call.words[..4].try_into().unwrap_or(words), &thresholds)'
wrong 'y stands on spent' 'vec![0; 2 * n]' 'call.y.clone()'
wrong 'accepted samples stand on spent' 'vec![0; 2 * n]' \
    'samples.iter().copied().chain(vec![0; 2 * n - samples.len()]).collect()'
wrong 'attempts counted up to the limit' 'attempts: attempts.len(),' 'attempts: call.limit,'
wrong 'entries counted up to the limit' 'entries: entries.len()' 'entries: list_asked(call.limit)'

# Read list of a draw
wrong 'kind 5 counts after the attempt' 'list_attempt(&mut entries, t, samples.len());' \
    'list_attempt(&mut entries, t, samples.len() + usize::from(attempt.accepted()));'
wrong 'kind 5 has the attempt' 'list_attempt(&mut entries, t, samples.len());' 'list_attempt(&mut entries, t, t);'
wrong 'word places from 0 in each attempt' 'for place in 4 * t..4 * t + 4 {' 'for place in 4 * (t - t)..4 {'
wrong 'the last entry is missing' 'entries.push(entry(6, samples.len()));' ''
wrong 'kind 3 by thresholds' 'entry(3, place)' 'entry(3, place / 2 + place % 2 * 10)'
wrong 'kind 3 has places of the old order' 'entry(3, place)' 'entry(3, place % 10 * 2 + place / 10)'
wrong 'low words are listed before high words' 'entry(3, place)' 'entry(3, (place + 10) % 20)'
wrong 'high words are listed twice, and no low word' 'entry(3, place)' 'entry(3, place % 10)'
wrong 'one word is listed twice, and the next one not at all' 'entry(3, place)' 'entry(3, place - usize::from(place == 10))'
wrong 'the first CDT word is not listed' 'for place in 0..20 {' 'for place in 1..20 {'
wrong 'the first low word is not listed' 'for place in 0..20 {' 'for place in (0..20).filter(|&place| place != 10) {'
wrong 'the last CDT word is not listed' 'for place in 0..20 {' 'for place in 0..19 {'
wrong 'high words are listed in the first attempt alone' 'for place in 0..20 {' 'for place in if t == 0 { 0..20 } else { 10..20 } {'
wrong 'low words are listed at equal high words alone' 'list_attempt(&mut entries, t, samples.len());' \
    'list_attempt(&mut entries, t, samples.len());
     if thresholds.iter().all(|threshold| threshold / ONE != attempt.d / ONE) {
         let end = entries.len() - 22;
         entries.drain(end - 10..end);
     }'

# The session after a draw
wrong 'spent keeps drawn' 'u64::from(full)' 'u64::from(full || call.session.is_drawn())'
wrong 'a refused draw clears drawn' 'session: call.session,' 'session: Session { drawn: 0, ..call.session },'
wrong 'a refused draw gives degree 0 for a wrong one' 'session: call.session,' \
    'session: Session { degree: if refusal == 1 { 0 } else { call.session.degree }, ..call.session },'

# Refusals of a draw
wrong 'a refused draw zeroes y' 'y: call.y.clone(),' 'y: vec![0; call.y.len()],'
wrong 'refusals 2 and 1 in the other order' 'if !degree_is_served(n) {' \
    'if call.cdt.len() + 1 != 21 { return 2; }
     if !degree_is_served(n) {'
wrong 'refusals 3 and 2 in the other order' 'if call.cdt.len() != 20 ||' \
    'if call.cdt.len() == 20 && !cdt_is_right(order, &call.cdt) { return 3; }
     if call.cdt.len() != 20 ||'
wrong 'refusals 3 and 4 in the other order' 'if !cdt_is_right(order, &call.cdt) {' \
    'if call.polynomial != POLYNOMIAL { return 4; }
     if !cdt_is_right(order, &call.cdt) {'
wrong 'refusals 5 and 4 in the other order' 'if call.polynomial != POLYNOMIAL {' \
    'if limit < 2 * n || limit > 32 * n { return 5; }
     if call.polynomial != POLYNOMIAL {'
wrong 'refusals 7 and 5 in the other order' 'if limit < 2 * n ||' \
    'if call.words.len() < words_asked(limit) { return 7; }
     if limit < 2 * n ||'
wrong 'refusals 7 and 8 in the other order' 'if call.words.len() <' \
    'if call.list.len() < list_asked(limit) { return 8; }
     if call.words.len() <'
wrong 'equal thresholds are refused' 'thresholds[i] < thresholds[i - 1]' 'thresholds[i] <= thresholds[i - 1]'
wrong 'low words may fall at equal high words' 'thresholds[i] < thresholds[i - 1]' 'thresholds[i] / ONE < thresholds[i - 1] / ONE'
wrong 'low words may never fall' 'thresholds[i] < thresholds[i - 1]' \
    'thresholds[i] < thresholds[i - 1] || thresholds[i] % ONE < thresholds[i - 1] % ONE'
wrong 'the last threshold may fall' 'for i in 1..10 {' 'for i in 1..9 {'
wrong 'a CDT word may be 2^62' 'u128::from(word) >= ONE' 'u128::from(word) > ONE'
wrong 'the last CDT word is not looked at' 'for &word in cdt {' 'for &word in &cdt[..19] {'
wrong 'a high word may be 2^62 or more' 'for &word in cdt {' 'for &word in &cdt[10..] {'
wrong 'a low word may be 2^62 or more' 'for &word in cdt {' 'for &word in &cdt[..10] {'
wrong 'entry 20 of the polynomial table is not looked at' 'call.polynomial != POLYNOMIAL' \
    'call.polynomial[..20] != POLYNOMIAL[..20]'
wrong 'L = 2n is refused' 'limit < 2 * n' 'limit <= 2 * n'
wrong 'L = 32n is refused' 'limit > 32 * n' 'limit >= 32 * n'
wrong 'more words than 4L are refused' 'call.words.len() < words_asked' 'call.words.len() != words_asked'
wrong_by_padding 'refusal_of_draw(order, ' 'draw_in(order, '
wrong 'one word more is asked for' 'limit.saturating_mul(4)' 'limit.saturating_mul(4).saturating_add(1)'
wrong 'one entry more is asked for' 'saturating_add(2)' 'saturating_add(3)'

part=respond.rs

# Challenge product
wrong 'a minus sign where no position wraps' '(i - c, false)' '(i - c, true)'
wrong 's1 in both halves' 'half_product(s2, challenge)' 'half_product(s1, challenge)'
wrong 'the last position is left out' 'for &c in challenge {
            let (index, minus)' 'for &c in &challenge[..challenge.len() - usize::from(challenge.len() > 1)] {
            let (index, minus)'

# Respond
wrong 'g turned round' 'words[0] % 2 == 1' 'words[0] % 2 == 0'
wrong 'g by bit 1' 'words[0] % 2 == 1' 'words[0] / 2 % 2 == 1'
wrong 'A must be below its limit' 'self.product_squares <= PRODUCT_LIMIT' 'self.product_squares < PRODUCT_LIMIT'
wrong 'A may be one above its limit' 'self.product_squares <= PRODUCT_LIMIT' 'self.product_squares <= PRODUCT_LIMIT + 1'
wrong 'A is not tested' 'self.product_squares <= PRODUCT_LIMIT' 'true'
wrong 'Z must be below its limit' 'self.response_squares <= RESPONSE_LIMIT' 'self.response_squares < RESPONSE_LIMIT'
wrong 'Z may be one above its limit' 'self.response_squares <= RESPONSE_LIMIT' 'self.response_squares <= RESPONSE_LIMIT + 1'
wrong 'Z is not tested' 'self.response_squares <= RESPONSE_LIMIT' 'true'
wrong 'A of s1 alone' 'sum_of_squares(product)' 'sum_of_squares(&product[..product.len() / 2])'
wrong 'A in 16 bits' 'sum_of_squares(product)' 'sum_of_squares(product) % (1 << 16)'
wrong 'Z of z1 alone' 'sum_of_squares(&z)' 'sum_of_squares(&z[..z.len() / 2])'
wrong 'Z in 32 bits' 'sum_of_squares(&z)' 'sum_of_squares(&z) % (1 << 32)'
wrong 'Z of y' 'sum_of_squares(&z)' 'y.iter().map(|&value| u128::from(value.unsigned_abs()).pow(2)).sum()'
wrong 'N1 = A' 'PRODUCT_LIMIT.saturating_sub(product_squares)' 'product_squares.min(PRODUCT_LIMIT)'
wrong 'N1 = 0' 'PRODUCT_LIMIT.saturating_sub(product_squares)' 'PRODUCT_LIMIT.min(0)'
wrong '|I| is not doubled' '2 * inner.unsigned_abs()' 'inner.unsigned_abs()'
wrong 'I of y' 'inner_product(&z, product)' \
    'y.iter().zip(product).map(|(&value, sc)| i128::from(value) * sc).sum::<i128>()'
wrong 'I below 0 counts as 0' '2 * inner.unsigned_abs()' '2 * inner.max(0).unsigned_abs()'
wrong 'word 1 passes at e(N1) too' 'self.tested1 < self.e1' 'self.tested1 <= self.e1'
wrong 'word 1 fails at e(N1) - 1' 'self.tested1 < self.e1' 'self.tested1 + 1 < self.e1'
wrong 'word 1 is tested by the cut e(N1)' 'exponential(n1)' "$cut_e(n1)"
wrong 'word 1 is not tested' 'self.tested1 < self.e1' 'true'
wrong 'words 1 and 2 change places' '(of_62(words[1]), of_62(words[2]))' '(of_62(words[2]), of_62(words[1]))'
wrong 'word 2 without its lowest bits' 'of_62(words[2])' 'u128::from(words[2] / 4)'
wrong 'the cosh test passes at equal sides' '(ONE + self.f) < self.e2' '(ONE + self.f) <= self.e2'
wrong 'the cosh test with 2^62' 'self.e2 * (1 << 63)' 'self.e2 * (1 << 62)'
wrong 'the cosh test without f' '(ONE + self.f)' 'ONE'
wrong 'the cosh test with e for f' '(ONE + self.f)' '(ONE + self.e2)'
wrong 'the cosh test on high words alone' 'self.tested2 * (ONE + self.f) < self.e2 * (1 << 63)' \
    '(self.tested2 * (ONE + self.f)) >> 64 < (self.e2 * (1 << 63)) >> 64'
wrong 'the cosh test passes at equal high words' 'self.tested2 * (ONE + self.f) < self.e2 * (1 << 63)' \
    '(self.tested2 * (ONE + self.f)) >> 64 <= (self.e2 * (1 << 63)) >> 64'
wrong 'f is rounded' 'e2 * e2 / ONE' '(e2 * e2 + (1 << 61)) / ONE'
wrong 'f of the cut e(N2)' 'e2 * e2 / ONE' "u128::from($cut_e(n2)).pow(2) / ONE"
wrong 'the cosh test by the cut e(N2)' 'exponential(n2)' "$cut_e(n2)"
wrong 'no cosh test' 'self.tested2 * (ONE + self.f) < self.e2 * (1 << 63)' 'true'
wrong 'every response is rejected' 'self.tests() == [true; 5]' 'false'
wrong 'four tests of five are enough' 'self.tests() == [true; 5]' 'self.tests().iter().filter(|&&test| test).count() >= 4'
wrong 'z before the call is kept on bit 0' 'else { vec![0; 2 * n] }' 'else { call.z.clone() }'
wrong 'y is kept' 'y: vec![0; 2 * n],' 'y: call.y.clone(),'
wrong 'y is kept on bit 0' 'y: vec![0; 2 * n],' 'y: if bit { vec![0; 2 * n] } else { call.y.clone() },'
wrong 'drawn is kept' 'drawn: 0,' 'drawn: 1,'
wrong 'drawn is kept on bit 0' 'drawn: 0,' 'drawn: u64::from(!bit),'
wrong 'a refused response zeroes y' 'y: call.y.clone(),' 'y: vec![0; call.y.len()],'
wrong 'a refused response zeroes z' 'z: call.z.clone(),' 'z: vec![0; call.z.len()],'
wrong 'a refused response clears drawn' 'session: call.session,' 'session: Session { drawn: 0, ..call.session },'

# Document 02's test of z1
z1='&self.z[..self.z.len() / 2]'
within='(-COEFFICIENT_LIMIT..=COEFFICIENT_LIMIT)'
by_z1='response.tests() == [true, true, true, true, false]'
wrong 'z1 is not tested' 'self.tests() == [true; 5]' 'self.tests()[..4] == [true; 4]'
wrong 'z2 is tested too' "$z1" '&self.z'
wrong 'z2 is tested instead' "$z1" '&self.z[self.z.len() / 2..]'
wrong 'the first value of z1 is not tested' "$z1" '&self.z[1..self.z.len() / 2]'
wrong 'the last value of z1 is not tested' "$z1" '&self.z[..self.z.len() / 2 - 1]'
wrong 'the first value of z1 alone is tested' "$z1" '&self.z[..1]'
wrong 'one value of z1 that passes is enough' 'self.z1().iter().all' 'self.z1().iter().any'
wrong '2,100 is rejected' "$within" '(-COEFFICIENT_LIMIT..COEFFICIENT_LIMIT)'
wrong '-2,100 is rejected' "$within" '(1 - COEFFICIENT_LIMIT..=COEFFICIENT_LIMIT)'
wrong '2,101 passes' "$within" '(-COEFFICIENT_LIMIT..=COEFFICIENT_LIMIT + 1)'
wrong '-2,101 passes' "$within" '(-COEFFICIENT_LIMIT - 1..=COEFFICIENT_LIMIT)'
wrong 'values above 0 alone are tested' "$within" '(..=COEFFICIENT_LIMIT)'
wrong 'values below 0 alone are tested' "$within" '(-COEFFICIENT_LIMIT..)'
wrong_z1 'y is tested' 'i128::from(call.y[i])'
wrong_z1 'y + Sc is tested by both signs' '(i128::from(call.y[i]) + sc[i])'
wrong_z1 'y - Sc is tested by both signs' '(i128::from(call.y[i]) - sc[i])'
wrong_z1 'z1 is tested by the other sign' '(2 * i128::from(call.y[i]) - response.z[i])'
wrong 'z is kept where z1 rejects' 'z: if bit {' "z: if bit || $by_z1 {"
wrong 'z before the call is kept where z1 rejects' 'else { vec![0; 2 * n] }' \
    "else if $by_z1 { call.z.clone() } else { vec![0; 2 * n] }"
wrong 'y is kept where z1 rejects' 'y: vec![0; 2 * n],' "y: if $by_z1 { call.y.clone() } else { vec![0; 2 * n] },"
wrong 'drawn is kept where z1 rejects' 'drawn: 0,' "drawn: u64::from($by_z1),"
wrong 'the last entry is missing where z1 rejects' 'let entries = entries_of(n, &call.challenge, bit);' \
    "let mut entries = entries_of(n, &call.challenge, bit);
     if $by_z1 { entries.pop(); }"
wrong 'kind 9 has 1 where z1 rejects' 'entries_of(n, &call.challenge, bit)' "entries_of(n, &call.challenge, bit || $by_z1)"

# Document 02's blank response
wrong 'an empty challenge is refused' 'challenge.len() > 64' 'challenge.is_empty() || challenge.len() > 64'
wrong 'an empty challenge is position 0' 'product(&call.key, &call.challenge)' \
    "product(&call.key, if $blank { &[0] } else { &call.challenge[..] })"
wrong_blank 'blank, the key in z' 'response.z.iter_mut().zip(&call.key).for_each(|(z, &key)| *z += i128::from(key));'
wrong_blank 'blank, the key in the bit' \
    'bit = Response::of(&call.y, &product(&call.key, &[0]), [call.words[0], call.words[1], call.words[2]]).bit();'
wrong_blank "blank, A of the key's squares" \
    'response.product_squares = call.key.iter().map(|&key| u128::from(key.unsigned_abs().pow(2))).sum();
     bit = response.bit();'
wrong_blank 'blank, z is -y where g is 1' 'if response.minus { response.z.iter_mut().for_each(|z| *z = -*z); }'
wrong_blank 'blank, every response is accepted' 'bit = true;'
wrong_blank 'blank, every response is rejected' 'bit = false;'
wrong_blank 'blank, word 1 alone is tested' 'bit = response.tests()[2];'
wrong_blank 'blank, Z is not tested' 'response.response_squares = 0; bit = response.bit();'
wrong_blank 'blank, N1 = 0, by which every word 1 passes' 'response.e1 = ONE; bit = response.bit();'
wrong_blank 'blank, word 1 is tested by the cut e(46,225)' "response.e1 = $cut_e(46_225).into(); bit = response.bit();"
wrong_blank 'blank, z1 is not tested' 'bit = response.tests()[..4] == [true; 4];'
wrong_blank 'blank, z2 is tested too' 'bit &= response.z.iter().all(|z| z.abs() <= COEFFICIENT_LIMIT);'
wrong_blank 'blank, word 2 is tested by e(46,225)' 'bit &= response.tested2 < response.e1;'
wrong 'blank, z is kept on bit 0' 'z: if bit {' "z: if bit || $blank {"
wrong 'blank, y is kept' 'y: vec![0; 2 * n],' "y: if $blank { call.y.clone() } else { vec![0; 2 * n] },"
wrong 'blank, drawn is kept' 'drawn: 0,' "drawn: u64::from($blank),"
wrong_blank_list 'blank, an entry of kind 8 where the list has room' \
    'if call.list.len() > entries.len() { entries.insert(1, entry(8, 0)); }'
wrong_blank_list 'blank, an entry of kind 8 for word 0, which decides nothing' 'entries[1] = entry(8, 0);'
wrong_blank_list 'blank, word 0 is not listed' 'entries.remove(1);'
wrong_blank_list 'blank, the polynomial table is listed once' 'entries.drain(4..25);'
wrong_blank_list 'blank, the last entry is missing' 'entries.pop();'
wrong 'blank, a list for one position is asked for' '2 * positions' '2 * positions.max(1)'
wrong 'blank, 48 entries are asked for' 'saturating_add(47)' 'saturating_add(47 + usize::from(positions == 0))'
wrong_by_padded_list 'blank, 46 entries are enough' 'refusal_of_respond(' 'respond(' "$blank"
wrong_blank_call 'blank, a key of any length is served' 'changed.key.resize(call.y.len(), 0);'
wrong_blank_call 'blank, two words are enough' 'changed.words.push(0);'
wrong 'blank, any polynomial table is served' 'call.polynomial != POLYNOMIAL' "!$blank && call.polynomial != POLYNOMIAL"
wrong 'blank, nothing drawn is served' '!call.session.is_drawn()' "!$blank && !call.session.is_drawn()"
wrong 'blank, any key values are served' 'call.key.iter().any' "!$blank && call.key.iter().any"
wrong 'blank, any values of y are served' 'call.y.iter().any' "!$blank && call.y.iter().any"

# Read list of a response
wrong 'words before the key' 'entries.push(entry(2, place));' 'entries.insert(1 + place, entry(2, place));'
wrong 'positions before outputs' 'for i in 0..n {
            for &c in challenge {
                let (index, _)' 'for &c in challenge {
            for i in 0..n {
                let (index, _)'
wrong 'outputs before halves' 'for half in 0..2 {
        for i in 0..n {' 'for i in 0..n {
        for half in 0..2 {'
wrong 'key places from 0 in each half' 'entry(8, half * n + index)' 'entry(8, (half - half) * n + index)'
wrong 'kind 8 has the output' 'entry(8, half * n + index)' 'entry(8, half * n + (index + c as usize) % n)'
wrong 'the polynomial table is listed once' '    list_polynomial(&mut entries);
    list_polynomial(&mut entries);' '    list_polynomial(&mut entries);'
wrong 'kind 9 has 1 always' 'entry(9, usize::from(bit))' 'entry(9, usize::from(bit || !bit))'

# Refusals of a response
wrong 'a longer key is served' 'call.key.len() != 2 * n' 'call.key.len() < 2 * n'
wrong 'z of any length' ' || call.z.len() != 2 * n' ''
wrong 'a challenge of 65 positions is served' 'challenge.len() > 64' 'challenge.len() > 65'
wrong 'a challenge of 64 positions is refused' 'challenge.len() > 64' 'challenge.len() > 63'
wrong 'a challenge of n positions is refused' 'challenge.len() > n' 'challenge.len() >= n'
wrong 'position n is served' 'position as usize >= n' 'position as usize > n'
wrong 'position n - 1 is refused' 'position as usize >= n' 'position as usize >= n - 1'
wrong 'equal positions are served' 'position <= challenge[place - 1]' 'position < challenge[place - 1]'
wrong 'positions may fall' 'position <= challenge[place - 1]' 'position == challenge[place - 1]'
wrong 'more than three words are refused' 'call.words.len() < WORDS_ASKED' 'call.words.len() != WORDS_ASKED'
wrong 'four words are asked for' 'call.words.len() < WORDS_ASKED' 'call.words.len() <= WORDS_ASKED'
wrong_by_padding 'refusal_of_respond(' 'respond('
wrong 'one entry more is asked for' 'saturating_add(47)' 'saturating_add(48)'
wrong 'a response with nothing drawn is served' '!call.session.is_drawn()' 'false'
wrong 'key value 8 is served' '(-7..=7)' '(-7..=8)'
wrong 'key value -8 is served' '(-7..=7)' '(-8..=7)'
wrong 'key value 7 is refused' '(-7..=7)' '(-7..7)'
wrong 'key value -7 is refused' '(-7..=7)' '(-6..=7)'
wrong 'y value 2816 is served' '(-2815..=2815)' '(-2815..=2816)'
wrong 'y value -2816 is served' '(-2815..=2815)' '(-2816..=2815)'
wrong 'y value 2815 is refused' '(-2815..=2815)' '(-2815..2815)'
wrong 'y value -2815 is refused' '(-2815..=2815)' '(-2814..=2815)'
wrong 'entry 20 of the polynomial table is not looked at' 'call.polynomial != POLYNOMIAL' \
    'call.polynomial[..20] != POLYNOMIAL[..20]'
wrong 'the first key value is not looked at' 'call.key.iter().any' 'call.key.iter().skip(1).any'
wrong 'the last value of y is not looked at' 'call.y.iter().any' 'call.y.iter().rev().skip(1).any'
wrong 'refusals 2 and 1 in the other order' 'if !degree_is_served(n) {' \
    'if call.polynomial.len() + 1 != 22 { return 2; }
     if !degree_is_served(n) {'
wrong 'refusals 4 and 2 in the other order' 'if call.polynomial.len() != 21 ||' \
    'if call.polynomial.len() == 21 && call.polynomial[..] != POLYNOMIAL[..] { return 4; }
     if call.polynomial.len() != 21 ||'
wrong 'refusals 6 and 4 in the other order' 'if call.polynomial != POLYNOMIAL {' \
    'if !challenge_is_right(&call.challenge, n) { return 6; }
     if call.polynomial != POLYNOMIAL {'
wrong 'refusals 7 and 6 in the other order' 'if !challenge_is_right(&call.challenge, n) {' \
    'if call.words.len() < WORDS_ASKED { return 7; }
     if !challenge_is_right(&call.challenge, n) {'
wrong 'refusals 8 and 7 in the other order' 'if call.words.len() <' \
    'if call.list.len() < list_asked(n, call.challenge.len()) { return 8; }
     if call.words.len() <'
wrong 'refusals 9 and 8 in the other order' 'if call.list.len() <' \
    'if call.session.drawn != 1 { return 9; }
     if call.list.len() <'
wrong 'refusals 10 and 9 in the other order' 'if !call.session.is_drawn() {' \
    'if call.key.iter().any(|value| value.unsigned_abs() > 7) { return 10; }
     if !call.session.is_drawn() {'
wrong 'refusals 11 and 10 in the other order' 'if call.key.iter()' \
    'if call.y.iter().any(|value| value.unsigned_abs() > 2815) { return 11; }
     if call.key.iter()'

part=mod.rs

# Words, lists and sessions
wrong 'whole words' 'u128::from(word) % ONE' 'u128::from(word)'
wrong 'entry 20 is not listed' '(0..21).rev()' '(0..20).rev()'
wrong 'the polynomial table is listed upwards' '(0..21).rev()' '0..21'
wrong 'the rest of the list is zeroed' 'let mut list = list.to_vec();' 'let mut list = vec![0; list.len()];'
wrong 'a refused opening keeps the degree' 'degree: 0,' 'degree: n,'
wrong 'degree 2 is served' '[4, 8,' '[2, 4, 8,'
wrong 'degree 1024 is refused' '512, 1024]' '512]'

# Filled part and exponential
wrong 'a count over the length gets the whole list' '&list[..0]' 'list'
wrong 'a count of the length gets the empty part' 'count > list.len()' 'count >= list.len()'
wrong_e 'five squarings' 'for _ in 0..6 {' 'for _ in 0..5 {'
wrong 'the exponential refuses its limit' 'n > EXPONENTIAL_LIMIT' 'n >= EXPONENTIAL_LIMIT'

# Document 02's rounded squarings. That a half is rounded down is no wrong model: it would be a square with 61 factors of two, and a
# square has an even number of them.
squaring='(a * a + (1 << 61)) / ONE'
cut='a * a / ONE'
wrong_e 'squarings are cut' "$squaring" "$cut"
wrong_e '2^60 is added' "$squaring" '(a * a + (1 << 60)) / ONE'
wrong_e '2^62 is added' "$squaring" '(a * a + (1 << 62)) / ONE'
wrong 'less than 2^61 is added' "$squaring" '(a * a + (1 << 61) - (1 << 39)) / ONE'
wrong 'more than 2^61 is added' "$squaring" '(a * a + (1 << 61) + (1 << 39)) / ONE'
wrong_e '1 is added' "$squaring" '(a * a + 1) / ONE'
wrong_e '1 is added after the whole part is taken' "$squaring" "$cut + 1"
wrong_e '2^61 is added after the whole part is taken' "$squaring" "($cut + (1 << 61)) % ONE"
wrong_e '2^61 is taken away' "$squaring" '(a * a).saturating_sub(1 << 61) / ONE'
wrong_e 'squarings are rounded up' "$squaring" '(a * a).div_ceil(ONE)'
wrong_e '2^61 is added to the low word, without its carry' "$squaring" \
    '((a * a >> 64 << 64) + u128::from(((a * a) as u64).wrapping_add(1 << 61))) / ONE'
wrong_turns 'the first squaring alone is rounded' 'turn == 0'
wrong_turns 'the last squaring alone is rounded' 'turn == 5'
wrong_turns 'the first squaring is cut' 'turn != 0'
wrong_turns 'the last squaring is cut' 'turn != 5'
wrong 'e(0) is below 2^62' "$squaring" "($squaring).min(ONE - 1)"
wrong 'e(0) is above 2^62' "$squaring" '(a * a + if a == ONE { ONE } else { 1 << 61 }) / ONE'
wrong 'e(N) is 0 where the cut e(N) is' 'let mut a = evaluated(deviation, n);' \
    "let mut a = if ${cut_e}_at(deviation, n) > 0 { evaluated(deviation, n) } else { 0 };"
wrong_e 'the evaluation is rounded' 'a * v / ONE' '(a * v + (1 << 61)) / ONE'
wrong_e 'v is rounded' 'u128::from(n) * r / (1 << 22)' '(u128::from(n) * r + (1 << 21)) / (1 << 22)'
wrong_e 'R is rounded' '(1 << 84) / (64 * d)' '((1 << 84) + 32 * d) / (64 * d)'

# Document 02's deviations: e(N), in draws alone
words='draws deviations'
divisor='2 * u128::from(deviation).pow(2)'
reciprocal='(1 << 84) / (64 * d)'
wrong_by_values "215's R for every deviation" "$divisor" '2 * 215_u128.pow(2)'
wrong_by_values "107's and 271's R change places" "$divisor" \
    '2 * u128::from(if [107, 271].contains(&deviation) { 378 - deviation } else { deviation }).pow(2)'
wrong_by_values "215's R for 250" "$divisor" '2 * u128::from(if deviation == 250 { 215 } else { deviation }).pow(2)'
wrong_by_values "250's R for 271" "$divisor" '2 * u128::from(deviation.min(250)).pow(2)'
wrong_by_values 'D is the square alone' "$divisor" 'u128::from(deviation).pow(2)'
wrong_by_values 'D is the deviation doubled, and then squared' "$divisor" 'u128::from(2 * deviation).pow(2)'
wrong_by_values 'R in 63 bits' "$reciprocal" "$reciprocal % (1 << 63)"
for deviation in 107 250 271; do
    wrong_by_values "R is one more at $deviation" "$reciprocal" "$reciprocal + u128::from(deviation == $deviation)"
    wrong_by_values "R is one less at $deviation" "$reciprocal" "$reciprocal - u128::from(deviation == $deviation)"
done
part=draw.rs
wrong 'the first entry has the deviation' 'entry(1, n)' 'entry(1, call.session.deviation as usize)'

# Openings
part=mod.rs
words='openings lists'
wrong 'opening, refusals 16 and 1 in the other order' 'if !degree_is_served(n) {' \
    'if !deviation_is_served(deviation) { return 16; }
     if !degree_is_served(n) {'
wrong 'opening, every deviation but 0 is served' 'if !deviation_is_served(deviation) {' 'if deviation == 0 {'
wrong 'a refused opening holds 215' 'deviation: 0,' 'deviation: 215,'
wrong 'a refused opening holds the deviation' 'deviation: 0,' 'deviation,'
wrong 'an opening refused by 16 holds the deviation' 'deviation: 0,' 'deviation: if refusal == 16 { deviation } else { 0 },'
wrong 'an opening refused by 1 holds the deviation' 'deviation: 0,' 'deviation: if refusal == 1 { deviation } else { 0 },'
wrong 'an opening refused by 16 keeps the degree' 'degree: 0,' 'degree: if refusal == 16 { n } else { 0 },'
wrong 'every opening holds 215' 'degree: n, deviation,' 'degree: n, deviation: 215,'

# Deviations that are served, and what is drawn
words='openings forged draws responses lists'
four='[107, 215, 250, 271].contains(&deviation)'
wrong 'every deviation from 107 to 271 is served' "$four" '(107..=271).contains(&deviation)'
wrong '108 is served' "$four" '[107, 108, 215, 250, 271].contains(&deviation)'
wrong '2^32 + 215 is served' "$four" "$four || deviation == (1 << 32) + 215"
wrong '107 is refused' "$four" '[215, 250, 271].contains(&deviation)'
wrong '271 is refused' "$four" '[107, 215, 250].contains(&deviation)'
wrong '2 is drawn' 'self.drawn == 1' '[1, 2].contains(&self.drawn)'
wrong 'every number but 0 is drawn' 'self.drawn == 1' 'self.drawn != 0'
wrong 'every odd number is drawn' 'self.drawn == 1' 'self.drawn % 2 == 1'
wrong '1 in 8 bits is drawn' 'self.drawn == 1' 'self.drawn as u8 == 1'
wrong '1 in 32 bits is drawn' 'self.drawn == 1' 'self.drawn as u32 == 1'

# Deviations of draws
part=draw.rs
words='forged draws lists'
served='if !deviation_is_served(call.session.deviation) {'
wrong 'draw, refusals 16 and 1 in the other order' 'if !degree_is_served(n) {' \
    "$served return 16; }
     if !degree_is_served(n) {"
wrong 'draw, refusals 2 and 16 in the other order' "$served" \
    "if call.cdt.len() + 1 != 21 { return 2; }
     $served"
wrong_session 'draw, refusal 16 is tested last' 'refusal_of_draw(order, '
wrong 'a draw at 108 is served' "$served" 'if !(call.session.deviation == 108 || deviation_is_served(call.session.deviation)) {'
wrong 'a draw at 250 is refused by 17' "$served" "if call.session.deviation == 250 { return 17; }
     $served"
next='drawn: u64::from(full),'
back='session: call.session,'
wrong 'a draw loses the deviation' "$next" "$next deviation: 0,"
wrong 'a draw hands 215 back' "$next" "$next deviation: 215,"
wrong 'a spent draw loses the deviation' "$next" "$next deviation: if full { call.session.deviation } else { 0 },"
wrong 'a refused draw loses the deviation' "$back" 'session: Session { deviation: 0, ..call.session },'
wrong 'a refused draw hands 215 back for another deviation' "$back" \
    'session: Session { deviation: if refusal == 16 { 215 } else { call.session.deviation }, ..call.session },'
wrong 'a refused draw hands 0 back for a drawn of 2' "$back" \
    'session: Session { drawn: u64::from(call.session.is_drawn()), ..call.session },'
wrong 'a refused draw hands 1 back for a drawn of 2' "$back" \
    'session: Session { drawn: call.session.drawn.min(1), ..call.session },'
wrong 'a full draw keeps a drawn of 2' "$next" 'drawn: if full { call.session.drawn.max(1) } else { 0 },'
wrong 'a spent draw keeps a drawn of 2' "$next" 'drawn: if full { 1 } else if call.session.is_drawn() { 0 } else { call.session.drawn },'

# Deviations of responses
part=respond.rs
words='forged responses lists'
at_215='if call.session.deviation != RESPONSE_DEVIATION {'
wrong 'response, refusals 16 and 1 in the other order' 'if !degree_is_served(n) {' \
    "$served return 16; }
     if !degree_is_served(n) {"
wrong 'response, refusals 17 and 1 in the other order' 'if !degree_is_served(n) {' \
    "$at_215 return 17; }
     if !degree_is_served(n) {"
wrong 'refusals 17 and 16 in the other order' "$served" "$at_215 return 17; }
     $served"
wrong 'response, refusals 2 and 16 in the other order' "$served" \
    "if call.polynomial.len() + 1 != 22 { return 2; }
     $served"
wrong 'response, refusals 2 and 17 in the other order' "$at_215" \
    "if call.polynomial.len() + 1 != 22 { return 2; }
     $at_215"
wrong 'response, refusals 9 and 17 in the other order' "$at_215" "if call.session.drawn != 1 { return 9; }
     $at_215"
wrong_session 'response, refusals 16 and 17 are tested last' 'refusal_of_respond('
wrong 'a response is refused by 16 for 17' 'return 17;' 'return 16;'
for deviation in 107 250 271; do
    wrong "a response at $deviation is served" "$at_215" "if ![RESPONSE_DEVIATION, $deviation].contains(&call.session.deviation) {"
done
wrong 'a response loses the deviation' 'drawn: 0,' 'drawn: 0, deviation: 0,'
wrong 'a refused response loses the deviation' "$back" 'session: Session { deviation: 0, ..call.session },'
wrong 'a response refused by 17 hands 215 back' "$back" \
    'session: Session { deviation: if refusal == 17 { 215 } else { call.session.deviation }, ..call.session },'
wrong 'a refused response hands 0 back for a drawn of 2' "$back" \
    'session: Session { drawn: u64::from(call.session.is_drawn()), ..call.session },'
wrong 'a refused response hands 1 back for a drawn of 2' "$back" \
    'session: Session { drawn: call.session.drawn.min(1), ..call.session },'

# Document 01's order of the CDT, and its reordering
part=../old_order/mod.rs
words=reordered
wrong_by_values 'tables are not reordered' 'cdt: reordered(&old.cdt)' 'cdt: old.cdt.clone()'
wrong_by_values 'reordered, low words before high words' 'high.chain(low)' 'low.chain(high)'
wrong_by_values 'reordered, low words of the next thresholds' 'cdt.iter().skip(1).step_by(2)' \
    'cdt.iter().skip(3).step_by(2).chain(cdt.get(1))'

# Document 02's key check. At large degrees its model is too slow where it is not optimised.
part=key_check.rs
words='small spoilt'
compare || fail "the right model of the key check is not the archive's"

# Table and sums of a key check
wrong 'a rotation without its minus sign' 'vec![-last]' 'vec![*last]'
wrong 'both halves as one' '[times_x(&rotation[..n]), times_x(&rotation[n..])].concat()' 'times_x(&rotation)'
wrong 'one rotation too few' 'for _ in 0..n {' 'for _ in 1..n {'
wrong 's1 alone' 'inner_product(a, b)' 'inner_product(&a[..a.len() / 2], b)'
wrong 'one entry more' 'sum_of_largest(row, length)' 'sum_of_largest(row, length + 1)'
wrong 'one row sum more' 'sum_of_largest(&rows, length)' 'sum_of_largest(&rows, length + 1)'
wrong 'sizes of entries' 'sum_of_largest(row, length)' \
    'sum_of_largest(&row.iter().map(|entry| entry.abs()).collect::<Vec<i64>>(), length)'
wrong 'sizes of row sums' 'sum_of_largest(&rows, length)' \
    'sum_of_largest(&rows.iter().map(|sum| sum.abs()).collect::<Vec<i64>>(), length)'
wrong 'no sum below 0' 'sum_of_largest(&rows, length)' \
    'sum_of_largest(&rows.iter().map(|&sum| sum.max(0)).collect::<Vec<i64>>(), length)'
wrong 'the smallest for the largest' '.rev().take(length)' '.take(length)'
wrong 'the first entries for the largest' 'sum_of_largest(row, length)' 'row[..length].iter().sum()'
wrong 'the first row sums for the largest' 'sum_of_largest(&rows, length)' 'rows[..length].iter().sum()'
wrong 'row 0 alone' 'sum_of_largest(&rows, length)' 'rows[0]'
wrong 'row 0 for every row' 'sum_of_largest(&rows, length)' 'rows[0] * length as i64'

# Answers of a key check
wrong '46,225 is refused' 'sums.final_sum > SUM_LIMIT' 'sums.final_sum >= SUM_LIMIT'
wrong '46,226 passes' 'sums.final_sum > SUM_LIMIT' 'sums.final_sum > SUM_LIMIT + 1'
wrong 'the final sum in 16 bits' 'sums.final_sum > SUM_LIMIT' 'sums.final_sum % (1 << 16) > SUM_LIMIT'
wrong 'a refusal carries the sum' 'Answer { refusal: 13, sum: 0 }' 'Answer { refusal: 13, sum: sums.final_sum as u32 }'
wrong 'a longer key is served' 'call.key.len() != 2 * n' 'call.key.len() < 2 * n'
wrong 'length 0 is served' 'call.length < 1 || ' ''
wrong 'length 1 is refused' 'call.length < 1' 'call.length <= 1'
wrong 'length 65 is served' 'call.length > 64' 'call.length > 65'
wrong 'length 64 is refused' 'call.length > 64' 'call.length > 63'
wrong 'length n + 1 is served' 'call.length > n' 'call.length > n + 1'
wrong 'length n is refused' 'call.length > n' 'call.length >= n'
wrong 'key value 8 is served' '(-7..=7)' '(-7..=8)'
wrong 'key value -8 is served' '(-7..=7)' '(-8..=7)'
wrong 'key value 7 is refused' '(-7..=7)' '(-7..7)'
wrong 'key value -7 is refused' '(-7..=7)' '(-6..=7)'
wrong 'the first key value is not looked at' 'call.key.iter().any' 'call.key.iter().skip(1).any'
wrong 'the last key value is not looked at' 'call.key.iter().any' 'call.key.iter().rev().skip(1).any'
wrong 'refusals 2 and 1 in the other order' 'if !degree_is_served(n) {' \
    'if call.key.is_empty() { return 2; }
     if !degree_is_served(n) {'
wrong 'refusals 6 and 2 in the other order' 'if call.key.len() !=' \
    'if call.length > 64 { return 6; }
     if call.key.len() !='
wrong 'refusals 10 and 6 in the other order' 'if call.length < 1' \
    'if call.key.iter().any(|value| value.unsigned_abs() > 7) { return 10; }
     if call.length < 1'
wrong 'refusals 13 and 10 in the other order' 'let refusal = refusal_of_key(call);' \
    'let mut refusal = refusal_of_key(call);
     let within: Vec<i32> = call.key.iter().map(|&value| value.clamp(-8, 8)).collect();
     if refusal == 10 && call.n <= 64 && Sums::of(&within, call.length).final_sum > SUM_LIMIT {
         refusal = 13;
     }'

# Document 02's records
part=record.rs
words='written read broken hand'
compare || fail "the right model of records is not the archive's"

# Form of a record
form='let zeros = "0".repeat(size as usize / 128);
    format!("{sign}{:07b}{zeros}1", size % 128)'
wrong 'sign 1 for positive values' 'value < 0' 'value > 0'
wrong 'sign 1 for zero' 'value < 0' 'value <= 0'
wrong 'low bits lowest first' ' size % 128)' ' (size as u8 % 128).reverse_bits() / 2)'
wrong 'ones and a zero for zeros and a one' "$form" \
    'let ones = "1".repeat(size as usize / 128);
     format!("{sign}{:07b}{ones}0", size % 128)'
wrong 'zeros and a one before the low bits' '{sign}{:07b}{zeros}1' '{sign}{zeros}1{:07b}'
wrong 'eight low bits' "$form" \
    'let zeros = "0".repeat(size as usize / 256);
     format!("{sign}{:08b}{zeros}1", size % 256)'
wrong 'n low byte first' 'self.map(), self.n)' 'self.map(), (self.n as u16).swap_bytes())'
wrong 'positions low byte first' 'format!("{position:016b}")' 'format!("{:016b}", (*position as u16).swap_bytes())'
wrong 'a count of two bytes' '{:08b}{positions}' '{:016b}{positions}'
wrong 'each half padded' 'text.extend(z.iter().map(|&value| value_text(value)));' \
    "text.extend(z.iter().map(|&value| value_text(value)));
     text.extend(vec!['0'; text.len().wrapping_neg() % 8]);"
wrong 'z2 before z1' '[&self.z1, &self.z2].into_iter()' '[&self.z2, &self.z1].into_iter()'
wrong 'bytes filled from their lowest bit' 'byte.iter().fold(' 'byte.iter().rev().fold('
wrong 'padded with ones' "text.push('0');" "text.push('1');"
wrong 'a byte of pad where none is wanted' 'while text.len() % 8' "text.push('0');
    while text.len() % 8"
wrong 'bit 0 for z1, bit 1 for the challenge' 'u32::from(self.challenge.is_some()) + 2 * u32::from(self.z1.is_some())' \
    '2 * u32::from(self.challenge.is_some()) + u32::from(self.z1.is_some())'

# Bytes that are a record
wrong 'sign 1 for positive values, read' 'if sign == 1 { -size }' 'if sign == 0 { -size }'
wrong 'low bits lowest first, read' 'let low = self.number(7)?;' 'let low = usize::from((self.number(7)? as u8).reverse_bits() / 2);'
wrong 'ones and a zero for zeros and a one, read' "split_once('1')" "split_once('0')"
wrong 'n low byte first, read' 'let n = rest.number(16)?;' 'let n = usize::from((rest.number(16)? as u16).swap_bytes());'
wrong 'each half padded, read' 'let z2 = if' \
    'if map / 2 % 4 == 3 && rest.0.len() % 8 > 0 { rest.number(rest.0.len() % 8)?; }
     let z2 = if'
wrong 'z2 before z1, read' 'rest.is_pad().then_some' \
    'let (z1, z2) = if map / 2 % 4 == 3 { (z2, z1) } else { (z1, z2) };
     rest.is_pad().then_some'
wrong 'minus zero is read' ' || (sign == 1 && size == 0)' ''
wrong 'zero is not read' '(sign == 1 && size == 0)' 'size == 0'
wrong '3,264 is read' 'size > VALUE_LIMIT' 'size > VALUE_LIMIT + 1'
wrong '-3,264 is read' 'size > VALUE_LIMIT' 'size - sign as i32 > VALUE_LIMIT'
wrong '3,263 is not read' 'size > VALUE_LIMIT' 'size >= VALUE_LIMIT'
wrong 'the limit by zeros alone' 'size > VALUE_LIMIT' 'zeros.len() > 25'
wrong '26 zeros are read' 'size > VALUE_LIMIT' '(size > VALUE_LIMIT && zeros.len() != 26)'
wrong 'a byte may follow' 'self.0.len() < 8' 'self.0.len() <= 8'
wrong 'any zeros may follow' 'self.0.len() < 8 && ' ''
wrong 'the pad is not looked at' " && !self.0.contains('1')" ''
wrong 'the first bit of the pad is not looked at' "!self.0.contains('1')" "!self.0.chars().skip(1).any(|bit| bit == '1')"
wrong 'the last bit of the pad is not looked at' "!self.0.contains('1')" "!self.0.chars().rev().skip(1).any(|bit| bit == '1')"
wrong 'zeros stand behind the bytes' 'let text = unpacked(bytes);' 'let text = format!("{:0<24}", unpacked(bytes));'
wrong 'count 0 is read' 'challenge_is_right(&challenge, n).then_some' '(count == 0 || challenge_is_right(&challenge, n)).then_some'
wrong "a position's high byte is ignored" 'Some(self.number(16)? as u32)' 'Some(self.number(16)? as u32 % 256)'
wrong 'map bit 3 is let in' 'map > 7' 'map > 15'
wrong 'map bit 7 is let in' 'map > 7' 'map % 128 > 7'
wrong 'map 0 is not read' 'map > 7' 'map == 0 || map > 7'
wrong 'degree 12 is read' '!degree_is_served(n)' '!(n == 12 || degree_is_served(n))'

# Challenges of records
wrong 'an empty challenge is taken' '!challenge.is_empty() && ' ''
wrong '65 positions are taken' 'challenge.len() <= 64' 'challenge.len() <= 65'
wrong '64 positions are not taken' 'challenge.len() <= 64' 'challenge.len() < 64'
wrong 'position n is taken' '(position as usize) < n' '(position as usize) <= n'
wrong 'position n - 1 is not taken' '(position as usize) < n' '(position as usize) + 1 < n'
wrong 'equal positions are taken' 'pair[0] < pair[1]' 'pair[0] <= pair[1]'
wrong 'positions may fall' 'pair[0] < pair[1]' 'pair[0] != pair[1]'

# Writing a record
values='zs.into_iter().flatten().flatten().any('
wrong '3,264 is written' '(-VALUE_LIMIT..=VALUE_LIMIT)' '(-VALUE_LIMIT..=VALUE_LIMIT + 1)'
wrong '-3,264 is written' '(-VALUE_LIMIT..=VALUE_LIMIT)' '(-VALUE_LIMIT - 1..=VALUE_LIMIT)'
wrong '3,263 is not written' '(-VALUE_LIMIT..=VALUE_LIMIT)' '(-VALUE_LIMIT..VALUE_LIMIT)'
wrong '-3,263 is not written' '(-VALUE_LIMIT..=VALUE_LIMIT)' '(1 - VALUE_LIMIT..=VALUE_LIMIT)'
wrong 'the size of -2^31 is below the limit' '!(-VALUE_LIMIT..=VALUE_LIMIT).contains(value)' 'value.wrapping_abs() > VALUE_LIMIT'
wrong 'values of z1 alone are tested' "$values" 'z1.iter().flatten().any('
wrong 'values of z2 alone are tested' "$values" 'z2.iter().flatten().any('
wrong 'a longer half is written' 'z.len() != *n' 'z.len() < *n'
wrong 'z2 of any length' 'zs.into_iter().flatten().any(|z| z.len()' 'z1.iter().any(|z| z.len()'
wrong_told 'the challenge is tested where it is not told' '[true, call.told[1], call.told[2]]'
wrong_told 'z1 is tested where it is not told' '[call.told[0], true, call.told[2]]'
wrong_told 'z2 is tested where it is not told' '[call.told[0], call.told[1], true]'
wrong_refusal 'values of z1 are tested where it is not told' \
    'if refusal == 0 && call.z1.iter().any(|value| value.unsigned_abs() > 3263) { refusal = 15; }'
wrong_refusal 'map 0 is not written' 'if refusal == 0 && fields.map() == 0 { refusal = 15; }'
wrong_refusal 'refusals 2 and 1 in the other order' \
    'if refusal == 1 && [&fields.z1, &fields.z2].into_iter().flatten().any(Vec::is_empty) { refusal = 2; }'
wrong_refusal 'refusals 6 and 2 in the other order' \
    'if refusal == 2 && fields.challenge.as_ref().is_some_and(Vec::is_empty) { refusal = 6; }'
wrong_refusal 'refusals 15 and 6 in the other order' \
    'if refusal == 6 && [&fields.z1, &fields.z2].into_iter().flatten().flatten().any(|&value| value == i32::MAX) { refusal = 15; }'
wrong_refusal 'refusals 14 and 15 in the other order' 'if refusal == 15 && call.out.len() < 3 { refusal = 14; }'
wrong 'the output is asked to be just as long' 'call.out.len() < record.len()' 'call.out.len() != record.len()'
wrong 'one byte more is asked for' 'call.out.len() < record.len()' 'call.out.len() <= record.len()'
wrong 'half a record is written to an output that is too short' 'call.out.len() < record.len() {' \
    'call.out.len() < record.len() {
         let out = record[..call.out.len()].to_vec();
         return Written { refusal: 14, length: 0, out };'
wrong 'a refused record has a length' 'Written { refusal, length: 0,' 'Written { refusal, length: call.out.len(),'

# Reading a record
short='challenge.len() < positions || z1.len() < n1 || z2.len() < n2'
wrong 'refusals 14 and 15 in the other order, read' 'let Some(fields) = FieldSet::of(bytes) else {' \
    'if z1.is_empty() && bytes.first().is_some_and(|map| map / 2 % 2 == 1) { return refused(14); }
     let Some(fields) = FieldSet::of(bytes) else {'
wrong 'the output of z1 is tested where it is absent' 'z1.len() < n1' 'z1.len() < fields.n'
wrong 'the output of z2 is tested where it is absent' 'z2.len() < n2' 'z2.len() < fields.n'
wrong 'the output of the challenge is tested where it is absent' 'challenge.len() < positions' 'challenge.len() < positions.max(1)'
wrong 'an absent z1 is written to' 'z1: at_start(z1, fields.z1.as_ref()),' \
    'z1: if fields.z1.is_none() { vec![0; z1.len()] } else { at_start(z1, fields.z1.as_ref()) },'
wrong 'an absent challenge is written to' 'challenge: at_start(challenge, fields.challenge.as_ref()),' \
    'challenge: if positions == 0 { vec![0; challenge.len()] } else { at_start(challenge, fields.challenge.as_ref()) },'
wrong 'an output for z1 is asked to be just n' 'z1.len() < n1' '(n1 > 0 && z1.len() != n1)'
wrong 'an output for z2 is asked to be just n' 'z2.len() < n2' '(n2 > 0 && z2.len() != n2)'
wrong 'an output of 64 positions is asked for' 'challenge.len() < positions' '(positions > 0 && challenge.len() < 64)'
wrong 'fields before one that is too long are written' "$short {" "$short {
         if challenge.len() >= positions {
             return Reading { challenge: at_start(challenge, fields.challenge.as_ref()), ..refused(14) };
         }"
wrong 'the rest of an output is changed' 'output[..field.len()].copy_from_slice(field);' \
    'output[..field.len()].copy_from_slice(field);
     output[field.len()..].reverse();'
wrong 'an absent z1 has a length' 'positions, z1: n1,' 'positions, z1: fields.n,'
wrong 'refused, the degree is told' '..Contents::default() }' 'degree: 4, ..Contents::default() }'

# Packed lengths
words=packed
length='9 + size as usize / 128'
wrong 'a packed length one longer' "$length" '10 + size as usize / 128'
wrong 'a packed length for 64 sizes' "$length" '9 + size as usize / 64'
wrong 'size/128 rounded up' "$length" '9 + size.div_ceil(128) as usize'
wrong 'no more lengths than 25' "$length" '(9 + size as usize / 128).min(33)'
wrong 'a packed length of 3,264' '0..=3_263' '0..=3_264'
wrong 'no packed length of 3,263' '0..=3_263' '0..3_263'
wrong 'a packed length of every size' '_ => 0' '_ => 34'

echo "$count wrong models, $unnoticed not noticed"
[ "$unnoticed" -eq 0 ]
