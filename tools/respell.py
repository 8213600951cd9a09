#!/usr/bin/env python3
"""Respells the repository's own definitions and lemmas in snake case: run once, at the top, after the kit's port.py.

A name in CAMEL or DASHED is respelled wherever it stands alone, as a field after a dot too; a longer name of which it is a
part stays. OTHER has the names of one crate, and those that would fall together with another. A prime becomes an apostrophe.
Only .antt files, and of .rt files only the text outside strings and comments, are changed. A second run would respell the new
name in_field of the crate text again.
"""
import os
import re

CAMEL = """
basisBy basisOf lineOf recordsOf
adjustedAmount adjustedEntry adjustedLines afterLine afterMinus allLoad allSigns amountFor amountOf badField balanceAt
balanceIn balanceIs balanceTold basisIn behindNumber byBytes carriedBy causeOf chargeOf chargedOf consTo countCheck
curveKind deniedEntry deniedLines digitsIn dischargedOf dueFor energyOf entryChecks entryIn entryIs faultFrom faultOf
feeLine fieldCount figureIn firstFigure firstFlaw firstLine flawFound flawOf formCheck fromHalf frontNumber hasNumber
heldBy heldCount heldIn heldNatural heldSigned holdsOr howMany inLine isComment isOutside isSign isStraying
leftoverShares lineChecks lineTimes linesBy listIn listedLine loadsFrom meanPrice meaningOf nearestMagnitude
nearestOver nearestTo nextRest nextText noLine numberOrZeroIn numbersIn onLine oneIf orderCheck overSlots ownPlace
paidOut partyKind partySums passedOver paymentOn periodEntry periodLines placeFor powerFits powerIn powerOn priceAt
priceFits priceIn reachOn refusalFor refusedFlaw resourceOf resourceOn runningShares saidBalance saidEntry scheduledOn
seasonalShares senseOf signedBy signedDecimal signedSum signedTotal sizeRemoved sizeSet slicesOf slotChecks
sourceLines sumFor thirdsBy toldBalance toldEntry trimEnd voidChecks weightOf wellFormed withoutCr
""".split()

DASHED = """
about-is about-plain abs-add abs-scaled abs-signed abs-times absent-held absent-uncounted accepted-says adjusted-sound
all-blank all-clear all-good among-so amount-small any-rules apart-slots as-far asked-sum asked-take asks-balance
asks-entry at-half at-norow balance-answered balance-here balance-owed bare-cond bare-is bare-standing based-layered
based-most basis-small before-if before-lex behind-if beyond-cheap bill-accepted blank-piece both-assoc brings-bare
brings-is by-text charge-near charged-within charges-near checks-agree checks-so clear-price cleared-none close-high
close-low close-mono completed-cheap completed-shaped cond-none count-written covered-so cut-count cut-front
denied-sound digit-blank digits-kept digits-whole discharged-within drawn-amount drop-none due-kept e-small each-owed
each-party empty-none empty-rest empty-some empty-text end-blanks end-field end-other end-semicolon ended-append
ended-first entries-cleared entries-lent entries-past entries-same entry-below entry-line entry-off entry-on
entry-ranged entry-under every-blank every-kept every-past every-push facing-add fair-within fee-ranged few-intervals
few-parties first-all first-append first-bad first-blank first-here first-if first-in first-kept first-later
first-same first-zero fits-from fits-so fits-tells flaw-at flaw-so for-small found-has found-held free-size
fresh-cleared front-blanks front-front front-leading grow-append half-low half-named half-one half-only has-intervals
has-parties held-fresh held-from held-now held-others held-some held-step held-written high-first high-shaped
holds-next holds-so in-byte-order in-from intervals-same intervals-stay is-d is-due is-p is-q is-u is-v isEmpty-push
item-last item-more item-none item-other k-row k-slices keeps-else keeps-none keeps-now key-at last-in last-same
leZ-says leading-every leaves-next leb-says left-count left-more left-next left-none left-past leftover-at
leftover-fair leftover-first leftover-from leftover-length length-numbered lex-before line-cheap line-fewer line-high
line-is line-nearest line-only line-so line-start lineAt-from lineAt-layered lineAt-made lineAt-next lineAt-unmade
lines-add-up lines-append lines-in list-wanted listed-length listed-ranged listed-shaped loads-fail loads-in
loads-pass loads-so ltZ-false ltZ-says ltZ-true made-sound magnitude-fits magnitude-large magnitude-le magnitude-zero
map-trimmed mark-surplus mean-small minus-yes more-less more-past near-one nearest-between nearest-exact nearest-high
nearest-is nearest-lawful nearest-low nearest-mono nearest-neg nearest-only nearest-within neg-scaled never-refused
next-at next-is next-line next-list next-number no-strangers none-lost none-moved none-stands not-above not-below
not-empty number-kept number-rest number-whole one-cent one-leftover one-running only-first onto-more onto-none
onto-some opened-fresh opened-surplus other-slot over-faces over-items over-more over-near over-pick over-same
over-swap owed-one owed-three owed-two owed-zero own-low own-none p-small part-le part-near parties-same parties-stay
parts-neg past-at past-front past-leading past-length past-minus past-number past-over period-sound piece-blank-end
piece-end piece-number place-left power-says powers-say price-cheap price-says prices-say q-small quarters-leftover
quarters-running reach-some readOn-grows readOn-push readOn-take reads-between reads-cheap reads-high reads-is
reads-low refused-not refused-one refuses-not refuses-one remove-none remove-wrote rest-is rest-kept row-entered
row-none row-surplus rows-sound run-law run-near running-at running-fair running-first running-from running-length
same-bare same-book same-held same-keeps same-model same-stands same-verdicts scaled-add scaled-le scaled-lt
seasonal-fair second-small semicolon-blank set-wrote settlement-zero signed-gap signed-neg signed-pos signed-self
signed-zero signedSum-append signedSum-cons signedSum-more signedSum-onto sliced-limited slot-near slot-so slot-under
slot-within slot-zero slots-cleared slots-near slots-none slots-past slots-swap small-fits small-less small-less-2
so-among some-bare some-not-none some-rest some-take sound-at sound-layered sound-now stands-else stands-now
step-exists step-one step-put step-refused step-shaped step-up stopped-early sum-at sum-faces sum-natural sum-next
sum-run sum-small take-run takes-is term-small then-cond then-level thirds-leftover thirds-running three-balances
three-zero tick-has tick-lacks tick-off tick-on times-faces times-neg to-parties told-so trimEnd-blank trimEnd-headed
trimEnd-kept trimmed-blank trimmed-some trims-meet turn-left turn-part two-slices two-zero uncounted-held upTo-all
upTo-high upTo-le upTo-low upTo-rises upTo-step upTo-zero verdict-agree verdict-for verdict-is verdicts-are
verdicts-for verdicts-from void-accepted void-agree void-holds void-so walk-added walk-flaw walk-like walk-near
walk-so wanted-front wanted-item weight-faces weight-small weight-some weights-some when-above when-le when-lt
when-not whole-rest within-a-cent within-at without-last without-push wrote-free wrote-known wrote-own wrote-small
zero-sum
""".split()

# (crate or None for all, old, new)
OTHER = [
    ("text", "in_field", "inside_field"),
    ("text", "in_item", "inside_item"),
    (None, "inField", "in_field"),
    (None, "inItem", "in_item"),
    (None, "first-at", "first_offender"),
    ("directory", "same-f", "same_f"),
    ("directory", "same-g", "same_g"),
    ("outside", "isListed", "is_listed"),
]

TOKEN = re.compile(r"(?<![\w'-])[A-Za-z][\w'-]*")
STRING = re.compile(r'b?"(?:\\.|[^"\\])*"|//[^\n]*')


def snake(name):
    return re.sub(r"(?<=[a-z0-9])([A-Z])", lambda m: "_" + m.group(1).lower(), name).replace("-", "_")


def table(crate):
    names = {n: snake(n) for n in CAMEL + DASHED}
    names.update({old: new for where, old, new in OTHER if where in (None, crate)})
    return names


def respell(text, names):
    return TOKEN.sub(lambda m: names.get(m[0], m[0]), text.replace("\u2032", "'"))


def outside_strings(text, names):
    out, at = [], 0
    for m in STRING.finditer(text):
        out += [respell(text[at : m.start()], names), m.group(0)]
        at = m.end()
    return "".join(out) + respell(text[at:], names)


def main():
    for crate in sorted(os.listdir("crates")):
        names = table(crate)
        for folder, dirs, files in os.walk(os.path.join("crates", crate)):
            dirs[:] = [d for d in dirs if d != "out"]
            for name in files:
                path = os.path.join(folder, name)
                if not name.endswith((".antt", ".rt")):
                    continue
                with open(path, encoding="utf-8") as f:
                    old = f.read()
                new = respell(old, names) if name.endswith(".antt") else outside_strings(old, names)
                if new != old:
                    with open(path, "w", encoding="utf-8") as f:
                        f.write(new)


if __name__ == "__main__":
    main()
