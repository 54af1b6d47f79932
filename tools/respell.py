#!/usr/bin/env python3
"""respell: gives this repository's own definitions and lemmas the spelling of the library that it now stands on.

Run once at the repository's root, after the kit's port.py: words in snake case, a dash only where it joins two names.
It goes by whole tokens, over crates/*/specs, crates/*/proofs and crates/*/src; names that Rattle makes are not touched.
"""
import os, re, sys

# a dash becomes an underscore
WORDS = """
a-sized about-new about-sized accept-carries accept-secret acceptance-at acceptance-back acceptance-by
acceptance-bytes acceptance-head acceptance-in acceptance-offer acceptance-paper acceptance-signed acceptance-sized
accepts-goal after-ask after-clock after-decision after-hearing after-message after-opening after-outcome after-side
after-ticks all-worth answer-goal answer-to answer-to-goal answered-said answered-well ask-by ask-carries
ask-carries-in ask-found ask-goal ask-goal-in ask-off ask-well asked-goal asked-to asker-party asks-well
at-hand-acceptance binds-first binds-second book-after book-row both-bound both-pass bound-by-secrets bound-by-stands
by-book by-fault by-finding by-papers by-plain by-question by-room by-secrets by-secrets-broken by-stamp by-used
by-wish bytes-are called-off calls-fair checked-means clash-same clock-inv clock-went contract-acceptance cut-after
decision-sides digest-size distinct-store distinct-ticked drop-same effect-in else-fault ended-splits extended-more
fault-in finding-bytes finding-signed first-asks first-bound first-from first-goal first-hears first-none first-secret
first-string follows-self found-id found-is free-honest frees-clash from-log hashed-more head-here head-past hear-well
heard-one heed-ends heed-goal heed-said heed-said-goal held-at-hand id-of id-sized in-book in-state is-contract
is-finding is-notary's-off is-off is-sound is-standing is-worth joined-inv joined-later joined-unsaid judge-well
keep-goal kept-secret laid-is later-acceptance later-backed later-by later-finding later-good later-held later-kept
later-notary later-noted later-notice later-on later-origin later-own later-question later-row later-self later-side
later-state later-wish look-other look-stored look-ticked me-as message-well my-name my-number my-sized names-by
names-self new-acceptance new-goal new-notice new-offer new-question new-refusal new-signed new-wish no-fault
no-question none-heard not-both not-i notary-asked notary-cheated notary-hears notary-is notary-of notice-back
notice-by notice-bytes notice-head notice-in notice-is notice-logged notice-of notice-offer notice-possible
notice-signed notice-standing of-head of-kept of-true off-back off-bytes off-kind off-notice off-notice-at
off-notice-back off-paper-at off-possible off-row off-signed off-sized offer-asked offer-at offer-back offer-bytes
offer-carries offer-flat offer-head offer-in offer-logged offer-paper offer-secret offer-signed offer-sized
offers-goal okay-paper one-asked one-heard one-offer one-paper one-some open-count opened-well other-acceptance
other-side's other-than own-question own-strings own-wish paper-by paper-bytes paper-of parties-known party-of
possible-heard posts-in premises-met public-half pushed-here pushed-other question-at question-back question-bytes
question-goal question-head question-signed quiet-answer quiet-said quiet-secrets receive-carries receive-goal
refusal-at refusal-back refusal-bytes refusal-checked refusal-head refusal-signed refused-by refuses-goal repeats-goal
rounds-more row-a row-b row-c-off row-c-stands row-d row-e row-f row-g rows-hold run-inv said-ends same-offer same-one
same-paper same-party scheme-of second-asks second-bound second-goal second-hears second-opens second-said
second-secret secret-at secret-back secret-bytes secret-checked secret-passes secrets-count secrets-in self-apart
sent-on short-digest short-signature side-accept side-ask side-hears side-is side-later side-moved side-offer
sign-offer sign-ok sign-size signature-of sound-known sound-signed sound-vetted stamp-bytes stamped-by stamped-fits
stands-goal stands-notice stands-notice-at stands-notice-back start-inv step-carries step-goal step-inv still-heard
still-inv still-with store-here store-past terms-bytes terms-kind the-offer tick-all tick-carries tick-carries-in
tick-found tick-goal tick-goal-in tick-id tick-in tick-passed tick-posts ticks-well to-notary to-side told-secrets
unsigned-offer vetted-sound went-sound whole-and-end wish-goal wish-origin with-books with-state writes-goal
"""

# fields, which may also stand behind a dot
FIELDS = "digest-size sign-size free-honest sent-on"

# other spellings: a lemma's name is its left side, the outer call first; a fact is in camel case
OTHERS = {
    'acceptance-head-length': 'length-acceptance_head',
    'acceptance-length': 'length-acceptance_bytes',
    'off-head-length': 'length-off_head',
    'off-length': 'length-off_bytes',
    'offer-head-length': 'length-offer_head',
    'offer-length': 'length-offer_bytes',
    'terms-length': 'length-terms_bytes',
    'Backed-in': 'BackedIn',
}

# arguments and local names
LOCAL = "ask-it at-k ok-notary ok-side me-in"

new = {w: w.replace('-', '_') for w in (WORDS + LOCAL).split()}
new.update(OTHERS)
fields = set(FIELDS.split())
if len(set(new.values())) != len(new):
    sys.exit('two names would fall together')
TOKEN = re.compile(r"(\.?)([^\s(){}\[\],;.|\"`]+)")


def turned(text):
    def one(m):
        dot, word = m.group(1), m.group(2)
        if word in new and (not dot or word in fields):
            return dot + new[word]
        return m.group(0)
    return TOKEN.sub(one, text)


for folder, _, names in os.walk('crates'):
    for name in names:
        if name.endswith(('.antt', '.rt')) and '/out' not in folder:
            path = os.path.join(folder, name)
            old = open(path, encoding='utf-8').read()
            text = turned(old)
            if text != old:
                open(path, 'w', encoding='utf-8').write(text)
                print(path)
