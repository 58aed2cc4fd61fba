"""Tests of how rows of the policy are checked against definitions, in both words for a step that refuses."""
import unittest

from pages import rules

DATA = '''pub data Reason : Type 0 where
  NoKey : Reason
  WrongState : Reason
  Stale : (floor : ℕ) → Reason
  Policy : Reason
  CounterSpent : Reason
  NotMember : Reason

-- no reason
pub data Command : Type 0 where
  Other : Command
'''
EVENTS = '''-- begins NoKey
unfoldable pub say : NodeState → Outcome
say s =
    found_or (usable_active s) NoKey (λ net.
    unless (not s.sending) WrongState (
    report s))

abbrev pub report : NodeState → Outcome
report s =
    -- decides nothing in a run: there is a newest
    found_or (newest s) NotMember (λ new.
    refuse_if (spent Nwk s) CounterSpent (
    Does [] None))
'''
COMMANDS = '''unfoldable pub take_it : Setting → Outcome
take_it c =
    refuse_unless (is_member c) Policy (
    Does [] None)
'''
JUDGING = '''unfoldable pub judge_nwk : Tools → Verdict Carrier
judge_nwk tools = need (it) AtNwk NoKey (λ f. reject (low f) AtNwk (Stale f.kept) (Good f))
'''
ANSWER = '''abbrev pub nwk_command : LeaveShown → Plan
nwk_command Other = stopped_at AtNwk Policy

abbrev pub aps_part : Tools → Plan
aps_part tools = stopped_at AtAps Policy
'''
SPECS = {
    'Data': DATA, 'Rules': '', 'OwnEvents': EVENTS, 'Commands': COMMANDS, 'Judging': JUDGING, 'Answer': ANSWER
}
PAGE = '''The reasons are tried in one order everywhere:
1. no-key, stale;
2. policy, not-member, wrong-state, counter-spent.

| Event | Of | Refused, in this order | Otherwise | Function |
|---|---|---|---|---|
| say | all | no-key without a row; wrong-state in idle; counter-spent | it | `say` of zb_rules |

| Command | Taken by, in the form | Refused, in this order | Effect | Function |
|---|---|---|---|---|
| It | device | none | it | `take_it` (zb_member_rules) |

| Reason | If |
|---|---|
| no-key, stale | it has none |
| policy | it is another |

| Reason | If |
|---|---|
| policy | it is another |
'''


def wrong(old, new):
    """Returns what is wrong with a page in which something was changed."""
    assert old in PAGE
    return list(rules.wrong_rows(PAGE.replace(old, new), SPECS))


class Rows(unittest.TestCase):
    def test_a_true_page(self):
        self.assertEqual(wrong('it has none', 'it has none'), [])

    def test_a_reason_that_decides_nothing_may_be_named(self):
        self.assertEqual(wrong('wrong-state in idle', 'not-member; wrong-state in idle'), [])

    def test_a_reason_is_missing(self):
        self.assertEqual(
            wrong('; counter-spent |', ' |'), ["the row of 'say, all': it lacks counter-spent, which its rule gives"]
        )

    def test_a_reason_too_many(self):
        self.assertEqual(
            wrong('no-key without', 'no-key without a row; stale without'),
            ["the row of 'say, all': it has stale, which its rule doesn't give"],
        )

    def test_another_order(self):
        self.assertEqual(
            wrong('no-key without a row; wrong-state in idle', 'wrong-state in idle; no-key without a row'),
            ["the row of 'say, all': its reasons are in another order than that of all rules"],
        )

    def test_no_such_rule(self):
        self.assertEqual(
            wrong('`say`', '`said`'),
            ["the row of 'say, all' names the function said, and no rule is called so"],
        )

    def test_the_tables_on_judging(self):
        self.assertEqual(
            wrong('| no-key, stale |', '| no-key |'),
            ['the table of `judge_nwk`: it lacks stale, which its rule gives'],
        )
        self.assertEqual(
            wrong('| Reason | If |\n|---|---|\n| policy', '| Reason | Why |\n|---|---|\n| policy'),
            ['there are 1 tables on the judging of frames, and not 2'],
        )


if __name__ == '__main__':
    unittest.main()
