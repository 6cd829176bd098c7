"""Unit tests of scripts/mutation/verdicts.py: the lines are as `rattle check` prints them."""
import unittest

from mutation.verdicts import CheckReport, Outcome

REFUSED_OUTPUT = """\
src/lib.rt:4:5: error: `tiny::once`: 1 of 3 parts is not proved
fn tiny::once: not proved
fn tiny::twice: no proof: it calls tiny::once, which is not proved
fn tiny::thrice: no proof: its loop has no measure
fn tiny::other: proved
fn tiny::last: could not tell
logic=not-proved
"""


class CheckReportTest(unittest.TestCase):
    def test_only_own_proofs_that_fail_are_refusals(self):
        self.assertEqual(CheckReport(1, REFUSED_OUTPUT).refused, ["tiny::once", "tiny::thrice"])

    def test_a_proof_that_another_one_lacks_is_no_refusal(self):
        for reason in ("it calls `f`", "it passes `f`, which has no proof", "a call of a function without a proof"):
            self.assertEqual(CheckReport(1, f"fn tiny::once: no proof: {reason}\nlogic=not-proved\n").refused, [])

    def test_a_check_that_is_whole_has_a_verdict(self):
        proved_output = "fn tiny::once: proved\nlogic=proved functions=1\n"
        only_output = "fn tiny::once: proved\nonly=1 proved=1\n"
        refused_output = "fn tiny::once: not proved\nonly=1 proved=0\n"
        for status, output in ((1, REFUSED_OUTPUT), (0, proved_output), (0, only_output), (1, refused_output)):
            self.assertTrue(CheckReport(status, output).has_verdict)
        for status, output in (
            (-9, REFUSED_OUTPUT),
            (3, REFUSED_OUTPUT),
            (0, REFUSED_OUTPUT),
            (1, REFUSED_OUTPUT.removesuffix("logic=not-proved\n")),
            (1, "error: module M is another. Run the lower steps again\n" + REFUSED_OUTPUT),
            (1, proved_output),
            (1, ""),
            (0, refused_output),
            (2, only_output),
            (1, refused_output.removesuffix("only=1 proved=0\n")),
        ):
            self.assertFalse(CheckReport(status, output).has_verdict, (status, output))

    def test_proved_means_each_name(self):
        report = CheckReport(1, REFUSED_OUTPUT)
        self.assertTrue(report.is_proved(["tiny::other"]))
        for names in (["tiny::other", "tiny::once"], ["tiny::last"], ["tiny::none"]):
            self.assertFalse(report.is_proved(names))

    def report_outcome(self, status, output, *names):
        return CheckReport(status, output).outcome(names)

    def test_refused_at_its_own_function(self):
        self.assertEqual(self.report_outcome(1, REFUSED_OUTPUT, "tiny::once"),
                         (Outcome.REFUSED_AT_OWN_FUNCTION, "tiny::once"))
        self.assertEqual(
            self.report_outcome(1, REFUSED_OUTPUT, "tiny::fn::a::closure0", "tiny::thrice"),
            (Outcome.REFUSED_AT_OWN_FUNCTION, "tiny::thrice"),
        )

    def test_refused_elsewhere(self):
        self.assertEqual(
            self.report_outcome(1, REFUSED_OUTPUT, "tiny::other"), (Outcome.REFUSED_ALONE, "tiny::once, tiny::thrice")
        )
        self.assertEqual(self.report_outcome(1, REFUSED_OUTPUT), (Outcome.REFUSED_ALONE, "tiny::once, tiny::thrice"))
        only = "specs/Lib.antt:3:1: error: `a`: false\nfn tiny::once: proved\nlogic=not-proved\n"
        self.assertEqual(self.report_outcome(1, only), (Outcome.REFUSED_ALONE, "specs/Lib.antt:3:1: error: `a`: false"))

    def test_proved_is_missed(self):
        output = "fn tiny::once: proved\nlogic=proved functions=1\n"
        self.assertEqual(self.report_outcome(0, output, "tiny::once"), (Outcome.NOT_REFUSED, "tiny::once"))

    def test_a_limit(self):
        for text in ("antt ran out of stack", "antt ran out of the steps that the check of one declaration may take"):
            self.assertIs(
                self.report_outcome(3, f"src/lib.rt:1:1: error: {text}\nrattle: no verdict\n")[0],
                Outcome.REFUSED_BY_LIMIT
            )

    def test_no_verdict_for_another_reason(self):
        for status, output in (
            (3, "rattle: no verdict: a bug\n"),
            (2, "rattle: what is this\n"),
            (-9, ""),
            (3, REFUSED_OUTPUT),
        ):
            self.assertIs(self.report_outcome(status, output, "tiny::once")[0], Outcome.NO_RESULT)

    def test_what_does_not_compile(self):
        kind, text = self.report_outcome(1, "src/lib.rt:4:5: error[types]: no\nhelp: none\n", "tiny::once")
        self.assertEqual((kind, text), (Outcome.UNUSABLE, "src/lib.rt:4:5: error[types]: no"))

    def test_what_the_prover_cannot_read(self):
        for line in (
            "src/lib.rt:4:5: error: `tiny::once`: `b` is not in scope",
            "./specs/Lib.antt:4:5: error: an unclosed brace",
            "specs/Lib.antt:4:5: error: `a`: `b` has no field `c`",
        ):
            self.assertIs(self.report_outcome(1, f"{line}\n{REFUSED_OUTPUT}", "tiny::once")[0], Outcome.UNUSABLE, line)
        for line in (
            "src/lib.rt:4:5: error: `tiny::once`: 1 of 3 parts is not proved",
            "proofs/once/Proof.antt:4:5: error: `tiny::once`: `b` is not in scope",
        ):
            self.assertIs(self.report_outcome(1, f"{line}\n{REFUSED_OUTPUT}", "tiny::once")[0],
                          Outcome.REFUSED_AT_OWN_FUNCTION, line)

    def test_an_edited_proof_has_to_be_read(self):
        path = "proofs/once/Proof.antt"
        output = f"{path}:4:5: error: `tiny::once`: `b` is not in scope\n{REFUSED_OUTPUT}"
        self.assertIs(CheckReport(1, output, {path: "b"}).outcome(["tiny::once"])[0], Outcome.UNUSABLE)
        self.assertIs(CheckReport(1, output, {"src/lib.rt": "b"}).outcome(["tiny::once"])[0],
                      Outcome.REFUSED_AT_OWN_FUNCTION)

    def test_kept_work_that_cannot_be_used(self):
        output = "error: module M of .Rattle-below-specs is another. Run the lower steps again\n" + REFUSED_OUTPUT
        self.assertIs(self.report_outcome(1, output, "tiny::once")[0], Outcome.NO_RESULT)

    def test_which_outcomes_are_refusals(self):
        refusals = [outcome for outcome in Outcome if outcome.is_refusal]
        self.assertEqual(refusals, [Outcome.REFUSED_AT_OWN_FUNCTION, Outcome.REFUSED_ALONE, Outcome.REFUSED_BY_LIMIT])


if __name__ == "__main__":
    unittest.main()
