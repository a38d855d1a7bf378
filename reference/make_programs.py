"""The cases for the programs `check` and `sweep`, and for the number of candidates tried, with the reference's answers.

A case is a letter, `c` check or `w` sweep, and the program's input; or `t`, a
bound in five digits and a rule sheet, whose output is how many candidates the
sweep tries, and byte 10.
"""

import check_cases
import far
import far_cases
import sweep_cases
import teplonga
import tried_cases


class Far:
    """The cases of `far_cases.py`, all made by hand."""

    def __init__(self, meant):
        self.meant = meant

    def cases(self):
        return (text for _, text in self.meant())


# The cases of both programs, part by part: the letter, the cases, what answers them, and how each output begins.
PARTS = [
    (b"c", check_cases, teplonga.check_program, b"answer line\n"),
    (b"c", Far(far_cases.check_meant), far.check_program, b"answer line\n"),
    (b"w", sweep_cases, teplonga.sweep_program, b"answer line\n"),
    (b"w", Far(far_cases.sweep_meant), far.sweep_program, b"answer line\n"),
    (b"t", tried_cases, tried_cases.output, b""),
]


def astray(meant, outputs, begin):
    """The first case whose output does not begin so and go on as meant, or None.

    The cases of `meant` come first among all cases.
    """
    for (answer, text), output in zip(meant, outputs):
        if not output.startswith(begin + answer):
            return (text, output, answer)
    return None


def made():
    """The cases and their outputs; where a case made by hand is not answered as it was meant to be, that is raised."""
    inputs, outputs = [], []
    for letter, listed, program, begin in PARTS:
        texts = list(listed.cases())
        answers = [program(text) for text in texts]
        wrong = astray(listed.meant(), answers, begin)
        if wrong is not None:
            raise ValueError("input %r\n  got   %r\n  meant %r" % wrong)
        inputs += [letter + text for text in texts]
        outputs += answers
    return inputs, outputs
