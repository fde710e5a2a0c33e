"""Random sources for tests that draw what they try: seeds, and where Hypothesis is installed its sources too.

A source has the methods of `random.Random`. Hypothesis looks for a source with which a test fails, and makes its choices
fewer and smaller while the test still fails. It tries 0.0 first where `random()` is called, also many times in a row, and
1.0 too: with both a test has to end.
"""
import functools
import random

try:
    import hypothesis
    from hypothesis import strategies
except ImportError:
    hypothesis = None

LEFT_OUT = "Hypothesis is not installed: only seeds choose what is tried"


def with_hypothesis(check, examples):
    """Calls `check(source, number)` with sources and numbers of Hypothesis; raises the failure of the smallest that fails.

    The same check and number of examples always give the same sources. Does nothing where Hypothesis is not installed.
    """
    if hypothesis is None:
        return
    settings = hypothesis.settings(
        max_examples=examples, derandomize=True, database=None, deadline=None, suppress_health_check=list(hypothesis.HealthCheck)
    )
    sources = strategies.randoms(use_true_random=False)
    settings(hypothesis.given(sources, strategies.integers(0, 2**16))(lambda source, number: check(source, number)))()


def each_source(seeds, examples):
    """Makes a method of a unit test, of a source and a number, run with `seeds` seeds and `examples` sources of Hypothesis."""
    def of_method(method):
        @functools.wraps(method)
        def run(test):
            for seed in range(seeds):
                with test.subTest(seed=seed):
                    method(test, random.Random(seed), seed)
            with_hypothesis(functools.partial(method, test), examples)
        return run
    return of_method
