"""Tests of the package against the header, and against the judge: `outside/python_test` builds that and runs them."""
