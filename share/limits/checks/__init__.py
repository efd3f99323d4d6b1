"""Unit tests of what stored data can't isolate: .ci/units runs them."""
