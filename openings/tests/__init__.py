"""The tests of openings/job and openings/gather, which openings/test.py runs."""
