"""Tests of the companion `rtm`; run by tools/check."""
