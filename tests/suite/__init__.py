"""Tests of the built program from outside: words and bytes in, bytes and a status out."""
